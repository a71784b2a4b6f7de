/* process.h: the functions of the system that the proved program's object needs. The kit has these for x86-64 with glibc alone. */
#include <errno.h>
#include <signal.h>
#include <string.h>
#include <sys/syscall.h>
#include <unistd.h>

static int count;
static char **words;

/* Keeps the arguments of the process, which main doesn't get, and ignores a signal. main refuses arguments that aren't UTF-8, but the first one is the path
 * of the program itself, whose folder may have any name. */
static void begin(int given, char **them)
{
    static char name[] = "rsp";
    count = given;
    words = them;
    if (count) words[0] = name;
    signal(SIGXFSZ, SIG_IGN); /* a file that may not be so long is a write that fails */
}

/* Puts an argument at the start of a buffer. Returns its length, -1 if there is none, and -2 if the buffer is too short. */
ssize_t rattle_arg(size_t number, char *to, size_t room)
{
    if (number >= (size_t)count) return -1;
    size_t len = strlen(words[number]);
    memcpy(to, words[number], len < room ? len : room);
    return len <= room ? (ssize_t)len : -2;
}

int rattle_errno(void)
{
    return errno;
}

void rattle_set_errno(int error)
{
    errno = error;
}

/* glibc has statx from 2.28 on. A kernel before 4.11 has none: there the call fails, and a file is saved in place. */
__attribute__((visibility("hidden"))) int statx(int folder, const char *path, int flags, unsigned mask, void *found)
{
    return (int)syscall(SYS_statx, folder, path, flags, mask, found);
}
