// The calls by which a program writes a file, of which one fails: the one whose number is FAILING, and each later one
// if LASTING is 1. TOLD is the descriptor that reports it.
#define _GNU_SOURCE
#include <errno.h>
#include <fcntl.h>
#include <stdarg.h>
#include <stdlib.h>
#include <sys/stat.h>
#include <sys/syscall.h>
#include <unistd.h>

static int at, lasts, told, number;

__attribute__((constructor)) static void begin(void) {
    at = atoi(getenv("FAILING"));
    lasts = atoi(getenv("LASTING"));
    told = atoi(getenv("TOLD"));
}

static int fails(int why) {
    number++;
    if (number != at && !(lasts && number > at)) return 0;
    syscall(SYS_write, told, "!", 1);
    errno = why;
    return 1;
}

int open(const char *path, int flags, ...) {
    va_list more;
    va_start(more, flags);
    int mode = flags & O_CREAT ? va_arg(more, int) : 0;
    va_end(more);
    if ((flags & O_ACCMODE) != O_RDONLY && fails(EIO)) return -1;
    return (int)syscall(SYS_openat, AT_FDCWD, path, flags, mode);
}

ssize_t write(int file, const void *bytes, size_t size) {
    return file > 2 && fails(ENOSPC) ? -1 : syscall(SYS_write, file, bytes, size);
}

int fsync(int file) { return fails(EIO) ? -1 : (int)syscall(SYS_fsync, file); }
int fchmod(int file, mode_t mode) { return fails(EPERM) ? -1 : (int)syscall(SYS_fchmod, file, mode); }
int rename(const char *from, const char *to) { return fails(EIO) ? -1 : (int)syscall(SYS_rename, from, to); }
int unlink(const char *path) { return fails(EIO) ? -1 : (int)syscall(SYS_unlink, path); }

ssize_t readlink(const char *path, char *text, size_t size) {
    return fails(EIO) ? -1 : syscall(SYS_readlink, path, text, size);
}

int statx(int folder, const char *path, int flags, unsigned mask, struct statx *found) {
    return fails(EIO) ? -1 : (int)syscall(SYS_statx, folder, path, flags, mask, found);
}
