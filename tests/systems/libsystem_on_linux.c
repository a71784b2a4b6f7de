/* libsystem_on_linux.c: what the proved program for macOS calls, over Linux, with macOS' numbers: flags, errno, struct stat. So its code, taken out of a
 * program for macOS, runs where there is no Mac. On ARM macOS passes what follows a variadic function's named arguments on the stack. */
#define _GNU_SOURCE
#include <errno.h>
#include <fcntl.h>
#include <stdint.h>
#include <string.h>
#include <sys/stat.h>
#include <sys/syscall.h>
#include <unistd.h>

struct theirs {
    int32_t device;
    uint16_t mode, links;
    uint64_t inode;
    uint32_t user, group;
    int32_t special;
    int64_t times[8], size, blocks;
    int32_t block;
    uint32_t more[7];
};
uint64_t __stack_chk_guard = 0x5ca1ab1e00c0ffee;
static int error;

int *__error(void)
{
    if (errno) error = errno == ENAMETOOLONG ? 63 : errno == ELOOP ? 62 : errno == EAGAIN ? 35 : errno;
    errno = 0;
    return &error;
}

#ifdef __aarch64__
int their_open(const char *path, int flags, long a, long b, long c, long d, long e, long f, int mode) __asm__("open");
int their_open(const char *path, int flags, long a, long b, long c, long d, long e, long f, int mode)
{
    (void)a, (void)b, (void)c, (void)d, (void)e, (void)f;
#else
int their_open(const char *path, int flags, int mode) __asm__("open");
int their_open(const char *path, int flags, int mode)
{
#endif
    static const int same[][2] = { { 0x200, O_CREAT }, { 0x400, O_TRUNC }, { 0x800, O_EXCL }, { 0x20000, 0 }, { 0x1000000, O_CLOEXEC } };
    int ours = flags & 3, left = flags & ~3;
    for (size_t i = 0; i < sizeof same / sizeof *same; i++) {
        ours |= left & same[i][0] ? same[i][1] : 0;
        left &= ~same[i][0];
    }
    if (left) return errno = EINVAL, -1;
    return (int)syscall(SYS_openat, AT_FDCWD, path, ours, mode);
}

/* F_FULLFSYNC. Folders stand for files on a disk that has no such command. Only for these fsync has to do, which leaves the bytes in the disk's memory. */
int their_fcntl(int file, int command) __asm__("fcntl");
int their_fcntl(int file, int command)
{
    struct stat it;
    if (command != 51 || fstatat(file, "", &it, AT_EMPTY_PATH)) return errno = EBADF, -1;
    return S_ISDIR(it.st_mode) ? (errno = ENOTTY, -1) : fdatasync(file);
}

int their_fsync(int file) __asm__("fsync");
int their_fsync(int file)
{
    struct stat it;
    return fstatat(file, "", &it, AT_EMPTY_PATH) || S_ISDIR(it.st_mode) ? fdatasync(file) : (errno = EIO, -1);
}

static int found(int file, const char *path, int flags, struct theirs *to)
{
    struct stat it;
    int status = fstatat(file, path, &it, flags);
    memset(to, 0xff, sizeof *to);
    to->device = (int32_t)it.st_dev, to->mode = (uint16_t)it.st_mode, to->links = (uint16_t)it.st_nlink, to->inode = it.st_ino;
    to->user = it.st_uid, to->group = it.st_gid, to->size = it.st_size;
    return status;
}

#ifdef __x86_64__
#define NAMED(name) __asm__(name "$INODE64")
#else
#define NAMED(name) __asm__(name)
#endif
int their_fstat(int file, struct theirs *to) NAMED("fstat");
int their_lstat(const char *path, struct theirs *to) NAMED("lstat");
int their_stat(const char *path, struct theirs *to) NAMED("stat");

int their_fstat(int file, struct theirs *to) { return found(file, "", AT_EMPTY_PATH, to); }
int their_lstat(const char *path, struct theirs *to) { return found(AT_FDCWD, path, AT_SYMLINK_NOFOLLOW, to); }
int their_stat(const char *path, struct theirs *to) { return found(AT_FDCWD, path, 0, to); }
