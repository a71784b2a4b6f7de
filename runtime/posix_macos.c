/* posix_macos.c: what the proved program asks of Linux, on macOS 11. posix_NAME does what Linux's manual page of NAME says, with Linux's numbers.
 *
 * The declarations are those of Apple's headers, which the kit's clang hasn't. macOS has all of these calls but statx and fdatasync. */
typedef __SIZE_TYPE__ size_t;
typedef __INTPTR_TYPE__ ssize_t;
typedef __UINT8_TYPE__ uint8_t;
typedef __UINT16_TYPE__ uint16_t;
typedef __INT32_TYPE__ int32_t;
typedef __UINT32_TYPE__ uint32_t;
typedef __INT64_TYPE__ int64_t;
typedef __UINT64_TYPE__ uint64_t;

/* On Intel the calls with inodes of 64 bits have names of their own. macOS 11 runs on no Intel older than x86-64-v2, so main is told that this one has all. */
#ifdef __x86_64__
#define INODE64(name) __asm("_" name "$INODE64")

const uint32_t *__x86_get_cpuid_feature_leaf(uint32_t number)
{
    static const uint32_t all[8] = { ~0u, ~0u, ~0u, ~0u, ~0u, ~0u, ~0u, ~0u };
    (void)number;
    return all;
}
#else
#define INODE64(name)
#endif

/* macOS' struct stat, and the start of Linux's struct statx with its device. */
struct stat {
    int32_t device;
    uint16_t mode, links;
    uint64_t inode;
    uint32_t user, group;
    int32_t special;
    int64_t times[8], size, blocks;
    int32_t block;
    uint32_t more[7];
};
struct statx {
    uint32_t mask, block;
    uint64_t attributes;
    uint32_t links, user, group;
    uint16_t mode, spare;
    uint64_t inode, size;
    uint8_t between[88];
    uint32_t device_major, device_minor;
};

typedef void (*handler)(int);
int *__error(void);
int chown(const char *, uint32_t, uint32_t), close(int), fchmod(int, uint16_t), fcntl(int, int, ...), flock(int, int), fsync(int), ftruncate(int, int64_t);
int isatty(int), open(const char *, int, ...), rename(const char *, const char *), unlink(const char *);
int fstat(int, struct stat *) INODE64("fstat");
int lstat(const char *, struct stat *) INODE64("lstat");
int stat(const char *, struct stat *) INODE64("stat");
int64_t lseek(int, int64_t, int);
ssize_t read(int, void *, size_t), readlink(const char *, char *, size_t), write(int, const void *, size_t);
handler signal(int, handler);
size_t strlen(const char *);
void *memcpy(void *, const void *, size_t);

/* macOS' numbers. Those of signals, and of errno for what decides what the program does, are Linux's, except that of a name that is too long. */
enum { SIGXFSZ = 25, F_FULLFSYNC = 51, TOO_LONG = 63 };
enum { LINUX_EINVAL = 22, LINUX_TOO_LONG = 36, O_CREAT = 0100, AT_SYMLINK_NOFOLLOW = 0x100, AT_EMPTY_PATH = 0x1000 };
enum { STATX_KNOWN = 0x31f }; /* type, mode, links, user, group, inode and size */

static int count;
static char **words;

int rattle_errno(void)
{
    int error = *__error();
    return error == TOO_LONG ? LINUX_TOO_LONG : error;
}

void rattle_set_errno(int error)
{
    *__error() = error;
}

/* Linux's O_CREAT, O_EXCL, O_NOCTTY, O_TRUNC and O_CLOEXEC beside those of macOS. No other flag is asked for. */
int posix_open(const char *path, int flags, ...)
{
    static const int same[][2] = { { O_CREAT, 0x200 }, { 0200, 0x800 }, { 0400, 0x20000 }, { 01000, 0x400 }, { 02000000, 0x1000000 } };
    int theirs = flags & 3, left = flags & ~3, mode = 0;
    for (size_t i = 0; i < sizeof same / sizeof *same; i++) {
        if (left & same[i][0]) theirs |= same[i][1];
        left &= ~same[i][0];
    }
    if (left) return rattle_set_errno(LINUX_EINVAL), -1;
    __builtin_va_list rest;
    __builtin_va_start(rest, flags);
    if (flags & O_CREAT) mode = __builtin_va_arg(rest, int);
    __builtin_va_end(rest);
    return open(path, theirs, mode);
}

/* About an open file (AT_EMPTY_PATH), or about a path, from the current folder on. */
int posix_statx(int file, const char *path, int flags, unsigned mask, struct statx *found)
{
    struct stat it;
    (void)mask;
    if (flags & AT_EMPTY_PATH ? fstat(file, &it) : flags & AT_SYMLINK_NOFOLLOW ? lstat(path, &it) : stat(path, &it)) return -1;
    found->mask = STATX_KNOWN;
    found->links = it.links;
    found->user = it.user;
    found->group = it.group;
    found->mode = it.mode;
    found->inode = it.inode;
    found->size = (uint64_t)it.size;
    found->device_major = 0;
    found->device_minor = (uint32_t)it.device;
    return 0;
}

/* macOS' fsync leaves the bytes in the disk's memory. Where the disk has no command that empties it, as on a network, fsync has to do. */
int posix_fsync(int file)
{
    return fcntl(file, F_FULLFSYNC) < 0 ? fsync(file) : 0;
}

int posix_chown(const char *path, uint32_t user, uint32_t group) { return chown(path, user, group); }
int posix_close(int file) { return close(file); }
int posix_fchmod(int file, uint32_t mode) { return fchmod(file, (uint16_t)(mode & 07777)); }
int posix_fdatasync(int file) { return posix_fsync(file); }
int posix_flock(int file, int how) { return flock(file, how); }
int posix_ftruncate(int file, int64_t len) { return ftruncate(file, len); }
int posix_isatty(int file) { return isatty(file); }
int64_t posix_lseek(int file, int64_t to, int from) { return lseek(file, to, from); }
ssize_t posix_read(int file, void *to, size_t len) { return read(file, to, len); }
ssize_t posix_readlink(const char *path, char *to, size_t room) { return readlink(path, to, room); }
int posix_rename(const char *from, const char *to) { return rename(from, to); }
int posix_unlink(const char *path) { return unlink(path); }
ssize_t posix_write(int file, const void *from, size_t len) { return write(file, from, len); }

/* The names by which main has a signal ignored, and says that the processor is too old. */
handler __sysv_signal(int number, handler what) { return signal(number, what); }
ssize_t __write(int file, const void *from, size_t len) { return write(file, from, len); }

/* Puts an argument at the start of a buffer. Returns its length, -1 if there is none, and -2 if the buffer is too short. */
ssize_t rattle_arg(size_t number, char *to, size_t room)
{
    if (number >= (size_t)count) return -1;
    size_t len = strlen(words[number]);
    memcpy(to, words[number], len < room ? len : room);
    return len <= room ? (ssize_t)len : -2;
}

int posix_main(void);

int main(int given, char **them)
{
    static char name[] = "rsp"; /* as in process.h */
    count = given;
    words = them;
    if (count) words[0] = name;
    signal(SIGXFSZ, (handler)1); /* ignored: a file that may not be so long is a write that fails */
    return posix_main();
}
