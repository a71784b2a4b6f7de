/* posix_calls.c: makes the calls that posix_calls.txt lists, and prints what each returns. It is linked with posix_windows.c, with posix_macos.c, and on Linux
 * with Linux's own calls. Each line of standard input is a call and its arguments, with a tab after each. */
typedef __SIZE_TYPE__ size_t;
typedef __INTPTR_TYPE__ ssize;
struct statx {
    unsigned mask, block;
    unsigned long long attributes;
    unsigned links, user, group;
    unsigned short mode, spare;
    unsigned long long inode, size;
    unsigned char between[88];
    unsigned device_major, device_minor, more[30];
};

/* The calls, and the arguments that a line gives to each. */
#define CALLS(CALL)                                                               \
    CALL(int, close, (int), (file))                                               \
    CALL(ssize, read, (int, void *, size_t), (file, bytes, (size_t)n))            \
    CALL(ssize, write, (int, const void *, size_t), (file, text, length(text)))   \
    CALL(int, isatty, (int), (file))                                              \
    CALL(int, fsync, (int), (file))                                               \
    CALL(int, fdatasync, (int), (file))                                           \
    CALL(int, fchmod, (int, unsigned), (file, (unsigned)n))                       \
    CALL(int, flock, (int, int), (file, (int)n))                                  \
    CALL(int, ftruncate, (int, long long), (file, n))                             \
    CALL(ssize, lseek, (int, long long, int), (file, n, (int)number(word[3])))    \
    CALL(int, unlink, (const char *), (path))                                     \
    CALL(int, rename, (const char *, const char *), (path, text))                 \
    CALL(int, chown, (const char *, unsigned, unsigned), (path, (unsigned)n, (unsigned)number(word[3]))) \
    CALL(ssize, readlink, (const char *, char *, size_t), (path, bytes, (size_t)n))
#define DECLARED(type, name, parameters, given) type posix_##name parameters;
CALLS(DECLARED)
int posix_open(const char *, int, ...), posix_statx(int, const char *, int, unsigned, struct statx *), rattle_errno(void), posix_main(void);
ssize rattle_arg(size_t, char *, size_t);
void rattle_set_errno(int);

static char bytes[100000], *word[4];
static int files[10] = { 0, 1, 2 };

static int same(const char *one, const char *other)
{
    while (*one && *one == *other) one++, other++;
    return *one == *other;
}

static size_t length(const char *of)
{
    size_t len = 0;
    while (of[len]) len++;
    return len;
}

/* A number, octal after a 0. */
static long number(const char *at)
{
    long n = 0, base = *at == '0' ? 8 : 10, sign = *at == '-' ? -1 : 1;
    for (at += sign < 0; *at >= '0' && *at <= '9'; at++) n = n * base + *at - '0';
    return n * sign;
}

static void print_number(ssize n)
{
    char digit = (char)('0' + n % 10);
    if (n > 9) print_number(n / 10);
    posix_write(1, &digit, 1);
}

/* The flags of open, by the letters that posix_calls.txt explains. */
static int flags(const char *letter)
{
    static const int of[128] = { ['a'] = 02000, ['c'] = 0100, ['e'] = 02000000, ['t'] = 01000, ['w'] = 1, ['x'] = 0200, ['y'] = 0400 };
    int all = 0;
    for (; *letter; letter++) all |= of[*letter & 127];
    return all;
}

/* Reads or writes until nothing is left, and returns how many bytes that were. */
static ssize repeated(int file, char *at, size_t room, int is_read)
{
    size_t len = 0;
    for (ssize n; len < room && (n = is_read ? posix_read(file, at + len, room - len) : posix_write(file, at + len, room - len)) > 0;) len += (size_t)n;
    return (ssize)len;
}

/* A field of what a path or an open file is, or whether that is the open file of a digit. */
static ssize status(int file, const char *path, int flag, const char *field)
{
    struct statx it, of_file;
    if (posix_statx(file, path, flag, 0x7ff, &it)) return -1;
    if (same(field, "kind")) return it.mode >> 12 == 8 ? 1 : it.mode >> 12 == 10 ? 2 : 0;
    if (same(field, "known")) return (it.mask & 0x307) == 0x307;
    if (same(field, "links")) return (ssize)it.links;
    if (same(field, "mode")) return (it.mode >> 9 & 7) * 1000 + (it.mode >> 6 & 7) * 100 + (it.mode >> 3 & 7) * 10 + (it.mode & 7);
    if (same(field, "hidden")) return it.mode >> 1 & 1;
    if (same(field, "size")) return (ssize)it.size;
    if (same(field, "user")) return (ssize)it.user;
    if (same(field, "group")) return (ssize)it.group;
    if (posix_statx(files[number(field)], "", 0x1000, 0x7ff, &of_file) || it.device_minor != of_file.device_minor) return -1;
    return it.inode == of_file.inode && it.device_major == of_file.device_major;
}

#ifdef _WIN32
#include <windows.h>

/* Has a file open, and its bytes in memory, until the next call. Others may open it, too, if it is shared. */
static ssize hold(const char *path, int is_shared)
{
    static HANDLE held, map;
    static void *at;
    if (held) UnmapViewOfFile(at), CloseHandle(map), CloseHandle(held);
    held = CreateFileA(path, GENERIC_READ | GENERIC_WRITE, is_shared ? FILE_SHARE_READ | FILE_SHARE_WRITE : 0, NULL, OPEN_EXISTING, 0, NULL);
    map = CreateFileMappingA(held, NULL, PAGE_READWRITE, 0, 0, NULL);
    at = MapViewOfFile(map, FILE_MAP_WRITE, 0, 0, 0);
    return at ? 0 : -1;
}

/* Opens a pipe that nobody writes any more. */
static ssize open_pipe(int *file)
{
    HANDLE from, to;
    if (!CreatePipe(&from, &to, NULL, 0)) return -1;
    *file = (int)(size_t)from;
    return CloseHandle(to) - 1;
}
#endif

/* An argument of the program. -9 if a byte after the room was written. */
static ssize argument(long at, size_t room)
{
    bytes[room] = 1;
    ssize len = rattle_arg((size_t)at, bytes, room);
    return bytes[room] == 1 ? len : -9;
}

static ssize call(const char *name)
{
    const char *path = word[1], *text = word[2];
    long n = number(text);
    int *opened = &files[number(word[3])], file = *path >= '0' && *path <= '9' ? files[*path - '0'] : -1;
    if (same(name, "open")) return (*opened = posix_open(path, flags(text), 0644)) < 0 ? -1 : *opened < 3;
    if (same(name, "stat")) return status(-100, path, 0, text);
    if (same(name, "lstat")) return status(-100, path, 0x100, text);
    if (same(name, "fstat")) return status(file, "", 0x1000, text);
    if (same(name, "fill")) return repeated(file, bytes, (size_t)n, 0);
    if (same(name, "count")) return repeated(file, bytes, sizeof bytes, 1);
    if (same(name, "errno")) return rattle_set_errno((int)number(path)), rattle_errno();
    if (same(name, "arg")) return argument(number(path), (size_t)n);
#ifdef _WIN32
    if (same(name, "hold")) return hold(path, *text == 's');
    if (same(name, "pipe")) return open_pipe(&files[*path - '0']);
#endif
#define MADE(type, call, parameters, given) \
    if (same(name, #call)) return posix_##call given;
    CALLS(MADE)
    return -9;
}

/* Cuts the words of a line. Those that it hasn't are empty. Returns its end. */
static char *cut(char *at)
{
    static char none[1];
    for (int i = 0; i < 4; i++) {
        word[i] = *at == '\n' ? none : at;
        while (*at != '\t' && *at != '\n') at++;
        if (*at == '\t') *at++ = 0;
    }
    return at;
}

int posix_main(void)
{
    static char input[65536];
    repeated(0, input, sizeof input - 1, 1);
    for (char *at = input; *at; at++) {
        at = cut(at);
        rattle_set_errno(0);
        ssize n = call(word[0]);
        if (n < 0) posix_write(1, "-", 1);
        if (n >= 0 && (same(word[0], "read") || same(word[0], "readlink") || same(word[0], "arg"))) posix_write(1, bytes, (size_t)n);
        else print_number(n < 0 ? -n : n);
        if (n < 0 && rattle_errno()) posix_write(1, " ", 1), print_number(rattle_errno());
        posix_write(1, "\n", 1);
    }
    return 0;
}
