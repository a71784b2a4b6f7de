/* failing_posix.c: between the program and posix_windows.c or posix_macos.c. The program's first argument is a number and a letter. The call of this number,
 * of those by which a file is saved, fails (f), fails with all later ones (l), or ends the process (k), in the midst of a write. Such a run prints `!` first. */
typedef __SIZE_TYPE__ size_t;
typedef __INTPTR_TYPE__ ssize;
int posix_open(const char *, int, ...), failing_open(const char *, int, ...);
ssize posix_write(int, const void *, size_t), rattle_arg(size_t, char *, size_t), failing_arg(size_t, char *, size_t);
void rattle_set_errno(int);

enum { IN_OUT = 5 };

#ifdef _WIN32
#include <windows.h>

static void end(void) { TerminateProcess(GetCurrentProcess(), 99); }
#else
static void end(void) { __builtin_trap(); }
#endif

/* Whether this call fails. Before the process ends, half of these bytes are written to a file. */
static int fails(int file, const void *from, size_t len)
{
    static int calls;
    int at = 0;
    char word[16];
    ssize last = rattle_arg(1, word, sizeof word) - 1;
    for (ssize i = 0; i < last; i++) at = at * 10 + word[i] - '0';
    calls++;
    if (calls < at || (calls > at && word[last] != 'l')) return 0;
    if (calls == at) posix_write(1, "!", 1);
    if (word[last] == 'k') {
        posix_write(file, from, len / 2);
        end();
    }
    rattle_set_errno(IN_OUT);
    return 1;
}

int failing_open(const char *path, int flags, ...)
{
    int mode = 0;
    __builtin_va_list rest;
    __builtin_va_start(rest, flags);
    if (flags & 0100) mode = __builtin_va_arg(rest, int);
    __builtin_va_end(rest);
    return flags & 3 && fails(0, "", 0) ? -1 : posix_open(path, flags, mode);
}

#define FAILING(type, name, parameters, given, is_failing) \
    type posix_##name parameters;                          \
    type failing_##name parameters;                        \
    type failing_##name parameters { return is_failing ? -1 : posix_##name given; }
FAILING(ssize, write, (int file, const void *from, size_t len), (file, from, len), file > 2 && fails(file, from, len))
FAILING(ssize, readlink, (const char *path, char *to, size_t room), (path, to, room), fails(0, "", 0))
FAILING(int, fsync, (int file), (file), fails(0, "", 0))
FAILING(int, fchmod, (int file, unsigned mode), (file, mode), fails(0, "", 0))
FAILING(int, unlink, (const char *path), (path), fails(0, "", 0))
FAILING(int, rename, (const char *from, const char *to), (from, to), fails(0, "", 0))
FAILING(int, statx, (int file, const char *path, int flags, unsigned mask, void *found), (file, path, flags, mask, found), fails(0, "", 0))

/* The program gets its own arguments, without this one. */
ssize failing_arg(size_t number, char *to, size_t room) { return rattle_arg(number ? number + 1 : 0, to, room); }
