/* cpuid.h: the calls by which the program for x86-64 finds the processor's instruction sets, and says which it lacks. glibc has the first from 2.33 on,
 * and musl has neither. */
#include <cpuid.h>
#include <stddef.h>
#include <string.h>
#include <unistd.h>

#ifdef _WIN32 /* a program shows no names there, and posix_windows.c writes */
#define HIDDEN
#define write_bytes posix_write
ssize_t posix_write(int file, const void *from, size_t len);
#else
#define HIDDEN __attribute__((visibility("hidden")))
#define write_bytes write
#endif

/* glibc's struct cpuid_feature: eax, ebx, ecx and edx of a leaf, as the processor says them, and what of them can be used. */
struct features {
    unsigned said[4], usable[4];
};

/* main asks for leaf 1 (number 0) and leaf 0x80000001 (number 2). What it tests of them, SSE3 to SSE4.2, CMPXCHG16B, POPCNT and LAHF, can be used where
 * the processor has it. Nothing is said to be usable of other leaves, which may need the system too. */
HIDDEN const struct features *__x86_get_cpuid_feature_leaf(unsigned number)
{
    static struct features found[3];
    static const unsigned leaves[3] = {1, 0, 0x80000001};
    struct features *at = &found[number < 3 ? number : 1];
    unsigned *to = at->said;
    if (at != &found[1] && __get_cpuid(leaves[number], &to[0], &to[1], &to[2], &to[3]))
        for (size_t i = 0; i < 4; i++) at->usable[i] = to[i];
    return at;
}

/* glibc's other name of write, by which main says that the processor is too old. Its sentence goes on with an option of the kit, which who runs the
 * program doesn't have. */
HIDDEN ssize_t __write(int file, const void *from, size_t len)
{
    static const char theirs[] = "this machine lacks a feature of x86-64-v2";
    static const char ours[] = "rsp: this processor lacks a feature of x86-64-v2, such as SSE4.2 or POPCNT, without which rsp can't run\n";
    if (len < sizeof theirs || memcmp(from, theirs, sizeof theirs - 1) != 0) return write_bytes(file, from, len);
    return write_bytes(file, ours, sizeof ours - 1);
}
