/* start.c: how the proved program begins on Linux, by the start file of the C library that is there. The linker's word --wrap=main has that call
 * __wrap_main in place of the object's main. */
#ifdef __x86_64__
#include "cpuid.h"
#endif
#include "process.h"

int __real_main(void);
int __wrap_main(int given, char **them);

int __wrap_main(int given, char **them)
{
    begin(given, them);
    return __real_main();
}

#if defined(OLD_GLIBC) && defined(__GLIBC__)
/* The released program begins on any Linux with glibc 2.14 or newer, on ARM 2.17. Today's start file calls __libc_start_main of glibc 2.34, which is
 * this one here, and the older one is still in every glibc. A program that is linked statically can't name it. */
typedef void run(void);
typedef int start(int (*first)(int, char **), int given, char **them, run *before, run *after, run *at_end, void *stack);

start older_start;
start __libc_start_main __attribute__((visibility("hidden")));
#ifdef __x86_64__
__asm__(".symver older_start, __libc_start_main@GLIBC_2.2.5");
#else
__asm__(".symver older_start, __libc_start_main@GLIBC_2.17");
#endif

int __libc_start_main(int (*first)(int, char **), int given, char **them, run *before, run *after, run *at_end, void *stack)
{
    return older_start(first, given, them, before, after, at_end, stack);
}
#endif
