/* malloc, realloc and free, counted, for a program of one file that is linked with -Wl,--wrap=malloc,--wrap=realloc,--wrap=free. */
#ifndef COUNTED_H
#define COUNTED_H

#include <stddef.h>

/* How many calls of malloc and realloc succeed before one fails, or -1; how many there were, and how many failed; how many blocks are held. */
static long left = -1, taken, refused, held;
void *__real_malloc(size_t n);
void *__wrap_malloc(size_t n);
void *__real_realloc(void *p, size_t n);
void *__wrap_realloc(void *p, size_t n);
void __real_free(void *p);
void __wrap_free(void *p);

static int fails(void)
{
    int is_last = left >= 0 && left-- == 0;
    taken++;
    refused += is_last;
    return is_last;
}

void *__wrap_malloc(size_t n)
{
    void *p = fails() ? NULL : __real_malloc(n);
    held += p != NULL;
    return p;
}

void *__wrap_realloc(void *p, size_t n)
{
    void *q = fails() ? NULL : __real_realloc(p, n);
    held += p == NULL && q != NULL;
    return q;
}

void __wrap_free(void *p)
{
    held -= p != NULL;
    __real_free(p);
}

#endif
