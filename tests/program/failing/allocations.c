// Allocations and growths of which one fails: the one whose number is FAILING. TOLD is the descriptor that reports it.
#include <stdlib.h>
#include <unistd.h>

extern void *__libc_malloc(size_t), *__libc_calloc(size_t, size_t), *__libc_realloc(void *, size_t);
static int left, told;

__attribute__((constructor)) static void begin(void) {
    left = atoi(getenv("FAILING"));
    told = atoi(getenv("TOLD"));
}

static int fails(void) { return left > 0 && --left == 0 && write(told, "!", 1) == 1; }

void *malloc(size_t n) { return fails() ? 0 : __libc_malloc(n); }
void *calloc(size_t n, size_t size) { return fails() ? 0 : __libc_calloc(n, size); }
void *realloc(void *old, size_t n) { return fails() ? 0 : __libc_realloc(old, n); }
