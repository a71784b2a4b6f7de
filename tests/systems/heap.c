/* What heap.c has of the C library, and what it answers where that has nothing left. The last line is `N passed, M failed`. */
#include <stddef.h>
#include <stdio.h>

/* runtime/heap.c, compiled with these names for malloc, realloc and free. */
void *heap_malloc(size_t len);
void *heap_realloc(void *at, size_t len);
void heap_free(void *at);

typedef struct tried {
    size_t is_there;
    char *at;
} tried;

tried rattle_alloc(size_t n, size_t align);
tried rattle_realloc(void *at, size_t kept, size_t n, size_t align);
void rattle_dealloc(void *at);

static unsigned passed, failed;
static char block[16], larger[16], *given;
static void *from;
static size_t wanted;

void *heap_malloc(size_t len)
{
    wanted = len;
    return given;
}

void *heap_realloc(void *at, size_t len)
{
    from = at;
    return heap_malloc(len);
}

void heap_free(void *at) { from = at; }

static void see(int line, int is_right)
{
    if (is_right) passed++;
    else failed++, printf("FAIL line %d\n", line);
}
#define SEE(is_right) see(__LINE__, is_right)

/* Whether it was given, with so many bytes. For none at all the C library may give nothing, and realloc takes the block. */
static int is_given(tried it, size_t len) { return it.is_there == 1 && it.at == given && wanted == len; }

int main(void)
{
    given = block;
    SEE(is_given(rattle_alloc(5, 1), 5));
    SEE(is_given(rattle_alloc(0, 8), 8));
    given = larger;
    SEE(is_given(rattle_realloc(block, 5, 9, 1), 9) && from == block);
    SEE(is_given(rattle_realloc(block, 5, 0, 4), 4));
    rattle_dealloc(larger);
    SEE(from == larger);
    given = NULL; /* the address of what isn't there is no null pointer either */
    SEE(!rattle_alloc(5, 1).is_there && rattle_alloc(5, 1).at);
    SEE(!rattle_realloc(block, 5, 9, 1).is_there && rattle_realloc(block, 5, 9, 1).at);
    printf("%u passed, %u failed\n", passed, failed);
    return failed != 0;
}
