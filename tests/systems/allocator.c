/* The allocator of WebAssembly beside a list of what it gave. Its memory is an arena here, handed out in stretches that
 * follow one another or leave a gap. The last line is `N passed, M failed`. */
#include <stdint.h>
#include <stdio.h>
#include <stdlib.h>
#include <string.h>
#include <sys/mman.h>

/* runtime/allocator.c, compiled with these names for its own. */
char *heap_more(size_t len, size_t *got);
void *heap_malloc(size_t len);
void *heap_realloc(void *at, size_t len);
void heap_free(void *at);

enum { ARENA = 1 << 24, PAGE = 4096, BLOCKS = 300, TURNS = 60000 };

static unsigned long passed, failed;
static _Alignas(PAGE) char arena[ARENA];
static size_t handed, allowed; /* how much of the arena is handed out, and how much may be */
static int has_gaps;

static struct block {
    unsigned char *at;
    size_t len;
    unsigned char filled;
} blocks[BLOCKS];

static uint64_t chance = 88172645463325252u;

static uint32_t below(uint32_t n)
{
    chance ^= chance << 13, chance ^= chance >> 7, chance ^= chance << 17;
    return (uint32_t)((chance >> 32) * n >> 32);
}

static void see(int line, const char *what, int is_right)
{
    if (is_right) {
        passed++;
    } else if (!failed++) {
        printf("FAIL line %d: %s\n", line, what);
    }
}
#define SEE(is_right) see(__LINE__, #is_right, (is_right) ? 1 : 0)

char *heap_more(size_t len, size_t *got)
{
    size_t gap = has_gaps && below(2) ? PAGE : 0, more = (len + PAGE - 1) / PAGE * PAGE;
    if (len > ARENA || handed + gap + more > allowed) return NULL;
    if (gap && mprotect(arena + handed, gap, PROT_READ)) return NULL; /* the gap is nobody's; a sanitizer looks for leaks there */
    *got = more;
    handed += gap + more;
    return arena + handed - more;
}

/* A block has what was written to it. */
static void see_filled(const struct block *b)
{
    size_t n, right = 0;
    for (n = 0; n < b->len; n++) right += b->at[n] == b->filled;
    SEE(right == b->len);
}

static void fill(struct block *b)
{
    b->filled = (unsigned char)below(256);
    memset(b->at, b->filled, b->len);
}

/* A new block is in what was handed out, aligned, and beside all others. */
static void see_placed(const struct block *b)
{
    size_t n;
    int is_alone = 1;
    SEE((uintptr_t)b->at % 16 == 0);
    SEE((char *)b->at >= arena && (char *)b->at + b->len <= arena + handed);
    for (n = 0; n < BLOCKS; n++)
        if (blocks + n != b && blocks[n].at) is_alone &= b->at + b->len <= blocks[n].at || blocks[n].at + blocks[n].len <= b->at;
    SEE(is_alone);
}

static size_t length(void)
{
    static const uint32_t classes[] = { 1, 40, 700, 5000, 60000 };
    return below(classes[below(5)]);
}

static void renew(struct block *b)
{
    b->len = length();
    b->at = heap_malloc(b->len);
    if (!b->at) {
        b->len = 0;
        return;
    }
    see_placed(b);
    fill(b);
}

/* The block keeps its bytes, and if it can't be had, all of itself. */
static void resize(struct block *b)
{
    size_t len = length(), kept = len < b->len ? len : b->len;
    unsigned char *at = heap_realloc(b->at, len);
    see_filled(&(struct block){ at ? at : b->at, at ? kept : b->len, b->filled });
    if (!at) return;
    b->at = at, b->len = len;
    see_placed(b);
    fill(b);
}

static void free_all(void)
{
    size_t n;
    for (n = 0; n < BLOCKS; n++) {
        if (blocks[n].at) see_filled(blocks + n);
        heap_free(blocks[n].at);
        blocks[n] = (struct block){ NULL, 0, 0 };
    }
}

static void sequence(size_t limit)
{
    long turn;
    allowed = limit;
    for (turn = 0; turn < TURNS; turn++) {
        struct block *b = blocks + below(BLOCKS);
        if (!b->at) {
            renew(b);
        } else if (below(3) == 0) {
            resize(b);
        } else {
            see_filled(b);
            heap_free(b->at);
            b->at = NULL, b->len = 0;
        }
    }
    free_all();
}

/* Without gaps all that was handed out is one hole, less the heads of a stretch and of a block. A block takes no
 * more than it needs, with its head and at least 32 bytes. */
static void see_merged(void)
{
    size_t before = handed;
    void *whole, *one;
    allowed = handed;
    whole = heap_malloc(handed - 32);
    SEE(whole != NULL && handed == before);
    SEE(heap_malloc(1) == NULL);
    heap_free(whole);
    SEE(heap_malloc(handed - 31) == NULL);
    one = heap_malloc(1);
    SEE(heap_malloc(handed - 63) == NULL);
    whole = heap_malloc(handed - 64);
    SEE(one != NULL && whole != NULL);
    heap_free(one);
    heap_free(whole);
}

/* The last block moves to a larger hole before it. Nothing after it is read. */
static void see_moved(void)
{
    size_t half = handed / 2;
    void *first = heap_malloc(half), *last = heap_malloc(half - 48), *moved;
    SEE(first != NULL && last != NULL && (char *)last + half - 48 + 16 == arena + handed);
    memset(last, 9, half - 48);
    heap_free(first);
    SEE(mprotect(arena + handed, PAGE, PROT_NONE) == 0);
    moved = heap_realloc(last, half);
    SEE(mprotect(arena + handed, PAGE, PROT_READ | PROT_WRITE) == 0);
    SEE(moved == first);
    see_filled(&(struct block){ moved, half - 48, 9 });
    heap_free(moved);
}

static void refusals(void)
{
    void *held = heap_malloc(100);
    memset(held, 7, 100);
    SEE(held != NULL);
    SEE(heap_malloc(SIZE_MAX) == NULL && heap_malloc(SIZE_MAX - 15) == NULL && heap_malloc(SIZE_MAX / 2 + 1) == NULL);
    SEE(heap_realloc(held, SIZE_MAX) == NULL && heap_realloc(held, ARENA) == NULL);
    see_filled(&(struct block){ held, 100, 7 });
    heap_free(held);
    heap_free(NULL);
    held = heap_realloc(NULL, 5);
    SEE(held != NULL);
    heap_free(held);
}

int main(void)
{
    sequence(1 << 20); /* many allocations fail */
    see_merged();
    sequence(ARENA / 2);
    see_merged();
    see_moved();
    refusals();
    see_merged();
    has_gaps = 1;
    sequence(ARENA);
    sequence(ARENA);
    printf("%lu passed, %lu failed\n", passed, failed);
    return failed != 0;
}
