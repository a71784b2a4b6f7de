/* malloc, realloc and free for systems that have none: over heap_more, which gives bytes that are nobody's.
 *
 * Memory is a row of blocks, each a head with what the caller has after it. A free block is in the list of
 * holes, and is never beside another one: what is freed merges with its neighbours. The first hole that is
 * large enough is taken, and the rest of it is a hole again. After the last block of a stretch is a head
 * that is always in use. No two calls come at once. */
typedef __SIZE_TYPE__ size;

typedef struct head {
    size before; /* the size of the block below, 0 if this is the first one of a stretch */
    size own;    /* its size with its head, a multiple of 16, and 1 more if it is in use */
} head;

typedef struct hole {
    head head;
    struct hole *next, *last;
} hole;

enum { UNIT = 16, LEAST = sizeof(hole) };

/* Bytes that follow one another, from a multiple of 16 on. How many there are is in `got`, a multiple of 16 and
 * at least 64. If they are fewer than `len`, it is called again. Null if there are none. */
char *heap_more(size len, size *got);

void *malloc(size len);
void *realloc(void *at, size len);
void free(void *at);

static hole holes = { { 0, 1 }, &holes, &holes };
static head *last_end; /* the head that ends the newest stretch */

static size size_of(const head *it) { return it->own & ~(size)1; }

static int is_used(const head *it) { return (int)(it->own & 1); }

static head *at_offset(head *it, size offset) { return (head *)(void *)((char *)it + offset); }

static head *after(head *it) { return at_offset(it, size_of(it)); }

static hole *as_hole(head *it) { return (hole *)(void *)it; }

static void unlink(head *it)
{
    hole *h = as_hole(it);
    h->next->last = h->last;
    h->last->next = h->next;
}

/* Makes a hole of a block that is in no list. It merges with the holes beside it. */
static void release(head *it)
{
    size total = size_of(it);
    if (!is_used(after(it))) {
        head *above = after(it);
        unlink(above);
        total += size_of(above);
    }
    if (it->before) {
        head *below = (head *)(void *)((char *)it - it->before);
        if (!is_used(below)) {
            unlink(below);
            total += size_of(below);
            it = below;
        }
    }
    it->own = total;
    after(it)->before = total;
    as_hole(it)->next = holes.next;
    as_hole(it)->last = &holes;
    holes.next->last = as_hole(it);
    holes.next = as_hole(it);
}

/* Takes `total` bytes of a block that is in no list, and marks them as in use. The rest is a hole again. */
static void take(head *it, size total)
{
    size rest = size_of(it) - total;
    if (rest < LEAST) {
        it->own = size_of(it) | 1;
        return;
    }
    it->own = total | 1;
    at_offset(it, total)->before = total;
    at_offset(it, total)->own = rest;
    at_offset(it, total + rest)->before = rest;
    release(at_offset(it, total));
}

/* Gets a stretch with a hole of at least `total` bytes. It joins the newest one if it begins where that ends.
 * Returns 0 if there is none. */
static int extend(size total)
{
    size got;
    head *first = (head *)(void *)heap_more(total + 2 * sizeof(head), &got);
    if (!first) return 0;
    if (last_end && after(last_end) == first) {
        first = last_end;
        got += sizeof(head);
    } else {
        first->before = 0;
    }
    first->own = got - sizeof(head);
    last_end = after(first);
    last_end->before = size_of(first);
    last_end->own = sizeof(head) | 1;
    release(first);
    return 1;
}

/* The size of a block for `len` bytes, 0 if there is no such one. */
static size total_for(size len)
{
    size total = (len + sizeof(head) + UNIT - 1) & ~(size)(UNIT - 1);
    if (len > (~(size)0 >> 1) - (1 << 20)) return 0;
    return total < LEAST ? (size)LEAST : total;
}

void *malloc(size len)
{
    size total = total_for(len);
    hole *it;
    if (!total) return 0;
    do {
        for (it = holes.next; it != &holes; it = it->next) {
            if (size_of(&it->head) < total) continue;
            unlink(&it->head);
            take(&it->head, total);
            return &it->head + 1;
        }
    } while (extend(total));
    return 0;
}

void free(void *at)
{
    if (at) release((head *)at - 1);
}

/* The block stays where it is if it, with the hole after it, is large enough. */
void *realloc(void *at, size len)
{
    head *it;
    size total = total_for(len), n, kept;
    char *to;
    if (!at) return malloc(len);
    if (!total) return 0;
    it = (head *)at - 1;
    if (size_of(it) < total && !is_used(after(it)) && size_of(it) + size_of(after(it)) >= total) {
        unlink(after(it));
        it->own += size_of(after(it));
        after(it)->before = size_of(it);
    }
    if (size_of(it) >= total) {
        take(it, total);
        return at;
    }
    to = (char *)malloc(len);
    if (!to) return 0;
    kept = size_of(it) - sizeof(head);
    for (n = 0; n < kept; n++) to[n] = ((const char *)at)[n];
    free(at);
    return to;
}
