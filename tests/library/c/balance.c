/* How many blocks of memory are held after brsp_new, brsp_copy, brsp_free, brsp_assemble and the calls of a session, done or refused, and what each
 * returns: brsp_new at every depth, brsp_new and brsp_session_new for images of every class of lengths. A machine has equally many blocks at each
 * depth except 0, and BRSP_NO_MEMORY is returned only if an allocation failed. What a handle held is given back, and a refused call leaves
 * nothing. Linked with -Wl,--wrap=malloc,--wrap=realloc,--wrap=free. */
#include "brsp.h"
#include "counted.h"
#include <stdio.h>
#include <string.h>

#define LONGEST 8388608u

static int passed, failed;
static uint8_t image[LONGEST + 64];
static brsp_machine m = BRSP_NONE, other = BRSP_NONE, none = BRSP_NONE;
static brsp_session session = BRSP_NONE;

/* A call answers this status, and this many blocks are held after it. No allocation failed. The first ten faults are shown. */
static void see(const char *what, long of, uint32_t status, uint32_t wanted, long blocks)
{
    int is_right = status == wanted && held == blocks && refused == 0;
    passed += is_right;
    failed += !is_right;
    if (!is_right && failed <= 10) printf("FAIL %s %ld: status %u for %u, %ld blocks for %ld\n", what, of, status, wanted, held, blocks);
}

/* How many blocks a machine has. */
static long blocks_of(uint32_t depth)
{
    long before = held, blocks;
    uint32_t status = brsp_new(&m, image, 64, depth);
    blocks = held - before;
    see("brsp_new, of depth", depth, status, BRSP_OK, before + blocks);
    brsp_free(&m);
    see("brsp_free, of depth", depth, m.at == NULL ? BRSP_OK : BRSP_NO_MACHINE, BRSP_OK, before);
    brsp_free(&m);
    see("brsp_free again, of depth", depth, BRSP_OK, BRSP_OK, before);
    return blocks;
}

/* What a handle held is freed, and what a refused call took. */
static void depths(long one)
{
    static const uint32_t wrong[] = { 4097, 4098, 8192, 65536, 0x7fffffffu, 0x80000000u, 0xffffffffu };
    uint32_t depth;
    size_t i;
    for (depth = 0; depth <= 4096; depth++) {
        long blocks = depth ? one : blocks_of(0);
        see("brsp_new, of depth", depth, brsp_new(&m, image, 64, depth), BRSP_OK, blocks);
        see("brsp_new again, of depth", depth, brsp_new(&m, image, 64, depth), BRSP_OK, blocks);
        see("brsp_copy, of depth", depth, brsp_copy(&other, &m), BRSP_OK, 2 * blocks);
        see("brsp_copy again, of depth", depth, brsp_copy(&other, &m), BRSP_OK, 2 * blocks);
        see("brsp_copy of none, of depth", depth, brsp_copy(&other, &none), BRSP_NO_MACHINE, 2 * blocks);
        brsp_free(&other);
        brsp_free(&m);
        see("brsp_free, of depth", depth, BRSP_OK, BRSP_OK, 0);
    }
    see("brsp_new", 0, brsp_new(&m, image, 64, 1), BRSP_OK, one);
    for (i = 0; i < sizeof wrong / sizeof *wrong; i++) {
        long before = taken;
        see("brsp_new, of depth", wrong[i], brsp_new(&m, image, 64, wrong[i]), BRSP_OUT_OF_RANGE, one);
        see("brsp_new takes nothing, of depth", wrong[i], taken == before ? BRSP_OK : BRSP_NO_MEMORY, BRSP_OK, one);
    }
    brsp_free(&m);
}

static uint32_t new_machine(size_t len) { return brsp_new(&m, image, len, 1); }
static uint32_t new_session(size_t len) { return brsp_session_new(&session, image, len); }

/* A call that makes something of an image, and how many blocks that has. An image has a multiple of 8 bytes, from 64 to 8388608. */
typedef uint32_t makes(size_t len);
static void one_length(const char *what, makes *call, size_t n, long blocks)
{
    int is_right = n >= 64 && n <= LONGEST && n % 8 == 0;
    long before = taken;
    see(what, (long)n, call(n), is_right ? BRSP_OK : BRSP_OUT_OF_RANGE, blocks);
    see("it takes memory", (long)n, (taken > before) == is_right ? BRSP_OK : BRSP_NO_MEMORY, BRSP_OK, blocks);
}

static void lengths(const char *what, makes *call)
{
    size_t n, power;
    uint32_t status = call(64);
    long blocks = held;
    see(what, 64, status, BRSP_OK, blocks);
    for (n = 0; n <= 1024; n++) one_length(what, call, n, blocks);
    for (power = 1024; power <= LONGEST; power *= 2)
        for (n = power - 17; n <= power + 17; n++) one_length(what, call, n, blocks);
    for (n = LONGEST + 18; n <= sizeof image; n++) one_length(what, call, n, blocks);
    for (n = LONGEST - 65536; n < LONGEST; n += 8192) one_length(what, call, n, blocks);
    for (n = 1; n < 8; n++) one_length(what, call, 5000000 + n, blocks);
    brsp_free(&m);
    brsp_session_free(&session);
    see("freed again", 0, BRSP_OK, BRSP_OK, 0);
}

static uint32_t copy(size_t len)
{
    (void)len;
    return brsp_copy(&other, &m);
}

/* A call whose first allocation fails, then its second, until none does: it is refused, and leaves what was held. Then the same over what it made. */
static void failing(const char *what, makes *call)
{
    int turn;
    for (turn = 0; turn < 2; turn++) {
        long number = 0, before = held;
        uint32_t status = BRSP_NO_MEMORY;
        while (status == BRSP_NO_MEMORY && number < 1000) {
            refused = 0;
            left = number++;
            status = call(4096);
            left = -1;
            if (status == BRSP_NO_MEMORY) {
                int is_right = refused > 0 && held == before;
                passed += is_right;
                failed += !is_right;
                if (!is_right) printf("FAIL %s, allocation %ld: %ld blocks for %ld\n", what, number, held, before);
            }
        }
        refused = 0;
        see(what, number, status, BRSP_OK, turn ? before : held);
        see("allocations that can fail", number, number > 1 ? BRSP_OK : BRSP_NO_MEMORY, BRSP_OK, held);
    }
}

static void no_memory(void)
{
    failing("brsp_new without memory", new_machine);
    failing("brsp_copy without memory", copy);
    failing("brsp_session_new without memory", new_session);
    brsp_free(&m);
    brsp_free(&other);
    brsp_session_free(&session);
    see("all freed", 0, BRSP_OK, BRSP_OK, 0);
}

/* An assembly holds nothing when it returns: of words, of a fault, of bytes that are no text, without room, and at a wrong address. */
static void texts(void)
{
    static const char right[] = "a: nop\nb: j a\nnop\n", wrong[] = "a: nop\nfoo\n", no_text[] = "a: nop\n\xff";
    uint32_t words[8];
    brsp_assembled out;
    const uint8_t *text = (const uint8_t *)right;
    see("brsp_assemble", 0, brsp_assemble(0, text, strlen(right), words, 8, &out), BRSP_OK, 0);
    see("brsp_assemble without room", 0, brsp_assemble(0, text, strlen(right), words, 2, &out), BRSP_NO_ROOM, 0);
    see("brsp_assemble for a wrong address", 2, brsp_assemble(2, text, strlen(right), words, 8, &out), BRSP_OUT_OF_RANGE, 0);
    text = (const uint8_t *)wrong;
    see("brsp_assemble of a fault", 0, brsp_assemble(0, text, strlen(wrong), words, 8, &out), BRSP_NO_MEANING, 0);
    text = (const uint8_t *)no_text;
    see("brsp_assemble of no text", 0, brsp_assemble(0, text, strlen(no_text), words, 8, &out), BRSP_NO_MEANING, 0);
}

/* A session holds as many blocks at its end as at its start, and more only while a block of source text is open. */
static void scripts(void)
{
    static const char open_block[] = "asm 0\na: nop\nj a\nnop\n", end[] = "end\n";
    static uint8_t reply[BRSP_REPLIES];
    brsp_session b = BRSP_NONE;
    size_t at, used = 0, written, n;
    long blocks = 0, more;
    for (n = 0; n < 3; n++) {
        uint32_t status = brsp_session_new(&b, image, n == 2 ? LONGEST : 64);
        if (n == 0) blocks = held;
        see("brsp_session_new", (long)n, status, BRSP_OK, blocks);
        if (status != BRSP_OK) continue;
        for (at = 0; at < sizeof open_block - 1; at += used)
            brsp_session_take(&b, (const uint8_t *)open_block + at, sizeof open_block - 1 - at, &used, reply, sizeof reply, &written);
        more = held;
        see("brsp_session_take of a block", (long)n, more > blocks ? BRSP_OK : BRSP_NO_MEMORY, BRSP_OK, more);
        see("brsp_session_new refused", (long)n, brsp_session_new(&b, image, 65), BRSP_OUT_OF_RANGE, more);
        if (n == 1) continue; /* the next session frees the block */
        status = brsp_session_take(&b, (const uint8_t *)end, 4, &used, reply, sizeof reply, &written);
        see("its end", (long)n, status, BRSP_OK, blocks);
        status = brsp_session_end(&b, reply, sizeof reply, &written);
        see("brsp_session_end", (long)n, status, BRSP_OK, blocks);
    }
    brsp_session_free(&b);
    brsp_session_free(&b);
    see("brsp_session_free", 0, BRSP_OK, BRSP_OK, 0);
}

int main(void)
{
    long one = blocks_of(1);
    see("a machine holds blocks", one, one > 0 ? BRSP_OK : BRSP_NO_MEMORY, BRSP_OK, 0);
    depths(one);
    lengths("brsp_new, of length", new_machine);
    lengths("brsp_session_new, of length", new_session);
    no_memory();
    texts();
    scripts();
    printf("%d passed, %d failed\n", passed, failed);
    return failed != 0;
}
