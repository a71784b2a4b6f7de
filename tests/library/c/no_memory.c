/* What the calls of brsp.h take of memory: linked with -Wl,--wrap=malloc,--wrap=realloc,--wrap=free.
 *   - brsp_new, brsp_copy, brsp_assemble, brsp_explain, brsp_explain_text, brsp_explain_reply and brsp_labels while the K-th call of malloc or realloc fails, for each K. A handle keeps what it held.
 *   - brsp_session_new the same, and a script with blocks: each refused call is made again, and the replies are those to the whole script.
 *   - What a handle held is freed when brsp_new or brsp_copy puts another machine into it.
 *   - No other call takes memory or frees any: accepted, refused, and of a handle that holds no machine.
 *   - All that was taken is freed: also by calls.c, whose main is all_calls here. */
#include "brsp.h"
#include "counted.h"
#include "each_call.h"
#include <stdio.h>
#include <stdlib.h>
#include <string.h>

static int passed, failed;
int all_calls(void);

static uint8_t image[64];

static void see(const char *what, long k, int is_right)
{
    passed += is_right;
    failed += !is_right;
    if (!is_right) printf("FAIL %s, if allocation %ld fails\n", what, k);
}

/* A whole machine: all but its breakpoints and watches. */
struct whole {
    brsp_state state;
    uint8_t banks[3][4096];
};

static void read_whole(brsp_machine *m, struct whole *w)
{
    uint32_t k;
    memset(w, 0, sizeof *w);
    see("brsp_get", -1, brsp_get(m, &w->state) == BRSP_OK);
    for (k = 0; k < 3; k++) see("brsp_memory", -1, brsp_memory(m, k, 0, w->banks[k], k == BRSP_RDRAM ? 64 : 4096) == BRSP_OK);
}

static int is_still(brsp_machine *m, const struct whole *before)
{
    static struct whole after;
    read_whole(m, &after);
    return memcmp(&after, before, sizeof after) == 0;
}

static void failing_new(brsp_machine *m)
{
    static struct whole before;
    uint32_t word, status = BRSP_NO_MEMORY;
    long k, refused = 0, blocks = held;
    read_whole(m, &before);
    for (k = 0; k < 100; k++) {
        left = k;
        status = brsp_new(m, image, 64, 100);
        left = -1;
        if (status == BRSP_OK) break;
        refused++;
        see("brsp_new", k, status == BRSP_NO_MEMORY && is_still(m, &before));
        see("brsp_new frees what it took", k, held == blocks);
    }
    see("brsp_new takes memory", k, refused >= 3 && status == BRSP_OK && brsp_peek(m, 8, &word) == BRSP_OK && word == 0);
    see("brsp_new frees what the handle held", k, held == blocks);
}

static void failing_copy(brsp_machine *m, brsp_machine *from)
{
    static struct whole before, first;
    uint32_t status = BRSP_NO_MEMORY;
    long k, refused = 0, blocks = held;
    read_whole(m, &before);
    read_whole(from, &first);
    for (k = 0; k < 100; k++) {
        left = k;
        status = brsp_copy(m, from);
        left = -1;
        if (status == BRSP_OK) break;
        refused++;
        see("brsp_copy", k, status == BRSP_NO_MEMORY && is_still(m, &before));
        see("brsp_copy leaves the first", k, is_still(from, &first) && brsp_back(from, 1) == BRSP_OK && brsp_step(from) == BRSP_OK);
        see("brsp_copy frees what it took", k, held == blocks);
    }
    see("brsp_copy takes memory", k, refused >= 3 && status == BRSP_OK && is_still(m, &first) && is_still(from, &first));
    see("brsp_copy frees what the handle held", k, held == blocks);
}

/* An assembly without memory for a label reports the label's line, and no fault that stands before it is hidden by that. */
static void failing_assemble(void)
{
    static const char labels[] = "a: nop\nb: nop\nc: j a\nnop\n", fault[] = "foo\na: nop\n";
    brsp_assembled out;
    uint32_t words[8], status = BRSP_NO_MEMORY;
    long k;
    for (k = 0; k < 100; k++) {
        left = k;
        status = brsp_assemble(0, (const uint8_t *)labels, strlen(labels), words, 8, &out);
        left = -1;
        if (status == BRSP_OK) break;
        see("brsp_assemble", k, status == BRSP_NO_MEMORY && out.count == 0 && out.fault == 17 && out.line >= 1 && out.line <= 3);
        if (k == 0) see("the first label", k, out.line == 1);
    }
    see("brsp_assemble takes memory", k, k > 0 && status == BRSP_OK && out.count == 4);
    left = 0;
    status = brsp_assemble(0, (const uint8_t *)fault, strlen(fault), words, 8, &out);
    left = -1;
    see("an earlier fault", 0, status == BRSP_NO_MEANING && out.line == 1 && out.fault == 11);
}

/* An explanation without memory for a label changes nothing. */
static void failing_explain(void)
{
    static const char labels[] = "a: nop\nb: nop\nc: j d\n";
    brsp_operand out;
    uint32_t status = BRSP_NO_MEMORY;
    long k;
    for (k = 0; k < 100; k++) {
        left = k;
        out.number = 99;
        status = brsp_explain(0, (const uint8_t *)labels, strlen(labels), &out);
        left = -1;
        if (status == BRSP_OK) break;
        see("brsp_explain", k, status == BRSP_NO_MEMORY && out.number == 99);
    }
    see("brsp_explain takes memory", k, k > 0 && status == BRSP_OK && out.number == 1 && out.kind == BRSP_OPERAND_JUMP);
}

/* What is said without memory for it changes nothing, and keeps none. */
static void failing_said(int is_reply)
{
    static const char text[] = "asm 0\na: foo $1\nend\n", fault[] = "fault 11 UnknownName line 1";
    const uint8_t *at = (const uint8_t *)text, *told = (const uint8_t *)fault;
    uint8_t said[400];
    size_t count = 0;
    uint32_t status = BRSP_NO_MEMORY;
    long k, blocks = held;
    for (k = 0; k < 1000; k++) {
        left = k;
        count = 99;
        said[0] = 77;
        status = is_reply ? brsp_explain_reply(0, at, strlen(text), told, strlen(fault), said, sizeof said, &count)
                          : brsp_explain_text(0, at + 6, 10, said, sizeof said, &count);
        left = -1;
        if (status == BRSP_OK) break;
        see("an explanation", k, status == BRSP_NO_MEMORY && count == 99 && said[0] == 77 && held == blocks);
    }
    see("an explanation takes memory", k, k > 1 && status == BRSP_OK && count > 26 && said[5] == (is_reply ? '2' : '1') && held == blocks);
}

/* Labels without memory for one of them, or for the list, change nothing. */
static void failing_labels(void)
{
    static const char text[] = "a: nop\nb: nop\nc: j b\n";
    brsp_label found[4];
    size_t count = 0;
    uint32_t status = BRSP_NO_MEMORY;
    long k, blocks = held;
    for (k = 0; k < 100; k++) {
        left = k;
        count = 99;
        found[0].len = 77;
        status = brsp_labels(0, (const uint8_t *)text, strlen(text), found, 4, &count);
        left = -1;
        if (status == BRSP_OK) break;
        see("brsp_labels", k, status == BRSP_NO_MEMORY && count == 99 && found[0].len == 77 && held == blocks);
    }
    see("brsp_labels takes memory", k, k > 1 && status == BRSP_OK && count == 3 && found[2].address == 8 && held == blocks);
}

static brsp_session b = BRSP_NONE;
static uint8_t reply[BRSP_REPLIES];
static size_t used, written;

static void failing_session_new(void)
{
    uint32_t status = BRSP_NO_MEMORY;
    long k, refused_calls = 0, blocks = held;
    for (k = 0; k < 100; k++) {
        left = k;
        status = brsp_session_new(&b, image, 64);
        left = -1;
        if (status == BRSP_OK) break;
        refused_calls++;
        see("brsp_session_new", k, status == BRSP_NO_MEMORY && held == blocks && b.at == NULL);
    }
    see("brsp_session_new takes memory", k, refused_calls >= 3 && status == BRSP_OK && held > blocks);
    blocks = held;
    see("brsp_session_new frees what the handle held", k, brsp_session_new(&b, image, 64) == BRSP_OK && held == blocks);
}

/* Makes a call until it isn't refused; while its allocation number k fails, it is, with nothing filled. */
static uint32_t made(long k, const char *bytes, size_t len, int is_end)
{
    uint32_t status;
    left = k;
    used = written = 77;
    reply[0] = 0x55;
    status = is_end ? brsp_session_end(&b, reply, sizeof reply, &written)
                    : brsp_session_take(&b, (const uint8_t *)bytes, len, &used, reply, sizeof reply, &written);
    if (status == BRSP_NO_MEMORY) see("a refused call fills nothing", k, used == 77 && written == 77 && reply[0] == 0x55);
    left = -1;
    return status;
}

/* Answers the script with each call at first failing at its allocation k, in pieces of n bytes, and returns how often one failed. */
static long answered(const char *script, size_t n, long k, const char *wanted)
{
    static char out[4096];
    size_t at = 0, len = strlen(script), count = 0, before = 0;
    long failures = 0;
    int is_end = 0;
    see("the session", k, brsp_session_new(&b, image, 64) == BRSP_OK);
    while (!is_end) {
        size_t piece = len - at < n ? len - at : n;
        uint32_t status;
        long blocks = held;
        is_end = at == len;
        status = made(k, script + at, piece, is_end);
        if (status == BRSP_NO_MEMORY) {
            failures++;
            see("a refused call holds no more", k, held == blocks);
            status = made(-1, script + at, piece, is_end);
        }
        see("the call again", k, status == BRSP_OK && count + written <= sizeof out);
        if (status != BRSP_OK) return -1;
        memcpy(out + count, reply, written);
        count += written;
        before = at;
        at += is_end ? 0 : used;
        if (!is_end && at == before) return -1;
    }
    see("the replies", k, count == strlen(wanted) && !memcmp(out, wanted, count));
    return failures;
}

static void failing_script(void)
{
    static const char script[] = "asm 0\na: nop\nb: beq $0, $0, a\nnop\nlonger_label: j b\nnop\nbreak\nend\nstep\nasm 64\nc: nop\nfoo\nend\n"
                                 "dis 0 1\nasm 0\nnop\nend";
    static const char wanted[] = "ok 6 words\nstep Done pc 004\nfault 11 UnknownName line 2\n000 00000000 nop\nok 1 words\n";
    long k, failures = 1, all = 0;
    size_t n;
    for (n = 1; n <= sizeof script; n = n * 4)
        for (k = 0, failures = 1; k < 100 && failures > 0; k++) all += failures = answered(script, n, k, wanted);
    see("a script with blocks takes memory", all, all > 20 && failures == 0);
    brsp_session_free(&b);
}

/* That a call takes no memory and frees none. */
#define NONE(call) do { \
    long before = taken, blocks = held; \
    (void)(call); \
    see(#call, -1, taken == before && held == blocks); \
} while (0)

/* The same of a call that is refused. */
#define REFUSED(call) NONE(see(#call " is refused", -1, (call) != BRSP_OK))

static void refused_calls(brsp_machine *m)
{
    static brsp_line lines[1025];
    static uint32_t words[1025];
    static brsp_traced entry;
    static brsp_changes changes;
    static brsp_state wrong;
    brsp_stop stop;
    brsp_move move;
    brsp_reached reached;
    brsp_lanes lanes;
    brsp_sp_words sp;
    uint8_t byte = 0;
    size_t number;
    wrong.words[0] = 1;
    memset(&sp, 0, sizeof sp);
    REFUSED(brsp_set(m, &wrong));
    REFUSED(brsp_set_sp(m, &sp));
    REFUSED(brsp_load(m, 3, 0, &byte, 1));
    REFUSED(brsp_load(m, BRSP_RDRAM, 64, &byte, 1));
    REFUSED(brsp_load_words(m, BRSP_RDRAM, 64, words, 1));
    REFUSED(brsp_load_words(m, BRSP_DMEM, 0, words, 1025));
    REFUSED(brsp_memory(m, BRSP_RDRAM, 64, &byte, 1));
    REFUSED(brsp_memory_words(m, BRSP_DMEM, 0, words, 1025));
    REFUSED(brsp_start_task(m, 1));
    REFUSED(brsp_set_pc(m, 2));
    REFUSED(brsp_run(m, 0, &stop));
    REFUSED(brsp_run_until_move(m, 1, 65536, 0, &move));
    REFUSED(brsp_trace(m, &entry, 0, &stop));
    REFUSED(brsp_back(m, 0));
    REFUSED(brsp_back(m, 1000000));
    REFUSED(brsp_event(m, 1, 65536, 0, &reached));
    REFUSED(brsp_pass_move(m, 1));
    REFUSED(brsp_pass_dma(m));
    REFUSED(brsp_add_break(m, 4096));
    REFUSED(brsp_drop_break(m, 4));
    REFUSED(brsp_add_watch(m, 0, 65, &number));
    REFUSED(brsp_drop_watch(m, 7));
    NONE(brsp_write(m, 4, 2));
    REFUSED(brsp_step_changes(m, &changes));
    NONE(brsp_write(m, 4, 1));
    REFUSED(brsp_reg(m, 32, words));
    REFUSED(brsp_vreg(m, 32, &lanes));
    REFUSED(brsp_text(0, 4096, lines));
    REFUSED(brsp_listing(m, 0, lines, 1025));
}

#define ONE(n) 1
#define ROOM(n) room[n]
#define MAKE(call, given) NONE(call given);

static void other_calls(brsp_machine *m)
{
    static uint64_t room[4][128];
    static brsp_line lines[1024];
    static uint8_t bytes[4096];
    static uint32_t words[1024];
    static brsp_state state;
    static brsp_traced entries[64];
    brsp_session none = BRSP_NONE;
    brsp_move move;
    brsp_reached reached;
    brsp_stop stop;
    brsp_dma dma;
    size_t number;
    uint32_t word, k;
    NONE(brsp_version());
    NONE(brsp_get(m, &state));
    NONE(brsp_set(m, &state));
    NONE(brsp_state_fault(&state, &word));
    EACH_CALL(MAKE, m, &none, ONE, ROOM)
    for (k = 0; k < 4; k++) {
        NONE(brsp_load(m, k, 0, bytes, 64));
        NONE(brsp_load_words(m, k, 0, words, 16));
        NONE(brsp_load_words(m, k, 0, words, 1024));
        NONE(brsp_memory(m, k, 0, bytes, 4096));
        NONE(brsp_memory_words(m, k, 0, words, 1024));
    }
    NONE(brsp_set_pc(m, 0));
    NONE(brsp_run(m, 1000000, &stop));
    NONE(brsp_run(m, 0, &stop));
    NONE(brsp_run_until_move(m, 1000, 0xffff, 0xffff, &move));
    NONE(brsp_trace(m, entries, 64, &stop));
    NONE(brsp_back(m, 50));
    NONE(brsp_event(m, 1000, 0xffff, 0xffff, &reached));
    for (k = 0; k < 17; k++) NONE(brsp_add_break(m, 4 * k));
    for (k = 0; k < 9; k++) NONE(brsp_add_watch(m, k, 64, &number));
    NONE(brsp_run(m, 1000, &stop));
    NONE(brsp_drop_break(m, 0));
    NONE(brsp_drop_watch(m, 0));
    for (k = 0; k < 16; k++) {
        NONE(brsp_read(m, k, &word));
        NONE(brsp_write(m, k, k == 4 ? 1 : 8));
        NONE(brsp_write_dma(m, k, k == 4 ? 1 : 8, &dma));
    }
    NONE(brsp_text(0x4a631050u, 0, lines));
    NONE(brsp_listing(m, 0, lines, 1024));
}

/* What a session is given in one call. */
#define TAKE(text) brsp_session_take(&b, (const uint8_t *)text, sizeof text - 1, &used, reply, sizeof reply, &written)

/* Lines outside a block take no memory, nor do those that are refused, the end, and the memories. */
static void session_calls(void)
{
    uint8_t bytes[64];
    see("the session", -1, brsp_session_new(&b, image, 64) == BRSP_OK);
    NONE(TAKE("st"));
    NONE(TAKE("ep\n"));
    NONE(TAKE("run 1000\n"));
    NONE(TAKE("asm 2\n"));
    NONE(TAKE("asm 0\n"));
    NONE(TAKE("end\n"));
    NONE(TAKE("load dmem 0 0102\n"));
    NONE(TAKE("regs\n"));
    NONE(TAKE("back 2\n"));
    REFUSED(brsp_session_take(&b, bytes, 0, &used, reply, BRSP_REPLIES - 1, &written));
    REFUSED(brsp_session_end(&b, reply, 0, &written));
    NONE(brsp_session_memory(&b, BRSP_RDRAM, 0, bytes, 64));
    REFUSED(brsp_session_memory(&b, BRSP_RDRAM, 1, bytes, 64));
    NONE(TAKE("vregs"));
    NONE(brsp_session_end(&b, reply, sizeof reply, &written));
    REFUSED(TAKE("regs\n"));
    REFUSED(brsp_session_end(&b, reply, sizeof reply, &written));
    brsp_session_free(&b);
    NONE(brsp_session_free(&b));
    REFUSED(TAKE("regs\n"));
    REFUSED(brsp_session_end(&b, reply, sizeof reply, &written));
    REFUSED(brsp_session_memory(&b, BRSP_RDRAM, 0, bytes, 64));
}

/* Handles that hold none stay so. */
static void without_machine(void)
{
    brsp_machine none = BRSP_NONE, to = BRSP_NONE;
    refused_calls(&none);
    other_calls(&none);
    REFUSED(brsp_copy(&to, &none));
    NONE(brsp_free(&none));
    see("they hold none", -1, none.at == NULL && to.at == NULL);
}

int main(void)
{
    brsp_machine m = BRSP_NONE, from = BRSP_NONE;
    taken = held = 0; /* what the C library took before main */
    see("the first machine", -1, brsp_new(&m, image, 64, 100) == BRSP_OK && brsp_write(&m, 8, 77) == BRSP_OK);
    failing_new(&m);
    see("the machine to copy", -1, brsp_new(&from, image, 64, 100) == BRSP_OK && brsp_write(&from, 8, 88) == BRSP_OK && brsp_step(&from) == BRSP_OK);
    failing_copy(&m, &from);
    failing_assemble();
    refused_calls(&m);
    failing_explain();
    failing_labels();
    failing_said(0);
    failing_said(1);
    other_calls(&m);
    without_machine();
    failing_session_new();
    failing_script();
    session_calls();
    see("two machines are held", -1, held > 0);
    brsp_free(&m);
    brsp_free(&from);
    see("all that was taken is freed", -1, held == 0);
    see("calls.c", -1, all_calls() == 0 && taken > 0);
    see("all that calls.c took is freed", -1, held == 0);
    printf("%d passed, %d failed\n", passed, failed);
    return failed != 0;
}
