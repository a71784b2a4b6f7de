/* waits TEXT [IMAGE [DMEM]]: missing waits for a DMA in a text of microcode, by the rules of library/python/rsp/waits.py. The machine's DMA
 * is done at once; a copy of it gets the answer of a console where a transfer is under way, and is followed. */
#include "brsp.h"
#include <stdio.h>
#include <string.h>

enum { AHEAD = 10000, LIMIT = 100000, READS = 1 << 4 | 1 << 5 | 1 << 6, WRITES = 15 };
typedef struct transfer { uint32_t place, bank, address, length, to_rdram; } transfer; /* `place`: of the MTC0 that orders it */
typedef struct early { const char *what; uint32_t place; } early; /* what an instruction does too early, and the `place` of the transfer */
typedef struct seen { brsp_state state; uint8_t dmem[4096]; } seen;

/* A machine on its way, with the last transfers that are under way. By instruction: what comes too early, and where a copy has read. A copy has the walk
 * `whose` it is, has parted once its way is another one, and then waits if it reads where it has read. */
typedef struct walk {
    brsp_machine m;
    transfer orders[2];
    struct walk *whose;
    uint32_t count, has_parted, waits, asked[1024];
    early found[1024];
} walk;

static const char loads[] = "loads";
static brsp_machine twin = BRSP_NONE; /* makes a step once more, over other bytes */
static int step(walk *w);

static void look(brsp_machine *m, seen *out)
{
    brsp_get(m, &out->state), brsp_memory(m, BRSP_DMEM, 0, out->dmem, sizeof out->dmem);
}

/* Names what a step does to a transfer's bytes. In the twin they are inverted: one that is loaded shows in registers, one that is stored is the same. */
static void name_touch(walk *w, const transfer *t, const seen *before, const seen *after, uint32_t word)
{
    seen other = *before;
    uint32_t n, at, pc = before->state.pc;
    early *found = &w->found[pc / 4];
    for (n = 0; n < t->length; n++) other.dmem[(t->address + n) % 4096] ^= 0xff;
    brsp_set(&twin, &other.state), brsp_load(&twin, BRSP_DMEM, 0, other.dmem, sizeof other.dmem);
    brsp_load_words(&twin, BRSP_IMEM, pc, &word, 1), brsp_step(&twin), look(&twin, &other);
    if (!t->to_rdram && memcmp(&other.state, &after->state, sizeof other.state) != 0) *found = (early){ loads, t->place };
    for (n = 0, at = t->address; n < t->length; n++, at = (at + 1) % 4096) if (other.dmem[at] == after->dmem[at]) *found = (early){ "stores", t->place };
}

/* Takes over what a copy has found since its last read. */
static void take(walk *w, walk *copy)
{
    for (uint32_t n = 0; n < 1024; n++) if (copy->found[n].what) w->found[n] = copy->found[n];
    memset(copy->found, 0, sizeof copy->found);
}

/* Names the read of a wait that changes something if it repeats. The copy that waits is answered that all is done, and has to come to the
 * instruction at which the machine leaves the wait, with the same registers and the same DMEM. */
static void name_turn(walk *w, walk *copy, brsp_machine *out)
{
    seen turned, straight;
    brsp_stop stop;
    look(&copy->m, &turned), look(out, &straight);
    early *found = &w->found[turned.state.pc / 4];
    brsp_add_break(&copy->m, straight.state.pc), brsp_run(&copy->m, AHEAD, &stop), look(&copy->m, &turned);
    if (turned.state.pc == straight.state.pc && memcmp(&turned, &straight, sizeof turned) != 0) *found = (early){ "changes something if it repeats", w->orders[w->count - 1].place };
}

/* Follows a copy that is answered that the last transfers are under way. A load between a read and the branch at which the ways part doesn't count,
 * because the program tests the answer there, and loads again. */
static void follow(walk *w, uint32_t last)
{
    walk copy = { .orders = { w->orders[w->count - last], w->orders[1] }, .whose = w, .count = last };
    brsp_machine beside = BRSP_NONE;
    brsp_scalars mine, its;
    uint32_t n, has_failed = brsp_copy(&copy.m, &w->m) != BRSP_OK || brsp_copy(&beside, &w->m) != BRSP_OK;
    for (n = 0; !has_failed && n < AHEAD && step(&copy); n++) {
        if (copy.has_parted || brsp_step(&beside) != BRSP_OK) continue;
        brsp_regs(&copy.m, &mine), brsp_regs(&beside, &its);
        copy.has_parted = mine.pc != its.pc;
        for (early *it = copy.found; copy.has_parted && it < copy.found + 1024; it++) if (it->what == loads) it->what = NULL;
    }
    take(w, &copy);
    if (copy.waits) name_turn(w, &copy, &beside);
    brsp_free(&copy.m), brsp_free(&beside);
}

/* A move of an SP register. A write of SP_RD_LEN or SP_WR_LEN orders a transfer; a read shows whether one is under way. Answers as `step`. */
static int make_move(walk *w, const brsp_move *at)
{
    uint32_t n, is_full = w->count > 1, bytes = ((at->value >> 12 & 255) + 1) * (((at->value & 0xfff) | 7) + 1);
    if (at->writes && is_full) w->found[at->stop.pc / 4] = (early){ "writes a DMA register", w->orders[1].place };
    if (at->writes && at->number > 1) {
        brsp_peek(&w->m, 0, &n);
        if (is_full) w->orders[0] = w->orders[w->count = 1];
        w->orders[w->count++] = (transfer){ at->stop.pc, n >> 12 & 1, n & 0xfff, bytes < 4096 ? bytes : 4096, at->number == 3 };
    }
    if (!at->writes && w->whose) {
        take(w->whose, w), brsp_peek(&w->m, at->number, &n);
        n |= at->number == 4 ? 4 | is_full << 3 : at->number == 5 ? is_full : 1;
        w->waits = w->asked[at->stop.pc / 4]++ && w->has_parted;
        return !w->waits && brsp_pass_move(&w->m, n) == BRSP_OK;
    }
    for (n = 1; !at->writes && n <= w->count; n++) follow(w, n);
    if (!at->writes) w->count = 0;
    return brsp_step(&w->m) == BRSP_OK;
}

/* Makes a step. Answers whether another one follows. */
static int step(walk *w)
{
    seen before, after;
    brsp_move at;
    uint32_t n, word, pc;
    look(&w->m, &before), pc = before.state.pc, brsp_memory_words(&w->m, BRSP_IMEM, pc, &word, 1);
    for (const transfer *t = w->orders; t < w->orders + w->count; t++)
        if (t->bank == BRSP_IMEM && !t->to_rdram && (pc - t->address) % 4096 < t->length) w->found[pc / 4] = (early){ "is fetched", t->place };
    brsp_run_until_move(&w->m, 1, READS, WRITES, &at);
    if (at.stop.steps == 0) return at.stop.reason == BRSP_AT_MOVE && make_move(w, &at);
    look(&w->m, &after);
    for (n = 0; n < w->count; n++) if (w->orders[n].bank == BRSP_DMEM) name_touch(w, &w->orders[n], &before, &after, word);
    return 1;
}

int main(int argc, char **argv)
{
    static uint8_t text[1 << 16], image[1 << 16], dmem[4096];
    static uint32_t words[1024], n, is_missing;
    static walk w;
    brsp_assembled out; brsp_line line;
    FILE *files[3] = { NULL };
    for (n = 1; n < 4 && n < (uint32_t)argc; n++) if (!(files[n - 1] = fopen(argv[n], "rb"))) return 2;
    if (argc < 2 || (files[1] && !fread(image, 1, sizeof image, files[1])) || (files[2] && !fread(dmem, 1, sizeof dmem, files[2]))) return 2;
    if (brsp_assemble(0, text, fread(text, 1, sizeof text, files[0]), words, 1024, &out) != BRSP_OK) return 2;
    if (brsp_new(&w.m, image, sizeof image, 0) != BRSP_OK || brsp_load_words(&w.m, BRSP_IMEM, 0, words, out.count) != BRSP_OK || brsp_new(&twin, image, 64, 0) != BRSP_OK || brsp_load(&w.m, BRSP_DMEM, 0, dmem, sizeof dmem) != BRSP_OK) return 2;
    for (n = 0; n < LIMIT && step(&w); n++) continue;
    for (n = 0; n < 1024; n++)
        if (w.found[n].what && brsp_listing(&w.m, 4 * n, &line, 1) == BRSP_OK)
            is_missing = printf("%03x: %s: %s before the end of the transfer of %03x\n", (unsigned)(4 * n), line.text, w.found[n].what, (unsigned)w.found[n].place) > 0;
    return (int)is_missing;
}
