/* Random programs of all instructions on one machine: digests SEED STEPS.
 *
 * Every 1000 steps it prints how many were made and a digest of all that the calls gave so far, with the whole state and the memories. Runs,
 * single steps, traces, undo, watches, breakpoints, DMA, moves of SP registers, copies, states and texts follow one another by chance. The same
 * words give the same lines on every system. The last line has the instructions that were executed, as far as traces showed them. */
#include "brsp.h"
#include <stdio.h>
#include <stdlib.h>
#include <string.h>

enum { EVERY = 1000, IMAGE = 16384, WORDS = 1024, DEPTH = 64, NAMES = 512 };

static brsp_machine m = BRSP_NONE;
static uint64_t chance, digest = 0xcbf29ce484222325u;
static brsp_traced entries[EVERY];
static char names[NAMES][16];

static uint64_t next(void)
{
    chance ^= chance >> 12;
    chance ^= chance << 25;
    chance ^= chance >> 27;
    return chance * 2685821657736338717u;
}

static uint32_t below(uint32_t n) { return (uint32_t)((next() >> 32) * n >> 32); }

static uint32_t word(void) { return (uint32_t)(next() >> 32); }

static void take(uint64_t value)
{
    digest = (digest ^ value) * 0x100000001b3u;
    digest ^= digest >> 32;
}

static void take_bytes(const void *from, size_t len)
{
    const uint8_t *at = (const uint8_t *)from;
    for (; len >= 8; len -= 8, at += 8) {
        uint64_t value;
        memcpy(&value, at, 8);
        take(value);
    }
    while (len--) take(*at++);
}

static void take_stop(const brsp_stop *stop)
{
    take(stop->reason);
    take(stop->steps);
    take(stop->watch);
    take(stop->pc);
    take(stop->word);
}

/* A number as instructions find it at their edges. */
static uint16_t lane(void)
{
    static const uint16_t edges[] = { 0, 1, 0x7fff, 0x8000, 0x8001, 0xffff };
    return below(2) ? edges[below(6)] : (uint16_t)word();
}

/* A word of a class of encodings, with some of its fields 0. */
static uint32_t encoding(void)
{
    uint32_t fields = word() & 0x03ffffff, zero = word();
    if (zero & 1) fields &= ~(0x1fu << 6);
    if (zero & 2) fields &= ~(0x1fu << 11);
    if ((zero & 0x1c) == 4) fields &= ~(0x1fu << 21);
    if ((zero & 0x60) == 0x20) fields &= ~(0x1fu << 16);
    if ((zero & 0xf80) == 0x80) fields &= 0x3f;
    switch (below(16)) {
    case 0: case 1: return below(48) << 26 | fields;
    case 2: case 3: return fields;
    case 4: return 1u << 26 | fields;
    case 5: return below(4) ? 9u << 26 | fields : 16u << 26 | below(2) << 23 | (fields & 0x1ff800);
    case 6: return 18u << 26 | below(4) << 22 | (fields & 0x1fff80);
    case 7: case 8: return 50u << 26 | fields;
    case 9: case 10: return 58u << 26 | fields;
    default: return 37u << 25 | fields;
    }
}

/* A word that is an instruction. */
static uint32_t instruction(void)
{
    brsp_line line;
    uint32_t it;
    do it = encoding();
    while (brsp_text(it, 0, &line) != BRSP_OK || line.text[0] == '.');
    return it;
}

static void keep_name(uint32_t executed)
{
    brsp_line line;
    char name[16] = { 0 };
    size_t n;
    uint32_t at = 0;
    brsp_text(executed, 0, &line);
    if (line.text[0] == '.') return;
    for (n = 0; n < 15 && line.text[n] && line.text[n] != ' '; n++) {
        name[n] = line.text[n];
        at = at * 31 + (uint8_t)name[n];
    }
    for (at %= NAMES; names[at][0] && strcmp(names[at], name); at = (at + 1) % NAMES) { }
    memcpy(names[at], name, 16);
}

/* A stretch of the program is new, and what instructions read is. */
static void renew(void)
{
    static uint32_t words[128];
    static uint16_t data[256];
    brsp_state state;
    uint32_t n, i;
    for (n = 0; n < 128; n++) words[n] = below(300) ? instruction() : word();
    take(brsp_load_words(&m, BRSP_IMEM, 512 * below(8), words, 128));
    for (n = 0; n < 256; n++) data[n] = lane();
    take(brsp_load(&m, BRSP_DMEM, 512 * below(8), (const uint8_t *)data, 512));
    take(brsp_get(&m, &state));
    for (n = 0; n < 32; n++)
        for (i = 0; i < 8; i++) state.vectors[n][i] = lane();
    for (n = 1; n < 32; n++) state.words[n] = below(2) ? word() : below(4096);
    for (i = 0; i < 8; i++) state.accumulators.high[i] = lane(), state.accumulators.middle[i] = lane(), state.accumulators.low[i] = lane();
    state.flags.carry = (uint8_t)word(), state.flags.clip = (uint8_t)word();
    take(brsp_set(&m, &state));
}

static void go_on(void)
{
    take(brsp_write(&m, 4, 0x2a8d)); /* clears halted, broke, the interrupt, single step and three signals */
    take(brsp_set_pc(&m, 4 * below(WORDS)));
}

static void transfer(void)
{
    uint32_t len, count, skip, number;
    take(brsp_write(&m, 0, word() & 0x1ff8));
    take(brsp_write(&m, 1, word() & 0x7ff8));
    /* One number after the other: C doesn't say in which order operands and arguments are evaluated. */
    len = below(512), count = below(4), skip = below(64), number = 2 + below(2);
    take(brsp_write(&m, number, len | count << 12 | skip << 20));
}

static void texts(void)
{
    static brsp_line lines[64];
    static char text[64 * 72];
    uint32_t words[64];
    brsp_assembled out = { 0, 0, 0 };
    size_t len = 0, n;
    take(brsp_listing(&m, 4 * below(WORDS - 64), lines, 64));
    for (n = 0; n < 64; n++) {
        memcpy(text + len, lines[n].text, lines[n].len);
        len += lines[n].len;
        text[len++] = '\n';
    }
    take_bytes(lines, sizeof lines);
    take(brsp_assemble(lines[0].address, (const uint8_t *)text, len, words, 64, &out));
    take(out.count), take(out.line), take(out.fault);
    take_bytes(words, 4 * out.count);
}

static void copied(void)
{
    brsp_machine copy = BRSP_NONE;
    take(brsp_copy(&copy, &m));
    brsp_free(&m);
    m = copy;
}

/* One of the calls that an emulator makes between runs. */
static void between(void)
{
    uint32_t value = 0, first = below(4096), second = word();
    size_t number = 0;
    switch (below(64)) {
    case 0: case 1: case 2: case 3: take(brsp_back(&m, 1 + below(20))); break;
    case 4: take(brsp_add_watch(&m, first, 1 + second % 64, &number)), take(number); break;
    case 5: take(brsp_drop_watch(&m, below(8))); break;
    case 6: take(brsp_add_break(&m, 4 * below(WORDS))); break;
    case 7: take(brsp_drop_break(&m, 4 * below(WORDS))); break;
    case 8: case 9: transfer(); break;
    case 10: take(brsp_read(&m, below(16), &value)), take(value); break;
    case 11: take(brsp_write(&m, 4 + first % 12, second)); break;
    case 12: case 13: case 14: case 15: case 16: case 17: take(brsp_set_pc(&m, 4 * below(WORDS))); break;
    case 18: if (!below(20)) texts(); break;
    case 19: if (!below(20)) copied(); break;
    default: break;
    }
}

/* At most `n` steps by one of the calls that make them. How many were made. */
static uint32_t steps(uint32_t n)
{
    brsp_stop stop = { 0, 0, 0, 0, 0 };
    brsp_move move;
    uint32_t k, status = BRSP_OK, reads = word() >> 16, writes = word() >> 16;
    switch (below(4)) {
    case 0: take(brsp_run(&m, n, &stop)); break;
    case 1:
        take(brsp_trace(&m, entries, n, &stop));
        take_bytes(entries, stop.steps * sizeof *entries);
        for (k = 0; k < stop.steps && k < 8; k++) keep_name(entries[k].word);
        break;
    case 2:
        for (k = 0; k < n && (status = brsp_step(&m)) == BRSP_OK; k++) { }
        stop.steps = k, stop.reason = status == BRSP_HALTED ? BRSP_AT_HALT : status == BRSP_RESERVED ? BRSP_AT_RESERVED : BRSP_AT_LIMIT;
        break;
    default:
        take(brsp_run_until_move(&m, n, reads, writes, &move));
        stop = move.stop;
        take(move.word), take(move.number), take(move.writes), take(move.value);
        if (stop.reason == BRSP_AT_MOVE) take(brsp_pass_move(&m, word()));
    }
    take_stop(&stop);
    if (stop.reason == BRSP_AT_HALT || stop.reason == BRSP_AT_RESERVED) go_on();
    return stop.steps;
}

static void look(unsigned long made)
{
    static uint8_t bytes[IMAGE];
    brsp_state state;
    take(brsp_get(&m, &state));
    take_bytes(&state, sizeof state);
    take(brsp_memory(&m, BRSP_DMEM, 0, bytes, 4096)), take_bytes(bytes, 4096);
    take(brsp_memory(&m, BRSP_IMEM, 0, bytes, 4096)), take_bytes(bytes, 4096);
    take(brsp_memory(&m, BRSP_RDRAM, 0, bytes, IMAGE)), take_bytes(bytes, IMAGE);
    printf("%lu %08x%08x\n", made, (unsigned)(digest >> 32), (unsigned)digest);
}

static int by_name(const void *a, const void *b) { return strcmp((const char *)a, (const char *)b); }

int main(int argc, char **argv)
{
    static uint8_t image[IMAGE];
    unsigned long made = 0, limit;
    size_t n;
    if (argc != 3) return 2;
    chance = (strtoul(argv[1], NULL, 10) + 1) * 0x9e3779b97f4a7c15u;
    limit = strtoul(argv[2], NULL, 10);
    for (n = 0; n < IMAGE; n++) image[n] = (uint8_t)word();
    if (brsp_new(&m, image, IMAGE, DEPTH) != BRSP_OK) return 1;
    for (n = 0; n < 8; n++) renew();
    while (made < limit) {
        uint32_t left = EVERY;
        renew();
        while (left) {
            left -= steps(1 + below(left < 48 ? left : 48));
            between();
        }
        look(made += EVERY);
    }
    qsort(names, NAMES, sizeof *names, by_name);
    for (n = 0; n < NAMES; n++) if (names[n][0]) printf("%s ", names[n]);
    printf("\n");
    brsp_free(&m);
    return 0;
}
