/* Savestates, as brsp_savestate.h has them: what each call refuses, where each number is, and a play of two machines as over a net. They run the
 * same random programs, with their steps cut differently; at times one runs ahead and goes back to what it saved, at times a new machine takes its
 * place from the other's savestate. After each slice both have the same savestate. An argument gives the number of slices. The last line is
 * `N passed, M failed`. */
#include "brsp_savestate.h"
#include "random_program.h"
#include <stdio.h>
#include <stdlib.h>

enum { IMAGE = 4096, LENGTH = BRSP_SAVESTATE_BYTES + IMAGE };

static int passed, failed;
static brsp_machine a = BRSP_NONE, b = BRSP_NONE;

static void see(const char *what, int is_right)
{
    passed += is_right;
    failed += !is_right;
    if (!is_right && failed < 10) printf("FAIL %s\n", what);
}

static int saves(brsp_machine *m, uint8_t *bytes)
{
    size_t length = 0;
    return brsp_save_state(m, bytes, LENGTH, &length) == BRSP_OK && length == LENGTH;
}

/* Both have the same savestate. */
static int is_equal(void)
{
    static uint8_t of_a[LENGTH], of_b[LENGTH];
    return saves(&a, of_a) && saves(&b, of_b) && !memcmp(of_a, of_b, LENGTH);
}

/* A machine whose registers and memories are all other numbers. */
static void fill(brsp_machine *m)
{
    static uint8_t bytes[IMAGE];
    brsp_state state;
    for (uint32_t i = 0; i < IMAGE; i++) bytes[i] = (uint8_t)(i * 7 + i / 256);
    for (uint32_t bank = 0; bank < 3; bank++, bytes[0]++) see("a memory", brsp_load(m, bank, 0, bytes, IMAGE) == BRSP_OK);
    brsp_get(m, &state);
    for (uint32_t i = 1; i < 32; i++) state.words[i] = 0x01020304 * i;
    for (uint32_t i = 0; i < 256; i++) state.vectors[i / 8][i % 8] = (uint16_t)(0x1000 + 3 * i);
    for (uint32_t i = 0; i < 8; i++) {
        state.accumulators.high[i] = (uint16_t)(0x2000 + i);
        state.accumulators.middle[i] = (uint16_t)(0x2100 + i);
        state.accumulators.low[i] = (uint16_t)(0x2200 + i);
        state.sp[8 + i] = 0xa0b0c0d0 + i;
    }
    state.flags.carry = 1, state.flags.differ = 2, state.flags.compare = 3, state.flags.clip = 4, state.flags.extra = 5;
    state.divider.input = 0x3001, state.divider.output = 0x3002, state.divider.loaded = 1;
    state.pc = 0x124, state.npc = 0x458;
    state.sp[0] = 0x1ff8, state.sp[1] = 0x123458, state.sp[2] = state.sp[3] = 0x7f800ff8, state.sp[4] = 0x62, state.sp[7] = 1;
    state.interrupt = 1;
    see("a state", brsp_set(m, &state) == BRSP_OK);
}

/* Numbers at their offsets, the high byte first: those of the table in FORMS.md. */
static void layout(const uint8_t *bytes)
{
    static const struct { size_t at, size; uint32_t value; } numbers[] = {
        { 0, 4, 0x52535053 }, { 4, 4, 1 }, { 8, 4, IMAGE }, { 12, 4, 0 }, { 16, 4, 0x01020304 }, { 12 + 4 * 31, 4, 0x01020304 * 31 },
        { 140, 2, 0x1000 }, { 140 + 2 * 255, 2, 0x1000 + 3 * 255 }, { 652, 2, 0x2000 }, { 668 + 14, 2, 0x2107 }, { 684, 2, 0x2200 },
        { 700, 1, 1 }, { 701, 1, 2 }, { 702, 1, 3 }, { 703, 1, 4 }, { 704, 1, 5 }, { 705, 1, 0 }, { 706, 2, 0x3001 }, { 708, 2, 0x3002 },
        { 710, 2, 1 }, { 712, 2, 0x124 }, { 714, 2, 0x458 }, { 716, 4, 0x1ff8 }, { 720, 4, 0x123458 }, { 732, 4, 0x62 }, { 744, 4, 1 },
        { 748, 4, 0xa0b0c0d0 }, { 776, 4, 0xa0b0c0d7 }, { 780, 4, 1 }, { 784, 2, 0x0007 }, { 784 + 4094, 2, 0x0108 }, { 4880, 2, 0x0107 },
        { 8976, 2, 0x0207 }, { LENGTH - 1, 1, 0x08 }
    };
    for (size_t i = 0; i < sizeof numbers / sizeof *numbers; i++) {
        uint32_t value = 0;
        for (size_t j = 0; j < numbers[i].size; j++) value = value << 8 | bytes[numbers[i].at + j];
        if (value != numbers[i].value) printf("FAIL offset %u: %x\n", (unsigned)numbers[i].at, (unsigned)value);
        see("a number", value == numbers[i].value);
    }
}

static uint32_t fault_of(const uint8_t *bytes, size_t length)
{
    uint32_t fault = 99, status = brsp_savestate_check(&a, bytes, length, &fault), again = brsp_load_state(&a, bytes, length);
    see("a status", status == BRSP_OK && (again == BRSP_OK) == (fault == BRSP_SAVESTATE_FINE) && (again == BRSP_OK || again == BRSP_OUT_OF_RANGE));
    return fault;
}

/* What is refused changes nothing: the machine, its history, its breakpoint. */
static void refused(void)
{
    static uint8_t bytes[LENGTH + 8], given[LENGTH + 8];
    static const struct { size_t at; uint8_t byte; uint32_t fault; } wrong[] = {
        { 0, 'r', BRSP_SAVESTATE_MAGIC }, { 3, 0, BRSP_SAVESTATE_MAGIC }, { 7, 2, BRSP_SAVESTATE_OTHER_VERSION }, { 4, 1, BRSP_SAVESTATE_OTHER_VERSION },
        { 11, 8, BRSP_SAVESTATE_LENGTH }, { 8, 0x80, BRSP_SAVESTATE_LENGTH }, { 15, 1, BRSP_SAVESTATE_STATE }, { 705, 1, BRSP_SAVESTATE_STATE },
        { 711, 2, BRSP_SAVESTATE_STATE }, { 713, 1, BRSP_SAVESTATE_STATE }, { 714, 0x10, BRSP_SAVESTATE_STATE }, { 780, 1, BRSP_SAVESTATE_STATE },
        { 719, 1, BRSP_SAVESTATE_STATE }
    };
    static const size_t lengths[] = { 0, 1, 3, 4, 7, 8, 11, 12, 783, 8975, 8976, LENGTH - 1, LENGTH + 1 };
    size_t history;
    see("saved", saves(&a, bytes));
    brsp_step(&a);
    for (size_t i = 0; i < sizeof wrong / sizeof *wrong; i++) {
        memcpy(given, bytes, LENGTH);
        given[wrong[i].at] = wrong[i].byte;
        see("a fault", fault_of(given, LENGTH) == wrong[i].fault);
    }
    for (size_t i = 0; i < sizeof lengths / sizeof *lengths; i++) { /* whose next byte a sanitizer doesn't let anybody read */
        uint8_t *cut = (uint8_t *)malloc(lengths[i] + 1) + 1;
        memcpy(cut, bytes, lengths[i]);
        see("a length", fault_of(cut, lengths[i]) == (lengths[i] < 4 ? BRSP_SAVESTATE_MAGIC : BRSP_SAVESTATE_LENGTH));
        free(cut - 1);
    }
    memcpy(given, bytes, LENGTH);
    given[10] = (IMAGE + 8) >> 8, given[11] = 8;
    see("another image", fault_of(given, LENGTH + 8) == BRSP_SAVESTATE_IMAGE);
    see("history stays", brsp_history(&a, &history) == BRSP_OK && history == 1 && brsp_back(&a, 1) == BRSP_OK);
    see("all stays", saves(&a, given) && !memcmp(given, bytes, LENGTH) && brsp_drop_break(&a, 0x7f0) == BRSP_OK);
}

static void calls(void)
{
    static uint8_t bytes[LENGTH], other[LENGTH], image[IMAGE];
    brsp_machine none = BRSP_NONE;
    size_t length = 7, history;
    uint32_t fault = 7;
    see("no machine", brsp_save_state(&none, bytes, LENGTH, &length) == BRSP_NO_MACHINE && length == 7);
    see("none to load", brsp_load_state(&none, bytes, LENGTH) == BRSP_NO_MACHINE && brsp_savestate_check(&none, bytes, LENGTH, &fault) == BRSP_NO_MACHINE && fault == 7);
    see("machines", brsp_new(&a, image, IMAGE, 10) == BRSP_OK && brsp_new(&b, image, IMAGE, 10) == BRSP_OK);
    fill(&a);
    memset(bytes, 0xa5, LENGTH);
    see("no room", brsp_save_state(&a, bytes, LENGTH - 1, &length) == BRSP_NO_ROOM && length == LENGTH && bytes[0] == 0xa5 && bytes[LENGTH - 2] == 0xa5);
    see("saved", saves(&a, bytes));
    layout(bytes);
    see("steps", brsp_load_words(&b, BRSP_IMEM, 0, (const uint32_t[4]){ 0 }, 4) == BRSP_OK && brsp_step(&b) == BRSP_OK && brsp_add_break(&b, 0x7f0) == BRSP_OK);
    see("loaded", brsp_load_state(&b, bytes, LENGTH) == BRSP_OK && saves(&b, other) && !memcmp(bytes, other, LENGTH));
    see("no history", brsp_history(&b, &history) == BRSP_OK && history == 0 && brsp_drop_break(&b, 0x7f0) == BRSP_OK);
    brsp_write(&a, 4, 1); /* clears halted */
    brsp_load_words(&a, BRSP_IMEM, 0x124, (const uint32_t[1]){ 0 }, 1);
    brsp_add_break(&a, 0x7f0);
    refused();
}

/* A new program on both. */
static void begin(void)
{
    static uint32_t words[1027];
    random_program(words);
    for (int i = 0; i < 2; i++) {
        brsp_machine *m = i ? &b : &a;
        brsp_load_words(m, BRSP_IMEM, 0, words, 1024);
        brsp_set_pc(m, 0);
        brsp_write(m, 4, 0x25); /* clear halted, broke and single step */
    }
}

/* So many steps of the second machine, or fewer if it can't make them, cut at random into runs, traces, events and single steps. */
static void run_cut(uint32_t n)
{
    static brsp_traced entries[64];
    brsp_stop stop = { 0 };
    brsp_reached event;
    for (uint32_t part; n; n -= part) {
        part = 1 + random_below(n < 64 ? n : 64);
        switch (random_below(4)) {
        case 0: brsp_run(&b, part, &stop); break;
        case 1: brsp_trace(&b, entries, part, &stop); break;
        case 2: brsp_step(&b), part = 1; break;
        default:
            brsp_event(&b, part, random_below(65536), random_below(2 * 65536), &event);
            part = event.at.stop.steps;
            if (event.at.stop.reason == BRSP_AT_MOVE || event.at.stop.reason == BRSP_AT_DMA) brsp_step(&b), part++;
            else if (event.at.stop.reason < BRSP_AT_LIMIT) return;
        }
    }
}

/* The second machine runs ahead and goes back to what it saved; or another takes its place, by the first one's savestate. */
static void turn_back(void)
{
    static uint8_t bytes[LENGTH], image[IMAGE];
    brsp_stop stop;
    switch (random_below(8)) {
    case 0:
        see("saved", saves(&b, bytes));
        brsp_run(&b, 1 + random_below(100), &stop);
        see("loaded", brsp_load_state(&b, bytes, LENGTH) == BRSP_OK);
        break;
    case 1:
        see("saved", saves(&a, bytes) && brsp_new(&b, image, IMAGE, random_below(20)) == BRSP_OK);
        see("loaded", brsp_load_state(&b, bytes, LENGTH) == BRSP_OK);
    }
}

static void play(long slices)
{
    uint64_t made = 0;
    for (long slice = 0; slice < slices; slice++) {
        uint32_t n = 1 + random_below(100);
        brsp_stop stop;
        turn_back();
        brsp_run(&a, n, &stop);
        run_cut(n);
        made += stop.steps;
        see("a slice", is_equal());
        if (stop.reason == BRSP_AT_RESERVED || stop.reason == BRSP_AT_HALT || random_below(50) == 0) begin();
    }
    see("steps are made", made > (uint64_t)slices);
}

int main(int argc, char **argv)
{
    calls();
    brsp_drop_break(&a, 0x7f0);
    see("again", brsp_copy(&b, &a) == BRSP_OK);
    begin();
    play(argc > 1 ? atol(argv[1]) : 10000);
    brsp_free(&a);
    brsp_free(&b);
    printf("%d passed, %d failed\n", passed, failed);
    return failed != 0;
}
