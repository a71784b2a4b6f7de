/* Each call of library/c/brsp.h, in its range and out of it. It is C99 and C++11. The last line is `N passed, M failed`. */
#include "brsp.h"
#include "each_call.h"
#include <stdio.h>
#include <string.h>

static int passed, failed;

static void see(int line, const char *what, int is_right)
{
    passed += is_right;
    failed += !is_right;
    if (!is_right) printf("FAIL line %d: %s\n", line, what);
}
#define SEE(is_right) see(__LINE__, #is_right, (is_right) ? 1 : 0)

static const uint32_t ANY = 0xffffffffu;
static uint8_t image[4096];
static brsp_state state, other;

/* Assembles a text to 0 of IMEM. */
static void load(brsp_machine *m, const char *text)
{
    uint32_t words[1024];
    brsp_assembled out;
    SEE(brsp_assemble(0, (const uint8_t *)text, strlen(text), words, 1024, &out) == BRSP_OK);
    SEE(brsp_load_words(m, BRSP_IMEM, 0, words, out.count) == BRSP_OK);
}

#define ONE(n) 1
#define ROOM(n) room[n]
#define SEE_NONE(call, given) SEE(call given == BRSP_NO_MACHINE);

/* Each call on a handle that holds nothing, also with numbers that are out of their range. */
static void without_machine(void)
{
    static uint64_t room[4][128];
    brsp_machine none = BRSP_NONE, freed = BRSP_NONE, to = BRSP_NONE;
    brsp_session session = BRSP_NONE;
    brsp_machine *handles[2];
    brsp_stop stop;
    brsp_move move;
    brsp_reached reached;
    brsp_traced traced;
    uint32_t word = 0;
    uint8_t byte = 0;
    int i;
    SEE(brsp_new(&freed, image, 64, 0) == BRSP_OK);
    brsp_free(&freed);
    brsp_free(&freed);
    handles[0] = &none;
    handles[1] = &freed;
    for (i = 0; i < 2; i++) {
        brsp_machine *m = handles[i];
        EACH_CALL(SEE_NONE, m, &session, ONE, ROOM)
        SEE(brsp_load(m, 9, ANY, &byte, 1) == BRSP_NO_MACHINE);
        SEE(brsp_run(m, 0, &stop) == BRSP_NO_MACHINE);
        SEE(brsp_run_until_move(m, 0, ANY, ANY, &move) == BRSP_NO_MACHINE);
        SEE(brsp_event(m, 0, ANY, ANY, &reached) == BRSP_NO_MACHINE);
        SEE(brsp_trace(m, &traced, 0, &stop) == BRSP_NO_MACHINE);
        SEE(brsp_memory_words(m, 9, ANY, &word, SIZE_MAX) == BRSP_NO_MACHINE);
        SEE(brsp_copy(&to, m) == BRSP_NO_MACHINE && to.at == NULL);
        SEE(m->at == NULL);
    }
    SEE(room[0][0] == 0 && room[1][0] == 0);
}

static void lives(void)
{
    brsp_machine m = BRSP_NONE;
    uint32_t word = 0;
    static const size_t wrong[] = { 0, 1, 56, 63, 65, 68, 4092 };
    size_t i;
    SEE(brsp_version() == BRSP_VERSION);
    for (i = 0; i < sizeof wrong / sizeof *wrong; i++) SEE(brsp_new(&m, image, wrong[i], 0) == BRSP_OUT_OF_RANGE);
    SEE(brsp_new(&m, image, 8388616, 0) == BRSP_OUT_OF_RANGE && brsp_new(&m, image, SIZE_MAX, 0) == BRSP_OUT_OF_RANGE);
    SEE(brsp_new(&m, image, SIZE_MAX - 7, 0) == BRSP_OUT_OF_RANGE && brsp_new(&m, image, SIZE_MAX / 2 + 65, 4096) == BRSP_OUT_OF_RANGE);
    SEE(brsp_new(&m, image, 64, 4097) == BRSP_OUT_OF_RANGE);
    SEE(brsp_new(&m, image, 64, ANY) == BRSP_OUT_OF_RANGE);
    SEE(m.at == NULL);
    SEE(brsp_new(&m, image, 4096, 4096) == BRSP_OK);
    SEE(brsp_write(&m, 8, 77) == BRSP_OK);
    SEE(brsp_new(&m, image, 65, 0) == BRSP_OUT_OF_RANGE); /* the machine is kept */
    SEE(brsp_peek(&m, 8, &word) == BRSP_OK && word == 77);
    SEE(brsp_new(&m, image, 64, 0) == BRSP_OK); /* and freed for another */
    SEE(brsp_peek(&m, 8, &word) == BRSP_OK && word == 0);
    brsp_free(&m);
    SEE(m.at == NULL);
}

static void copies(void)
{
    brsp_machine m = BRSP_NONE, to = BRSP_NONE;
    brsp_stop stop;
    uint32_t word = 0;
    uint8_t bytes[8];
    size_t number;
    SEE(brsp_new(&m, image, 4096, 3) == BRSP_OK);
    load(&m, "addiu $1, $1, 1\naddiu $1, $1, 1\naddiu $1, $1, 1\naddiu $1, $1, 1\naddiu $1, $1, 1\nbreak\n");
    SEE(brsp_load(&m, BRSP_DMEM, 4088, (const uint8_t *)"DMEM-end", 8) == BRSP_OK);
    SEE(brsp_load(&m, BRSP_RDRAM, 4088, (const uint8_t *)"RDRAMend", 8) == BRSP_OK);
    SEE(brsp_step(&m) == BRSP_OK && brsp_add_break(&m, 12) == BRSP_OK && brsp_add_watch(&m, 0, 4, &number) == BRSP_OK);
    SEE(brsp_new(&to, image, 64, 0) == BRSP_OK && brsp_copy(&to, &m) == BRSP_OK); /* what it held is freed */
    SEE(brsp_get(&m, &state) == BRSP_OK && brsp_get(&to, &other) == BRSP_OK && !memcmp(state.words, other.words, sizeof state.words));
    SEE(other.pc == 4 && other.npc == 8 && other.words[1] == 1);
    SEE(brsp_memory(&to, BRSP_DMEM, 4088, bytes, 8) == BRSP_OK && !memcmp(bytes, "DMEM-end", 8));
    SEE(brsp_memory(&to, BRSP_RDRAM, 4088, bytes, 8) == BRSP_OK && !memcmp(bytes, "RDRAMend", 8));
    SEE(brsp_memory_words(&to, BRSP_IMEM, 20, &word, 1) == BRSP_OK && word == 0x0d);
    SEE(brsp_back(&to, 1) == BRSP_SHORT_HISTORY); /* its history is empty, and as long */
    SEE(brsp_drop_watch(&to, 0) == BRSP_NO_WATCH && brsp_drop_break(&to, 12) == BRSP_NO_BREAK);
    SEE(brsp_run(&to, 100, &stop) == BRSP_OK && stop.reason == BRSP_AT_HALT && stop.steps == 5);
    SEE(brsp_back(&to, 4) == BRSP_SHORT_HISTORY && brsp_back(&to, 3) == BRSP_OK);
    SEE(brsp_load(&to, BRSP_RDRAM, 4088, (const uint8_t *)"another.", 8) == BRSP_OK);
    SEE(brsp_memory(&m, BRSP_RDRAM, 4088, bytes, 8) == BRSP_OK && !memcmp(bytes, "RDRAMend", 8)); /* its own memory */
    SEE(brsp_run(&m, 100, &stop) == BRSP_OK && stop.reason == BRSP_AT_BREAK && stop.pc == 12); /* the first keeps its own */
    SEE(brsp_back(&m, 3) == BRSP_OK && brsp_reg(&m, 1, &word) == BRSP_OK && word == 0);
    brsp_free(&m);
    SEE(brsp_copy(&to, &m) == BRSP_NO_MACHINE && brsp_reg(&to, 1, &word) == BRSP_OK && word == 3);
    brsp_free(&to);
}

static void memories(void)
{
    brsp_machine m = BRSP_NONE;
    static uint8_t bytes[4096], found[4096];
    static uint32_t words[1025], got[1025];
    uint32_t bank;
    size_t i;
    for (i = 0; i < 4096; i++) bytes[i] = (uint8_t)(i * 7 + i / 256);
    for (i = 0; i < 1025; i++) words[i] = 0x01020304u + (uint32_t)i;
    SEE(brsp_new(&m, image, 4096, 0) == BRSP_OK);
    SEE(brsp_image_length(&m, &i) == BRSP_OK && i == 4096);
    for (bank = BRSP_DMEM; bank <= BRSP_RDRAM; bank++) {
        SEE(brsp_load(&m, bank, 0, bytes, 4096) == BRSP_OK);
        memset(found, 0, sizeof found);
        SEE(brsp_memory(&m, bank, 0, found, 4096) == BRSP_OK && !memcmp(found, bytes, 4096));
        SEE(brsp_memory(&m, bank, 4000, found, 96) == BRSP_OK && !memcmp(found, bytes + 4000, 96));
        SEE(brsp_memory(&m, bank, 17, found, 1000) == BRSP_OK && !memcmp(found, bytes + 17, 1000));
        SEE(brsp_memory(&m, bank, 4096, found, 0) == BRSP_OK);
        SEE(brsp_load(&m, bank, 4096, bytes, 0) == BRSP_OK);
        found[0] = 0xa5;
        SEE(brsp_memory(&m, bank, 1, found, 4096) == BRSP_OUT_OF_RANGE && found[0] == 0xa5);
        SEE(brsp_memory(&m, bank, 4097, found, 0) == BRSP_OUT_OF_RANGE);
        SEE(brsp_memory(&m, bank, ANY, found, 1) == BRSP_OUT_OF_RANGE);
        SEE(brsp_load(&m, bank, 4095, bytes + 1, 2) == BRSP_OUT_OF_RANGE);
        SEE(brsp_load(&m, bank, ANY, bytes, 2) == BRSP_OUT_OF_RANGE);
        SEE(brsp_load_words(&m, bank, 4093, words, 1) == BRSP_OUT_OF_RANGE);
        SEE(brsp_load_words(&m, bank, 0, words, 1025) == BRSP_OUT_OF_RANGE);
        SEE(brsp_memory(&m, bank, 0, found, 4096) == BRSP_OK && !memcmp(found, bytes, 4096));
        SEE(brsp_load_words(&m, bank, 8, words, 2) == BRSP_OK);
        SEE(brsp_memory(&m, bank, 7, found, 10) == BRSP_OK && found[0] == bytes[7] && found[9] == bytes[16]);
        SEE(!memcmp(found + 1, "\1\2\3\4\1\2\3\5", 8));
        SEE(brsp_memory_words(&m, bank, 8, got, 2) == BRSP_OK && got[0] == 0x01020304u && got[1] == 0x01020305u);
        SEE(brsp_memory_words(&m, bank, 9, got, 1) == BRSP_OK && got[0] == 0x02030401u);
        SEE(brsp_load_words(&m, bank, 0, words, 1024) == BRSP_OK);
        SEE(brsp_memory(&m, bank, 4092, found, 4) == BRSP_OK && !memcmp(found, "\1\2\7\3", 4));
        SEE(brsp_memory_words(&m, bank, 0, got, 1024) == BRSP_OK && !memcmp(got, words, 4096));
        for (i = 0; i < 1024; i += 31) {
            SEE(brsp_load_words(&m, bank, 0, got, 1024) == BRSP_OK && brsp_load_words(&m, bank, (uint32_t)(4 * i), words + 1, 1024 - i) == BRSP_OK);
            SEE(brsp_memory_words(&m, bank, 0, got, 1024) == BRSP_OK);
            SEE(!memcmp(got, words, 4 * i) && !memcmp(got + i, words + 1, 4096 - 4 * i));
            memcpy(got, words, 4096);
        }
        got[0] = 0xa5;
        SEE(brsp_load_words(&m, bank, 4096, words, 0) == BRSP_OK && brsp_memory_words(&m, bank, 4096, got, 0) == BRSP_OK);
        SEE(brsp_load_words(&m, bank, 4097, words, 0) == BRSP_OUT_OF_RANGE && brsp_memory_words(&m, bank, 4097, got, 0) == BRSP_OUT_OF_RANGE);
        SEE(brsp_memory_words(&m, bank, 0, got, 1025) == BRSP_OUT_OF_RANGE && brsp_memory_words(&m, bank, 4093, got, 1) == BRSP_OUT_OF_RANGE);
        SEE(brsp_memory_words(&m, bank, ANY, got, 1) == BRSP_OUT_OF_RANGE && brsp_load_words(&m, bank, ANY, words, 1) == BRSP_OUT_OF_RANGE);
        SEE(brsp_memory_words(&m, bank, 0, got, SIZE_MAX) == BRSP_OUT_OF_RANGE);
        SEE(brsp_load_words(&m, bank, 0, words, SIZE_MAX) == BRSP_OUT_OF_RANGE);
        SEE(brsp_memory_words(&m, bank, 0, got, SIZE_MAX / 4 + 1) == BRSP_OUT_OF_RANGE); /* four times it is 0 again */
        SEE(brsp_memory(&m, bank, 0, found, SIZE_MAX) == BRSP_OUT_OF_RANGE && brsp_load(&m, bank, 0, bytes, SIZE_MAX) == BRSP_OUT_OF_RANGE);
        SEE(got[0] == 0xa5);
    }
    SEE(brsp_memory_words(&m, 3, 0, got, 1) == BRSP_OUT_OF_RANGE);
    SEE(brsp_load(&m, 3, 0, bytes, 1) == BRSP_OUT_OF_RANGE);
    SEE(brsp_load_words(&m, ANY, 0, words, 1) == BRSP_OUT_OF_RANGE);
    SEE(brsp_memory(&m, 3, 0, found, 1) == BRSP_OUT_OF_RANGE);
    brsp_free(&m);
}

/* As many words as a memory has, from both ends of the largest image. */
static void many_words(void)
{
    enum { COUNT = 1 << 21 };
    static uint8_t large[4 * COUNT];
    static uint32_t words[COUNT + 1], got[COUNT];
    brsp_machine m = BRSP_NONE;
    size_t i, wrong = 0;
    for (i = 0; i <= COUNT; i++) words[i] = (uint32_t)i * 2654435761u;
    SEE(brsp_new(&m, large, sizeof large, 4) == BRSP_OK);
    SEE(brsp_load_words(&m, BRSP_RDRAM, 0, words, COUNT + 1) == BRSP_OUT_OF_RANGE && brsp_load_words(&m, BRSP_RDRAM, 1, words, COUNT) == BRSP_OUT_OF_RANGE);
    SEE(brsp_memory_words(&m, BRSP_RDRAM, 0, got, COUNT) == BRSP_OK);
    for (i = 0; i < COUNT; i++) wrong += got[i] != 0;
    SEE(wrong == 0);
    SEE(brsp_step(&m) == BRSP_OK && brsp_load_words(&m, BRSP_RDRAM, 0, words + 1, COUNT) == BRSP_OK && brsp_back(&m, 1) == BRSP_SHORT_HISTORY);
    SEE(brsp_memory(&m, BRSP_RDRAM, 0, large, sizeof large) == BRSP_OK);
    for (i = 0; i < COUNT; i++) {
        uint8_t *at = large + 4 * i;
        wrong += ((uint32_t)at[0] << 24 | (uint32_t)at[1] << 16 | (uint32_t)at[2] << 8 | at[3]) != words[i + 1];
    }
    SEE(wrong == 0);
    for (i = 60; i < 200; i++) { /* those around it stay */
        SEE(brsp_load_words(&m, BRSP_RDRAM, 4, words, i) == BRSP_OK && brsp_memory_words(&m, BRSP_RDRAM, 0, got, i + 2) == BRSP_OK);
        SEE(got[0] == words[1] && !memcmp(got + 1, words, 4 * i) && got[i + 1] == words[i + 2]);
    }
    SEE(brsp_load_words(&m, BRSP_DMEM, 0, words, 1025) == BRSP_OUT_OF_RANGE);
    brsp_free(&m);
}

static void steps(void)
{
    brsp_machine m = BRSP_NONE;
    brsp_stop stop;
    brsp_scalars scalars;
    uint32_t word = 0, i;
    size_t number = 9;
    SEE(brsp_new(&m, image, 64, 8) == BRSP_OK);
    load(&m, "addiu $1, $0, 3\nloop: addiu $1, $1, -1\nsw $1, 0x40($0)\nbne $1, $0, loop\nnop\nbreak\n");
    SEE(brsp_step(&m) == BRSP_OK);
    SEE(brsp_reg(&m, 1, &word) == BRSP_OK && word == 3);
    SEE(brsp_reg(&m, 32, &word) == BRSP_OUT_OF_RANGE);
    SEE(brsp_reg(&m, ANY, &word) == BRSP_OUT_OF_RANGE);
    SEE(brsp_back(&m, 2) == BRSP_SHORT_HISTORY);
    SEE(brsp_back(&m, 0) == BRSP_OUT_OF_RANGE);
    SEE(brsp_back(&m, 1000001) == BRSP_OUT_OF_RANGE);
    SEE(brsp_back(&m, 1) == BRSP_OK);
    SEE(brsp_regs(&m, &scalars) == BRSP_OK && scalars.pc == 0 && scalars.npc == 4 && scalars.words[1] == 0);
    SEE(brsp_run(&m, 0, &stop) == BRSP_OUT_OF_RANGE);
    SEE(brsp_run(&m, 1000001, &stop) == BRSP_OUT_OF_RANGE);
    SEE(brsp_run(&m, 2, &stop) == BRSP_OK && stop.reason == BRSP_AT_LIMIT && stop.steps == 2 && stop.pc == 8);

    SEE(brsp_add_break(&m, 16) == BRSP_OK);
    SEE(brsp_add_break(&m, 16) == BRSP_BREAK_TWICE);
    SEE(brsp_add_break(&m, 18) == BRSP_OUT_OF_RANGE);
    SEE(brsp_add_break(&m, 4096) == BRSP_OUT_OF_RANGE);
    SEE(brsp_add_break(&m, 65536 + 16) == BRSP_OUT_OF_RANGE);
    SEE(brsp_run(&m, 100, &stop) == BRSP_OK && stop.reason == BRSP_AT_BREAK && stop.steps == 2 && stop.pc == 16);
    SEE(brsp_drop_break(&m, 16) == BRSP_OK);
    SEE(brsp_drop_break(&m, 16) == BRSP_NO_BREAK);
    SEE(brsp_drop_break(&m, 15) == BRSP_OUT_OF_RANGE);
    for (i = 0; i < 16; i++) SEE(brsp_add_break(&m, 2048 + 4 * i) == BRSP_OK);
    SEE(brsp_add_break(&m, 1024) == BRSP_BREAK_FULL);

    SEE(brsp_add_watch(&m, 0x80, 64, &number) == BRSP_OK && number == 0);
    SEE(brsp_add_watch(&m, 0x43, 1, &number) == BRSP_OK && number == 1);
    SEE(brsp_add_watch(&m, 4096, 1, &number) == BRSP_OUT_OF_RANGE);
    SEE(brsp_add_watch(&m, 0, 0, &number) == BRSP_OUT_OF_RANGE);
    SEE(brsp_add_watch(&m, 0, 65, &number) == BRSP_OUT_OF_RANGE);
    SEE(brsp_add_watch(&m, ANY, ANY, &number) == BRSP_OUT_OF_RANGE);
    SEE(brsp_run(&m, 100, &stop) == BRSP_OK && stop.reason == BRSP_AT_WATCH && stop.watch == 1 && stop.steps == 3 && stop.pc == 12);
    SEE(brsp_drop_watch(&m, 1) == BRSP_OK);
    SEE(brsp_drop_watch(&m, 1) == BRSP_NO_WATCH);
    SEE(brsp_drop_watch(&m, 8) == BRSP_NO_WATCH);
    SEE(brsp_drop_watch(&m, ANY) == BRSP_NO_WATCH);
    for (i = 1; i < 8; i++) SEE(brsp_add_watch(&m, 0xf00 + i, 1, &number) == BRSP_OK && number == i);
    SEE(brsp_add_watch(&m, 0, 1, &number) == BRSP_WATCH_FULL);

    SEE(brsp_run(&m, 100, &stop) == BRSP_OK && stop.reason == BRSP_AT_HALT && stop.pc == 24);
    SEE(brsp_step(&m) == BRSP_HALTED);
    SEE(brsp_back(&m, 1) == BRSP_OK);
    SEE(brsp_step(&m) == BRSP_OK);
    SEE(brsp_write(&m, 4, 1) == BRSP_OK); /* clears halted */
    SEE(brsp_back(&m, 1) == BRSP_SHORT_HISTORY);
    word = 0xffffffffu;
    SEE(brsp_load_words(&m, BRSP_IMEM, 24, &word, 1) == BRSP_OK);
    SEE(brsp_step(&m) == BRSP_RESERVED);
    SEE(brsp_run(&m, 5, &stop) == BRSP_OK && stop.reason == BRSP_AT_RESERVED && stop.steps == 0 && stop.pc == 24 && stop.word == 0xffffffffu);
    SEE(brsp_write(&m, 4, 2) == BRSP_OK); /* halted goes before reserved */
    SEE(brsp_run(&m, 5, &stop) == BRSP_OK && stop.reason == BRSP_AT_HALT && stop.steps == 0 && stop.word == 0);
    SEE(brsp_write(&m, 4, 1) == BRSP_OK);
    SEE(brsp_set_pc(&m, 2) == BRSP_OUT_OF_RANGE);
    SEE(brsp_set_pc(&m, 4096) == BRSP_OUT_OF_RANGE);
    SEE(brsp_set_pc(&m, 65536) == BRSP_OUT_OF_RANGE);
    SEE(brsp_set_pc(&m, 4092) == BRSP_OK);
    SEE(brsp_regs(&m, &scalars) == BRSP_OK && scalars.pc == 4092 && scalars.npc == 0);
    brsp_free(&m);
}

static void looks(void)
{
    brsp_machine m = BRSP_NONE;
    brsp_lanes lanes;
    brsp_accumulators acc;
    brsp_flag_bits flags;
    brsp_divide_state divider;
    brsp_stop stop;
    SEE(brsp_new(&m, image, 64, 0) == BRSP_OK);
    load(&m, "ori $1, $0, 0x8001\nmtc2 $1, $v1[2]\nvmudh $v2, $v1, $v1[1]\nvaddc $v3, $v1, $v1[1]\nori $2, $0, 0x0f3c\nctc2 $2, $vcc\n"
             "ori $2, $0, 0x5a\nctc2 $2, $vce\nvrcph $v4[0], $v1[1]\nbreak\n");
    SEE(brsp_run(&m, 100, &stop) == BRSP_OK && stop.reason == BRSP_AT_HALT);
    SEE(brsp_vreg(&m, 1, &lanes) == BRSP_OK && lanes.lanes[0] == 0 && lanes.lanes[1] == 0x8001 && lanes.lanes[7] == 0);
    SEE(brsp_vreg(&m, 32, &lanes) == BRSP_OUT_OF_RANGE);
    SEE(brsp_vreg(&m, 256, &lanes) == BRSP_OUT_OF_RANGE);
    /* (-32767) * (-32767) * 65536 is 3fff 0001 0000; vaddc then leaves 8001 + 8001 and a carry in lane 1 */
    SEE(brsp_acc(&m, &acc) == BRSP_OK && acc.high[1] == 0x3fff && acc.middle[1] == 1 && acc.high[0] == 0 && acc.middle[7] == 0);
    SEE(brsp_flags(&m, &flags) == BRSP_OK && flags.carry == 2 && flags.differ == 0);
    SEE(flags.compare == 0x3c && flags.clip == 0x0f && flags.extra == 0x5a);
    SEE(brsp_divider(&m, &divider) == BRSP_OK && divider.input == 0x8001 && divider.loaded == 1);
    brsp_free(&m);
}

static void sp_registers(void)
{
    brsp_machine m = BRSP_NONE;
    uint32_t word = 9;
    uint8_t bytes[8];
    int i;
    for (i = 0; i < 64; i++) image[i] = (uint8_t)i;
    SEE(brsp_new(&m, image, 64, 0) == BRSP_OK);
    SEE(brsp_peek(&m, 7, &word) == BRSP_OK && word == 0);
    SEE(brsp_read(&m, 7, &word) == BRSP_OK && word == 0);
    SEE(brsp_peek(&m, 7, &word) == BRSP_OK && word == 1);
    SEE(brsp_read(&m, 23, &word) == BRSP_OK && word == 1);
    SEE(brsp_write(&m, 7, ANY) == BRSP_OK);
    SEE(brsp_peek(&m, 16 + 7, &word) == BRSP_OK && word == 0);
    SEE(brsp_write(&m, ANY, 5) == BRSP_OK); /* register 15 */
    SEE(brsp_read(&m, 15, &word) == BRSP_OK && word == 5);
    SEE(brsp_write(&m, 0, 0x100) == BRSP_OK && brsp_write(&m, 1, 16) == BRSP_OK && brsp_write(&m, 2, 7) == BRSP_OK);
    SEE(brsp_memory(&m, BRSP_DMEM, 0x100, bytes, 8) == BRSP_OK && bytes[0] == 16 && bytes[7] == 23);
    SEE(brsp_read(&m, 0, &word) == BRSP_OK && word == 0x108);
    brsp_free(&m);
}

/* The CPU's writes on a machine whose host moves the bytes of DMAs. */
static void dma_writes(void)
{
    static brsp_dma none; /* zeros */
    brsp_machine m = BRSP_NONE;
    brsp_dma dma;
    brsp_sp_words sp;
    uint8_t bytes[64];
    size_t number = 9;
    uint32_t word = 0;
    SEE(brsp_new(&m, image, 64, 4) == BRSP_OK && brsp_step(&m) == BRSP_OK);
    memset(&dma, 0xa5, sizeof dma);
    SEE(brsp_write_dma(&m, 0, 0xffff5105, &dma) == BRSP_OK && !memcmp(&dma, &none, sizeof dma) && brsp_history(&m, &number) == BRSP_OK && number == 0);
    SEE(brsp_write_dma(&m, 1, 19, &dma) == BRSP_OK && brsp_peek(&m, 0, &word) == BRSP_OK && word == 0x1100 && brsp_peek(&m, 1, &word) == BRSP_OK && word == 16);
    SEE(brsp_step(&m) == BRSP_OK && brsp_write_dma(&m, ANY - 13, 0x00801007, &dma) == BRSP_OK); /* register 2: two rows, and a skip of 8 */
    SEE(dma.bank == BRSP_IMEM && dma.address == 0x100 && dma.rdram == 16 && dma.length == 8 && dma.rows == 2 && dma.skip == 8 && dma.to_rdram == 0);
    SEE(brsp_memory(&m, BRSP_IMEM, 0x100, bytes, 16) == BRSP_OK && bytes[0] == 0 && bytes[15] == 0 && brsp_history(&m, &number) == BRSP_OK && number == 0);
    SEE(brsp_peek(&m, 0, &word) == BRSP_OK && word == 0x1110 && brsp_peek(&m, 1, &word) == BRSP_OK && word == 40 && brsp_peek(&m, 3, &word) == BRSP_OK && word == 0x00800ff8);
    SEE(brsp_write_dma(&m, 3, 0xfff, &dma) == BRSP_OK && dma.bank == BRSP_IMEM && dma.address == 0x110 && dma.rdram == 40 && dma.length == 4096 && dma.rows == 1);
    SEE(dma.skip == 0 && dma.to_rdram == 1 && brsp_memory(&m, BRSP_RDRAM, 0, bytes, 64) == BRSP_OK && !memcmp(bytes, image, 64));
    SEE(brsp_peek(&m, 0, &word) == BRSP_OK && word == 0x1110 && brsp_peek(&m, 1, &word) == BRSP_OK && word == 4136);
    SEE(brsp_write_dma(&m, 4, 0x12, &dma) == BRSP_OK && !memcmp(&dma, &none, sizeof dma) && brsp_sp(&m, &sp) == BRSP_OK);
    SEE(sp.words[4] == 1 && sp.interrupt == 1); /* it has set halted and the interrupt flag */
    brsp_free(&m);
}

#define REFUSED_SP(change) do { brsp_sp_words bad = sp; change; SEE(brsp_set_sp(&m, &bad) == BRSP_OUT_OF_RANGE); } while (0)

static void sp_at_once(void)
{
    brsp_machine m = BRSP_NONE;
    brsp_sp_words sp, got;
    uint32_t word = 0;
    uint32_t n;
    SEE(brsp_new(&m, image, 64, 4) == BRSP_OK);
    SEE(brsp_step(&m) == BRSP_OK && brsp_sp(&m, &sp) == BRSP_OK && sp.words[2] == 0xff8 && sp.words[3] == 0xff8 && sp.interrupt == 0);
    SEE(brsp_back(&m, 1) == BRSP_OK && brsp_step(&m) == BRSP_OK); /* a look keeps the history */
    sp.words[0] = 0x1ff8, sp.words[1] = 0xfffff8, sp.words[2] = sp.words[3] = 0x038u << 20 | 0xff8, sp.words[4] = 0x50e2, sp.words[7] = 1;
    for (n = 8; n < 16; n++) sp.words[n] = 0xd0000000u + n;
    sp.interrupt = 1;
    SEE(brsp_set_sp(&m, &sp) == BRSP_OK && brsp_back(&m, 1) == BRSP_SHORT_HISTORY);
    memset(&got, 0, sizeof got);
    SEE(brsp_sp(&m, &got) == BRSP_OK && !memcmp(&got, &sp, sizeof sp));
    for (n = 0; n < 16; n++) SEE(brsp_peek(&m, n, &word) == BRSP_OK && word == sp.words[n]);
    SEE(brsp_get(&m, &state) == BRSP_OK && !memcmp(state.sp, sp.words, sizeof state.sp) && state.interrupt == 1 && state.pc == 4);
    REFUSED_SP(bad.words[0] = 4);
    REFUSED_SP(bad.words[0] = 0x2000);
    REFUSED_SP(bad.words[1] = 0x1000000);
    REFUSED_SP(bad.words[1] = 1);
    REFUSED_SP(bad.words[2] = 0);
    REFUSED_SP(bad.words[3] = 0xff8);
    REFUSED_SP(bad.words[2] = bad.words[3] = 0x001u << 20 | 0xff8);
    REFUSED_SP(bad.words[4] = 4);
    REFUSED_SP(bad.words[4] = 0x8000);
    REFUSED_SP(bad.words[5] = 1);
    REFUSED_SP(bad.words[6] = 1);
    REFUSED_SP(bad.words[7] = 2);
    REFUSED_SP(bad.interrupt = 2);
    memset(&got, 0, sizeof got);
    SEE(brsp_sp(&m, &got) == BRSP_OK && !memcmp(&got, &sp, sizeof sp));
    brsp_free(&m);
}

static void passes(void)
{
    brsp_machine m = BRSP_NONE;
    brsp_scalars scalars;
    uint32_t word = 0;
    SEE(brsp_new(&m, image, 64, 4) == BRSP_OK);
    load(&m, "nop\nmfc0 $3, $c7\nmtc0 $3, $c2\nmfc0 $0, $c4\nnop\nbreak\n");
    SEE(brsp_pass_move(&m, 9) == BRSP_OTHER_WORD && brsp_step(&m) == BRSP_OK);
    SEE(brsp_pass_move(&m, 0xfedcba98u) == BRSP_OK); /* takes no semaphore */
    SEE(brsp_regs(&m, &scalars) == BRSP_OK && scalars.pc == 8 && scalars.npc == 12 && scalars.words[3] == 0xfedcba98u);
    SEE(brsp_peek(&m, 7, &word) == BRSP_OK && word == 0);
    SEE(brsp_back(&m, 1) == BRSP_SHORT_HISTORY);
    SEE(brsp_pass_move(&m, 1) == BRSP_OK); /* no DMA, and no register is written */
    SEE(brsp_regs(&m, &scalars) == BRSP_OK && scalars.pc == 12 && scalars.words[3] == 0xfedcba98u && scalars.words[1] == 0);
    SEE(brsp_peek(&m, 2, &word) == BRSP_OK && word == 0xff8);
    SEE(brsp_write(&m, 4, 0x40) == BRSP_OK); /* sets single step */
    SEE(brsp_pass_move(&m, 5) == BRSP_OK && brsp_reg(&m, 0, &word) == BRSP_OK && word == 0);
    SEE(brsp_peek(&m, 4, &word) == BRSP_OK && word == 0x21); /* it has halted */
    SEE(brsp_pass_move(&m, 5) == BRSP_HALTED && brsp_regs(&m, &scalars) == BRSP_OK && scalars.pc == 16);
    SEE(brsp_set_pc(&m, 4) == BRSP_OK && brsp_pass_move(&m, 5) == BRSP_HALTED);
    brsp_free(&m);
}

static void moves(void)
{
    brsp_machine m = BRSP_NONE;
    brsp_move at;
    uint32_t word = 0;
    SEE(brsp_new(&m, image, 64, 8) == BRSP_OK);
    load(&m, "ori $4, $0, 0x1238\nmfc0 $3, $c7\nmtc0 $4, $c2\nmfc0 $5, $c2\nnop\nbreak\n");
    SEE(brsp_run_until_move(&m, 0, 0, 0, &at) == BRSP_OUT_OF_RANGE && brsp_run_until_move(&m, 1000001, 0, 0, &at) == BRSP_OUT_OF_RANGE);
    SEE(brsp_run_until_move(&m, 1, 65536, 0, &at) == BRSP_OUT_OF_RANGE && brsp_run_until_move(&m, 1, 0, 65536, &at) == BRSP_OUT_OF_RANGE);
    SEE(brsp_run_until_move(&m, 1, ANY, 0, &at) == BRSP_OUT_OF_RANGE && brsp_run_until_move(&m, 1, 0, ANY, &at) == BRSP_OUT_OF_RANGE);
    SEE(brsp_run_until_move(&m, 100, 1 << 7, 1 << 2, &at) == BRSP_OK && at.stop.reason == BRSP_AT_MOVE && at.stop.steps == 1 && at.stop.pc == 4);
    SEE(at.word == 0x40033800u && at.number == 7 && at.writes == 0 && at.value == 0 && at.stop.word == 0 && at.stop.watch == 0);
    SEE(brsp_run_until_move(&m, 1, 1 << 7, 0, &at) == BRSP_OK && at.stop.reason == BRSP_AT_MOVE && at.stop.steps == 0); /* before the first step */
    SEE(brsp_peek(&m, 7, &word) == BRSP_OK && word == 0);
    SEE(brsp_add_break(&m, 8) == BRSP_OK && brsp_run_until_move(&m, 100, 0, 1 << 2, &at) == BRSP_OK); /* a breakpoint comes first */
    SEE(at.stop.reason == BRSP_AT_BREAK && at.stop.steps == 1 && at.stop.pc == 8 && at.word == 0 && at.number == 0 && at.value == 0);
    SEE(brsp_drop_break(&m, 8) == BRSP_OK && brsp_run_until_move(&m, 100, 1 << 2, 1 << 2, &at) == BRSP_OK);
    SEE(at.stop.reason == BRSP_AT_MOVE && at.stop.steps == 0 && at.word == 0x40841000u && at.number == 2 && at.writes == 1 && at.value == 0x1238);
    SEE(brsp_back(&m, 2) == BRSP_OK && brsp_run_until_move(&m, 2, 0, 1 << 2, &at) == BRSP_OK && at.stop.reason == BRSP_AT_MOVE); /* it comes before the limit */
    SEE(brsp_write(&m, 4, 2) == BRSP_OK && brsp_run_until_move(&m, 5, ANY >> 16, ANY >> 16, &at) == BRSP_OK && at.stop.reason == BRSP_AT_HALT);
    SEE(brsp_write(&m, 4, 1) == BRSP_OK && brsp_run_until_move(&m, 1, ANY >> 16, 0, &at) == BRSP_OK && at.stop.reason == BRSP_AT_MOVE);
    SEE(at.stop.steps == 1 && at.word == 0x40051000u && at.number == 2 && at.writes == 0); /* MTC0 isn't asked for, MFC0 is */
    SEE(brsp_run_until_move(&m, 100, 0, ANY >> 16, &at) == BRSP_OK && at.stop.reason == BRSP_AT_HALT && at.stop.steps == 3);
    word = 0xffffffffu;
    SEE(brsp_load_words(&m, BRSP_IMEM, 0, &word, 1) == BRSP_OK && brsp_set_pc(&m, 0) == BRSP_OK && brsp_write(&m, 4, 1) == BRSP_OK);
    SEE(brsp_run_until_move(&m, 1, 1, 1, &at) == BRSP_OK && at.stop.reason == BRSP_AT_RESERVED && at.stop.word == word && at.word == 0);
    brsp_free(&m);
}

static void events(void)
{
    brsp_machine m = BRSP_NONE;
    brsp_reached event, kept;
    brsp_scalars scalars;
    brsp_stop stop;
    size_t number = 9;
    uint32_t word = 0;
    SEE(brsp_new(&m, image, 4096, 8) == BRSP_OK);
    load(&m, "ori $1, $0, 0x1f80\nmtc0 $1, $c0\nlui $2, 0xff\nmtc0 $2, $c1\nlui $3, 0x0180\nori $3, $3, 0x7007\nmfc0 $4, $c6\nmtc0 $3, $c3\nmtc0 $3, $c2\nbreak\n");
    memset(&event, 0xa5, sizeof event);
    memcpy(&kept, &event, sizeof event);
    SEE(brsp_event(&m, 0, 0, 0, &event) == BRSP_OUT_OF_RANGE && brsp_event(&m, 1000001, 0, 0, &event) == BRSP_OUT_OF_RANGE);
    SEE(brsp_event(&m, 1, 65536, 0, &event) == BRSP_OUT_OF_RANGE && brsp_event(&m, 1, 0, 131072, &event) == BRSP_OUT_OF_RANGE);
    SEE(brsp_event(&m, ANY, ANY, ANY, &event) == BRSP_OUT_OF_RANGE && !memcmp(&event, &kept, sizeof event));
    SEE(brsp_pass_dma(&m) == BRSP_OTHER_WORD && brsp_history(&m, &number) == BRSP_OK && number == 0);
    SEE(brsp_event(&m, 7, 0, 0, &event) == BRSP_OK && event.at.stop.reason == BRSP_AT_LIMIT && event.at.stop.steps == 7 && event.at.stop.pc == 28); /* a DMA is next */
    SEE(event.at.word == 0 && event.at.number == 0 && event.at.writes == 0 && event.at.value == 0 && event.dma.length == 0 && event.dma.rows == 0 && event.status == 0 && event.interrupt == 0);
    SEE(brsp_history(&m, &number) == BRSP_OK && number == 7 && brsp_back(&m, 7) == BRSP_OK && brsp_history(&m, &number) == BRSP_OK && number == 0);
    SEE(brsp_event(&m, 8, 1 << 6, 0, &event) == BRSP_OK && event.at.stop.reason == BRSP_AT_MOVE && event.at.stop.steps == 6 && event.at.number == 6 && event.at.writes == 0 && event.dma.length == 0);
    SEE(brsp_pass_move(&m, 77) == BRSP_OK && brsp_event(&m, 1, 0, 0, &event) == BRSP_OK && event.at.stop.reason == BRSP_AT_DMA && event.at.stop.steps == 0 && event.at.stop.pc == 28);
    SEE(event.at.word == 0x40831800u && event.at.number == 3 && event.at.writes == 1 && event.at.value == 0x01807007u && event.at.stop.watch == 0 && event.at.stop.word == 0);
    SEE(event.dma.bank == BRSP_IMEM && event.dma.address == 0xf80 && event.dma.rdram == 0xff0000 && event.dma.length == 8 && event.dma.rows == 8 && event.dma.skip == 24 && event.dma.to_rdram == 1);
    SEE(brsp_write(&m, 4, 0x410) == BRSP_OK && brsp_event(&m, 1, 0, ANY >> 16, &event) == BRSP_OK && event.status == 0x80 && event.interrupt == 1);
    SEE(brsp_pass_dma(&m) == BRSP_OK && brsp_event(&m, 1, 0, 0, &event) == BRSP_OK && event.at.stop.reason == BRSP_AT_DMA && event.at.number == 2 && event.at.stop.pc == 32);
    SEE(event.dma.address == 0xfc0 && event.dma.rdram == 0xff00e8 && event.dma.to_rdram == 0); /* eight rows, and seven skips of 24 */
    SEE(brsp_peek(&m, 0, &word) == BRSP_OK && word == 0x1fc0 && brsp_peek(&m, 1, &word) == BRSP_OK && word == 0xff00e8);
    SEE(brsp_peek(&m, 2, &word) == BRSP_OK && word == 0x1800ff8 && brsp_peek(&m, 3, &word) == BRSP_OK && word == 0x1800ff8);
    SEE(brsp_write(&m, 4, 0x40) == BRSP_OK && brsp_pass_dma(&m) == BRSP_OK && brsp_pass_dma(&m) == BRSP_HALTED); /* single step */
    SEE(brsp_regs(&m, &scalars) == BRSP_OK && scalars.pc == 36 && scalars.npc == 40 && scalars.words[4] == 77);
    SEE(brsp_write(&m, 4, 0x21) == BRSP_OK && brsp_pass_dma(&m) == BRSP_OTHER_WORD && brsp_run(&m, 5, &stop) == BRSP_OK && stop.steps == 1);
    SEE(brsp_history(&m, &number) == BRSP_OK && number == 1 && brsp_event(&m, 5, 0, 0, &event) == BRSP_OK && event.at.stop.reason == BRSP_AT_HALT && event.status == 0x83);
    brsp_free(&m);
}

static void labels(void)
{
    static const char text[] = "first: nop\nnop\n  a_name_that_has_thirty_two_bytes: beq $0, $0, last\nnop # here: none\nlast:\n";
    static const char faulty[] = "a: j b\n";
    brsp_label found[4], kept[4];
    size_t count = 9;
    const uint8_t *at = (const uint8_t *)text;
    memset(found, 0xa5, sizeof found);
    memcpy(kept, found, sizeof found);
    SEE(brsp_labels(2, at, strlen(text), found, 4, &count) == BRSP_OUT_OF_RANGE && brsp_labels(4100, at, strlen(text), found, 4, &count) == BRSP_OUT_OF_RANGE);
    SEE(brsp_labels(ANY, at, strlen(text), found, 4, &count) == BRSP_OUT_OF_RANGE && brsp_labels(4084, at, strlen(text), found, 4, &count) == BRSP_NO_MEANING);
    SEE(brsp_labels(0, (const uint8_t *)faulty, strlen(faulty), found, 4, &count) == BRSP_NO_MEANING);
    SEE(brsp_labels(0, (const uint8_t *)"a:\xff", 3, found, 4, &count) == BRSP_NO_MEANING && count == 9);
    SEE(brsp_labels(8, at, strlen(text), found, 2, &count) == BRSP_NO_ROOM && count == 3 && !memcmp(found, kept, sizeof found));
    SEE(brsp_labels(8, at, strlen(text), found, 0, &count) == BRSP_NO_ROOM && count == 3);
    SEE(brsp_labels(8, at, strlen(text), found, 4, &count) == BRSP_OK && count == 3 && !memcmp(found + 3, kept + 3, sizeof *kept));
    SEE(found[0].address == 8 && found[0].len == 5 && !strcmp(found[0].name, "first"));
    SEE(found[1].address == 16 && found[1].len == 32 && !strcmp(found[1].name, "a_name_that_has_thirty_two_bytes"));
    SEE(found[2].address == 24 && found[2].len == 4 && !strcmp(found[2].name, "last") && found[2].name[35] == 0);
    SEE(brsp_labels(0, at, 0, found, 4, &count) == BRSP_OK && count == 0);
}

static int is_entry(const brsp_traced *t, uint16_t pc, uint8_t scalar, uint32_t value, uint8_t vector)
{
    return t->pc == pc && t->scalar == scalar && t->value == value && t->vector == vector;
}

static void traces(void)
{
    brsp_machine m = BRSP_NONE, steps = BRSP_NONE;
    static brsp_traced t[16], blank;
    brsp_stop stop;
    uint32_t words[16];
    size_t number;
    int i;
    memset(&blank, 0xee, sizeof blank);
    memset(t, 0xee, sizeof t);
    SEE(brsp_new(&m, image, 64, 4) == BRSP_OK);
    load(&m, "ori $1, $0, 0x8001\nsw $1, 0x1044($0)\nmtc2 $1, $v1[2]\nvaddc $v2, $v1, $v1\nsqv $v2[0], 32($0)\nltv $v9[0], 0($0)\n"
             "addu $0, $1, $1\nmtc0 $1, $c8\nmfc0 $3, $c8\njal end\nctc2 $1, $vcc\nend: break\n");
    SEE(brsp_memory_words(&m, BRSP_IMEM, 0, words, 12) == BRSP_OK && brsp_copy(&steps, &m) == BRSP_OK);
    SEE(brsp_trace(&m, t, 0, &stop) == BRSP_OUT_OF_RANGE && brsp_trace(&m, t, 1000001, &stop) == BRSP_OUT_OF_RANGE);
    SEE(brsp_trace(&m, t, SIZE_MAX, &stop) == BRSP_OUT_OF_RANGE && !memcmp(t, &blank, sizeof blank));
    SEE(brsp_trace(&m, t, 16, &stop) == BRSP_OK && stop.reason == BRSP_AT_HALT && stop.steps == 12 && stop.pc == 0x30);
    for (i = 0; i < 12; i++) SEE(t[i].word == words[i] && (t[i].stored || t[i].address == 0));
    for (i = 12; i < 16; i++) SEE(!memcmp(&t[i], &blank, sizeof blank));
    SEE(is_entry(&t[0], 0, 1, 0x8001, 32) && !t[0].stored && t[0].lanes[0] == 0 && t[0].vco == 0 && t[0].vcc == 0 && t[0].vce == 0);
    SEE(is_entry(&t[1], 4, 0, 0, 32) && t[1].stored == 1 && t[1].address == 0x44);
    SEE(is_entry(&t[2], 8, 0, 0, 1) && t[2].lanes[0] == 0 && t[2].lanes[1] == 0x8001 && t[2].lanes[7] == 0);
    SEE(is_entry(&t[3], 12, 0, 0, 2) && t[3].lanes[1] == 2 && t[3].vco == 2 && t[2].vco == 0); /* 8001 + 8001 carries in lane 1 */
    SEE(is_entry(&t[4], 16, 0, 0, 32) && t[4].stored == 1 && t[4].address == 32 && t[4].vco == 2);
    SEE(is_entry(&t[5], 20, 0, 0, 8)); /* the first of the group of $v9 */
    SEE(is_entry(&t[6], 24, 0, 0, 32) && is_entry(&t[7], 28, 0, 0, 32) && is_entry(&t[8], 32, 3, 0x8001, 32));
    SEE(is_entry(&t[9], 36, 31, 0x2c, 32) && is_entry(&t[10], 40, 0, 0, 32) && t[10].vcc == 0x8001 && is_entry(&t[11], 44, 0, 0, 32));
    for (i = 0; i < 12; i++) SEE(brsp_step(&steps) == BRSP_OK);
    SEE(brsp_get(&m, &state) == BRSP_OK && brsp_get(&steps, &other) == BRSP_OK && !memcmp(&state, &other, sizeof state));
    SEE(brsp_back(&m, 5) == BRSP_SHORT_HISTORY && brsp_back(&m, 4) == BRSP_OK && brsp_back(&steps, 4) == BRSP_OK);
    SEE(brsp_get(&m, &state) == BRSP_OK && brsp_get(&steps, &other) == BRSP_OK && !memcmp(&state, &other, sizeof state));
    SEE(brsp_set_pc(&m, 0) == BRSP_OK && brsp_add_break(&m, 12) == BRSP_OK && brsp_add_watch(&m, 0x47, 1, &number) == BRSP_OK);
    SEE(brsp_load(&m, BRSP_DMEM, 0x47, (const uint8_t *)"", 1) == BRSP_OK && brsp_trace(&m, t, 16, &stop) == BRSP_OK);
    SEE(stop.reason == BRSP_AT_WATCH && stop.steps == 2 && stop.watch == number && is_entry(&t[1], 4, 0, 0, 32));
    SEE(brsp_trace(&m, t, 16, &stop) == BRSP_OK && stop.reason == BRSP_AT_BREAK && stop.steps == 1 && t[0].pc == 8);
    SEE(brsp_trace(&m, t, 1, &stop) == BRSP_OK && stop.reason == BRSP_AT_LIMIT && stop.steps == 1 && t[0].pc == 12);
    brsp_free(&m);
    brsp_free(&steps);
}

/* A state after a step, by what the step changed of the state before it. */
static void change(brsp_state *s, uint8_t *dmem, const brsp_changes *by)
{
    s->words[by->traced.scalar] = by->traced.value;
    if (by->traced.vector < 32) memcpy(s->vectors[by->traced.vector], by->traced.lanes, 16);
    s->accumulators = by->accumulators;
    s->flags.carry = (uint8_t)(by->traced.vco & 255);
    s->flags.differ = (uint8_t)(by->traced.vco >> 8);
    s->flags.compare = (uint8_t)(by->traced.vcc & 255);
    s->flags.clip = (uint8_t)(by->traced.vcc >> 8);
    s->flags.extra = by->traced.vce;
    s->divider = by->divider;
    s->pc = by->pc;
    s->npc = by->npc;
    if (by->traced.stored) {
        memcpy(dmem + by->quadword, by->bytes[0], 16);
        memcpy(dmem + (by->quadword + 16) % 4096, by->bytes[1], 16);
    }
}

/* A machine that is stepped so beside another one that is stepped, and traced. */
static void changes(void)
{
    static const uint8_t zeros[32] = { 0 };
    brsp_machine m = BRSP_NONE, steps = BRSP_NONE, traced = BRSP_NONE;
    brsp_changes by, blank;
    brsp_traced entry;
    brsp_stop stop;
    uint8_t dmem[4096], found[4096];
    uint32_t word = 0xffffffffu;
    size_t i;
    int k;
    for (i = 0; i < 4096; i++) dmem[i] = (uint8_t)(i * 7 + i / 256);
    memset(&blank, 0xee, sizeof blank);
    by = blank;
    SEE(sizeof by == 128 && brsp_new(&m, image, 64, 2) == BRSP_OK && brsp_load(&m, BRSP_DMEM, 0, dmem, 4096) == BRSP_OK);
    load(&m, "ori $1, $0, 0x8001\nsw $1, 0x1ffd($0)\nmtc2 $1, $v1[2]\nlqv $v3[0], 16($0)\nvaddc $v2, $v1, $v3\nvmudh $v4, $v3, $v2\n"
             "vrcph $v5[3], $v3[1]\nvrcpl $v5[2], $v3[4]\nvch $v6, $v3, $v2\nsrv $v3[3], -16($1)\nsqv $v3[0], 16($1)\nspv $v2[0], -8($0)\n"
             "stv $v0[4], 32($0)\nshv $v3[1], -16($0)\nsb $1, -1($0)\njal 0x44\nsdv $v3[2], -8($0)\naddu $0, $1, $1\n");
    SEE(brsp_copy(&steps, &m) == BRSP_OK && brsp_copy(&traced, &m) == BRSP_OK && brsp_get(&m, &state) == BRSP_OK);
    for (k = 0; k < 18; k++) {
        SEE(brsp_step_changes(&m, &by) == BRSP_OK && brsp_step(&steps) == BRSP_OK && brsp_trace(&traced, &entry, 1, &stop) == BRSP_OK);
        SEE(!memcmp(&by.traced, &entry, sizeof entry) && by.quadword == (entry.address & 0xff0) && (entry.stored || !memcmp(by.bytes, zeros, 32)));
        change(&state, dmem, &by);
        SEE(brsp_get(&m, &other) == BRSP_OK && !memcmp(&state, &other, sizeof state) && brsp_memory(&m, BRSP_DMEM, 0, found, 4096) == BRSP_OK);
        SEE(!memcmp(dmem, found, 4096) && brsp_get(&steps, &other) == BRSP_OK && !memcmp(&state, &other, sizeof state));
        SEE(brsp_memory(&steps, BRSP_DMEM, 0, found, 4096) == BRSP_OK && !memcmp(dmem, found, 4096));
        if (k == 1) SEE(by.quadword == 0xff0 && !memcmp(by.bytes[0] + 13, "\0\0\200", 3) && by.bytes[1][0] == 1 && by.bytes[1][1] == 7);
        if (k == 6) SEE(by.divider.loaded == 1 && by.divider.input == 0x7e85);
        if (k == 7) SEE(by.divider.loaded == 0);
        if (k == 15) SEE(by.pc == 0x40 && by.npc == 0x44 && by.traced.scalar == 31 && by.traced.value == 0x44);
    }
    SEE(brsp_back(&m, 3) == BRSP_SHORT_HISTORY && brsp_back(&m, 2) == BRSP_OK && brsp_back(&steps, 2) == BRSP_OK);
    SEE(brsp_get(&m, &state) == BRSP_OK && brsp_get(&steps, &other) == BRSP_OK && !memcmp(&state, &other, sizeof state));
    by = blank;
    SEE(brsp_write(&m, 4, 2) == BRSP_OK && brsp_step_changes(&m, &by) == BRSP_HALTED && !memcmp(&by, &blank, sizeof by));
    SEE(brsp_load_words(&m, BRSP_IMEM, 0, &word, 1) == BRSP_OK && brsp_set_pc(&m, 0) == BRSP_OK && brsp_write(&m, 4, 1) == BRSP_OK);
    SEE(brsp_step_changes(&m, &by) == BRSP_RESERVED && !memcmp(&by, &blank, sizeof by));
    brsp_free(&m);
    brsp_free(&steps);
    brsp_free(&traced);
}

static void tasks(void)
{
    brsp_machine m = BRSP_NONE;
    static uint8_t ram[256];
    uint8_t bytes[4];
    uint32_t word = 0;
    ram[64 + 8 + 3] = 128; /* ucode_boot is at 128 */
    ram[64 + 12 + 3] = 8;  /* and has 8 bytes */
    memcpy(ram + 128, "\x34\x02\x12\x34\0\0\0\x0d", 8);
    SEE(brsp_new(&m, ram, sizeof ram, 0) == BRSP_OK);
    SEE(brsp_start_task(&m, 4) == BRSP_TASK_PLACE);
    SEE(brsp_start_task(&m, 200) == BRSP_TASK_PLACE);
    SEE(brsp_start_task(&m, ANY) == BRSP_TASK_PLACE);
    SEE(brsp_start_task(&m, 0) == BRSP_TASK_SIZE);
    SEE(brsp_start_task(&m, 64) == BRSP_OK);
    SEE(brsp_memory(&m, BRSP_DMEM, 0xfc8, bytes, 4) == BRSP_OK && bytes[3] == 128);
    SEE(brsp_step(&m) == BRSP_OK && brsp_reg(&m, 2, &word) == BRSP_OK && word == 0x1234);
    SEE(brsp_step(&m) == BRSP_OK && brsp_step(&m) == BRSP_HALTED);
    brsp_free(&m);
}

/* A state in which each number is another. */
static void fill(brsp_state *s)
{
    int n, i;
    memset(s, 0, sizeof *s);
    for (n = 1; n < 32; n++) s->words[n] = 0x01010101u * (uint32_t)n;
    for (n = 0; n < 32; n++) for (i = 0; i < 8; i++) s->vectors[n][i] = (uint16_t)(n * 256 + i * 17);
    for (i = 0; i < 8; i++) {
        s->accumulators.high[i] = (uint16_t)(0x8000 + i);
        s->accumulators.middle[i] = (uint16_t)(0x9000 + i);
        s->accumulators.low[i] = (uint16_t)(0xa000 + i);
    }
    s->flags.carry = 1, s->flags.differ = 2, s->flags.compare = 0x84, s->flags.clip = 8, s->flags.extra = 0x90;
    s->divider.input = 0x1111, s->divider.output = 0x2222, s->divider.loaded = 1;
    s->pc = 0x120, s->npc = 0xffc;
    s->sp[0] = 0x1ff8, s->sp[1] = 0xfffff8, s->sp[2] = s->sp[3] = 0x038u << 20 | 0xff8, s->sp[4] = 0x50e2, s->sp[7] = 1;
    for (n = 8; n < 16; n++) s->sp[n] = 0xd0000000u + (uint32_t)n;
    s->interrupt = 1;
}

static int is_same(const brsp_state *a, const brsp_state *b)
{
    return !memcmp(a, b, sizeof *a);
}

#define REFUSED(change, field) do { \
    brsp_state bad = state; \
    uint32_t told = 99; \
    change; \
    SEE(brsp_set(&m, &bad) == BRSP_OUT_OF_RANGE); \
    SEE(brsp_state_fault(&bad, &told) == BRSP_OK && told == (field)); \
} while (0)

static void states(void)
{
    brsp_machine m = BRSP_NONE;
    brsp_scalars scalars;
    brsp_lanes lanes;
    brsp_accumulators acc;
    uint32_t word = 0;
    uint8_t bytes[4] = { 1, 2, 3, 4 };
    SEE(brsp_new(&m, image, 64, 4) == BRSP_OK);
    SEE(brsp_get(&m, &state) == BRSP_OK && state.pc == 0 && state.npc == 4 && state.sp[2] == 0xff8 && state.sp[3] == 0xff8);
    SEE(brsp_load(&m, BRSP_DMEM, 8, bytes, 4) == BRSP_OK);
    SEE(brsp_step(&m) == BRSP_OK);
    fill(&state);
    state.zero = 0x77; /* it isn't read */
    SEE(brsp_state_fault(&state, &word) == BRSP_OK && word == BRSP_FIELD_NONE);
    SEE(brsp_set(&m, &state) == BRSP_OK);
    state.zero = 0;
    SEE(brsp_back(&m, 1) == BRSP_SHORT_HISTORY);
    memset(&other, 0xee, sizeof other);
    SEE(brsp_get(&m, &other) == BRSP_OK && is_same(&state, &other));
    SEE(brsp_regs(&m, &scalars) == BRSP_OK && scalars.pc == 0x120 && scalars.npc == 0xffc && scalars.words[31] == 0x1f1f1f1f);
    SEE(brsp_vreg(&m, 31, &lanes) == BRSP_OK && lanes.lanes[7] == 31 * 256 + 7 * 17);
    SEE(brsp_acc(&m, &acc) == BRSP_OK && acc.high[7] == 0x8007 && acc.middle[0] == 0x9000 && acc.low[3] == 0xa003);
    SEE(brsp_peek(&m, 4, &word) == BRSP_OK && word == 0x50e2);
    SEE(brsp_memory(&m, BRSP_DMEM, 8, bytes, 4) == BRSP_OK && bytes[3] == 4);

    SEE(brsp_state_fault(&state, &word) == BRSP_OK && word == BRSP_FIELD_NONE);
    REFUSED(bad.words[0] = 1, BRSP_FIELD_ZERO);
    REFUSED(bad.pc = 2, BRSP_FIELD_PC);
    REFUSED(bad.pc = 4096, BRSP_FIELD_PC);
    REFUSED(bad.npc = 0xffff, BRSP_FIELD_NPC);
    REFUSED(bad.divider.loaded = 2, BRSP_FIELD_LOADED);
    REFUSED(bad.interrupt = 2, BRSP_FIELD_INTERRUPT);
    REFUSED(bad.sp[0] = 4, BRSP_FIELD_SP);
    REFUSED(bad.sp[0] = 0x2000, BRSP_FIELD_SP);
    REFUSED(bad.sp[1] = 0x1000000, BRSP_FIELD_SP + 1);
    REFUSED(bad.sp[1] = 1, BRSP_FIELD_SP + 1);
    REFUSED(bad.sp[2] = 0, BRSP_FIELD_SP + 2);
    REFUSED(bad.sp[3] = 0xff8, BRSP_FIELD_SP + 3);
    REFUSED(bad.sp[2] = bad.sp[3] = 0x001u << 20 | 0xff8, BRSP_FIELD_SP + 2);
    REFUSED(bad.sp[4] = 4, BRSP_FIELD_SP + 4);
    REFUSED(bad.sp[4] = 0x8000, BRSP_FIELD_SP + 4);
    REFUSED(bad.sp[5] = 1, BRSP_FIELD_SP + 5);
    REFUSED(bad.sp[6] = 1, BRSP_FIELD_SP + 6);
    REFUSED(bad.sp[7] = 2, BRSP_FIELD_SP + 7);
    REFUSED(bad.sp[7] = bad.words[0] = 2, BRSP_FIELD_ZERO); /* the first of two */
    memset(&other, 0xee, sizeof other);
    SEE(brsp_get(&m, &other) == BRSP_OK && is_same(&state, &other));
    brsp_free(&m);
}

/* The operand of a refused text: its number, its kind, its range. Expected are the ranges of docs/ASSEMBLY.md. */
static void explanations(void)
{
    static const struct {
        const char *text;
        size_t number;
        uint32_t kind, step;
        int64_t low, high;
    } texts[] = {
        { "nop\n", 0, BRSP_OPERAND_NOTHING, 0, 0, 0 },
        { "nop\nfoo $1\n", 0, BRSP_OPERAND_NOTHING, 0, 0, 0 },
        { "nop $1", 1, BRSP_OPERAND_NOTHING, 0, 0, 0 },
        { ".word 1, 4294967296", 2, BRSP_OPERAND_WORD, 1, -2147483647 - 1, 4294967295 },
        { "jr $v1", 1, BRSP_OPERAND_SCALAR, 0, 0, 0 },
        { "nop\nsll $1, $2, 32", 3, BRSP_OPERAND_SHIFT, 1, 0, 31 },
        { "addiu $1, $2, 65536", 3, BRSP_OPERAND_IMMEDIATE, 1, -32768, 65535 },
        { "lui $1, $2", 2, BRSP_OPERAND_IMMEDIATE, 1, -32768, 65535 },
        { "j 4096", 1, BRSP_OPERAND_JUMP, 4, 0, 4092 },
        { "bne $1, $2, nowhere", 3, BRSP_OPERAND_BRANCH, 4, 0, 4092 },
        { "lw $1, 65536($2)", 2, BRSP_OPERAND_SCALAR_MEMORY, 1, -32768, 65535 },
        { "lqv $v1[0], 0x460($0)", 2, BRSP_OPERAND_VECTOR_MEMORY, 16, -1024, 1008 },
        { "sbv $v1[0], 64($0)", 2, BRSP_OPERAND_VECTOR_MEMORY, 1, -64, 63 },
        { "mtc0 $1, $2", 2, BRSP_OPERAND_SP, 0, 0, 0 },
        { "ctc2 $1, $2", 2, BRSP_OPERAND_CONTROL, 0, 0, 0 },
        { "vadd $v1, $2, $v3", 2, BRSP_OPERAND_VECTOR, 0, 0, 0 },
        { "mfc2 $1, $v2[16]", 2, BRSP_OPERAND_VECTOR_BYTE, 0, 0, 0 },
        { "vadd $v1, $v2, $v3[8]", 3, BRSP_OPERAND_VECTOR_ELEMENT, 0, 0, 0 },
        { "vrcp $v1, $v2[0]", 1, BRSP_OPERAND_VECTOR_LANE, 0, 0, 0 }
    };
    brsp_operand out;
    size_t i;
    for (i = 0; i < sizeof texts / sizeof *texts; i++) {
        memset(&out, 0xee, sizeof out);
        SEE(brsp_explain(0, (const uint8_t *)texts[i].text, strlen(texts[i].text), &out) == BRSP_OK);
        SEE(out.number == texts[i].number && out.kind == texts[i].kind && out.step == texts[i].step);
        SEE(out.low == texts[i].low && out.high == texts[i].high);
    }
    out.number = 99;
    SEE(brsp_explain(2, (const uint8_t *)"jr", 2, &out) == BRSP_OUT_OF_RANGE && out.number == 99);
    SEE(brsp_explain(4100, (const uint8_t *)"jr", 2, &out) == BRSP_OUT_OF_RANGE && out.number == 99);
    SEE(brsp_explain(0, (const uint8_t *)"\xff", 1, &out) == BRSP_NO_MEANING && out.number == 99);
    SEE(brsp_explain(4096, (const uint8_t *)"jr", 2, &out) == BRSP_OK && out.number == 1);
}

/* What is said of texts and of replies, by the headings of docs/FAULTS.md, in a buffer that is filled only as far as it is said. */
static void said(void)
{
    static const char text[] = "nop\nfoo $1\nj x\n", script[] = "asm 0x80\nnop\nj x\nend\nmem\n", fault[] = "fault 15 LabelMissing line 2\n";
    static const char first[] = "line 2: fault 11 UnknownName line 2\n  ", block[] = "line 9: fault 15 LabelMissing line 2\n  ";
    static const char line[] = "line 7: fault 30 BadCommand\n  ", open[] = "line 4: fault 10 BadLine line 3\n  ";
    const uint8_t *at = (const uint8_t *)text, *lines = (const uint8_t *)script, *reply = (const uint8_t *)fault;
    uint8_t out[1000], kept[1000];
    size_t count = 9, whole;
    memset(out, 0xa5, sizeof out);
    memcpy(kept, out, sizeof out);
    SEE(brsp_explain_text(2, at, strlen(text), out, sizeof out, &count) == BRSP_OUT_OF_RANGE && count == 9);
    SEE(brsp_explain_text(4100, at, strlen(text), out, sizeof out, &count) == BRSP_OUT_OF_RANGE && count == 9);
    SEE(brsp_explain_text(0, (const uint8_t *)"\xff", 1, out, sizeof out, &count) == BRSP_NO_MEANING && count == 9);
    SEE(brsp_explain_text(0, at, strlen(text), out, 0, &count) == BRSP_NO_ROOM && count > strlen(first) && count < sizeof out);
    whole = count;
    SEE(brsp_explain_text(0, at, strlen(text), out, whole - 1, &count) == BRSP_NO_ROOM && count == whole && !memcmp(out, kept, sizeof out));
    SEE(brsp_explain_text(0, at, strlen(text), out, whole, &count) == BRSP_OK && count == whole && !memcmp(out, first, strlen(first)));
    SEE(out[whole - 1] == '\n' && !memcmp(out + whole, kept + whole, sizeof out - whole));
    SEE(brsp_explain_text(4096, (const uint8_t *)"", 0, out, sizeof out, &count) == BRSP_OK && count == 0);
    SEE(brsp_explain_text(0, (const uint8_t *)"nop", 3, out, 0, &count) == BRSP_OK && count == 0);
    memcpy(out, kept, sizeof out);
    SEE(brsp_explain_reply(6, lines, 21, reply, strlen(fault), out, 0, &count) == BRSP_NO_ROOM && count > strlen(block) && count < sizeof out);
    whole = count;
    SEE(brsp_explain_reply(6, lines, 21, reply, strlen(fault), out, whole - 1, &count) == BRSP_NO_ROOM && count == whole && !memcmp(out, kept, sizeof out));
    SEE(brsp_explain_reply(6, lines, 21, reply, strlen(fault), out, whole, &count) == BRSP_OK && count == whole && !memcmp(out, block, strlen(block)));
    SEE(!memcmp(out + whole, kept + whole, sizeof out - whole));
    SEE(brsp_explain_reply(6, lines + 21, 4, (const uint8_t *)"fault 30 BadCommand", 19, out, sizeof out, &count) == BRSP_OK && !memcmp(out, line, strlen(line)));
    SEE(brsp_explain_reply(0, lines, 17, (const uint8_t *)"fault 10 BadLine line 3\n", 24, out, sizeof out, &count) == BRSP_OK && !memcmp(out, open, strlen(open)));
    SEE(brsp_explain_reply(0, lines + 21, 4, (const uint8_t *)"ok\n", 3, out, sizeof out, &count) == BRSP_OK && count == 0);
    SEE(brsp_explain_reply(0, (const uint8_t *)"# no\n", 5, reply, strlen(fault), out, sizeof out, &count) == BRSP_OK && count == 0);
    SEE(brsp_explain_reply(0, lines, 0, reply, strlen(fault), out, sizeof out, &count) == BRSP_OK && count == 0);
}

static void texts(void)
{
    brsp_machine m = BRSP_NONE;
    uint32_t words[4] = { 9, 9, 9, 9 };
    brsp_assembled out;
    brsp_line line, lines[3];
    static brsp_line many[1025];
    const char *good = "nop\nvadd $v1, $v2, $v3[1q]\nbreak\n";
    const uint8_t *text = (const uint8_t *)good;
    SEE(brsp_assemble(0, text, strlen(good), words, 2, &out) == BRSP_NO_ROOM && words[0] == 9);
    memset(&out, 0xee, sizeof out);
    SEE(brsp_assemble(0, text, strlen(good), words, 0, &out) == BRSP_NO_ROOM && out.count == 3 && out.line == 0 && out.fault == 0);
    SEE(brsp_assemble(2, text, strlen(good), words, 4, &out) == BRSP_OUT_OF_RANGE && words[0] == 9);
    SEE(brsp_assemble(4100, text, strlen(good), words, 4, &out) == BRSP_OUT_OF_RANGE);
    SEE(brsp_assemble(4096, text, 0, words, 4, &out) == BRSP_OK && out.count == 0);
    SEE(brsp_assemble(4092, text, strlen(good), words, 4, &out) == BRSP_NO_MEANING && out.line == 2 && out.fault == 16);
    SEE(brsp_assemble(0, (const uint8_t *)"nop\nfoo $1\n", 11, words, 4, &out) == BRSP_NO_MEANING && out.line == 2 && out.fault == 11);
    SEE(brsp_assemble(0, (const uint8_t *)"nop\n\xff\n", 6, words, 4, &out) == BRSP_NO_MEANING && out.fault == 33);
    SEE(words[0] == 9);
    explanations();
    said();
    SEE(brsp_assemble(0, text, strlen(good), words, 4, &out) == BRSP_OK && out.count == 3 && out.line == 0 && out.fault == 0);
    SEE(words[0] == 0 && words[1] == 0x4a631050u && words[2] == 0x0d && words[3] == 9);
    memset(&line, 0xee, sizeof line);
    SEE(brsp_text(words[1], 4, &line) == BRSP_OK && !strcmp(line.text, "vadd $v1, $v2, $v3[1q]") && line.len == 22);
    SEE(line.text[67] == 0 && line.word == words[1] && line.address == 4);
    SEE(brsp_text(0x1000ffffu, 0, &line) == BRSP_OK && !strcmp(line.text, "beq $0, $0, 0x000"));
    SEE(brsp_text(0xffffffffu, 0, &line) == BRSP_OK && !strcmp(line.text, ".word 0xffffffff") && line.len == 16);
    SEE(brsp_text(0, 4096, &line) == BRSP_OUT_OF_RANGE);
    SEE(brsp_text(0, 6, &line) == BRSP_OUT_OF_RANGE);
    SEE(brsp_new(&m, image, 64, 0) == BRSP_OK);
    SEE(brsp_load_words(&m, BRSP_IMEM, 4084, words, 3) == BRSP_OK);
    SEE(brsp_listing(&m, 4084, lines, 3) == BRSP_OK);
    SEE(!strcmp(lines[0].text, "nop") && !strcmp(lines[1].text, "vadd $v1, $v2, $v3[1q]") && !strcmp(lines[2].text, "break"));
    SEE(lines[0].address == 4084 && lines[2].address == 4092 && lines[2].word == 0x0d && lines[2].len == 5);
    SEE(brsp_listing(&m, 4088, lines, 3) == BRSP_OUT_OF_RANGE);
    SEE(brsp_listing(&m, 4096, lines, 0) == BRSP_OUT_OF_RANGE);
    SEE(brsp_listing(&m, 2, lines, 1) == BRSP_OUT_OF_RANGE);
    SEE(brsp_listing(&m, ANY, lines, 1) == BRSP_OUT_OF_RANGE);
    SEE(brsp_listing(&m, 0, lines, 0) == BRSP_OK);
    SEE(!strcmp(lines[0].text, "nop"));
    SEE(brsp_listing(&m, 0, many, 1025) == BRSP_OUT_OF_RANGE);
    SEE(brsp_listing(&m, 0, many, 1024) == BRSP_OK && !strcmp(many[1023].text, "break") && many[1023].address == 4092);
    brsp_free(&m);
}

static uint8_t reply[BRSP_REPLIES];
static size_t used, written;

/* What a session replies to bytes, which are taken in one call. */
static int replies(brsp_session *b, const char *bytes, const char *wanted)
{
    size_t len = strlen(bytes);
    uint32_t status = brsp_session_take(b, (const uint8_t *)bytes, len, &used, reply, sizeof reply, &written);
    return status == BRSP_OK && used == len && written == strlen(wanted) && !memcmp(reply, wanted, written);
}

/* And to the end of input. */
static int ends(brsp_session *b, const char *wanted)
{
    uint32_t status = brsp_session_end(b, reply, sizeof reply, &written);
    return status == BRSP_OK && written == strlen(wanted) && !memcmp(reply, wanted, written);
}

/* A take or an end is refused with this status, and fills nothing. */
static int refuses(brsp_session *b, size_t len, size_t capacity, uint32_t status)
{
    used = written = 77;
    memset(reply, 0x55, sizeof reply);
    if (brsp_session_take(b, image, len, &used, reply, capacity, &written) != status) return 0;
    return used == 77 && written == 77 && reply[0] == 0x55 && reply[sizeof reply - 1] == 0x55;
}

static int refuses_end(brsp_session *b, size_t capacity, uint32_t status)
{
    written = 77;
    memset(reply, 0x55, sizeof reply);
    if (brsp_session_end(b, reply, capacity, &written) != status) return 0;
    return written == 77 && reply[0] == 0x55 && reply[sizeof reply - 1] == 0x55;
}

static void without_session(void)
{
    brsp_session none = BRSP_NONE, freed = BRSP_NONE;
    brsp_session *handles[2];
    uint8_t byte = 7;
    int i;
    SEE(brsp_session_new(&freed, image, 64) == BRSP_OK && freed.at != NULL);
    brsp_session_free(&freed);
    brsp_session_free(&freed);
    handles[0] = &none;
    handles[1] = &freed;
    for (i = 0; i < 2; i++) {
        SEE(refuses(handles[i], 1, sizeof reply, BRSP_NO_MACHINE) && refuses(handles[i], 0, 0, BRSP_NO_MACHINE));
        SEE(refuses_end(handles[i], sizeof reply, BRSP_NO_MACHINE) && refuses_end(handles[i], 0, BRSP_NO_MACHINE));
        SEE(brsp_session_memory(handles[i], BRSP_DMEM, 0, &byte, 1) == BRSP_NO_MACHINE && byte == 7);
        SEE(handles[i]->at == NULL);
    }
}

static void sessions(void)
{
    static const size_t wrong[] = { 0, 1, 56, 63, 65, 68, 4092, 8388616, SIZE_MAX, SIZE_MAX - 7 };
    brsp_session b = BRSP_NONE;
    uint8_t bytes[4];
    size_t i;
    memset(image, 0, sizeof image);
    for (i = 0; i < sizeof wrong / sizeof *wrong; i++) SEE(brsp_session_new(&b, image, wrong[i]) == BRSP_OUT_OF_RANGE);
    SEE(b.at == NULL && brsp_session_new(&b, image, 4096) == BRSP_OK);
    SEE(replies(&b, "", "") && replies(&b, "st", "") && replies(&b, "ep\n", "step Done pc 004\n"));
    SEE(replies(&b, "step\r", "") && replies(&b, "\n", "step Done pc 008\n"));
    SEE(replies(&b, "\n", "") && replies(&b, "# nothing\n", ""));
    SEE(brsp_session_new(&b, image, 65) == BRSP_OUT_OF_RANGE); /* the session is kept */
    SEE(replies(&b, "step\n", "step Done pc 00c\n"));
    SEE(brsp_session_take(&b, (const uint8_t *)"step\nstep\n", 10, &used, reply, sizeof reply, &written) == BRSP_OK);
    SEE(used == 5 && written == 17 && !memcmp(reply, "step Done pc 010\n", 17));
    SEE(refuses(&b, 1, BRSP_REPLIES - 1, BRSP_NO_ROOM) && refuses(&b, 0, 0, BRSP_NO_ROOM));
    SEE(refuses_end(&b, BRSP_REPLIES - 1, BRSP_NO_ROOM) && refuses_end(&b, 0, BRSP_NO_ROOM));
    SEE(replies(&b, "load rdram 0xffe 0a0b\n", "ok\n") && replies(&b, "load dmem 0 0c\n", "ok\n"));
    SEE(brsp_session_memory(&b, BRSP_RDRAM, 4092, bytes, 4) == BRSP_OK && !memcmp(bytes, "\0\0\x0a\x0b", 4));
    SEE(brsp_session_memory(&b, BRSP_DMEM, 0, bytes, 1) == BRSP_OK && bytes[0] == 12);
    SEE(brsp_session_memory(&b, BRSP_RDRAM, 4093, bytes, 4) == BRSP_OUT_OF_RANGE && bytes[0] == 12);
    SEE(brsp_session_memory(&b, BRSP_RDRAM, ANY, bytes, 4) == BRSP_OUT_OF_RANGE);
    SEE(brsp_session_memory(&b, 3, 0, bytes, 1) == BRSP_OUT_OF_RANGE && bytes[0] == 12);
    SEE(replies(&b, "asm 0\n", "") && replies(&b, "nop\n", "") && replies(&b, "nop", ""));
    SEE(ends(&b, "fault 10 BadLine line 3\n")); /* a block of two lines was open */
    SEE(refuses(&b, 1, sizeof reply, BRSP_ENDED) && refuses(&b, 0, sizeof reply, BRSP_ENDED));
    SEE(refuses_end(&b, sizeof reply, BRSP_ENDED) && refuses(&b, 1, 0, BRSP_NO_ROOM));
    SEE(brsp_session_memory(&b, BRSP_DMEM, 0, bytes, 1) == BRSP_OK && bytes[0] == 12);
    SEE(brsp_session_new(&b, image, 64) == BRSP_OK); /* and freed for another */
    SEE(replies(&b, "asm 0\n", "") && replies(&b, "nop\n", "") && replies(&b, "end\n", "ok 1 words\n"));
    SEE(replies(&b, "step", "") && ends(&b, "step Done pc 004\n"));
    brsp_session_free(&b);
    SEE(b.at == NULL);
}

/* A script has at most 1048576 bytes: here they are zeros, with no LF. */
static void longest_script(void)
{
    static const uint8_t zeros[4096] = { 0 };
    brsp_session b = BRSP_NONE, full = BRSP_NONE;
    uint8_t byte = 7;
    size_t n;
    SEE(brsp_session_new(&b, image, 64) == BRSP_OK && brsp_session_new(&full, image, 64) == BRSP_OK);
    SEE(replies(&b, "step\n", "step Done pc 004\n") && replies(&full, "step\n", "step Done pc 004\n"));
    for (n = 5; n < 1048576; n += used) {
        size_t len = 1048577 - n < sizeof zeros ? 1048577 - n : sizeof zeros; /* the last call gets a byte more */
        SEE(brsp_session_take(&b, zeros, len, &used, reply, sizeof reply, &written) == BRSP_OK && written == 0);
        SEE(used == (n + len > 1048576 ? len - 1 : len));
        SEE(brsp_session_take(&full, zeros, used, &used, reply, sizeof reply, &written) == BRSP_OK && written == 0);
    }
    SEE(replies(&b, "", "") && refuses(&b, 1, 0, BRSP_NO_ROOM) && refuses(&b, 1, sizeof reply, BRSP_TOO_LONG));
    SEE(refuses(&b, 1, sizeof reply, BRSP_TOO_LONG) && refuses(&b, 0, sizeof reply, BRSP_TOO_LONG));
    SEE(refuses_end(&b, sizeof reply, BRSP_TOO_LONG) && refuses_end(&b, 0, BRSP_NO_ROOM));
    SEE(brsp_session_memory(&b, BRSP_DMEM, 0, &byte, 1) == BRSP_OK && byte == 0);
    SEE(ends(&full, "fault 32 LineTooLong\n"));
    brsp_session_free(&b);
    brsp_session_free(&full);
}

int main(void)
{
    without_machine();
    lives();
    copies();
    memories();
    many_words();
    steps();
    looks();
    sp_registers();
    sp_at_once();
    passes();
    moves();
    dma_writes();
    events();
    labels();
    traces();
    changes();
    tasks();
    states();
    texts();
    without_session();
    sessions();
    longest_script();
#ifndef QUIET
    printf("%d passed, %d failed\n", passed, failed);
#endif
    return failed != 0;
}
