/* A program that owns the RDRAM and the SP registers, except SP_STATUS, runs a task on a machine whose image nobody reads: it answers each
 * transfer by brsp_run_until_move and brsp_pass_move, and moves the bytes of each DMA itself. It ends with the memories and the scalar registers of a
 * machine that has the RDRAM inside and runs alone. SP_STATUS is the machine's, because BREAK and single step change it too.
 * The last line is `N passed, M failed`. */
#include "brsp.h"
#include <stdio.h>
#include <string.h>

static const char task[] =
    "ori $1, $0, 0x40\nmtc0 $1, $c0\nori $1, $0, 0x100\nmtc0 $1, $c1\nlui $1, 0x0180\nori $1, $1, 0x7007\nmtc0 $1, $c2\n" /* 8 rows of 8 bytes, skip 24 */
    "wait: mfc0 $2, $c6\nbne $2, $0, wait\nnop\n"
    "ori $5, $0, 4\nori $4, $0, 0x40\nloop: lqv $v1[0], 0($4)\nvaddc $v1, $v1, $v1\nsqv $v1[0], 0($4)\naddiu $5, $5, -1\nbne $5, $0, loop\naddiu $4, $4, 16\n"
    "mfc0 $6, $c0\nmfc0 $7, $c1\nmfc0 $8, $c7\nmfc0 $9, $c7\nmtc0 $0, $c7\nmfc0 $10, $c7\n"
    "ori $1, $0, 0x40\nmtc0 $1, $c0\nori $1, $0, 0x800\nmtc0 $1, $c1\nori $1, $0, 0x103f\nmtc0 $1, $c3\n" /* 2 rows of 64 bytes */
    "ori $1, $0, 0x1f80\nmtc0 $1, $c0\nori $1, $0, 0x100\nmtc0 $1, $c1\nori $1, $0, 0x3f\nmtc0 $1, $c2\n" /* into IMEM */
    "mtc0 $4, $c8\nmfc0 $11, $c8\nbreak\n";

/* It halts itself, and goes through single steps; in comments is where it halts. */
static const char halting[] =
    "ori $1, $0, 0x400\nmtc0 $1, $c4\nmfc0 $2, $c4\n"   /* sets signal 0 */
    "ori $1, $0, 0x102\nmtc0 $1, $c4\nmfc0 $3, $c4\n"   /* sets intbreak, and halts: next is 014 */
    "ori $1, $0, 0x40\nmtc0 $1, $c4\nmfc0 $4, $c4\n"    /* sets single step: next is 020, 024 */
    "ori $1, $0, 0x220\nmtc0 $1, $c4\nmfc0 $5, $c4\n"   /* 028; clears single step and signal 0, and so doesn't halt */
    "break\n";                                           /* next is 034 */
enum { SP_STATUS = 4, CLEAR_HALTED = 1 };

static brsp_machine m = BRSP_NONE, alone = BRSP_NONE;
static uint8_t rdram[4096], kept[4096];
static uint32_t registers[16];
static int passed, failed;

static void see(const char *what, int is_right)
{
    passed += is_right;
    failed += !is_right;
    if (!is_right) printf("FAIL %s\n", what);
}

/* The DMA that a write of a length register starts: rows of bytes, with a skip between them in RDRAM. */
static void move_bytes(uint32_t value, int into_rdram)
{
    uint32_t bank = registers[0] >> 12, sp = registers[0] & 0xff8, dram = registers[1], row, i;
    uint32_t length = (value & 0xff8) + 8, rows = (value >> 12 & 0xff) + 1, skip = value >> 20 & 0xff8;
    for (row = 0; row < rows; row++, dram += row < rows ? skip : 0) {
        for (i = 0; i < length; i += 8, sp = (sp + 8) & 0xff8, dram += 8) {
            if (into_rdram) brsp_memory(&m, bank, sp, rdram + dram, 8);
            else brsp_load(&m, bank, sp, rdram + dram, 8);
        }
    }
    registers[0] = bank << 12 | sp;
    registers[1] = dram;
    registers[2] = registers[3] = skip << 20 | 0xff8;
}

static void write_register(uint32_t number, uint32_t value)
{
    if (number == 0) registers[0] = value & 0x1ff8;
    else if (number == 1) registers[1] = value & 0xfffff8;
    else if (number < 4) move_bytes(value, number == 3);
    else if (number == 7) registers[7] = 0;
    else if (number >= 8) registers[number] = value;
}

static uint32_t read_register(uint32_t number)
{
    uint32_t value = registers[number];
    if (number == 7) registers[7] = 1;
    return value;
}

/* Runs up to a halt, and returns how many transfers there were. The machine makes those of SP_STATUS itself. */
static int run_to_halt(void)
{
    brsp_move at;
    int transfers = 0;
    while (brsp_run_until_move(&m, 1000000, 0xffff, 0xffff, &at) == BRSP_OK && at.stop.reason == BRSP_AT_MOVE) {
        uint32_t value = at.writes ? 0 : read_register(at.number);
        if (at.number != SP_STATUS && at.writes) write_register(at.number, at.value);
        if (at.number == SP_STATUS) brsp_step(&m);
        else brsp_pass_move(&m, value);
        transfers++;
    }
    see("the task halts", at.stop.reason == BRSP_AT_HALT);
    return transfers;
}

/* The words of a text, in both machines. */
static void load_text(const char *text)
{
    uint32_t words[256];
    brsp_assembled out;
    see("the text", brsp_assemble(0, (const uint8_t *)text, strlen(text), words, 256, &out) == BRSP_OK);
    see("the words", brsp_load_words(&m, BRSP_IMEM, 0, words, out.count) == BRSP_OK && brsp_load_words(&alone, BRSP_IMEM, 0, words, out.count) == BRSP_OK);
}

static void see_same_registers(void)
{
    brsp_scalars here, there;
    see("registers", brsp_regs(&m, &here) == BRSP_OK && brsp_regs(&alone, &there) == BRSP_OK && !memcmp(&here, &there, sizeof here));
}

static void test_task(void)
{
    static uint8_t one[4096], other[4096];
    brsp_stop stop;
    load_text(task);
    see("18 transfers", run_to_halt() == 18);
    see("the machine alone", brsp_run(&alone, 1000000, &stop) == BRSP_OK && stop.reason == BRSP_AT_HALT);
    for (uint32_t bank = BRSP_DMEM; bank <= BRSP_IMEM; bank++) {
        see("a memory", brsp_memory(&m, bank, 0, one, 4096) == BRSP_OK && brsp_memory(&alone, bank, 0, other, 4096) == BRSP_OK);
        see(bank == BRSP_DMEM ? "DMEM" : "IMEM", !memcmp(one, other, 4096));
    }
    see("RDRAM", brsp_memory(&alone, BRSP_RDRAM, 0, other, 4096) == BRSP_OK && !memcmp(rdram, other, 4096) && memcmp(rdram, kept, 4096));
    see_same_registers();
}

/* Where microcode halts that writes SP_STATUS; the program clears halted each time. */
static void test_halts(void)
{
    static const struct { uint32_t pc, status, interrupt; } halts[] = {
        { 0x14, 0xc1, 0 }, { 0x20, 0xe1, 0 }, { 0x24, 0xe1, 0 }, { 0x28, 0xe1, 0 }, { 0x34, 0x43, 1 }
    };
    static const uint32_t read[] = { 0x80, 0xc0, 0xe0, 0x40 }; /* $2 to $5 */
    brsp_scalars now;
    brsp_stop stop;
    load_text(halting);
    see("the beginning", brsp_set_pc(&m, 0) == BRSP_OK && brsp_set_pc(&alone, 0) == BRSP_OK);
    for (size_t i = 0; i < sizeof halts / sizeof *halts; i++) {
        brsp_sp_words here, there;
        see("halted is cleared", brsp_write(&m, SP_STATUS, CLEAR_HALTED | 4) == BRSP_OK && brsp_write(&alone, SP_STATUS, CLEAR_HALTED | 4) == BRSP_OK);
        run_to_halt();
        see("the machine alone", brsp_run(&alone, 1000000, &stop) == BRSP_OK && stop.reason == BRSP_AT_HALT);
        brsp_sp(&m, &here);
        brsp_sp(&alone, &there);
        see("a halt", stop.pc == halts[i].pc && here.words[SP_STATUS] == halts[i].status && here.interrupt == halts[i].interrupt);
        see("the same halt", here.words[SP_STATUS] == there.words[SP_STATUS] && here.interrupt == there.interrupt);
        see_same_registers();
    }
    brsp_regs(&m, &now);
    see("what the microcode read", !memcmp(now.words + 2, read, sizeof read));
}

/* A program that sets SP registers after a transfer: the halt of single step stays if brsp_sp comes after brsp_pass_move, and is lost otherwise. */
static void test_order(void)
{
    brsp_sp_words words;
    load_text("mtc0 $0, $c8\nmtc0 $0, $c8\n");
    for (int is_right = 0; is_right < 2; is_right++) {
        see("single step", brsp_set_pc(&m, 0) == BRSP_OK && brsp_write(&m, SP_STATUS, CLEAR_HALTED | 0x40) == BRSP_OK);
        if (!is_right) brsp_sp(&m, &words);
        see("the transfer", brsp_pass_move(&m, 0) == BRSP_OK);
        if (is_right) brsp_sp(&m, &words);
        words.words[8] = 0x1000;
        see("the registers", brsp_set_sp(&m, &words) == BRSP_OK && brsp_sp(&m, &words) == BRSP_OK && words.words[8] == 0x1000);
        see("the halt", (words.words[SP_STATUS] & 1) == (uint32_t)is_right);
    }
}

int main(void)
{
    static const uint8_t none[64] = { 0 };
    for (int i = 0; i < 4096; i++) rdram[i] = (uint8_t)(i * 11 + i / 256);
    memcpy(kept, rdram, sizeof rdram);
    see("the machines", brsp_new(&m, none, sizeof none, 0) == BRSP_OK && brsp_new(&alone, rdram, sizeof rdram, 0) == BRSP_OK);
    test_task();
    test_halts();
    test_order();
    brsp_free(&m);
    brsp_free(&alone);
    printf("%d passed, %d failed\n", passed, failed);
    return failed != 0;
}
