/* The CPU's side of the test ROM. It starts tasks on the RSP and compares what they made with what it computes itself.
 * From RDRAM 100000 on are the results, four words each: a number, whether it is right, what was found, what was expected; from 110000 on DMEM after each task.
 * At the end 3ffff4 holds how many are wrong, and 3ffff0 'DONE'.
 * -DWAITS=0 leaves out the tasks that wait for the CPU, -DBLOCKS=N and -DTASKS=N make N blocks a task, and N tasks, of the last kind. */
typedef unsigned u32;
typedef int s32;
typedef unsigned short u16;
typedef short s16;
typedef unsigned char u8;
#define WORD(address) (*(volatile u32 *)(address))
#define HALF(address) (*(volatile u16 *)(address))
#define RDRAM(address) WORD(0xa0000000u + (address))
#define DMEM(address) WORD(0xa4000000u + (address))
#define IMEM(address) WORD(0xa4001000u + (address))
#define SP(n) WORD(0xa4040000u + 4 * (n))
#define SP_PC WORD(0xa4080000u)
#define MI_INTR WORD(0xa4300008u)
#ifndef WAITS
#define WAITS 1
#endif
#ifndef BLOCKS
#define BLOCKS 3
#define TASKS 1
#endif
#define MICROCODE(name) extern const u8 name[], name##_end[];
MICROCODE(scalar) MICROCODE(vector) MICROCODE(overlay) MICROCODE(overlay_one) MICROCODE(overlay_two) MICROCODE(signals) MICROCODE(semaphore)
MICROCODE(list) MICROCODE(registers) MICROCODE(task_boot) MICROCODE(task_add) MICROCODE(speed) MICROCODE(many)

enum { SP_STATUS = 4, SEMAPHORE = 7, HALTED = 1, BROKE = 2, SIGNAL_0 = 0x80, SIGNAL_1 = 0x100, SIGNAL_2 = 0x200 };
#define LOST 0x80000000u
enum { CLEAR_HALT_AND_BROKE = 5, CLEAR_INTERRUPT = 8, CLEAR_INTBREAK = 0x80, SET_INTBREAK = 0x100, CLEAR_SIGNAL_0 = 0x200, SET_SIGNAL_0 = 0x400,
    CLEAR_SIGNAL_1 = 0x800, CLEAR_SIGNAL_2 = 0x2000 };

static u32 results, kept, wrong, seed = 12345;

static void check(u32 number, u32 found, u32 expected)
{
    RDRAM(0x100000 + results) = number;
    RDRAM(0x100004 + results) = found == expected;
    RDRAM(0x100008 + results) = found;
    RDRAM(0x10000c + results) = expected;
    results += 16;
    wrong += found != expected;
}

static void keep_dmem(u32 bytes)
{
    u32 i;
    for (i = 0; i < bytes; i += 4) RDRAM(0x110000 + kept + i) = DMEM(i);
    kept += bytes;
}

static u32 random(void) { return (seed = seed * 1664525 + 1013904223) >> 8; }
static u32 physical(const void *it) { return (u32)it & 0x1fffffff; }
static s32 clamped(s32 x) { return x > 32767 ? 32767 : x < -32768 ? -32768 : x; }

/* Clears DMEM and IMEM, and loads microcode by the CPU's own DMA. */
static void load(const u8 *from, const u8 *end)
{
    u32 i;
    for (i = 0; i < 0x2000; i += 4) DMEM(i) = 0;
    SP(0) = 0x1000;
    SP(1) = physical(from);
    SP(2) = (u32)(end - from) - 1;
    while (SP(6) & 1) continue;
}
#define LOAD(name) load(name, name##_end)

static void start(void)
{
    SP_PC = 0;
    SP(SP_STATUS) = CLEAR_INTERRUPT;
    SP(SP_STATUS) = SET_INTBREAK;
    SP(SP_STATUS) = CLEAR_HALT_AND_BROKE;
}

/* SP_STATUS when the task has halted; LOST too if it doesn't. */
static u32 halted(void)
{
    u32 i, status = 0;
    for (i = 0; i < 4000000; i++) if ((status = SP(SP_STATUS)) & HALTED) return status;
    SP(SP_STATUS) = 2;
    return status | LOST;
}

static void check_halted(u32 number) { check(number, halted() & (LOST | HALTED | BROKE), HALTED | BROKE); }

static void test_scalar(void)
{
    LOAD(scalar);
    start();
    check_halted(0x100);
    check(0x101, DMEM(0), 100 * 101 / 2);
    check(0x102, DMEM(4), (u32)((s32)0x81234567 >> 5));
    check(0x103, DMEM(8), 0x00674567);
    check(0x104, DMEM(12), 0x3c);
    check(0x105, SP_PC & 0xfff, 0x44);
    keep_dmem(64);
}

/* A row has x and y, eight lanes each: the fraction x * y, rounded, and the clamped sum x + y come back, and what is between rows stays. */
static void check_row(u32 row, u32 from, u32 to)
{
    u32 i, wrong_products = 0, wrong_sums = 0;
    for (i = 0; i < 8; i++) {
        s32 x = (s16)HALF(0xa0000000u + from + 64 * row + 2 * i), y = (s16)HALF(0xa0000000u + from + 64 * row + 16 + 2 * i);
        s32 product = x == -32768 && y == -32768 ? 32767 : (2 * x * y + 32768) >> 16;
        wrong_products += (s16)HALF(0xa0000000u + to + 48 * row + 2 * i) != (s16)product;
        wrong_sums += (s16)HALF(0xa0000000u + to + 48 * row + 16 + 2 * i) != (s16)clamped(x + y);
    }
    check(0x210 + row, wrong_products, 0);
    check(0x220 + row, wrong_sums, 0);
    check(0x230 + row, RDRAM(to + 48 * row + 32), 0xaaaaaaaa);
}

static void test_vector(void)
{
    u32 i, from = 0x120000, to = 0x121000;
    for (i = 0; i < 8 * 64; i += 4) RDRAM(from + i) = random() << 16 ^ random();
    for (i = 0; i < 0x400; i += 4) RDRAM(to + i) = 0xaaaaaaaa;
    LOAD(vector);
    DMEM(0xff0) = from;
    DMEM(0xff4) = to;
    start();
    check_halted(0x200);
    for (i = 0; i < 8; i++) check_row(i, from, to);
    keep_dmem(0x600);
}

/* Two overlays, in turn at one address, ten times each. */
static void test_overlay(void)
{
    u32 i, expected = 0;
    LOAD(overlay);
    DMEM(0xff0) = physical(overlay_one);
    DMEM(0xff4) = physical(overlay_two);
    start();
    check_halted(0x300);
    for (i = 0; i < 10; i++) expected = (expected + 3) * 2 + 1000;
    check(0x301, DMEM(0), expected);
    check(0x302, IMEM(0x400), *(const u32 *)overlay_two);
    check(0x303, IMEM(0x40c), ((const u32 *)overlay_two)[3]);
}

/* The RSP shows itself by signal 1 and waits for signal 0; in between the CPU stores to DMEM. */
static void test_signals(void)
{
    u32 i, status = 0;
    LOAD(signals);
    DMEM(0) = 41;
    SP(SP_STATUS) = CLEAR_SIGNAL_0;
    start();
    for (i = 0; i < 100000 && !(status & SIGNAL_1); i++) status = SP(SP_STATUS);
    check(0x400, status & (HALTED | SIGNAL_0 | SIGNAL_1), SIGNAL_1);
    DMEM(0) = 4200;
    SP(SP_STATUS) = SET_SIGNAL_0;
    check(0x401, halted() & (LOST | HALTED | BROKE | SIGNAL_0 | SIGNAL_1 | SIGNAL_2), HALTED | BROKE | SIGNAL_1 | SIGNAL_2);
    check(0x402, DMEM(4), 4201);
    SP(SP_STATUS) = CLEAR_SIGNAL_1 | CLEAR_SIGNAL_2;
}

/* The CPU holds the semaphore while the RSP polls it; after that the CPU polls it until the RSP has given it back. */
static void test_semaphore(void)
{
    u32 i;
    LOAD(semaphore);
    SP(SEMAPHORE) = 0;
    check(0x410, SP(SEMAPHORE), 0);
    DMEM(0) = 1;
    start();
    check(0x411, SP(SP_STATUS) & HALTED, 0);
    check(0x412, DMEM(4), 0);
    DMEM(0) = 37;
    SP(SEMAPHORE) = 0;
    SP(SP_STATUS) = 0;
    check_halted(0x413);
    for (i = 0; i < 100000 && SP(SEMAPHORE); i++) continue;
    check(0x414, i < 100000, 1);
    check(0x415, DMEM(4), 42);
    SP(SEMAPHORE) = 0;
}

static void check_interrupt(u32 number)
{
    u32 i;
    for (i = 0; i < 100000 && !(MI_INTR & 1); i++) continue;
    check(number, MI_INTR & 1, 1);
    SP(SP_STATUS) = CLEAR_INTERRUPT;
    check(number + 1, MI_INTR & 1, 0);
    SP(SP_STATUS) = CLEAR_INTBREAK;
    SP(SP_STATUS) = CLEAR_SIGNAL_2;
}

/* Eight commands go to the RDP, which fill 320 by 240 pixels from RDRAM 200000 on with red; BREAK interrupts. */
static void test_list(void)
{
    static const u32 commands[16] = { 0x27000000, 0, 0x2d000000, 0x005003c0, 0x3f10013f, 0x00200000, 0x2f300000, 0, 0x37000000, 0xf801f801,
        0x364fc3bc, 0, 0x27000000, 0, 0x29000000, 0 };
    u32 i;
    for (i = 0; i < 16; i++) RDRAM(0x123000 + 4 * i) = commands[i];
    LOAD(list);
    DMEM(0xfc0) = 1;
    DMEM(0xff0) = 0x123000;
    start();
    check(0x500, halted() & (LOST | HALTED | BROKE | SIGNAL_2), HALTED | BROKE | SIGNAL_2);
    check_interrupt(0x501);
    check(0x504, DMEM(4), 0x123040);
    check(0x505, DMEM(8) & 1, 0);
}

/* The semaphore from one side, DMA out of IMEM and round the end of DMEM, and what the DMA registers hold after them. */
static void test_registers(void)
{
    u32 i;
    static const u32 expected[][2] = { { 0x100, 0 }, { 0x104, 1 }, { 0x108, 0 }, { 0x10c, 0x1040 }, { 0x110, 0x124040 }, { 0x114, 0xff8 }, { 0xfe0, 0x51000000 },
        { 0xffc, 0x5100001c }, { 0, 0x51000020 }, { 0x1c, 0x5100003c }, { 0x118, 0x20 }, { 0x11c, 0 } };
    for (i = 0; i < 64; i += 4) RDRAM(0x124000 + i) = 0, RDRAM(0x124100 + i) = 0x51000000 + i;
    LOAD(registers);
    DMEM(0xff0) = 0x124000;
    DMEM(0xff4) = 0x124100;
    SP(SEMAPHORE) = 0;
    start();
    check_halted(0x600);
    for (i = 0; i < sizeof expected / sizeof *expected; i++) check(0x601 + i, DMEM(expected[i][0]), expected[i][1]);
    check(0x610, SP(0), 0x20);
    check(0x611, SP(1), 0x124140);
    for (i = 0; i < 64 && RDRAM(0x124000 + i) == *(const u32 *)(registers + i); i += 4) continue;
    check(0x612, i, 64);
    keep_dmem(0x140);
}

/* A task as games start it: its structure at fc0, boot code that loads microcode and data. It adds two vectors. */
static void test_task(void)
{
    static const u32 input[8] = { 0x00001000, 0x20003000, 0x40005000, 0x600070ff, 0x10fffe00, 0x00014000, 0x40008000, 0xff000000 };
    u32 i;
    for (i = 0; i < 8; i++) RDRAM(0x125000 + 4 * i) = input[i], RDRAM(0x126000 + 4 * i) = 0;
    LOAD(task_boot);
    DMEM(0xfc0) = 2;
    DMEM(0xfd0) = physical(task_add);
    DMEM(0xfd4) = (u32)(task_add_end - task_add);
    DMEM(0xfd8) = 0x125000;
    DMEM(0xfdc) = 32;
    DMEM(0xfe8) = 0x126000;
    start();
    check(0x700, halted() & (LOST | HALTED | BROKE | SIGNAL_2), HALTED | BROKE | SIGNAL_2);
    check_interrupt(0x701);
    for (i = 0; i < 8; i++) check(0x710 + i, HALF(0xa0126000u + 2 * i), (u16)clamped((s16)HALF(0xa0125000u + 2 * i) + (s16)HALF(0xa0125010u + 2 * i)));
    check(0x720, SP_PC & 0xfff, 0xc4);
    keep_dmem(64);
}

/* Many small DMA. What they make is compared between CPU modes, and with the other plugin. */
static void test_many(void)
{
    u32 i;
    for (i = 0; i < 256; i += 4) RDRAM(0x127000 + i) = 0x1000 + i;
    LOAD(many);
    DMEM(0xff0) = 100;
    DMEM(0xff4) = 0x127000;
    start();
    check_halted(0x800);
    keep_dmem(0x400);
}

/* Blocks of 256 bytes come, are worked upon and go, as in audio. */
static void test_speed(void)
{
    u32 i;
    LOAD(speed);
    seed = 99;
    for (i = 0; i < 256; i += 4) RDRAM(0x128000 + i) = random() << 16 ^ random(), DMEM(0x100 + i) = random() << 8;
    for (i = 0; i < 16; i += 4) DMEM(0xfe0 + i) = 0x20003000 + 0x12345678 * i;
    DMEM(0xff0) = BLOCKS;
    DMEM(0xff4) = 0x128000;
    start();
    check_halted(0xa00);
    keep_dmem(0x200);
}

void run(void)
{
    u32 i, results_before, kept_before;
    for (i = 0x100000; i < 0x130000; i += 4) RDRAM(i) = 0;
    test_scalar();
    test_vector();
    test_overlay();
    if (WAITS) test_signals();
    if (WAITS) test_semaphore();
    test_list();
    test_registers();
    test_task();
    test_many();
    results_before = results, kept_before = kept;
    for (i = 0; i < TASKS; i++) {
        results = results_before, kept = kept_before;
        test_speed();
    }
    RDRAM(0x3ffff4) = wrong;
    RDRAM(0x3ffff0) = 0x444f4e45;
    for (;;) continue;
}
