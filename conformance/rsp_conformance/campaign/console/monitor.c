/* A monitor for the console's CPU, which runs in place of the PIF ROM: it executes the lines of a script that is on the cartridge from 0x1000 on, and
 * answers through the port of the IS viewer. script.py describes the lines. The monitor is in RDRAM from 0x40000 on, and the script from 0x200000 on. */
typedef unsigned word;
#define AT(address) (*(volatile word *)(address))
#define ROM 0xB0001000u /* the script's length in bytes, a 0, and the script */
#define SCRIPT 0xA0200000u
#define PI 0xA4600000u
#define SP_STATUS 0xA4040010u
#define SP_PC 0xA4080000u
#define VIEWER 0xB3FF0000u
enum { WRITE = 1, COPY, RUN, READ, DIFFER, FLUSH, PIECE = 0x1C0, STEP = 0x4000 };

static word piece = 4; /* the bytes of a piece of answers: its length, for hold.c, and the answers, because the port has only 0x200 bytes */

static void flush(void)
{
    AT(VIEWER + 0x20) = piece - 4;
    AT(VIEWER + 0x20 + piece) = 0x0A0A0A0A; /* cen64 prints what ends with a newline */
    AT(VIEWER + 0x14) = piece + 4;
    piece = 4;
}

static void answer(word value)
{
    AT(VIEWER + 0x20 + piece) = value;
    piece += 4;
    if (piece == PIECE) flush();
}

static void load(void) /* the script, by DMAs from the cartridge */
{
    for (word i = 0, size = AT(ROM); i < size; i += STEP) {
        AT(PI) = (SCRIPT & 0xFFFFFF) + i;
        AT(PI + 4) = (ROM & 0x1FFFFFFF) + 8 + i;
        AT(PI + 12) = STEP - 1;
        while (AT(PI + 16) & 3) {}
    }
}

static word run(word pc, word steps) /* the status after BREAK, or one that isn't halted */
{
    word status = 0, most = 64 * steps;
    AT(SP_STATUS) = 4; /* broke is cleared */
    AT(SP_PC) = pc;
    AT(SP_STATUS) = 1; /* halted is cleared */
    while (most-- && !((status = AT(SP_STATUS)) & 1)) {}
    return status;
}

void execute(void)
{
    volatile word *line = (volatile word *)SCRIPT;
    load();
    while (*line) {
        word head = *line++, n = head & 0xFFFFFF, a = *line++, b, i;
        switch (head >> 24) {
        case WRITE: for (i = 0; i < n; i++) AT(a + 4 * i) = *line++; break;
        case COPY: b = *line++; for (i = 0; i < 4 * n; i += 4) AT(a + i) = AT(b + i); break;
        case RUN: answer(run(a, n)); break;
        case READ: for (i = 0; i < 4 * n; i += 4) answer(AT(a + i)); break;
        case DIFFER: b = *line++; for (i = 0; i < 4 * n; i += 4) if (AT(a + i) != AT(b + i)) { answer(i); answer(AT(a + i)); } answer(~0u); break;
        default: flush();
        }
    }
    for (;;) {}
}
