/* The files about a difference: rsp-task-N.txt for people, and rsp-task-N.script, which shows our side when `rsp run` plays it. Registers are written as
 * `rsp run` writes them, so the replies of the script are in the text. */
#include "check.h"
#include <errno.h>
#include <string.h>

/* Where the setting program finds its data in DMEM, in bytes. */
enum { VECTORS = 0, HIGH = 0x200, MIDDLE = 0x210, LOW = 0x220, ONES = 0x230, DIVIDED = 0x240, CONTROLS = 0x250, SCALARS = 0x280, DATA = 0x300,
    SETTING_STEPS = 82, SHOWN = 256 };

static void write_vectors(FILE *out, const brsp_state *s)
{
    for (int n = 0; n < 256; n++) {
        if (n % 8 == 0) fprintf(out, "v%02d", n / 8);
        fprintf(out, " %04x%s", s->vectors[n / 8][n % 8], n % 8 == 7 ? "\n" : "");
    }
}

/* The replies of regs, vregs, acc and flags. */
static void write_registers(FILE *out, const brsp_state *s)
{
    fprintf(out, "pc %03x npc %03x\n", s->pc, s->npc);
    for (int n = 0; n < 32; n += 4) fprintf(out, "r%02d %08x %08x %08x %08x\n", n, s->words[n], s->words[n + 1], s->words[n + 2], s->words[n + 3]);
    write_vectors(out, s);
    for (int lane = 0; lane < 8; lane++) fprintf(out, "a%d %04x%04x%04x\n", lane, s->accumulators.high[lane], s->accumulators.middle[lane], s->accumulators.low[lane]);
    fprintf(out, "vco %02x%02x vcc %02x%02x vce %02x in %04x out %04x loaded %d\n", s->flags.differ, s->flags.carry, s->flags.clip, s->flags.compare,
        s->flags.extra, s->divider.input, s->divider.output, s->divider.loaded);
}

/* Lines that load words. */
static void write_loads(FILE *out, const char *bank, uint32_t address, const uint32_t *words, uint32_t n)
{
    for (uint32_t i = 0; i < n; i++) {
        if (i % 24 == 0) fprintf(out, "%sload %s %u ", i ? "\n" : "", bank, address + 4 * i);
        fprintf(out, "%08x", words[i]);
    }
    fputc('\n', out);
}

static void put(uint32_t *data, uint32_t address, uint16_t half) { data[address / 4] |= (uint32_t)half << (address & 2 ? 0 : 16); }

/* Loads what the setting program sets the registers from. */
static void write_data(FILE *out, const brsp_state *s, uint16_t half)
{
    uint32_t data[DATA / 4] = { 0 };
    for (uint32_t i = 0; i < 256; i++) put(data, VECTORS + 2 * i, s->vectors[i / 8][i % 8]);
    for (uint32_t lane = 0; lane < 8; lane++) {
        put(data, HIGH + 2 * lane, (uint16_t)(s->accumulators.high[lane] + (s->accumulators.middle[lane] >> 15)));
        put(data, MIDDLE + 2 * lane, s->accumulators.middle[lane]);
        put(data, LOW + 2 * lane, s->accumulators.low[lane]);
    }
    data[ONES / 4] = 0x7fff0002, data[ONES / 4 + 1] = 0x00010000;
    data[DIVIDED / 4] = (uint32_t)s->divider.input << 16 | half;
    data[CONTROLS / 4] = (uint32_t)(s->flags.differ << 24 | s->flags.carry << 16 | s->flags.clip << 8 | s->flags.compare);
    data[CONTROLS / 4 + 1] = (uint32_t)s->flags.extra << 16;
    memcpy(data + SCALARS / 4, s->words, sizeof s->words);
    write_loads(out, "dmem", 0, data, DATA / 4);
}

/* Microcode that sets the registers: the divider, the accumulators, the flags, the vectors, the scalars. An accumulator's high part can't be set by one
 * instruction: high * 65536 is added as high * (7fff + 7fff + 2). */
static void write_setting(FILE *out, const brsp_state *s, const char *divides)
{
    fprintf(out, "asm 0\nlqv $v1[0], %d($0)\nvrcph $v2[0], $v1[0]\n%s $v2[0], $v1[1]\n%s\n", DIVIDED, divides, s->divider.loaded ? "vrcph $v2[0], $v1[0]" : "nop");
    fprintf(out, "lqv $v3[0], %d($0)\nlqv $v1[0], %d($0)\nvmudh $v0, $v1, $v3[0]\nvmadh $v0, $v1, $v3[0]\nvmadh $v0, $v1, $v3[1]\n", ONES, HIGH);
    fprintf(out, "lqv $v1[0], %d($0)\nvmadh $v0, $v1, $v3[2]\nlqv $v1[0], %d($0)\nvmadn $v0, $v1, $v3[2]\n", MIDDLE, LOW);
    fprintf(out, "lhu $1, %d($0)\nctc2 $1, $vco\nlhu $1, %d($0)\nctc2 $1, $vcc\nlhu $1, %d($0)\nctc2 $1, $vce\n", CONTROLS, CONTROLS + 2, CONTROLS + 4);
    for (int n = 0; n < 32; n++) fprintf(out, "lqv $v%d[0], %d($0)\n", n, VECTORS + 16 * n);
    for (int n = 1; n < 32; n++) fprintf(out, "lw $%d, %d($0)\n", n, SCALARS + 4 * n);
    fprintf(out, "end\nwrite 4 %u\npc 0\nrun %d\n", 0xaaaaadu, SETTING_STEPS); /* halted, broke, the interrupt, single step and all signals are cleared */
}

/* SP registers, but for the skip that registers 2 and 3 keep, which only a DMA sets. */
static void write_sp(FILE *out, const brsp_state *s)
{
    uint32_t pairs = s->interrupt << 4 | (s->sp[SP_STATUS] >> 5 & 1) << 6 | (s->sp[SP_STATUS] >> 6 & 1) << 8;
    for (int signal = 0; signal < 8; signal++) pairs |= (s->sp[SP_STATUS] >> (7 + signal) & 1) << (10 + 2 * signal);
    fprintf(out, "write 0 %u\nwrite 1 %u\n", s->sp[SP_MEM_ADDR], s->sp[SP_DRAM_ADDR]);
    for (int n = DPC_START; n <= DPC_TMEM; n++) if (s->sp[n]) fprintf(out, "write %d %u\n", n, s->sp[n]);
    fprintf(out, "write 4 %u\n%s\n", pairs, s->sp[SP_SEMAPHORE] ? "read 7" : "write 7 0");
}

/* pc and npc. If npc isn't the next address, a jump before pc is stepped over, and its word put back. */
static void write_pc(FILE *out, const brsp_state *s, const uint32_t *imem)
{
    uint32_t before = (s->pc - 4u) & 0xffc;
    if (s->npc == ((s->pc + 4) & 0xffc)) {
        fprintf(out, "pc %u\n", s->pc);
        return;
    }
    fprintf(out, "asm %u\nj %u\nend\npc %u\nstep\n", before, s->npc, before);
    write_loads(out, "imem", before, imem + before / 4, 1);
}

/* The bytes of RDRAM that a DMA will read. Bytes past the end of RDRAM read 0. */
static void write_rows(FILE *out, const difference *it)
{
    uint32_t address = it->rows.address;
    for (uint32_t row = 0; row < it->rows.count; row++, address = (address + it->rows.stride) & 0xffffff) {
        uint32_t from, len = row_inside(other.rdram_size, address, it->rows.len, &from);
        if (len) write_loads(out, "rdram", from, it->rdram + from / 4, len / 4);
    }
}

/* The quadwords of DMEM that differ, from the first one to the last, at most SHOWN bytes. */
static uint32_t differing_dmem(const difference *it, uint32_t *len)
{
    uint32_t first = 0, end = MEMORY_WORDS;
    if (!memcmp(it->our_dmem, it->their_dmem, 4 * MEMORY_WORDS)) return *len = 0;
    while (it->our_dmem[first] == it->their_dmem[first]) first++;
    while (it->our_dmem[end - 1] == it->their_dmem[end - 1]) end--;
    first = first / 4 * 16, end = (end + 3) / 4 * 16;
    *len = end - first < SHOWN ? end - first : SHOWN;
    return first;
}

static void write_dmem(FILE *out, const uint32_t *dmem, uint32_t address, uint32_t len)
{
    for (uint32_t at = address; at < address + len; at += 16) fprintf(out, "%06x: %08x%08x%08x%08x\n", at, dmem[at / 4], dmem[at / 4 + 1], dmem[at / 4 + 2], dmem[at / 4 + 3]);
}

static void write_title(FILE *out, const char *mark, const difference *it)
{
    fprintf(out, "%stask %lu, step %lu, %03x: %08x %s\n%s%s\n", mark, it->task, it->step, it->before.pc, it->word, it->line.text, mark, it->text);
}

static void write_runs(FILE *out, unsigned long steps)
{
    for (; steps; steps -= steps < 1000000 ? steps : 1000000) fprintf(out, "run %lu\n", steps < 1000000 ? steps : 1000000);
}

static void write_script(FILE *out, const difference *it)
{
    uint32_t len, address = differing_dmem(it, &len);
    uint16_t half = 0xffff;
    const char *divides = divided_for(&it->from, &half);
    write_title(out, "# ", it);
    fprintf(out, "# Step %lu is the last one before this script begins. It sets all registers by microcode, then DMEM and IMEM.\n", it->from_step);
    if (!divides) fprintf(out, "# No division here gives this DIV_OUT: %04x.\n", it->from.divider.output);
    if (it->rows.count && it->rows.address + it->rows.count * it->rows.stride > 0x400000) fprintf(out, "# It needs an image of 8388608 bytes: rsp run --rdram FILE.\n");
    write_data(out, &it->from, half);
    write_setting(out, &it->from, divides ? divides : "vrcpl");
    write_loads(out, "dmem", 0, it->from_memory[BRSP_DMEM], MEMORY_WORDS);
    write_loads(out, "imem", 0, it->from_memory[BRSP_IMEM], MEMORY_WORDS);
    write_rows(out, it);
    write_sp(out, &it->from);
    write_pc(out, &it->from, it->from_memory[BRSP_IMEM]);
    write_runs(out, it->step - 1 - it->from_step);
    fprintf(out, "regs\nvregs\nacc\nflags\nstep\nregs\nvregs\nacc\nflags\n");
    if (len) fprintf(out, "mem dmem %u %u\n", address, len);
}

static void write_text(FILE *out, const difference *it)
{
    uint32_t len, address = differing_dmem(it, &len);
    brsp_state theirs = it->after;
    write_title(out, "", it);
    fprintf(out, "\nOur registers before it:\n");
    write_registers(out, &it->before);
    fprintf(out, "\nOur registers after it:\n");
    write_registers(out, &it->after);
    if (len) fprintf(out, "\nOur DMEM after it, where they differ:\n");
    write_dmem(out, it->our_dmem, address, len);
    if (len) fprintf(out, "\nThe other's DMEM after it:\n");
    write_dmem(out, it->their_dmem, address, len);
    if (!other.is_z64) return;
    get_z64(&theirs);
    fprintf(out, "\nThe other's registers after it:\n");
    write_registers(out, &theirs);
}

/* A file that is there isn't overwritten, because it may be a link that somebody else put there, to a file of the user. */
static void write_file(const difference *it, const char *ending, void (*write)(FILE *, const difference *))
{
    char name[1200];
    snprintf(name, sizeof name, "%s/rsp-task-%lu.%s", options.check_folder, it->task, ending);
    FILE *out = fopen(name, "wx");
    int is_there = !out && errno == EEXIST;
    if (out) write(out, it);
    if (is_there) tell(M64_ERROR, "check: %s is there already, and stays as it is", name);
    else if (!out || fclose(out)) tell(M64_ERROR, "check: cannot write %s", name);
    else tell(M64_INFO, "check: %s", name);
}

void write_report(const difference *it)
{
    write_file(it, "txt", write_text);
    write_file(it, "script", write_script);
}
