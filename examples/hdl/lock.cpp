// The library as the golden model of any core that fills a brsp_changes for each instruction that it retires (lock.sv), by DPI-C.
#include "brsp.h"
#include "svdpi.h"
#include <cstdio>
#include <cstring>
static brsp_machine m = BRSP_NONE;
static brsp_line line;
static unsigned long instructions;
static int is_wrong;

// Compares the numbers of a field, each of `size` bytes, and prints the first that differs.
static void check(const char *name, const void *expected, const void *got, size_t size, size_t count)
{
    for (size_t i = 0; i < count && !is_wrong; i++) {
        uint32_t a = 0, b = 0;
        memcpy(&a, (const char *)expected + size * i, size);
        memcpy(&b, (const char *)got + size * i, size);
        if (a == b) continue;
        is_wrong = 1;
        printf("instruction %lu, %03x %s: %s", instructions, line.address, line.text, name);
        if (count > 1) printf("%zu", i);
        printf(": expected %0*x, got %0*x\n", (int)(2 * size), a, (int)(2 * size), b);
    }
}
#define FIELD(name, field) check(name, &ours.field, &theirs.field, sizeof ours.field, 1)
#define LANES(name, field) check(name, &ours.field, &theirs.field, sizeof ours.field[0], sizeof ours.field / sizeof ours.field[0])

static void compare(const brsp_changes &ours, const brsp_changes &theirs)
{
    char name[32];
    FIELD("pc", traced.pc); FIELD("word", traced.word);
    FIELD("number of the scalar register", traced.scalar); FIELD("number of the vector register", traced.vector);
    snprintf(name, sizeof name, "$%u", ours.traced.scalar); FIELD(name, traced.value);
    snprintf(name, sizeof name, "$v%u lane ", ours.traced.vector); LANES(name, traced.lanes);
    FIELD("store", traced.stored); FIELD("address", traced.address); FIELD("quadword", quadword);
    snprintf(name, sizeof name, "DMEM from %03x on, byte ", ours.quadword);
    check(name, ours.bytes, theirs.bytes, 1, sizeof ours.bytes);
    FIELD("VCO", traced.vco); FIELD("VCC", traced.vcc); FIELD("VCE", traced.vce);
    LANES("accumulator high lane ", accumulators.high); LANES("accumulator middle lane ", accumulators.middle);
    LANES("accumulator low lane ", accumulators.low);
    FIELD("DIV_IN", divider.input); FIELD("DIV_OUT", divider.output); FIELD("DIV_IN loaded", divider.loaded);
}

extern "C" int lock_open(void) { static uint8_t image[64]; brsp_free(&m); instructions = 0; is_wrong = 0; return !brsp_new(&m, image, sizeof image, 0); }
extern "C" int lock_load(int bank, int address, int word) { uint32_t w = (uint32_t)word; return !brsp_load_words(&m, (uint32_t)bank, (uint32_t)address, &w, 1); }

// Steps the library, and compares those bits of the record that are valid. pc and npc after the step aren't compared: a wrong branch shows in the
// next record. 0 if something differs.
extern "C" int lock_retire(const svBitVecVal *record, const svBitVecVal *valid)
{
    brsp_changes ours, theirs;
    brsp_scalars now;
    svBitVecVal bits[sizeof theirs / sizeof *record];
    if (brsp_regs(&m, &now) || brsp_listing(&m, now.pc, &line, 1)) return 0;
    instructions++;
    if (brsp_step_changes(&m, &ours)) { printf("instruction %lu, %03x %s: the library stops\n", instructions, line.address, line.text); return 0; }
    memcpy(bits, &ours, sizeof bits);
    for (size_t i = 0; i < sizeof bits / sizeof *bits; i++) bits[i] ^= (bits[i] ^ record[i]) & valid[i];
    memcpy(&theirs, bits, sizeof theirs);
    compare(ours, theirs);
    return !is_wrong;
}
