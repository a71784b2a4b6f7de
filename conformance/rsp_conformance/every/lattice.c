/* Cases of instructions that are compared with second.c. Each lattice takes a number apart into fields of the case, so that all its numbers give all
 * combinations of these fields; what no field of the number sets is random. Python's plan.py says which instruction has which lattices. */
#include "every.h"

static uint32_t some(uint32_t below) { return (uint32_t)(any_number() >> 32) % below; }

/* --- scalar instructions: s is $4 and t is $5 unless the registers are what is varied */
static uint32_t number_at(uint32_t i) /* of 512: powers of two, runs of ones, their negatives, small numbers, and others */
{
    uint32_t bit = (uint32_t)1 << (i / 2 & 31);
    return i < 64 ? bit + (i & 1) : i < 128 ? bit - 1 : i < 192 ? -bit - (i & 1) : i < 256 ? i - 224 : i * 2654435761u ^ i << 7;
}
static void pairs_of_numbers(const test *t, uint32_t n, brsp_case *in)
{
    in->state.words[4] = number_at(n & 511), in->state.words[5] = number_at(n >> 9);
    in->word = t->value | 4u << 21 | 5u << 16 | 6u << 11 | some(32) << 6;
}
static void all_registers(const test *t, uint32_t n, brsp_case *in) { in->word = t->value | n << 11 | some(32) << 6; }
static void all_amounts(const test *t, uint32_t n, brsp_case *in) { in->word = t->value | some(32) << 21 | (n & 0x7FFF) << 6; }
static void all_immediates(const test *t, uint32_t n, brsp_case *in)
{
    in->state.words[4] = n & 1 ? edge32() : (uint32_t)(int32_t)(int16_t)(n >> 4) + some(3) - 1; /* often next to the immediate */
    in->word = t->value | (n & 2 ? some(32) : 4u) << 21 | (n & 4 ? some(32) : 5u) << 16 | n >> 4;
}
static void all_offsets(const test *t, uint32_t n, brsp_case *in)
{
    uint32_t has_t = t->value >> 26 == 4 || t->value >> 26 == 5;
    in->state.words[4] = n & 1 ? edge32() : some(7) - 3, in->state.words[5] = n & 2 ? in->state.words[4] : edge32();
    in->state.pc = (uint16_t)(n & 4 ? some(1024) * 4 : 0xFF8), in->state.npc = (uint16_t)(n & 8 ? (in->state.pc + 4u) & 0xFFC : some(1024) * 4);
    in->word = t->value | (some(8) ? 4u : some(32)) << 21 | (has_t ? (some(8) ? 5u : some(32)) << 16 : 0) | n >> 4;
}
static void all_targets(const test *t, uint32_t n, brsp_case *in) /* the field of a jump, or the low half of a register, and pc */
{
    uint32_t is_field = t->value >> 26 != 0, s = n >> 16 == 3 ? some(32) : 4u, d = n >> 16 == 2 ? some(32) : 31u;
    in->state.pc = (uint16_t)(n >> 16 == 1 ? 0xFF8 : some(1024) * 4), in->state.npc = (uint16_t)(some(2) ? (in->state.pc + 4u) & 0xFFC : some(1024) * 4);
    in->state.words[s] = s ? (n & 0xFFFF) | some(65536) << 16 : 0;
    in->word = t->value | (is_field ? (n & 0xFFFF) | some(1024) << 16 : s << 21 | d << 11);
}
static void all_displacements(const test *t, uint32_t n, brsp_case *in) /* loads and stores */
{
    uint32_t kind = n >> 16, base = kind == 3 ? some(31) + 1 : 4;
    in->state.words[base] = kind == 0 ? 0 : kind == 1 ? 0xFFFFFFFC + some(8) : (uint32_t)any_number();
    in->word = t->value | base << 21 | (kind == 2 ? some(32) : 5u) << 16 | (n & 0xFFFF);
}
static void halts(const test *t, uint32_t n, brsp_case *in)
{
    in->state.pc = (uint16_t)(n & 1023) * 4, in->state.npc = (uint16_t)(some(1024) * 4);
    in->word = t->value | (n & 1024 ? some(1 << 20) << 6 : 0);
}

/* --- moves */
static void all_moves(const test *t, uint32_t n, brsp_case *in) { in->word = t->value | (n & 31) << 16 | (n >> 5 & 31) << 11 | (n >> 10 & 15) << 7; }
static void all_controls(const test *t, uint32_t n, brsp_case *in)
{
    uint8_t low = (uint8_t)n, high = (uint8_t)(n >> 8);
    in->state.words[4] = (n & 0xFFFF) | some(65536) << 16;
    in->state.flags = (brsp_flag_bits){ low, high, low, high, low };
    in->word = t->value | 4u << 16 | (n >> 16 & 3) << 11 | some(8) << 13;
}
static void sp_registers(const test *t, uint32_t n, brsp_case *in)
{
    uint32_t number = n & 15;
    if (t->value >> 21 & 4 && (number == 2 || number == 3)) number = 4; /* DMAs have a lattice of their own */
    in->state.words[4] = n & 16 ? edge32() : (uint32_t)any_number(), in->state.sp[4] = (uint32_t)any_number() & 0x7FE2;
    in->word = t->value | (n & 32 ? 4u : some(32)) << 16 | number << 11;
}
static void all_transfers(const test *t, uint32_t n, brsp_case *in) /* 512 lengths, 4 counts, 4 skips, 4 addresses, 4 others, both directions */
{
    static const uint32_t counts[] = { 0, 1, 3, 7 }, skips[] = { 0, 8, 0xFF8, 0x123 };
    static const uint32_t ats[] = { 0, 0x1008, 0xFF8, 0x17F0 }, rams[] = { 0, 0x1238, 0x3FF8, 0xFFFFF8 };
    in->state.sp[0] = ats[n >> 13 & 3], in->state.sp[1] = rams[n >> 15 & 3];
    in->state.pc = 0x400, in->state.npc = 0x404;
    uint32_t count = n % 64 ? counts[n >> 9 & 3] : some(256);
    in->state.words[4] = skips[n >> 11 & 3] << 20 | count << 12 | (n & 511) << 3 | some(8);
    in->word = t->value | 4u << 16 | (2 + (n >> 17 & 1)) << 11;
}

/* --- vector registers */
static void all_vectors(const test *t, uint32_t n, brsp_case *in) /* e, vt, vs, vd */
{
    in->word = t->value | (n & 15) << 21 | (n >> 4 & 31) << 16 | (n >> 9 & 31) << 11 | (n >> 14 & 31) << 6;
    if (t->value == 0x4A00001D && some(2)) in->word = (in->word & ~(15u << 21)) | (8 + some(3)) << 21;
}
/* Of divides and VMOV all numbers in each lane, with DIV_IN loaded and not; of VSAR all numbers in each part of an accumulator. */
static void all_sources(const test *t, uint32_t n, brsp_case *in)
{
    uint16_t value = (uint16_t)(n >> 4);
    brsp_state *s = &in->state;
    if (t->value == 0x4A00001D) {
        uint16_t *parts[] = { s->accumulators.high, s->accumulators.middle, s->accumulators.low };
        for (uint32_t i = 0; i < 8; i++) parts[n % 3][i] = (uint16_t)(value + i * 8192);
        in->word = t->value | (8 + n % 3) << 21 | some(1 << 15) << 6;
        return;
    }
    for (uint32_t i = 0; i < 8; i++) s->vectors[3][i] = some(2) ? value : edge16();
    s->vectors[3][n & 7] = value;
    s->divider.loaded = n >> 3 & 1;
    if (some(2)) s->divider.input = edges[some(NEAR_POWERS)];
    in->word = t->value | (n & 7) << 21 | some(2) << 24 | 3u << 16 | some(32) << 11 | some(32) << 6;
}
static void all_addresses(const test *t, uint32_t n, brsp_case *in) /* of vector loads and stores: addresses, elements, and how the address is made */
{
    uint32_t part = n >> 16 & 7, at = n >> 4 & 4095, e = n & 15, operation = t->value >> 11 & 31;
    uint32_t base = part == 1 ? some(31) + 1 : part == 2 ? 0 : 4, offset = part ? (part == 3 ? at & 127 : some(128)) : 0;
    if (operation == 9) e &= 8;
    for (int i = 0; i < 8; i++) in->state.vectors[some(32)][i] = (uint16_t)any_number();
    in->state.words[base] = base == 0 ? 0 : part == 3 ? some(32) + 4080 : at | some(1 << 20) << 12;
    in->word = t->value | base << 21 | some(32) << 16 | e << 7 | offset;
}

static const struct { const char *name; void (*make)(const test *t, uint32_t n, brsp_case *in); } lattices[] = {
    { "numbers", pairs_of_numbers }, { "registers", all_registers }, { "amounts", all_amounts }, { "immediates", all_immediates }, { "offsets", all_offsets },
    { "targets", all_targets }, { "displacements", all_displacements }, { "halts", halts }, { "moves", all_moves }, { "controls", all_controls },
    { "SP registers", sp_registers }, { "transfers", all_transfers }, { "vectors", all_vectors }, { "sources", all_sources }, { "addresses", all_addresses },
};
void lattice_case(const test *t, uint64_t number, brsp_case *in)
{
    some_state(&in->state);
    for (size_t i = 0; i < sizeof lattices / sizeof *lattices; i++)
        if (!strcmp(lattices[i].name, t->setting)) lattices[i].make(t, (uint32_t)number, in);
    in->state.words[0] = 0;
}
