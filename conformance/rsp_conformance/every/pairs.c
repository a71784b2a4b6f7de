/* Pairs of operands: a in the lanes of one register, and b in those of sixteen others, each of which an operation selects for all lanes. */
#include "every.h"

/* The setting of a test has a letter for each flag, carry first: 0 or 1 in all lanes, or ? for any, of a flag that the rule doesn't read so. Its sixth
 * letter is e if vs is an even register, which VRNDP and VRNDN read, and o if it is odd. */
static brsp_flag_bits flags_for(const test *t)
{
    uint64_t noise = any_number();
    uint8_t bits[5];
    for (int j = 0; j < 5; j++) bits[j] = t->setting[j] == '?' ? (uint8_t)(noise >> 8 * j) : (uint8_t)-(t->setting[j] == '1');
    return (brsp_flag_bits){ bits[0], bits[1], bits[2], bits[3], bits[4] };
}
/* Most rules clear VCO, and VCL writes all flags, so they are set before each operation: by CTC2 of $1, $2, $3. */
static uint32_t flags_to_set(const test *t)
{
    uint32_t is_vco_set = t->setting[0] == '1' || t->setting[1] == '1', is_vcl = function_of(t) == 0x24;
    return is_vco_set | (is_vcl ? 6 : 0);
}
static uint32_t put_ctc2s(uint32_t sets, uint32_t *words)
{
    uint32_t n = 0;
    for (uint32_t control = 0; control < 3; control++)
        if (sets >> control & 1) words[n++] = 0x48C00000u | (control + 1) << 16 | control << 11;
    return n;
}
static plan *plan_of(const test *t) /* the same for all positions of a test */
{
    static plan p;
    if (p.operations.count) return &p;
    uint32_t n = 0, vs = t->setting[5] == 'o';
    p.sets = flags_to_set(t);
    for (uint32_t i = 0; i < OPERATIONS; i++) {
        n += put_ctc2s(p.sets, p.operations.words + n);
        p.operations.words[n++] = vector_word(function_of(t), 8 + i % 8, 2 + i / 8, vs, 18 + i % 14);
    }
    p.operations.count = OPERATIONS, p.operations.group = n / OPERATIONS, p.operations.are_new = 1;
    given.vs = (int32_t)vs;
    return &p;
}
static void put_flags(brsp_state *s, const test *t)
{
    s->flags = flags_for(t);
    s->words[1] = (uint32_t)(int16_t)(s->flags.differ << 8 | s->flags.carry);
    s->words[2] = (uint32_t)(s->flags.clip << 8 | s->flags.compare);
    s->words[3] = s->flags.extra;
}
static void put_accumulators(brsp_state *s) /* many of them near the numbers at which results are clamped */
{
    for (uint32_t i = 0; i < 8; i++) {
        uint64_t n = any_number();
        int64_t around[] = { 0, 0x80000000, -0x80000000ll, 0x7FFFFFFFFFFF, -0x800000000000ll, 0x7FFFFFFF, (int64_t)n >> 16, (int64_t)n >> 30 };
        put_accumulator(s, i, around[n & 7] + (n >> 3 & 1 ? (int64_t)(n >> 4 & 0x3FF) - 512 : (int64_t)(int32_t)(n >> 4)));
    }
}
static void run_pairs(const test *t, const uint16_t a[8], const uint16_t b[OPERATIONS])
{
    plan *p = plan_of(t);
    brsp_state s;
    some_state(&s);
    s.sp[4] &= ~0x20u; /* no single step */
    put_flags(&s, t);
    put_accumulators(&s);
    memcpy(s.vectors[given.vs], a, 16);
    memcpy(s.vectors[2], b, 2 * OPERATIONS);
    for (int i = 0; i < LANES; i += 8) memcpy(given.a + i, a, 16);
    for (int i = 0; i < LANES; i++) given.b[i] = (int16_t)b[i / 8];
    run_batch(t, &s, p);
}
/* 2^13 positions: each edge with each edge, in all lanes. */
void edge_pairs(const test *t, uint64_t position)
{
    uint64_t index = spread(position, 13);
    uint16_t a[8];
    for (int i = 0; i < 8; i++) a[i] = edges[index >> 3];
    run_pairs(t, a, edges + (index & 7) * OPERATIONS);
}
/* 2^22 positions: eight numbers for a, and 128 for b. The lane of a is another one in the next 2^22 positions, so that after eight times as many each pair
 * was in each lane. */
void all_pairs(const test *t, uint64_t position)
{
    uint64_t index = spread(position & 0x3FFFFF, 22), turn = position >> 22, eight = index >> 9, block = index & 511;
    uint16_t a[8], b[OPERATIONS];
    for (uint64_t i = 0; i < 8; i++) a[i] = (uint16_t)(8 * eight + (i + turn + eight + block) % 8);
    for (uint64_t i = 0; i < OPERATIONS; i++) b[i] = (uint16_t)(OPERATIONS * block + i);
    run_pairs(t, a, b);
}
