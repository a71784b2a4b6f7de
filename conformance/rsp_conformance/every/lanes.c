/* Batches of up to 128 operations of an instruction on eight lanes each. The lanes of a batch are compared with the instruction's rule all at once, by a
 * loop that gcc makes of the rule with vector instructions of the host. */
#include "every.h"
#include "rules.h"

batch given;
static brsp_lane_ends left;
static int is_imem_changed; /* by a case, after which the operations have to be put again */

uint32_t function_of(const test *t) { return t->value & 63; }
uint32_t vector_word(uint32_t function, uint32_t e, uint32_t vt, uint32_t vs, uint32_t vd)
{
    return 0x4A000000u | e << 21 | vt << 16 | vs << 11 | vd << 6 | function;
}

/* --- accumulators of 48 bits, as signed numbers */
static int64_t accumulator_from(uint16_t high, uint16_t middle, uint16_t low) { return (int64_t)(int16_t)high * 4294967296 + ((int64_t)middle << 16) + low; }
int64_t accumulator_of(const brsp_state *s, uint32_t i)
{
    return accumulator_from(s->accumulators.high[i], s->accumulators.middle[i], s->accumulators.low[i]);
}
void put_accumulator(brsp_state *s, uint32_t i, int64_t n)
{
    s->accumulators.high[i] = (uint16_t)(n >> 32), s->accumulators.middle[i] = (uint16_t)(n >> 16), s->accumulators.low[i] = (uint16_t)n;
}

/* --- the rules */
static int has_flags(uint32_t function) { return function >= 0x10 && function < 0x28 && function != 0x13; } /* whether it reads or writes some */
static inline lane lane_before(const batch *restrict g, int i)
{
    return (lane){ .a = g->a[i], .b = g->b[i], .vs = g->vs, .accumulator = accumulator_from(g->high[i], g->middle[i], g->low[i]) };
}
static inline void flags_before(const batch *restrict g, int i, lane *k)
{
    k->carry = g->flags[0][i], k->not_equal = g->flags[1][i], k->compare = g->flags[2][i], k->clip = g->flags[3][i], k->extra = g->flags[4][i];
}
static inline int32_t flags_wrong(const batch *restrict g, int i, const lane *k)
{
    return (k->carry ^ g->flags_after[0][i]) | (k->not_equal ^ g->flags_after[1][i]) | (k->compare ^ g->flags_after[2][i])
        | (k->clip ^ g->flags_after[3][i]) | (k->extra ^ g->flags_after[4][i]);
}
static inline int32_t registers_wrong(const brsp_lane_ends *restrict o, int i, const lane *k)
{
    const uint16_t *result = o->result[0], *high = o->high[0], *middle = o->middle[0], *low = o->low[0];
    return ((uint16_t)k->result ^ result[i]) | ((uint16_t)(k->accumulator >> 32) ^ high[i]) | ((uint16_t)(k->accumulator >> 16) ^ middle[i])
        | ((uint16_t)k->accumulator ^ low[i]);
}
/* For each rule: whether a lane of `lanes` differs, and the rule applied to one lane. */
#define COMPARE(name, number) \
    static int name##_differs(const batch *restrict g, const brsp_lane_ends *restrict o, int lanes) \
    { \
        int32_t wrong = 0; \
        for (int i = 0; i < lanes; i++) { \
            lane k = lane_before(g, i); \
            if (has_flags(number)) flags_before(g, i, &k); \
            name(&k); \
            wrong |= registers_wrong(o, i, &k); \
            if (has_flags(number)) wrong |= flags_wrong(g, i, &k); \
        } \
        return wrong != 0; \
    }
LANE_RULES(COMPARE)
static int batch_differs(uint32_t function, int lanes)
{
    switch (function) {
#define CALL(name, number) case number: return name##_differs(&given, &left, lanes);
    LANE_RULES(CALL)
    default: return 1;
    }
}
static void apply_rule(uint32_t function, lane *k)
{
    switch (function) {
#define APPLY(name, number) case number: name(k); break;
    LANE_RULES(APPLY)
    default: break;
    }
}
int64_t delta_of(const test *t, int64_t accumulator, int32_t a, int32_t b)
{
    lane k = { .a = a, .b = b, .vs = given.vs, .accumulator = accumulator };
    apply_rule(function_of(t), &k);
    return (k.accumulator >> 16) - (accumulator >> 16);
}

/* --- a batch that differs, operation by operation */
static void put_bit(uint8_t *bits, int i, int32_t bit) { *bits = (uint8_t)((*bits & ~(1 << i)) | bit << i); }
static brsp_flag_bits flags_of(uint8_t flags[5][LANES], int row)
{
    uint8_t bits[5] = { 0 };
    for (int j = 0; j < 40; j++) put_bit(bits + j / 8, j % 8, flags[j / 8][8 * row + j % 8]);
    return (brsp_flag_bits){ bits[0], bits[1], bits[2], bits[3], bits[4] };
}
static void state_before(const brsp_state *s, int row, brsp_state *before)
{
    *before = *s;
    memcpy(before->accumulators.high, given.high + 8 * row, 16);
    memcpy(before->accumulators.middle, given.middle + 8 * row, 16);
    memcpy(before->accumulators.low, given.low + 8 * row, 16);
    if (has_flags(shared->now.word & 63)) before->flags = flags_of(given.flags, row);
}
static void state_by_rule(const brsp_state *before, uint32_t word, int row, brsp_state *after)
{
    uint32_t function = word & 63, vd = word >> 6 & 31;
    uint8_t *planes[] = { &after->flags.carry, &after->flags.differ, &after->flags.compare, &after->flags.clip, &after->flags.extra };
    *after = *before, after->pc = before->npc, after->npc = 8;
    after->sp[4] |= before->sp[4] >> 5 & 1;
    for (int i = 0; i < 8; i++) {
        lane k = lane_before(&given, 8 * row + i);
        if (has_flags(function)) flags_before(&given, 8 * row + i, &k);
        apply_rule(function, &k);
        after->vectors[vd][i] = (uint16_t)k.result;
        put_accumulator(after, (uint32_t)i, k.accumulator);
        int32_t bits[] = { k.carry, k.not_equal, k.compare, k.clip, k.extra };
        for (int j = 0; has_flags(function) && j < 5; j++) put_bit(planes[j], i, bits[j]);
    }
}
static uint32_t wrong_lanes(const brsp_state *expected, const brsp_state *got, uint32_t vd)
{
    const brsp_accumulators *ours = &expected->accumulators, *theirs = &got->accumulators;
    const brsp_flag_bits *f = &expected->flags, *g = &got->flags;
    uint32_t wrong = (uint32_t)((f->carry ^ g->carry) | (f->differ ^ g->differ) | (f->compare ^ g->compare) | (f->clip ^ g->clip) | (f->extra ^ g->extra));
    for (uint32_t i = 0; i < 8; i++)
        if (expected->vectors[vd][i] != got->vectors[vd][i] || ours->high[i] != theirs->high[i] || ours->middle[i] != theirs->middle[i]
            || ours->low[i] != theirs->low[i]) wrong |= 1u << i;
    return (uint32_t)__builtin_popcount(wrong);
}
static void compare_row(const brsp_state *s, uint32_t word, int row)
{
    brsp_case in = { .word = word };
    brsp_end expected = { .status = BRSP_OK }, got, alone;
    state_before(s, row, &in.state);
    state_by_rule(&in.state, word, row, &expected.state);
    got = expected;
    memcpy(got.state.vectors[word >> 6 & 31], left.result[row], 16);
    memcpy(got.state.accumulators.high, left.high[row], 16);
    memcpy(got.state.accumulators.middle, left.middle[row], 16);
    memcpy(got.state.accumulators.low, left.low[row], 16);
    got.state.flags = left.flags[row];
    if (!memcmp(&got, &expected, sizeof got)) return;
    memset(&alone, 0, sizeof alone);
    if (shared->kept < SHOWN) {
        is_imem_changed = 1;
        if (tested.load) tested.load(tested.at, memories_before);
        tested.run(tested.at, &in, &alone, 1);
    }
    compare_end(&in, &expected, &got, memcmp(&alone, &expected, sizeof alone) != 0, wrong_lanes(&expected.state, &got.state, word >> 6 & 31));
}

/* --- a batch */
static uint64_t bytes_of[256]; /* a bit for each lane becomes a byte for each lane */
static void put_flags(uint8_t into[5][LANES], uint32_t row, const brsp_flag_bits *f)
{
    const uint8_t bits[] = { f->carry, f->differ, f->compare, f->clip, f->extra };
    for (int i = 1; !bytes_of[255] && i < 256; i++)
        for (int j = 0; j < 8; j++) bytes_of[i] |= (uint64_t)(i >> j & 1) << 8 * j;
    for (int j = 0; j < 5; j++) memcpy(into[j] + 8 * row, bytes_of + bits[j], 8);
}
/* The flags before each operation: those that the operation before left, or those that were set. */
static void put_all_flags(const brsp_state *s, const plan *p)
{
    for (uint32_t row = 0; row < p->operations.count; row++) {
        brsp_flag_bits before = row ? left.flags[row - 1] : s->flags;
        if (p->sets & 1) before.carry = s->flags.carry, before.differ = s->flags.differ;
        if (p->sets & 2) before.compare = s->flags.compare, before.clip = s->flags.clip;
        if (p->sets & 4) before.extra = s->flags.extra;
        put_flags(given.flags, row, &before);
        put_flags(given.flags_after, row, left.flags + row);
    }
}
/* The accumulators before each operation: those that the operation before left, with what is added. */
static void put_accumulators(const brsp_state *s, const plan *p)
{
    memcpy(given.high, s->accumulators.high, 16), memcpy(given.high + 8, left.high, sizeof given.high - 16);
    memcpy(given.middle, s->accumulators.middle, 16), memcpy(given.middle + 8, left.middle, sizeof given.middle - 16);
    memcpy(given.low, s->accumulators.low, 16), memcpy(given.low + 8, left.low, sizeof given.low - 16);
    if (!p->added) return;
    for (uint32_t i = 0; i < 8 * p->operations.count; i++) {
        int64_t n = accumulator_from(given.high[i], given.middle[i], given.low[i]) + p->added[i];
        given.high[i] = (uint16_t)(n >> 32), given.middle[i] = (uint16_t)(n >> 16), given.low[i] = (uint16_t)n;
    }
}
static void put_row(const brsp_state *s, uint32_t vd, brsp_lane_ends *ends, uint32_t row)
{
    memcpy(ends->result[row], s->vectors[vd], 16);
    memcpy(ends->high[row], s->accumulators.high, 16);
    memcpy(ends->middle[row], s->accumulators.middle, 16);
    memcpy(ends->low[row], s->accumulators.low, 16);
    ends->flags[row] = s->flags;
}
uint32_t make_operations(const brsp_state *state, const brsp_operations *operations, brsp_lane_ends *ends)
{
    brsp_end out = { .state = *state };
    if (tested.lanes) return tested.lanes(tested.at, state, operations, ends);
    for (uint32_t i = 0; i < operations->count * operations->group; i++) {
        shared->now = (brsp_case){ out.state, operations->words[i] };
        shared->now.state.pc = 0, shared->now.state.npc = 4, shared->now.state.sp[4] = state->sp[4];
        if (tested.run(tested.at, &shared->now, &out, 1)) return i;
        if (out.status == CASES_UNSHOWN) return (uint32_t)UNSHOWN;
        if (out.status != BRSP_OK) return i;
        put_row(&out.state, operations->words[i] >> 6 & 31, ends, i / operations->group);
    }
    return operations->count * operations->group;
}
static void not_done(const brsp_state *s, const brsp_operations *operations, uint32_t done)
{
    brsp_case in = { *s, operations->words[done] };
    brsp_end expected = { *s, BRSP_OK, 0 }, got = { *s, BRSP_RESERVED, 0 };
    if (done < operations->group) shared->missing += 8 * operations->count;
    compare_end(&in, &expected, &got, 0, 8 * operations->count);
}
void run_batch(const test *t, const brsp_state *s, plan *p)
{
    brsp_operations *operations = &p->operations;
    uint32_t all = operations->count * operations->group;
    shared->now = (brsp_case){ *s, operations->words[operations->group - 1] };
    operations->are_new |= (uint32_t)is_imem_changed;
    uint32_t done = make_operations(s, operations, &left);
    is_imem_changed = 0, operations->are_new = 0;
    *(done == (uint32_t)UNSHOWN ? &shared->unshown : &shared->cases) += 8 * operations->count;
    if (done < all) not_done(s, operations, done);
    if (done != all) return;
    put_accumulators(s, p);
    int is_with_flags = has_flags(function_of(t)), differs = !is_with_flags && memcmp(left.flags + operations->count - 1, &s->flags, sizeof s->flags);
    if (is_with_flags) put_all_flags(s, p);
    if (!differs && !batch_differs(function_of(t), 8 * (int)operations->count)) return;
    for (uint32_t row = 0; row < operations->count; row++) compare_row(s, operations->words[(row + 1) * operations->group - 1], (int)row);
}
