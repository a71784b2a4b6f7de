/* VRCPH and VRCPL, VRSQH and VRSQL, of 32-bit numbers: DIV_IN and a lane. */
#include "every.h"
#include "divide.h"

/* The numbers of an operation, and of a batch: the last operation only reads the high half of an answer. */
enum { NUMBERS = 4, CHECKED = 128, ALL = CHECKED + NUMBERS };

/* An operation is four pairs of words. The first of a pair reads the high half of the answer before into lane 4 to 7, and loads the high half of the number
 * from $v1; the second one leaves the low half of the answer in lane 0 to 3. */
static void put_words(brsp_operations *operations, uint32_t is_root)
{
    uint32_t high = is_root ? 0x36 : 0x32, *words = operations->words;
    for (uint32_t i = 0; i < ALL; i++) {
        uint32_t lane = i % NUMBERS, vd = 24 + i / NUMBERS % 8;
        words[2 * i] = vector_word(high, i % 16, 1, NUMBERS + lane, vd);
        words[2 * i + 1] = vector_word(high - 1, i % 8 + (i & 8), 2 + i / 8, lane, vd);
    }
    operations->count = ALL / NUMBERS, operations->group = 2 * NUMBERS, operations->are_new = 1;
}
/* A number whose answer differs, as a case of the instruction for its low half. */
static void add_difference(const test *t, const brsp_state *s, uint32_t x, uint32_t expected, uint32_t got)
{
    brsp_case in = { *s, vector_word(function_of(t), 0, 2, 0, 24) };
    brsp_end right = { .status = BRSP_OK }, wrong;
    for (int i = 0; i < 8; i++) in.state.vectors[2][i] = (uint16_t)x;
    in.state.divider = (brsp_divide_state){ (uint16_t)(x >> 16), s->divider.output, 1 };
    right.state = in.state, right.state.pc = 4, right.state.npc = 8;
    memcpy(right.state.accumulators.low, in.state.vectors[2], 16);
    right.state.divider.loaded = 0, wrong = right;
    right.state.vectors[24][0] = (uint16_t)expected, right.state.divider.output = (uint16_t)(expected >> 16);
    wrong.state.vectors[24][0] = (uint16_t)got, wrong.state.divider.output = (uint16_t)(got >> 16);
    compare_end(&in, &right, &wrong, 1, 1);
}
static void run_numbers(const test *t, uint32_t high, uint32_t low)
{
    static brsp_operations operations;
    static brsp_lane_ends left;
    uint32_t is_root = function_of(t) >= 0x34;
    brsp_state s;
    if (!operations.count) make_entries(), put_words(&operations, is_root);
    some_state(&s);
    s.sp[4] &= ~0x20u;
    for (uint32_t i = 0; i < 8; i++) s.vectors[1][i] = (uint16_t)high;
    for (uint32_t i = 0; i < ALL; i++) s.vectors[2 + i / 8][i % 8] = (uint16_t)(low + i);
    shared->now = (brsp_case){ s, operations.words[1] };
    uint32_t all = operations.count * operations.group;
    uint32_t done = make_operations(&s, &operations, &left);
    operations.are_new = 0;
    *(done == (uint32_t)UNSHOWN ? &shared->unshown : &shared->cases) += CHECKED;
    for (uint32_t i = 0; done == all && i < CHECKED; i++) {
        uint32_t x = high << 16 | ((low + i) & 0xFFFF), expected = divided((int32_t)x, (int)is_root);
        uint16_t lower = left.result[i / NUMBERS][i % NUMBERS], upper = left.result[(i + 1) / NUMBERS][NUMBERS + (i + 1) % NUMBERS];
        if (((uint32_t)upper << 16 | lower) != expected) add_difference(t, &s, x, expected, (uint32_t)upper << 16 | lower);
    }
    if (done < operations.group) shared->missing += CHECKED;
    if (done < all) add_difference(t, &s, high << 16 | low, 0, ~0u);
}
/* 2^25 positions: a high half, and 128 low ones. */
void divide_numbers(const test *t, uint64_t position)
{
    uint64_t index = spread(position, 25);
    run_numbers(t, (uint32_t)(index >> 9), (uint32_t)(index & 511) * CHECKED);
}
/* 2^18 positions: the first 512 edges as the high half, with all low halves. */
void divide_edges(const test *t, uint64_t position)
{
    uint64_t index = spread(position, 18);
    run_numbers(t, edges[index >> 9], (uint32_t)(index & 511) * CHECKED);
}
