/* All words, a step each: whether the emulator executes what second.c executes. */
#include "every.h"

static void try_word(const brsp_state *s, uint32_t word)
{
    static brsp_operations one = { .count = 1, .group = 1, .are_new = 1 };
    static brsp_lane_ends left;
    one.words[0] = word;
    shared->now = (brsp_case){ *s, word };
    uint32_t is_done = make_operations(s, &one, &left);
    if (is_done == (uint32_t)UNSHOWN) return;
    uint32_t is_expected = model.lanes(model.at, s, &one, &left);
    if (is_done == is_expected) return;
    brsp_case in = { *s, word };
    brsp_end expected = { *s, is_expected ? BRSP_OK : BRSP_RESERVED, 0 }, got = { *s, is_done ? BRSP_OK : BRSP_RESERVED, 0 };
    compare_end(&in, &expected, &got, 1, 1);
}
/* 2^20 positions: a number for the low 20 bits, with all 4,096 for the high bits. */
void all_words(const test *t, uint64_t position)
{
    brsp_state s;
    (void)t;
    memset(&s, 0, sizeof s);
    s.npc = 4, s.sp[2] = s.sp[3] = 0xFF8;
    for (uint32_t high = 0; high < 4096; high++) try_word(&s, high << 20 | (uint32_t)spread(position, 20));
    shared->cases += 4096;
}
