/* The proved library as a shared object of cases: the side that emulators are compared with. */
#include "cases.h"

typedef brsp_machine side_machine;
static const size_t start_of[] = { CASES_DMEM, CASES_IMEM, CASES_RDRAM, CASES_MEMORIES }; /* each bank's, by its number */
static const uint8_t zeros[CASES_RDRAM_LENGTH] = { 0 };

static int side_make(brsp_machine *m, const char *what) { (void)what; return brsp_new(m, zeros, CASES_RDRAM_LENGTH, 0) == BRSP_OK; }
static int side_is_shown(const brsp_case *in) { (void)in; return 1; }
static int side_set(brsp_machine *m, const brsp_state *s) { return brsp_set(m, s) == BRSP_OK; }
static uint32_t side_step(brsp_machine *m) { return brsp_step(m); }
static void side_get(brsp_machine *m, brsp_state *s) { brsp_get(m, s); }
static void side_put(brsp_machine *m, uint32_t pc, uint32_t word) { brsp_load_words(m, BRSP_IMEM, pc, &word, 1); }

static void side_load(brsp_machine *m, const uint8_t *memories, size_t to)
{
    for (uint32_t bank = 0; start_of[bank] < to; bank++)
        brsp_load(m, bank, 0, memories + start_of[bank], start_of[bank + 1] - start_of[bank]);
}

static void side_look(brsp_machine *m, uint8_t *memories, size_t to)
{
    for (uint32_t bank = 0; start_of[bank] < to; bank++)
        brsp_memory(m, bank, 0, memories + start_of[bank], start_of[bank + 1] - start_of[bank]);
}

#define SIDE_LANES lanes
static void lanes(brsp_machine *m, uint32_t vd, brsp_lane_ends *ends, uint32_t i)
{
    brsp_lanes result;
    brsp_accumulators accumulators;
    brsp_vreg(m, vd, &result);
    brsp_acc(m, &accumulators);
    brsp_flags(m, ends->flags + i);
    memcpy(ends->result[i], result.lanes, 16);
    memcpy(ends->high[i], accumulators.high, 16);
    memcpy(ends->middle[i], accumulators.middle, 16);
    memcpy(ends->low[i], accumulators.low, 16);
}

#include "side.h"

/* No part of the interface: the digest for emulators in other languages. */
uint64_t cases_digest(const uint8_t *before, const uint8_t *after) { return cases_digest_of(before, after, CASES_MEMORIES); }
