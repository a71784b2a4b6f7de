/* The calls of cases.h over an emulator's own: a file defines these, and then includes this one. library.c is a pattern, in C++ too.
 *   typedef .. side_machine;
 *   static int side_make(side_machine *m, const char *what);      0 if it can't
 *   static int side_is_shown(const brsp_case *in);                0 of a case that it can't be given
 *   static int side_set(side_machine *m, const brsp_state *s);    all registers; 0 if they are such as no machine has
 *   static uint32_t side_step(side_machine *m);                   one instruction, and its status
 *   static void side_get(side_machine *m, brsp_state *s);
 *   static void side_put(side_machine *m, uint32_t pc, uint32_t word);           a word of IMEM
 *   static void side_load(side_machine *m, const uint8_t *memories, size_t to);  the memories up to `to`, which is CASES_RDRAM or CASES_MEMORIES
 *   static void side_look(side_machine *m, uint8_t *memories, size_t to);
 * `side_set`, `side_put` and `side_load` also have to make the core forget all that it keeps besides: words that it has decoded or recompiled, and
 * what is in a pipeline. Otherwise a case can show what an earlier one left.
 * A core with a pipeline also defines SIDE_STEPS as the name of a function
 *   static uint32_t SIDE_STEPS(side_machine *m, uint32_t n);
 * which executes n instructions of a program without a pause, and returns how many are done. It stops after the first one that doesn't end as done.
 * Only then the pipeline is empty: after each instruction, as `side_step` leaves it, no hazard between two instructions can show.
 * A core that has something faster than `side_get` for a vector register, the accumulators and the flags may define SIDE_LANES as the name of a function
 *   static void SIDE_LANES(side_machine *m, uint32_t vd, brsp_lane_ends *ends, uint32_t i);
 * which puts them into row i of `ends`. library.c does. */
#include <stdlib.h>
#ifdef __cplusplus
extern "C" {
#endif
typedef struct side_opened { side_machine m; uint8_t before[CASES_MEMORIES], after[CASES_MEMORIES]; } side_opened;

void *cases_open(const char *what, const uint8_t *memories)
{
    side_opened *s = (side_opened *)calloc(1, sizeof *s);
    if (!s || !side_make(&s->m, what)) return NULL;
    memcpy(s->before, memories, CASES_MEMORIES);
    side_load(&s->m, memories, CASES_MEMORIES);
    return s;
}

static int side_run(side_opened *s, const brsp_case *in, brsp_end *out)
{
    uint32_t pc = in->state.pc, word = __builtin_bswap32(in->word), kept;
    size_t reach = cases_is_dma(in->word) ? CASES_MEMORIES : CASES_RDRAM;
    if (!side_set(&s->m, &in->state)) return 0;
    side_put(&s->m, pc, in->word);
    memcpy(&kept, s->before + CASES_IMEM + pc, 4);
    memcpy(s->before + CASES_IMEM + pc, &word, 4);
    out->status = side_step(&s->m);
    side_get(&s->m, &out->state);
    side_look(&s->m, s->after, reach);
    out->changed = cases_digest_of(s->before, s->after, reach);
    memcpy(s->before + CASES_IMEM + pc, &kept, 4);
    if (out->changed || reach > CASES_RDRAM) side_load(&s->m, s->before, reach);
    else side_put(&s->m, pc, __builtin_bswap32(kept));
    return 1;
}

int cases_run(void *at, const brsp_case *in, brsp_end *out, size_t n)
{
    for (size_t i = 0; i < n; i++)
        if (!side_is_shown(in + i)) out[i].status = CASES_UNSHOWN;
        else if (!side_run((side_opened *)at, in + i, out + i)) return (int)i + 1;
    return 0;
}

void cases_set(void *at, const brsp_state *state) { side_set(&((side_opened *)at)->m, state); }
void cases_get(void *at, brsp_state *state) { side_get(&((side_opened *)at)->m, state); }
void cases_load(void *at, const uint8_t *memories) { side_load(&((side_opened *)at)->m, memories, CASES_MEMORIES); }
void cases_look(void *at, uint8_t *memories) { side_look(&((side_opened *)at)->m, memories, CASES_MEMORIES); }

#ifndef SIDE_LANES
#define SIDE_LANES side_lanes
static void side_lanes(side_machine *m, uint32_t vd, brsp_lane_ends *ends, uint32_t i)
{
    brsp_state s;
    side_get(m, &s);
    memcpy(ends->result[i], s.vectors[vd], 16);
    memcpy(ends->high[i], s.accumulators.high, 16);
    memcpy(ends->middle[i], s.accumulators.middle, 16);
    memcpy(ends->low[i], s.accumulators.low, 16);
    ends->flags[i] = s.flags;
}
#endif
uint32_t cases_lanes(void *at, const brsp_state *state, const brsp_operations *operations, brsp_lane_ends *ends)
{
    side_machine *m = &((side_opened *)at)->m;
    const uint32_t *words = operations->words, group = operations->group;
    if (!side_set(m, state)) return 0;
    for (uint32_t i = 0; operations->are_new && i < operations->count * group; i++) side_put(m, 4 * i, words[i]);
    for (uint32_t i = 0; i < operations->count; i++) {
        for (uint32_t j = 0; j < group; j++) if (side_step(m) != BRSP_OK) return i * group + j;
        SIDE_LANES(m, words[i * group + group - 1] >> 6 & 31, ends, i);
    }
    return operations->count * group;
}

#ifdef SIDE_STEPS
uint32_t cases_steps(void *at, uint32_t n) { return SIDE_STEPS(&((side_opened *)at)->m, n); }
void cases_step(void *at, uint32_t n) { SIDE_STEPS(&((side_opened *)at)->m, n); }
#else
void cases_step(void *at, uint32_t steps) { while (steps-- && side_step(&((side_opened *)at)->m) == BRSP_OK) {} }
#endif
#ifdef __cplusplus
}
#endif
