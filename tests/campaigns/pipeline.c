/* A core with a pipeline of three stages for computing instructions: the first reads vs and vt, and the third executes (here by the library) and
 * writes. An interlock keeps an instruction out of the first stage as long as a later stage has yet to write its vs or vt. PLANTED=1: the interlock
 * forgets vt against the third stage. PLANTED=2: VMRG reads the compare flags a stage early. All other instructions wait until the pipeline is empty.
 * With PAUSES the core has no SIDE_STEPS; with COUNT its SIDE_STEPS returns that number. */
#include "brsp.h"
#ifndef PLANTED
#define PLANTED 0
#endif
static uint32_t single(brsp_machine *m);
#ifndef PAUSES
static uint32_t many(brsp_machine *m, uint32_t n);
#define SIDE_STEPS many
#endif
#define brsp_step single
#include "library.c"
#undef brsp_step

typedef struct stage { uint32_t word; uint16_t vs[8], vt[8]; uint8_t compare; } stage; /* an instruction and what it has read; no word: none */
static stage second, third;

static unsigned field(uint32_t word, int low) { return word >> low & 31; }
static int writes(const stage *s, unsigned number) { return s->word && field(s->word, 6) == number; }

/* The third stage: executes on what the first has read. Registers that it has read and doesn't write stay as they are. */
static void retire(brsp_machine *m)
{
    unsigned vt = field(third.word, 16), vs = field(third.word, 11), vd = field(third.word, 6);
    int is_early = PLANTED == 2 && (third.word & 63) == 0x27;
    brsp_state before, s;
    brsp_get(m, &before);
    s = before;
    memcpy(s.vectors[vs], third.vs, 16);
    memcpy(s.vectors[vt], third.vt, 16);
    if (is_early) s.flags.compare = third.compare;
    brsp_set(m, &s);
    brsp_step(m);
    brsp_get(m, &s);
    if (vs != vd) memcpy(s.vectors[vs], before.vectors[vs], 16);
    if (vt != vd) memcpy(s.vectors[vt], before.vectors[vt], 16);
    if (is_early) s.flags.compare = before.flags.compare;
    brsp_set(m, &s);
}

/* A clock, at which an instruction is offered (0: none). Returns whether it was taken. */
static int tick(brsp_machine *m, uint32_t word)
{
    unsigned vt = field(word, 16), vs = field(word, 11);
    int is_taken = word && !writes(&second, vs) && !writes(&second, vt) && !writes(&third, vs) && (PLANTED == 1 || !writes(&third, vt));
    stage first = { is_taken ? word : 0, { 0 }, { 0 }, 0 };
    brsp_state s;
    brsp_get(m, &s);
    memcpy(first.vs, s.vectors[vs], 16);
    memcpy(first.vt, s.vectors[vt], 16);
    second.compare = s.flags.compare;
    if (third.word) retire(m);
    third = second;
    second = first;
    return is_taken;
}

static void drain(brsp_machine *m) { while (second.word || third.word) tick(m, 0); }

/* Executes n instructions, back to back where the pipeline allows it. Returns how many are done. */
static uint32_t run(brsp_machine *m, uint32_t n, uint32_t *status)
{
    uint32_t done = 0, word;
    for (*status = BRSP_OK; done < n && *status == BRSP_OK; done += *status == BRSP_OK) {
        unsigned ahead = (second.word ? 1u : 0u) + (third.word ? 1u : 0u);
        brsp_state s;
        brsp_get(m, &s);
        brsp_memory_words(m, BRSP_IMEM, ahead ? (s.npc + 4 * (ahead - 1)) & 0xFFC : s.pc, &word, 1);
        if (word >> 25 == 0x25 && !(s.sp[4] & 0x21)) while (!tick(m, word)) continue;
        else {
            drain(m);
            *status = brsp_step(m);
        }
    }
    drain(m);
    return done;
}

static uint32_t single(brsp_machine *m)
{
    uint32_t status;
    run(m, 1, &status);
    return status;
}

#ifdef SIDE_STEPS
static uint32_t many(brsp_machine *m, uint32_t n)
{
    uint32_t status, done = run(m, n, &status);
#ifdef COUNT
    done = COUNT;
#endif
    return done;
}
#endif
