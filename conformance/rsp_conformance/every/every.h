/* The parts of the worker of conformance/every: a process that runs some positions of one test on an emulator, and compares each end with the expected
 * one. main.c says how it is started. */
#pragma once
#include "cases.h"

enum { OPERATIONS = CASES_OPERATIONS, LANES = 8 * OPERATIONS, SHOWN = 2 };

/* An emulator by the calls of cases.h. */
typedef struct emulator {
    void *at;
    int (*run)(void *at, const brsp_case *in, brsp_end *out, size_t n);
    uint32_t (*lanes)(void *at, const brsp_state *state, const brsp_operations *operations, brsp_lane_ends *ends);
    void (*load)(void *at, const uint8_t *memories); /* NULL if it takes no programs */
} emulator;
extern emulator tested, model;
/* second.c, a core that was written from the pages: the expected ends of all that has no rule in rules.h. */
emulator open_model(const uint8_t *memories);
extern const uint8_t *memories_before;

/* A difference: the case, what is expected and what the emulator left, and whether the case alone differs too. */
typedef struct difference { brsp_case in; brsp_end expected, got; uint32_t differs_alone, padding; } difference;
/* What the worker shares with the process that started it, which needs it if the emulator crashes or hangs. __main__.py has the same fields. */
typedef struct progress {
    uint64_t position, cases, unshown, missing, differ, kept, has_lanes; /* `kept` are the differences that are in `shown` */
    brsp_case now;
    difference shown[SHOWN];
} progress;
extern progress *shared;
extern brsp_end seen; /* the bits of an end that the emulator shows */

/* A test: the instruction's word without its fields, and what its kind reads besides. */
typedef struct test { uint32_t value, bits; const char *setting; } test;

/* --- numbers.c: random numbers, which a position always begins anew, so that it gives the same cases in each process */
void begin_numbers(uint64_t seed);
uint64_t any_number(void);
enum { EDGES = 1024, NEAR_POWERS = 240 }; /* at least so many of them are next to a power of two */
extern uint16_t edges[EDGES];
void make_edges(void);
uint16_t edge16(void); /* an edge, or any number */
uint32_t edge32(void);
void some_state(brsp_state *s); /* one that a machine can have, at pc 0 */
uint64_t spread(uint64_t position, uint32_t bits); /* all numbers of so many bits, in an order in which late ones come early */

/* --- results.c */
void compare_end(const brsp_case *in, const brsp_end *expected, const brsp_end *got, uint32_t differs_alone, uint32_t count);

/* --- lanes.c: batches of operations on lanes, compared with the rules */
typedef struct batch {
    int16_t a[LANES], b[LANES];
    uint16_t high[LANES], middle[LANES], low[LANES]; /* the accumulators before each operation, and the flags */
    uint8_t flags[5][LANES], flags_after[5][LANES];
    int32_t vs;
} batch;
typedef struct plan {
    brsp_operations operations;
    uint32_t sets;          /* 1: VCO is set before each operation, 2: VCC, 4: VCE */
    const int64_t *added;   /* what is added to the accumulator of each lane before each operation, or NULL */
} plan;
extern batch given;
void run_batch(const test *t, const brsp_state *s, plan *p); /* a and b are in `given` */
uint32_t vector_word(uint32_t function, uint32_t e, uint32_t vt, uint32_t vs, uint32_t vd);
uint32_t function_of(const test *t);
int64_t accumulator_of(const brsp_state *s, uint32_t lane);
void put_accumulator(brsp_state *s, uint32_t lane, int64_t n);
int64_t delta_of(const test *t, int64_t accumulator, int32_t a, int32_t b); /* by how much bits 47 to 16 grow */
/* cases_lanes of the emulator, or the same word by word if it has none. */
uint32_t make_operations(const brsp_state *state, const brsp_operations *operations, brsp_lane_ends *ends);
enum { UNSHOWN = -1 }; /* what this returns if the emulator can't be given a word */

/* --- the kinds of tests: each makes one position */
typedef void kind(const test *t, uint64_t position);
kind edge_pairs, all_pairs, upper_accumulators, divide_numbers, divide_edges, all_words, single_cases;
kind *kind_of(const char *name); /* NULL if there is none */
void run_position(kind *run, const test *t, uint64_t position);
/* --- lattice.c: case `number` of the forms of instructions that have no rule; t->bits is the number of bits of `number` */
void lattice_case(const test *t, uint64_t number, brsp_case *in);
