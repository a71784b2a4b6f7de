/* A shared object of cases: an emulator that conformance/campaign checks, a batch of cases a call. library.c is one, and a pattern for others.
 * For C11 and C++17. */
#pragma once
#include "brsp.h"
#include <string.h>
#ifdef __cplusplus
extern "C" {
#endif

/* A case: all registers, and the word at their pc. The memories before it are those of cases_open. */
typedef struct brsp_case { brsp_state state; uint32_t word; } brsp_case;

/* What it leaves. `status` is that of brsp_step, or CASES_UNSHOWN; BRSP_RESERVED, of all cases of an instruction, says that the emulator lacks it.
 * `changed` is the digest of the memories, 0 if no byte has changed. */
typedef struct brsp_end { brsp_state state; uint32_t status; uint64_t changed; } brsp_end;
#define CASES_UNSHOWN 0xFFFFFFFEu /* the emulator can't be given this case */

/* The memories in one array: DMEM, IMEM, and an RDRAM that ends after these bytes. */
enum { CASES_DMEM = 0, CASES_IMEM = 4096, CASES_RDRAM = 8192, CASES_RDRAM_LENGTH = 16384, CASES_MEMORIES = CASES_RDRAM + CASES_RDRAM_LENGTH };

void *cases_open(const char *what, const uint8_t *memories); /* NULL if it can't. `what` is "" but for plugins */
int cases_run(void *at, const brsp_case *in, brsp_end *out, size_t n); /* 0, or 1 + the number of a case whose state no machine can have */
void cases_seen(void *at, brsp_end *seen); /* optional: clears the bits of an end that the emulator can't show */
/* For programs: all registers, all memories, and steps up to a status other than BRSP_OK. */
void cases_set(void *at, const brsp_state *state);
void cases_get(void *at, brsp_state *state);
void cases_load(void *at, const uint8_t *memories);
void cases_look(void *at, uint8_t *memories);
void cases_step(void *at, uint32_t steps);
uint32_t cases_steps(void *at, uint32_t steps); /* optional, in place of cases_step: without a pause, and it returns how many steps are done */

/* For conformance/every: operations on all lanes. Each is `group` words without a branch, of which the last one is an instruction of the vector unit.
 * They are in IMEM from address 0 on, and if they aren't new, then they are there already. */
enum { CASES_OPERATIONS = 128, CASES_WORDS = 1024 };
typedef struct brsp_operations { uint32_t count, group, are_new, words[CASES_WORDS]; } brsp_operations;
/* What each operation leaves: the vector register that bits 10 to 6 of its last word name, the accumulators, and the flags. */
typedef struct brsp_lane_ends {
    uint16_t result[CASES_OPERATIONS][8], high[CASES_OPERATIONS][8], middle[CASES_OPERATIONS][8], low[CASES_OPERATIONS][8];
    brsp_flag_bits flags[CASES_OPERATIONS];
} brsp_lane_ends;
/* Sets all registers, with 0 as pc, and executes the operations. Returns how many words ended with BRSP_OK before the first other one. */
uint32_t cases_lanes(void *at, const brsp_state *state, const brsp_operations *operations, brsp_lane_ends *ends);

static inline uint64_t cases_digest_of(const uint8_t *before, const uint8_t *after, size_t n) /* of (address, byte) for each byte that has changed */
{
    uint64_t sum = 0;
    for (size_t at = 0; at < n; at += 1024) if (memcmp(before + at, after + at, 1024) != 0) for (size_t i = at; i < at + 1024; i++) if (before[i] != after[i]) {
        uint64_t x = ((uint64_t)i << 8 | after[i]) * 0xBF58476D1CE4E5B9u + 0x9E3779B97F4A7C15u;
        x = (x ^ x >> 27) * 0x94D049BB133111EBu;
        sum += x ^ x >> 31;
    }
    return sum;
}
static inline int cases_is_dma(uint32_t word) { return (word & 0xFFE07000) == 0x40801000; } /* MTC0 of a length: it can reach the RDRAM */
#ifdef __cplusplus
}
#endif
