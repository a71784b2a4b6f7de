/* Lockstep: an emulator of a few scalar instructions beside the proved machine, from one state on. The first difference is reported with the text of its
 * instruction. The emulator has a fault that is planted: its SRA shifts zeros in. See docs/EMULATOR.md. */
#include "brsp.h"
#include <stdio.h>
#include <string.h>

/* In place of your emulator. */
typedef struct emulator {
    uint32_t r[32];
    uint16_t pc, npc;
    const uint32_t *imem;
    int has_fault;
} emulator;

static uint32_t shifted(const emulator *e, uint32_t value, unsigned amount)
{
    uint32_t sign = value >> 31 && amount && !e->has_fault ? ~(0xffffffffu >> amount) : 0;
    return value >> amount | sign;
}

/* Executes one instruction: NOP, SRA, ADDU, ADDIU, BNE, and BREAK, which does nothing here. */
static void emulate(emulator *e)
{
    uint32_t word = e->imem[e->pc / 4], low = (uint32_t)(int16_t)word;
    unsigned s = word >> 21 & 31, t = word >> 16 & 31, d = word >> 11 & 31;
    uint16_t place = e->npc, next = (uint16_t)((e->npc + 4) % 4096);
    switch (word >> 26) {
    case 0:
        if ((word & 63) == 3) e->r[d] = shifted(e, e->r[t], word >> 6 & 31);
        if ((word & 63) == 33) e->r[d] = e->r[s] + e->r[t];
        break;
    case 5:
        if (e->r[s] != e->r[t]) next = (uint16_t)((e->npc + 4 * low) % 4096);
        break;
    case 9:
        e->r[t] = e->r[s] + low;
        break;
    }
    e->r[0] = 0;
    e->pc = place, e->npc = next;
}

static int is_equal(const emulator *e, const brsp_scalars *now)
{
    return memcmp(e->r, now->words, sizeof e->r) == 0 && e->pc == now->pc && e->npc == now->npc;
}

/* Tells the first part in which they differ, and answers whether there is one. */
static int differs(const emulator *e, const brsp_scalars *now, const brsp_line *line, int steps)
{
    int n;
    for (n = 0; n < 32; n++) {
        if (e->r[n] == now->words[n]) continue;
        printf("step %d, %03x: %s\n", steps, line->address, line->text);
        printf("  $%d is %08x on the machine and %08x in the emulator\n", n, now->words[n], e->r[n]);
        return 1;
    }
    if (is_equal(e, now)) return 0;
    printf("step %d, %03x: %s\n", steps, line->address, line->text);
    printf("  pc, npc are %03x, %03x on the machine and %03x, %03x in the emulator\n", now->pc, now->npc, e->pc, e->npc);
    return 1;
}

/* Makes at most n steps, and ends before one that starts a DMA: an MTC0 of SP_RD_LEN or SP_WR_LEN. Returns how many it made. */
static uint32_t run_before_dma(brsp_machine *m, uint32_t n)
{
    brsp_move end;
    return brsp_run_until_move(m, n, 0, 1 << 2 | 1 << 3, &end) == BRSP_OK ? end.stop.steps : 0;
}

/* Steps both, after `steps` steps, at most n times, up to a difference: returns 1 at one, 0 if there is none, -1 if the machine can't go on. */
static int step_both(brsp_machine *m, emulator *e, int steps, uint32_t n)
{
    brsp_scalars now;
    brsp_line line;
    uint32_t status;
    while (n--) {
        brsp_text(e->imem[e->pc / 4], e->pc, &line);
        status = brsp_step(m);
        if (status != BRSP_OK) {
            printf("no difference in %d steps, then %s\n", steps, brsp_status_name(status));
            return -1;
        }
        emulate(e);
        brsp_regs(m, &now);
        if (differs(e, &now, &line, ++steps)) return 1;
    }
    return 0;
}

/* Runs both from one state on, that of `start`, up to a difference or a halt: in stretches of EVERY steps that end before a DMA. If they differ
 * after one, both go back to its beginning, and are stepped. */
static uint32_t lockstep(brsp_machine *start, emulator *e, const brsp_state *state)
{
    enum { EVERY = 64 };
    brsp_machine copy = BRSP_NONE, *m = &copy;
    brsp_state before;
    brsp_scalars now;
    emulator mine;
    uint32_t made, k, status = brsp_copy(m, start);
    int steps = 0, found = 0;
    if (status != BRSP_OK) return status;
    memcpy(e->r, state->words, sizeof e->r);
    e->pc = state->pc, e->npc = state->npc;
    while (!found) {
        brsp_get(m, &before);
        mine = *e;
        made = run_before_dma(m, EVERY);
        for (k = 0; k < made; k++) emulate(e);
        brsp_regs(m, &now);
        if (made == 0) {
            found = step_both(m, e, steps++, 1);
        } else if (is_equal(e, &now)) {
            steps += (int)made;
        } else {
            brsp_set(m, &before); /* and the memories by brsp_load, if the emulator has any */
            *e = mine;
            found = step_both(m, e, steps, made);
            steps += (int)made;
        }
    }
    brsp_free(m);
    return BRSP_OK;
}

int main(void)
{
    static const uint8_t image[64] = { 0 };
    static const char *const program = "loop: sra $3, $1, 2\n"
                                       "addu $4, $4, $3\n"
                                       "addiu $2, $2, -1\n"
                                       "bne $2, $0, loop\n"
                                       "nop\n"
                                       "break\n";
    static brsp_state state;
    static uint32_t imem[1024];
    brsp_machine m = BRSP_NONE;
    brsp_assembled out;
    uint32_t field;
    emulator e = { { 0 }, 0, 0, imem, 1 };

    if (brsp_new(&m, image, sizeof image, 0) != BRSP_OK) return 1;
    if (brsp_assemble(0, (const uint8_t *)program, strlen(program), imem, 1024, &out) != BRSP_OK) return 1;
    if (brsp_load_words(&m, BRSP_IMEM, 0, imem, 1024) != BRSP_OK) return 1;
    if (brsp_get(&m, &state) != BRSP_OK) return 1;
    state.words[1] = 0xffffffc0u; /* -64 */
    state.words[2] = 4;
    if (brsp_set(&m, &state) != BRSP_OK) {
        brsp_state_fault(&state, &field);
        fprintf(stderr, "no machine has this state: field %u\n", (unsigned)field);
        return 1;
    }
    if (lockstep(&m, &e, &state) != BRSP_OK) return 1;
    e.has_fault = 0;
    if (lockstep(&m, &e, &state) != BRSP_OK) return 1;
    brsp_free(&m);
    return 0;
}
