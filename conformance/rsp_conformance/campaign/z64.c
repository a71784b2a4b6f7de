/* z64, a plugin of mupen64plus, with all its registers, if it is the build that plugin/z64.c knows. cases_open refuses any other. A case is a single
 * step, by bit 5 of SP_STATUS. */
#include "host.h"

typedef int side_machine; /* z64 has one, which is its own */
enum { STOPPED = HALTED | BROKE | SINGLE_STEP };

static int side_make(side_machine *m, const char *what) { (void)m; return open_other(what) && other.is_z64; }

static int side_is_shown(const brsp_case *in) /* an MTC0 that clears single step would run on */
{
    return (in->word & 0xFFE07800) != 0x40802000 || !(in->state.words[in->word >> 16 & 31] & 0x20);
}

static int side_set(side_machine *m, const brsp_state *s)
{
    (void)m;
    memcpy(other.registers, s->sp, sizeof s->sp);
    other.registers[REGISTER_PC] = s->pc;
    other.registers[REGISTER_INTERRUPTS] = s->interrupt;
    set_z64(s);
    return 1;
}

static uint32_t side_step(side_machine *m) { (void)m; step_other(0); return BRSP_OK; }

static void side_get(side_machine *m, brsp_state *s)
{
    (void)m;
    get_z64(s);
    s->pc = (uint16_t)other.registers[REGISTER_PC]; /* with the two low bits that z64 keeps */
    s->npc = z64->target == NO_TARGET ? (s->pc + 4) & 0xFFC : z64->target & 0xFFF;
    memcpy(s->sp, other.registers, sizeof s->sp);
    s->interrupt = other.registers[REGISTER_INTERRUPTS] & 1;
}

static void side_put(side_machine *m, uint32_t pc, uint32_t word) { (void)m; other.memory[BRSP_IMEM][pc / 4] = word; }

static void side_load(side_machine *m, const uint8_t *memories, size_t to)
{
    (void)m;
    swap(other.memory[BRSP_DMEM], memories, CASES_RDRAM);
    if (to == CASES_RDRAM) return;
    memset(other.memory[BRSP_DMEM] + 2048, 0, 16384); /* what an earlier DMA may have changed: z64's runs on after IMEM */
    madvise(other.memory[BRSP_RDRAM], RDRAM_SPACE, MADV_DONTNEED);
    swap(other.memory[BRSP_RDRAM], memories + CASES_RDRAM, CASES_RDRAM_LENGTH);
}

static void side_look(side_machine *m, uint8_t *memories, size_t to)
{
    (void)m;
    swap(memories, other.memory[BRSP_DMEM], CASES_RDRAM);
    if (to > CASES_RDRAM) swap(memories + CASES_RDRAM, other.memory[BRSP_RDRAM], CASES_RDRAM_LENGTH);
}

#include "side.h"

void cases_seen(void *at, brsp_end *seen) /* z64 doesn't keep whether the divider is loaded */
{
    (void)at;
    seen->state.sp[SP_STATUS] &= ~(uint32_t)STOPPED;
    seen->state.divider.loaded = 0;
}
