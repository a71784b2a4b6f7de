/* The registers of z64, mupen64plus's other low-level RSP, as Debian's 2.5.9+10+ga7bf40f-2 on amd64 keeps them. Another build is unknown. */
#include "check.h"
#include <string.h>

typedef struct z64_registers {
    uint16_t v[32][8];
    uint64_t accumulators[8];
    uint32_t words[32];
    uint16_t flags[4];
    int32_t root, root_high, out, in;
    uint32_t last_pc, target, steps;
} z64_registers;
enum { REGISTERS_AT = 0x10040 };
static const uint32_t NO_TARGET = 0xffffffff;
static z64_registers *z64;

/* Whether the plugin in memory from `base` on, of this size, is that build, which has just executed the four instructions of other.c. */
int is_z64(const void *base, size_t size, const uint32_t *dmem)
{
    z64_registers *it = (z64_registers *)((uintptr_t)base + REGISTERS_AT);
    if (size < REGISTERS_AT + sizeof *it) return 0;
    if (it->words[1] != 0x12345678 || it->v[3][0] != dmem[0] >> 16 || it->v[3][7] != (dmem[3] & 0xffff)) return 0;
    z64 = it;
    return 1;
}

void set_z64(const brsp_state *s)
{
    memcpy(z64->words, s->words, sizeof z64->words);
    memcpy(z64->v, s->vectors, sizeof z64->v);
    for (int lane = 0; lane < 8; lane++) {
        uint64_t high = s->accumulators.high[lane], middle = s->accumulators.middle[lane], low = s->accumulators.low[lane];
        z64->accumulators[lane] = high << 48 | middle << 32 | low << 16;
    }
    z64->flags[0] = (uint16_t)(s->flags.carry | s->flags.differ << 8);
    z64->flags[1] = (uint16_t)(s->flags.compare | s->flags.clip << 8);
    z64->flags[2] = s->flags.extra;
    z64->in = s->divider.input;
    z64->out = (int32_t)((uint32_t)s->divider.output << 16);
    z64->target = s->npc == ((s->pc + 4) & 0xffc) ? NO_TARGET : s->npc;
    z64->steps = 0;
}

void clear_z64_bits(uint32_t number, uint32_t bits) { z64->words[number] &= ~bits; }

/* All but the SP registers, which are in other.registers, and `loaded`, which it doesn't keep. */
void get_z64(brsp_state *s)
{
    memcpy(s->words, z64->words, sizeof z64->words);
    memcpy(s->vectors, z64->v, sizeof z64->v);
    for (int lane = 0; lane < 8; lane++) {
        s->accumulators.high[lane] = (uint16_t)(z64->accumulators[lane] >> 48);
        s->accumulators.middle[lane] = (uint16_t)(z64->accumulators[lane] >> 32);
        s->accumulators.low[lane] = (uint16_t)(z64->accumulators[lane] >> 16);
    }
    s->flags = (brsp_flag_bits){ (uint8_t)z64->flags[0], (uint8_t)(z64->flags[0] >> 8), (uint8_t)z64->flags[1], (uint8_t)(z64->flags[1] >> 8),
        (uint8_t)z64->flags[2] };
    s->divider.input = (uint16_t)z64->in;
    s->divider.output = (uint16_t)((uint32_t)z64->out >> 16);
    s->pc = (uint16_t)(other.registers[REGISTER_PC] & 0xffc);
    s->npc = (uint16_t)(z64->target == NO_TARGET ? (s->pc + 4) & 0xffc : z64->target & 0xffc);
}
