/* A plugin of mupen64plus that is the library: one whose registers nobody knows. FAULT=1: VXOR changes a bit of its result. */
#include "cases.h"
#include "../../plugin/mupen64plus.h"

static m64p_rsp_info info;
static brsp_machine machine;
static uint8_t bytes[1 << 23];

int PluginStartup(void *core, void *context, void (*told)(void *, int, const char *)) { (void)core; (void)context; (void)told; return 0; }
void InitiateRSP(m64p_rsp_info given, unsigned *cycles) { (void)cycles; info = given; }

static void carry(int into) /* the memories, into the machine or out of it; of the RDRAM only what microcode.c's DMA reads */
{
    const uint32_t banks[] = { BRSP_RDRAM, BRSP_DMEM, BRSP_IMEM }, from[] = { 0x400000, 0, 0 };
    void *memories[] = { info.RDRAM + from[0], info.DMEM, info.IMEM };
    for (int i = 0; i < 3; i++) {
        uint32_t words[1024];
        if (into) { memcpy(words, memories[i], 4096); brsp_load_words(&machine, banks[i], from[i], words, 1024); }
        else { brsp_memory_words(&machine, banks[i], from[i], words, 1024); memcpy(memories[i], words, 4096); }
    }
}

static void spoil(uint32_t word)
{
    brsp_state s;
    if ((word & 0xFE00003F) != 0x4A00002C) return;
    brsp_get(&machine, &s);
    s.vectors[word >> 6 & 31][0] ^= FAULT;
    brsp_set(&machine, &s);
}

unsigned DoRspCycles(unsigned cycles)
{
    brsp_state s = { .npc = 4, .sp = { [2] = 0xFF8, [3] = 0xFF8 } };
    brsp_stop stop;
    if (!machine.at) brsp_new(&machine, bytes, sizeof bytes, 0);
    carry(1);
    brsp_set(&machine, &s);
    for (;;) {
        brsp_scalars at;
        uint8_t w[4];
        brsp_regs(&machine, &at);
        brsp_memory(&machine, BRSP_IMEM, at.pc, w, 4);
        brsp_run(&machine, 1, &stop);
        if (stop.steps == 0) break;
        spoil((uint32_t)w[0] << 24 | (uint32_t)w[1] << 16 | (uint32_t)w[2] << 8 | w[3]);
    }
    carry(0);
    return cycles;
}

void *cases_open(const char *what, const uint8_t *memories) { (void)what; (void)memories; return NULL; }
int cases_run(void *at, const brsp_case *in, brsp_end *out, size_t n) { (void)at; (void)in; (void)out; (void)n; return 1; }
