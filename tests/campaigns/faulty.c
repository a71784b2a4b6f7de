/* The library with a planted fault. FAULT=1: lane 5 of VADD is one too small if two largest numbers and a carry are added. FAULT=2: VXOR changes
 * a bit if the instruction before it was LQV. FAULT=3: it dies after a batch that has a case of the word WORD. FAULT=4: VLT changes a bit after
 * a CTC2, unless the registers were read or set since. FAULT=5: SB of a register with an odd number changes the first byte of DMEM, too.
 * FAULT=6: VRCPL takes DIV_IN also if it isn't loaded. */
#include "brsp.h"
#include <stdio.h>
static uint32_t faulty_step(brsp_machine *m);
static int is_spoilt;
static uint32_t faulty_get(brsp_machine *m, brsp_state *s) { is_spoilt = 0; return brsp_get(m, s); }
static uint32_t faulty_set(brsp_machine *m, const brsp_state *s) { is_spoilt = 0; return brsp_set(m, s); }
#define brsp_step faulty_step
#define brsp_get faulty_get
#define brsp_set faulty_set
#define cases_run library_run
#include "library.c"
#undef brsp_step
#undef brsp_get
#undef brsp_set
#undef cases_run
#ifndef WORD
#define WORD 0
#endif

int cases_run(void *at, const brsp_case *in, brsp_end *out, size_t n)
{
    int refused = library_run(at, in, out, n);
    for (size_t i = 0; i < n; i++) if (FAULT == 3 && in[i].word == WORD) fputs("core: \033[31mboom\n", stderr), abort();
    return refused;
}

static int is_faulty(const brsp_state *s, uint32_t word)
{
    static uint32_t last;
    uint32_t before = last;
    last = word;
    if (FAULT == 4 && (word & 0xFFE00000) == 0x48C00000) is_spoilt = 1;
    if (FAULT == 6) return 0;
    if (FAULT == 4) return (word & 0xFE00003F) == 0x4A000020 && is_spoilt;
    if (FAULT == 5) return word >> 26 == 40 && word >> 16 & 1;
    if (FAULT == 2) return (word & 0xFE00003F) == 0x4A00002C && (before & 0xFC00F800) == 0xC8002000;
    return (word & 0xFE00003F) == 0x4A000010 && (word >> 21 & 15) < 2 && s->vectors[word >> 11 & 31][5] == 0x7FFF
        && s->vectors[word >> 16 & 31][5] == 0x7FFF && s->flags.carry & 32;
}

static uint32_t faulty_step(brsp_machine *m)
{
    brsp_state s;
    uint8_t w[4];
    brsp_get(m, &s);
    brsp_memory(m, BRSP_IMEM, s.pc, w, 4);
    uint32_t word = (uint32_t)w[0] << 24 | (uint32_t)w[1] << 16 | (uint32_t)w[2] << 8 | w[3];
    int faulty = is_faulty(&s, word);
    if (FAULT == 6 && (word & 0xFE00003F) == 0x4A000031) s.divider.loaded = 1, brsp_set(m, &s);
    uint32_t status = brsp_step(m);
    if (!faulty || status != BRSP_OK) return status;
    if (FAULT == 5) {
        brsp_memory(m, BRSP_DMEM, 0, w, 1);
        w[0] ^= 1;
        brsp_load(m, BRSP_DMEM, 0, w, 1);
        return BRSP_OK;
    }
    brsp_get(m, &s);
    if (FAULT != 1) s.vectors[word >> 6 & 31][0] ^= 1;
    else s.vectors[word >> 6 & 31][5]--;
    brsp_set(m, &s);
    return BRSP_OK;
}
