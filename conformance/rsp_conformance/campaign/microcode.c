/* Any plugin of mupen64plus: nothing of it is known but the memories and SP registers, which are ours. A case becomes two programs of microcode:
 * SETTING, the word and BREAK, after which the memories are compared; and SETTING, the word and SAVING, which leaves the registers in DMEM.
 * build.py gives the words of both. Whatever can't be seen so is masked, and cases about it are CASES_UNSHOWN. */
#include "host.h"

static const uint32_t setting[] = { SETTING }, saving[] = { SAVING }, BREAK = 0x0000000D;
static uint8_t before[CASES_MEMORIES], after[CASES_MEMORIES];
enum { SET = sizeof setting / 4, SAVE = sizeof saving / 4, COPY = 0x400000 };
/* Where SETTING finds the registers in DMEM, and SAVING leaves them, counted in halves of words: as conformance/bench.py has it. */
enum { VECTORS = 0, ACCUMULATORS = 0x100, ONES = 0x118, CONTROLS = 0x128, SCALARS = 0x140, HALVES = 0x180 };

void *cases_open(const char *what, const uint8_t *memories)
{
    if (!open_other(what)) return NULL;
    memcpy(before, memories, CASES_MEMORIES);
    return &other;
}

void cases_seen(void *at, brsp_end *seen) /* vectors, accumulators, flags, scalar registers, and which bytes changed */
{
    (void)at;
    memset(&seen->state.divider, 0, sizeof seen->state - offsetof(brsp_state, divider));
}

static int is_shown(const brsp_case *in) /* not branches, jumps and BREAK, not SP registers, and not the two that read DIV_OUT */
{
    uint32_t word = in->word, opcode = word >> 26, function = word & 63;
    if ((opcode >= 1 && opcode <= 7) || opcode == 16) return 0;
    if (opcode == 0) return function != 8 && function != 9 && function != 13;
    return !((word & 0xFE000000) == 0x4A000000 && (function == 0x32 || function == 0x36));
}

static void set(const brsp_state *s) /* puts the data of SETTING into DMEM */
{
    const brsp_flag_bits *f = &s->flags;
    const uint16_t vco = (uint16_t)(f->carry | f->differ << 8), vcc = (uint16_t)(f->compare | f->clip << 8);
    const uint16_t rest[] = { 0x7FFF, 2, 1, 0, 0, 0, 0, 0, 0, 0xFFFF, s->divider.input, 0, 0, 0, 0, 0, vco, vcc, f->extra };
    uint32_t *dmem = other.memory[BRSP_DMEM];
    uint16_t data[SCALARS] = { 0 };
    memcpy(data + VECTORS, s->vectors, sizeof s->vectors);
    memcpy(data + ACCUMULATORS, &s->accumulators, sizeof s->accumulators);
    for (int l = 0; l < 8; l++) data[ACCUMULATORS + l] += s->accumulators.middle[l] >> 15;
    memcpy(data + ONES, rest, sizeof rest);
    for (int k = 0; k < SCALARS / 2; k++) dmem[k] = (uint32_t)data[2 * k] << 16 | data[2 * k + 1];
    memcpy(dmem + SCALARS / 2, s->words, sizeof s->words);
}

static void get(brsp_state *s) /* takes from DMEM what SAVING left */
{
    const uint32_t *dmem = other.memory[BRSP_DMEM];
    uint16_t data[SCALARS];
    const uint8_t *flags = (const uint8_t *)(data + CONTROLS); /* the low byte of a half is first */
    for (int k = 0; k < SCALARS / 2; k++) { data[2 * k] = (uint16_t)(dmem[k] >> 16); data[2 * k + 1] = (uint16_t)dmem[k]; }
    memcpy(s->vectors, data + VECTORS, sizeof s->vectors);
    memcpy(&s->accumulators, data + ACCUMULATORS, sizeof s->accumulators);
    s->flags = (brsp_flag_bits){ flags[0], flags[1], flags[2], flags[3], flags[4] };
    memcpy(s->words + 1, dmem + SCALARS / 2 + 1, 31 * 4);
}

static void play(const brsp_case *in, const uint32_t *end, size_t length) /* SETTING, the word, and an end */
{
    uint32_t *imem = other.memory[BRSP_IMEM];
    swap(other.memory[BRSP_DMEM], before, CASES_RDRAM);
    memcpy(other.memory[BRSP_RDRAM] + COPY / 4, other.memory[BRSP_DMEM], 2 * HALVES); /* SETTING ends with a DMA from there over its data */
    set(&in->state);
    memcpy(imem, setting, sizeof setting);
    if (in->state.divider.loaded) imem[3] = LOADING; /* instead of nop: vrcph $v2[0], $v1[2] */
    imem[SET - 2] |= in->state.words[1] >> 16; /* lui $1; ori $1, $1 */
    imem[SET - 1] |= in->state.words[1] & 0xFFFF;
    imem[SET] = in->word;
    memcpy(imem + SET + 1, end, 4 * length);
    memset(other.registers, 0, sizeof other.registers);
    run_other();
}

int cases_run(void *at, const brsp_case *in, brsp_end *out, size_t n)
{
    (void)at;
    for (; n--; in++, out++) {
        out->status = CASES_UNSHOWN;
        if (!is_shown(in)) continue;
        play(in, &BREAK, 1);
        swap(after, other.memory[BRSP_DMEM], 4096);
        out->changed = cases_digest_of(before, after, 4096);
        play(in, saving, SAVE);
        get(&out->state);
        out->status = BRSP_OK;
    }
    return 0;
}
