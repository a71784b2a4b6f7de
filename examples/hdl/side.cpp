// core.sv as a shared object of a campaign, built by Verilator. Programs run without a pause, so that hazards between two instructions show.
#include "Vcore.h"
#include "Vcore___024root.h"
#include "cases.h"

struct side_machine {
    Vcore *top;
    uint8_t rdram[CASES_RDRAM_LENGTH]; // the core has no DMA
};

static const int LATE = 1000; // clocks without an instruction: the core hangs
static const uint32_t HUNG = 1; // its status

static void tick(Vcore *top) { top->clk = 1; top->eval(); top->clk = 0; top->eval(); }

static void reset(Vcore *top)
{
    top->reset = 1;
    tick(top);
    tick(top);
    top->reset = 0;
}

static int side_make(side_machine *m, const char *) { m->top = new Vcore; reset(m->top); return 1; }

static int side_is_shown(const brsp_case *) { return 1; }

static int side_set(side_machine *m, const brsp_state *s)
{
    memcpy(&m->top->loaded, s, sizeof *s);
    m->top->load = 1;
    tick(m->top);
    m->top->load = 0;
    m->top->eval();
    return 1;
}

static void side_get(side_machine *m, brsp_state *s) { m->top->eval(); memcpy(s, &m->top->state, sizeof *s); }

// Issues instructions one after the other, and then empties the pipeline. The core lacks halted and single step, which are imitated.
static uint32_t run(side_machine *m, uint32_t n, uint32_t *status)
{
    Vcore *top = m->top;
    uint32_t done = 0;
    int idle = 0;
    brsp_state s;
    side_get(m, &s);
    *status = s.sp[4] & 1 ? BRSP_HALTED : BRSP_OK;
    if (s.sp[4] & 32 && n > 1) n = 1;
    for (top->go = 1, top->eval(); *status == BRSP_OK && done < n && idle < LATE; tick(top), top->eval())
        if (top->issues) done++, idle = 0;
        else if (top->is_reserved) *status = BRSP_RESERVED;
        else idle++;
    for (top->go = 0, top->eval(); top->is_busy && idle < LATE; idle++) tick(top);
    side_get(m, &s);
    s.sp[4] |= done ? s.sp[4] >> 5 & 1 : 0;
    if (idle == LATE) {
        *status = HUNG;
        done -= done > 0 && top->is_busy;
        reset(top); // or the next case would hang, too
    }
    if (done || *status == HUNG) side_set(m, &s);
    return done;
}

static uint32_t side_step(side_machine *m) { uint32_t status; run(m, 1, &status); return status; }
static uint32_t steps(side_machine *m, uint32_t n) { uint32_t status; return run(m, n, &status); }

static void side_put(side_machine *m, uint32_t pc, uint32_t word) { m->top->rootp->core__DOT__imem[pc / 4] = word; m->top->eval(); }

static void side_load(side_machine *m, const uint8_t *from, size_t to)
{
    auto *root = m->top->rootp;
    for (int n = 0; n < 4096; n++) root->core__DOT__dmem[n] = from[CASES_DMEM + n];
    for (int n = 0; n < 1024; n++) {
        uint32_t word;
        memcpy(&word, from + CASES_IMEM + 4 * n, 4);
        root->core__DOT__imem[n] = __builtin_bswap32(word);
    }
    if (to > CASES_RDRAM) memcpy(m->rdram, from + CASES_RDRAM, to - CASES_RDRAM);
    m->top->eval();
}

static void side_look(side_machine *m, uint8_t *into, size_t to)
{
    auto *root = m->top->rootp;
    for (int n = 0; n < 4096; n++) into[CASES_DMEM + n] = root->core__DOT__dmem[n];
    for (int n = 0; n < 1024; n++) {
        uint32_t word = __builtin_bswap32(root->core__DOT__imem[n]);
        memcpy(into + CASES_IMEM + 4 * n, &word, 4);
    }
    if (to > CASES_RDRAM) memcpy(into + CASES_RDRAM, m->rdram, to - CASES_RDRAM);
}

#define SIDE_STEPS steps
#include "side.h"
