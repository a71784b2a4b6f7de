/* SP and DPC registers. The machine has the emulator's while a task runs, so MFC0 reads them without the plugin. */
#include "plugin.h"

/* The machine takes what these registers can hold (brsp_set_sp), and the emulator may have kept more. */
void registers_in(rsp_unit *unit)
{
    brsp_sp_words given = { 0 };
    for (int n = DPC_START; n <= DPC_TMEM; n++) given.words[n] = *unit->sp[n];
    given.words[SP_MEM_ADDR] = *unit->sp[SP_MEM_ADDR] & 0x1ff8;
    given.words[SP_DRAM_ADDR] = *unit->sp[SP_DRAM_ADDR] & 0xfffff8;
    given.words[SP_RD_LEN] = given.words[SP_WR_LEN] = (*unit->sp[SP_RD_LEN] & 0xff800000) | 0xff8;
    given.words[SP_STATUS] = *unit->sp[SP_STATUS] & KEPT_STATUS;
    given.words[SP_SEMAPHORE] = *unit->sp[SP_SEMAPHORE] & 1;
    brsp_set_sp(&unit->machine, &given);
}

/* The DPC registers aren't given back: the emulator has those that write_dpc makes. Returns whether the task raised an interrupt. */
uint32_t registers_out(rsp_unit *unit)
{
    static const int given_back[] = { SP_MEM_ADDR, SP_DRAM_ADDR, SP_RD_LEN, SP_WR_LEN, SP_SEMAPHORE };
    brsp_sp_words now;
    brsp_sp(&unit->machine, &now);
    for (unsigned i = 0; i < sizeof given_back / sizeof *given_back; i++) *unit->sp[given_back[i]] = now.words[given_back[i]];
    *unit->sp[SP_STATUS] = (*unit->sp[SP_STATUS] & ~(uint32_t)KEPT_STATUS) | now.words[SP_STATUS];
    return now.interrupt;
}

/* DPC_STATUS has three flags, each with a bit that clears it and one that sets it, and four counters with a bit that clears each. */
static void write_dpc_status(rsp_unit *unit, uint32_t value)
{
    static const int counters[] = { DPC_TMEM, DPC_PIPEBUSY, DPC_BUFBUSY, DPC_CLOCK };
    for (int flag = 0; flag < 3; flag++) {
        uint32_t clears = value >> (2 * flag) & 1, sets = value >> (2 * flag + 1) & 1;
        if (clears != sets) *unit->sp[DPC_STATUS] = (*unit->sp[DPC_STATUS] & ~(1u << flag)) | sets << flag;
    }
    for (int n = 0; n < 4; n++) if (value >> (6 + n) & 1) *unit->sp[counters[n]] = 0;
}

/* What a word that the microcode writes means to the emulator's DPC. The machine only stores it, so it gets the DPC's registers anew. */
void write_dpc(rsp_unit *unit, uint32_t number, uint32_t value)
{
    brsp_sp_words now;
    switch (number) {
    case DPC_START: *unit->sp[DPC_START] = *unit->sp[DPC_CURRENT] = value & 0xfffff8; break;
    case DPC_END:
        *unit->sp[DPC_END] = value & 0xfffff8;
        if (*unit->sp[DPC_STATUS] & 1) carry_out(unit, BRSP_DMEM); /* the list is in DMEM */
        unit->list();
        break;
    case DPC_STATUS: write_dpc_status(unit, value); break;
    }
    brsp_sp(&unit->machine, &now);
    for (int n = DPC_START; n <= DPC_TMEM; n++) now.words[n] = *unit->sp[n];
    brsp_set_sp(&unit->machine, &now);
}
