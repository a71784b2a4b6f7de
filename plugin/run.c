/* A task. The machine makes each step, each DMA included. It stops before the moves to and from SP registers that concern the emulator, since
 * memory has to be carried before or after them. */
#include "plugin.h"
#include <stdlib.h>

/* Before an MTC0 of these: a DMA begins, or the RDP gets a list. Before any MFC0, while it is searched whether the task waits for the CPU. */
enum {
    STOP_AT_WRITES = 1 << SP_RD_LEN | 1 << SP_WR_LEN | 0xff00,
    STOP_AT_READS = 0xffff,
    STEPS_AT_ONCE = 1000000
};
enum { BREAK = 0x0000000d };

/* What a stop costs beside its instruction: about the time of so many steps, for the stop, for each row of a DMA, and for some of its bytes. They are
 * counted, and no clock is read, so that a task is suspended at the same instruction each time. */
enum { STEPS_A_STOP = 16, STEPS_A_ROW = 8, BYTES_A_STEP = 64 };

/* Makes the machine, or another one in its place. Returns 0 if there is no memory. */
int make_machine(rsp_unit *unit)
{
    uint8_t *zeros = calloc(1, unit->rdram_size);
    uint32_t status = zeros ? brsp_new(&unit->machine, zeros, unit->rdram_size, 0) : BRSP_NO_MEMORY;
    free(zeros);
    unit->copy[BRSP_DMEM] = unit->copy[BRSP_IMEM] = (memory_copy){ 0 };
    unit->next_pc = 0;
    return status == BRSP_OK;
}

/* Whether the task's first word is a BREAK that the machine has in IMEM already. Such a task neither reads nor changes a memory, so none is carried. */
static int is_break(const rsp_unit *unit, uint32_t pc)
{
    return unit->memory[BRSP_IMEM][pc / 4] == BREAK && unit->copy[BRSP_IMEM].words[pc / 4] == BREAK;
}

/* Gives the machine what the emulator has. The machine keeps npc if it goes on where it stopped, which may be a delay slot. Returns 0 if there is no
 * memory for a machine. */
int begin_task(rsp_unit *unit)
{
    uint32_t pc = *unit->pc & 0xffc;
    if (!unit->machine.at && !make_machine(unit)) return 0;
    unit->has_memories = !is_break(unit, pc);
    if (unit->has_memories) {
        carry_in(unit, BRSP_DMEM);
        carry_in(unit, BRSP_IMEM);
    }
    registers_in(unit);
    if (pc != unit->next_pc) brsp_set_pc(&unit->machine, pc);
    unit->next_pc = pc;
    unit->imem_moved = 0;
    return 1;
}

/* Gives the emulator what the machine has. Returns whether the task raised an interrupt. */
int end_task(rsp_unit *unit)
{
    int interrupt = (int)registers_out(unit);
    if (unit->has_memories) carry_out(unit, BRSP_DMEM);
    if (unit->imem_moved) carry_out(unit, BRSP_IMEM);
    *unit->pc = unit->next_pc;
    return interrupt;
}

static uint32_t pc_of(rsp_unit *unit)
{
    brsp_scalars now;
    brsp_regs(&unit->machine, &now);
    return now.pc;
}

uint32_t word_at(rsp_unit *unit, uint16_t pc)
{
    uint32_t word;
    brsp_memory_words(&unit->machine, BRSP_IMEM, pc, &word, 1);
    return word;
}

/* A DMA, before which the machine has stopped. Its rows of RDRAM are carried before it reads them, or after it wrote them. */
static void make_dma(rsp_unit *unit, const brsp_move *at)
{
    uint32_t address;
    brsp_peek(&unit->machine, SP_DRAM_ADDR, &address);
    if (at->number == SP_RD_LEN) {
        unit->imem_moved = 1;
        rows_in(unit, address, at->value);
        brsp_step(&unit->machine);
    } else {
        brsp_step(&unit->machine);
        rows_out(unit, address, at->value);
    }
}

/* Executes the MTC0 before which the machine has stopped. */
static void make_write(rsp_unit *unit, const brsp_move *at)
{
    if (at->number < DPC_START) { make_dma(unit, at); return; }
    brsp_step(&unit->machine);
    write_dpc(unit, at->number, at->value);
}

/* A reserved word, at which the machine doesn't go on, does nothing: NOP is executed in its place. */
static void pass_reserved(rsp_unit *unit, const brsp_stop *at)
{
    static int told;
    uint32_t nop = 0;
    if (told < 10) told++, tell(M64_WARNING, "the word %08x at %03x is reserved: it is executed as NOP", at->word, at->pc);
    brsp_load_words(&unit->machine, BRSP_IMEM, at->pc, &nop, 1);
    brsp_step(&unit->machine);
    brsp_load_words(&unit->machine, BRSP_IMEM, at->pc, &at->word, 1);
}

/* The steps that the machine would make while the plugin makes the move before which it has stopped. */
static uint32_t cost_of(const brsp_move *at)
{
    int is_dma = at->stop.reason == BRSP_AT_MOVE && at->writes && at->number < DPC_START;
    dma_rows rows = is_dma ? rows_of(0, at->value) : (dma_rows){ 0 };
    return STEPS_A_STOP + rows.count * (STEPS_A_ROW + rows.len / BYTES_A_STEP);
}

/* Runs the task to its halt, for at most so many steps, or until it waits for the CPU or has taken the time of LONGEST_TASK steps. Returns the steps. */
uint32_t run_task(rsp_unit *unit, uint32_t most)
{
    uint32_t steps = 0, cost = 0;
    wait_search search;
    brsp_move at;
    begin_search(&search, 0);
    while (steps < most) {
        int compares = steps >= search.begins;
        uint32_t end = compares || most < search.begins ? most : search.begins, left = end - steps;
        uint32_t at_once = left < STEPS_AT_ONCE ? left : STEPS_AT_ONCE;
        if (brsp_run_until_move(&unit->machine, at_once, compares ? STOP_AT_READS : 0, STOP_AT_WRITES, &at) != BRSP_OK) break;
        steps += at.stop.steps;
        unit->next_pc = at.stop.pc;
        if (at.stop.reason == BRSP_AT_HALT || steps == most || steps + cost >= LONGEST_TASK) break;
        if (at.stop.reason == BRSP_AT_LIMIT) continue;
        cost += cost_of(&at);
        if (at.stop.reason == BRSP_AT_RESERVED) pass_reserved(unit, &at.stop);
        else if (at.writes) make_write(unit, &at), begin_search(&search, steps);
        else if (is_waiting(unit, &search, steps)) break;
        else brsp_step(&unit->machine);
        if (++steps == most) unit->next_pc = pc_of(unit);
    }
    return steps;
}
