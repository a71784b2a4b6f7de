/* Check mode: another RSP plugin runs each task that the machine has run, on memories of its own, and what both have made is compared. If it differs, both
 * run the task again step by step (lockstep.c). The other plugin's RDRAM is filled page by page as it uses it, and only these pages, and those into
 * which the machine's DMA wrote, are compared. */
#include "check.h"
#include <stdlib.h>
#include <string.h>

const char *const register_names[REGISTERS] = { "SP_MEM_ADDR", "SP_DRAM_ADDR", "SP_RD_LEN", "SP_WR_LEN", "SP_STATUS", "SP_DMA_FULL", "SP_DMA_BUSY",
    "SP_SEMAPHORE", "DPC_START", "DPC_END", "DPC_CURRENT", "DPC_STATUS", "DPC_CLOCK", "DPC_BUFBUSY", "DPC_PIPEBUSY", "DPC_TMEM", "SP_PC", "MI_INTR" };

static rsp_unit *ours;
static int is_open;
static task_start start;
static unsigned long n_differ;
/* The pages of RDRAM that the machine has changed in this task, as they were before. */
static uint8_t *kept;
static uint8_t is_kept[RDRAM_BYTES / PAGE];
static uint32_t kept_pages[RDRAM_BYTES / PAGE], n_kept;

static void keep_pages(uint32_t address, uint32_t len)
{
    for (uint32_t page = address / PAGE; page <= (address + len - 1) / PAGE; page++) {
        if (is_kept[page]) continue;
        memcpy(kept + (size_t)page * PAGE, (uint8_t *)ours->memory[BRSP_RDRAM] + (size_t)page * PAGE, PAGE);
        is_kept[page] = 1;
        kept_pages[n_kept++] = page;
    }
}

const uint8_t *page_before(size_t page) { return (is_kept[page] ? kept : (uint8_t *)ours->memory[BRSP_RDRAM]) + page * PAGE; }

/* The lists that the task gave to the RDP, and what the graphics plugin made of the DPC's registers: the other plugin sees the same. */
enum { LISTS_MOST = 1024 };
static unsigned dpc_after[LISTS_MOST][8];
static uint32_t n_lists;
static void (*give_list)(void);

static void record_list(void)
{
    give_list();
    if (n_lists == LISTS_MOST) return;
    for (int n = 0; n < 8; n++) dpc_after[n_lists][n] = *ours->sp[DPC_START + n];
    n_lists++;
}

void replay_list(uint32_t number, unsigned *dpc)
{
    if (number < n_lists) memcpy(dpc, dpc_after[number], sizeof dpc_after[number]);
}

static void tell_other(void)
{
    if (!other.steps_by_count && !other.steps_by_flag) tell(M64_WARNING, "check: the other plugin makes no single steps: only differences at a task's end are found");
    tell(M64_INFO, "check: each task also runs on %s%s", options.check_against, other.is_z64 ? ", a z64 whose registers are known" : "");
}

/* Loads the other plugin, unless it is loaded. Returns whether it is. */
static int load_other(void)
{
    static char loaded[sizeof options.check_against];
    if (!strcmp(loaded, options.check_against)) return 1;
    *loaded = 0;
    kept = kept ? kept : malloc(RDRAM_BYTES);
    if (!kept || !open_other(options.check_against)) return 0;
    memcpy(loaded, options.check_against, sizeof loaded);
    tell_other();
    return 1;
}

/* Begins check mode for a ROM, if the user wants it. The next ROM may have another RDRAM, and the user other options. */
void check_open(rsp_unit *unit)
{
    ours = unit;
    unit->storing = NULL;
    other.rdram_size = unit->rdram_size;
    is_open = *options.check_against && load_other();
    if (!is_open) return;
    unit->storing = keep_pages;
    give_list = unit->list;
    unit->list = record_list;
}

static void take_registers(uint32_t *to)
{
    for (int n = 0; n < 16; n++) to[n] = *ours->sp[n];
    to[REGISTER_PC] = *ours->pc;
    to[REGISTER_INTERRUPTS] = *ours->interrupts;
}

/* After the machine has been given what the emulator has. */
void check_begin(void)
{
    if (!is_open) return;
    start.task++;
    n_lists = 0;
    brsp_get(&ours->machine, &start.state);
    memcpy(start.memory[BRSP_DMEM], ours->memory[BRSP_DMEM], sizeof start.memory[0]);
    memcpy(start.memory[BRSP_IMEM], ours->memory[BRSP_IMEM], sizeof start.memory[0]);
    take_registers(start.registers);
    while (n_kept) is_kept[kept_pages[--n_kept]] = 0;
}

/* Tells the first word in which two memories differ. Returns 1 if there is one. */
static int differ(const char *name, uint32_t address, const uint32_t *here, const uint32_t *there, uint32_t bytes)
{
    uint32_t i = 0;
    if (!memcmp(here, there, bytes)) return 0;
    while (here[i] == there[i]) i++;
    tell(M64_WARNING, "check: task %lu: %s %06x is %08x here and %08x there", start.task, name, address + 4 * i, here[i], there[i]);
    return 1;
}

static int rdram_differs(void)
{
    uint32_t at;
    for (uint32_t i = 0; i < n_kept; i++) use_pages(kept_pages[i] * PAGE, PAGE);
    return pages_differ(ours->memory[BRSP_RDRAM], &at) && differ("RDRAM", at, ours->memory[BRSP_RDRAM] + at / 4, other.memory[BRSP_RDRAM] + at / 4, 4);
}

/* The bits that are compared of each register. SP_PC has ten, and the emulator's DPC belongs to the RDP. */
static int registers_differ(void)
{
    static const uint32_t compared[REGISTERS] = { ~0u, ~0u, [SP_STATUS] = KEPT_STATUS, [SP_SEMAPHORE] = ~0u, [DPC_START] = ~0u, [DPC_END] = ~0u, [REGISTER_PC] = 0xffc };
    uint32_t now[REGISTERS];
    int found = 0;
    take_registers(now);
    for (int n = options.check_addresses ? 0 : 2; n < REGISTERS; n++) {
        if (!((now[n] ^ other.registers[n]) & compared[n])) continue;
        tell(M64_WARNING, "check: task %lu: %s is %08x here and %08x there", start.task, register_names[n], now[n], other.registers[n]);
        found = 1;
    }
    return found;
}

/* After the machine has run the task, for so many steps. A task that waits for the CPU has no end to compare, so it runs in steps alone. */
void check_end(uint32_t steps)
{
    int found = 1, has_ended;
    if (!is_open) return;
    has_ended = (*ours->sp[SP_STATUS] & HALTED) != 0;
    begin_other(&start);
    if (!begin_lock_step(&start, steps)) tell(M64_WARNING, "check: task %lu: there is no process for single steps", start.task);
    if (has_ended) {
        run_other();
        found = differ("DMEM", 0, ours->memory[BRSP_DMEM], other.memory[BRSP_DMEM], 4 * MEMORY_WORDS);
        found |= differ("IMEM", 0, ours->memory[BRSP_IMEM], other.memory[BRSP_IMEM], 4 * MEMORY_WORDS);
        found |= rdram_differs() | registers_differ();
    }
    stop_watching();
    if (end_lock_step(found)) n_differ++;
    else if (found && has_ended) tell(M64_WARNING, "check: task %lu: no difference in %u single steps", start.task, steps);
}

void check_close(void)
{
    if (!is_open) return;
    tell(M64_INFO, "check: %lu tasks, %lu differ", start.task, n_differ);
    start.task = n_differ = 0;
}
