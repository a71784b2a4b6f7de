/* mupen64plus-rsp-proved: the proved machine as an RSP plugin of mupen64plus. docs/PLUGIN.md says how it is built, installed and used. */
#include "plugin.h"
#include <string.h>

#define EXPORTED __attribute__((visibility("default")))
enum { PLUGIN_VERSION = 0x010000 };

static m64p_rsp_info emulator;
static rsp_unit unit;
static int is_started, is_initiated;
static unsigned long tasks;

EXPORTED int PluginStartup(void *core, void *context, m64p_message *message)
{
    int error;
    if (is_started) return M64_ALREADY_INIT;
    tell_by(message, context);
    error = find_emulator(core);
    if (!error) error = read_options();
    is_started = error == M64_SUCCESS;
    return error;
}

EXPORTED int PluginShutdown(void)
{
    if (!is_started) return M64_NOT_INIT;
    is_started = is_initiated = 0;
    brsp_free(&unit.machine);
    tell_by(NULL, NULL);
    return M64_SUCCESS;
}

EXPORTED int PluginGetVersion(int *type, int *version, int *api, const char **name, int *capabilities)
{
    if (type) *type = M64_PLUGIN_RSP;
    if (version) *version = PLUGIN_VERSION;
    if (api) *api = M64_API;
    if (name) *name = "Proved RSP";
    if (capabilities) *capabilities = 0;
    return M64_SUCCESS;
}

static void nothing(void) {}

/* The emulator's memories and registers. The machine is made in the first task, since that may be in another thread. The options are read again: a
 * front end may set those of its command line after PluginStartup. */
EXPORTED void InitiateRSP(m64p_rsp_info given, unsigned *cycles)
{
    unsigned *sp[16] = { given.SP_MEM_ADDR, given.SP_DRAM_ADDR, given.SP_RD_LEN, given.SP_WR_LEN, given.SP_STATUS, given.SP_DMA_FULL,
        given.SP_DMA_BUSY, given.SP_SEMAPHORE, given.DPC_START, given.DPC_END, given.DPC_CURRENT, given.DPC_STATUS, given.DPC_CLOCK,
        given.DPC_BUFBUSY, given.DPC_PIPEBUSY, given.DPC_TMEM };
    if (is_started) read_options();
    emulator = given;
    unit.memory[BRSP_RDRAM] = (uint32_t *)given.RDRAM;
    unit.memory[BRSP_DMEM] = (uint32_t *)given.DMEM;
    unit.memory[BRSP_IMEM] = (uint32_t *)given.IMEM;
    memcpy(unit.sp, sp, sizeof sp);
    unit.pc = given.SP_PC;
    unit.interrupts = given.MI_INTR;
    unit.rdram_size = rdram_size();
    unit.list = given.ProcessRdpList ? given.ProcessRdpList : nothing;
    if (cycles) *cycles = 0;
    is_initiated = 1;
    check_open(&unit);
}

/* The task's end. mupen64plus only tells the CPU of it, and sets signal 2, if MI_INTR has the SP's bit: an interrupt it makes of that only if
 * SP_STATUS wants one at BREAK. */
static void report_end(int interrupt)
{
    if (interrupt || *unit.sp[SP_STATUS] & HALTED) *unit.interrupts |= 1;
    if (interrupt && emulator.CheckInterrupts) emulator.CheckInterrupts();
}

/* Lists that the user wants other plugins to have. The task then counts as done. Returns whether this is one. */
static int is_sent_on(void)
{
    uint32_t type = unit.memory[BRSP_DMEM][TASK_TYPE];
    void (*process)(void) = NULL;
    if (type == 1 && options.graphics_by_plugin && unit.memory[BRSP_DMEM][TASK_DATA]) process = emulator.ProcessDlistList;
    if (type == 2 && options.audio_by_plugin) process = emulator.ProcessAlistList;
    if (!process) return 0;
    process();
    *unit.sp[SP_STATUS] |= HALTED | BROKE | SIGNAL_2;
    report_end(*unit.sp[SP_STATUS] & INTERRUPT_ON_BREAK);
    return 1;
}

/* Executes the RSP from SP_PC to its halt, for at most so many instructions, or until it waits for the CPU. Returns the instructions. */
EXPORTED unsigned DoRspCycles(unsigned cycles)
{
    uint32_t steps, most = cycles < LONGEST_TASK ? cycles : LONGEST_TASK;
    if (!is_initiated || *unit.sp[SP_STATUS] & HALTED || is_sent_on()) return 0;
    if (!begin_task(&unit)) {
        tell(M64_ERROR, "there is no memory for the machine");
        return 0;
    }
    tasks++;
    check_begin();
    steps = run_task(&unit, most);
    report_end(end_task(&unit));
    check_end(steps);
    return steps;
}

EXPORTED void RomClosed(void)
{
    tell(M64_INFO, "%lu tasks", tasks);
    check_close();
    brsp_free(&unit.machine);
    tasks = 0;
}
