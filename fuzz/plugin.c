/* plugin: tasks on the plugin of mupen64plus. The emulator is this file: memories, registers, and the calls that the plugin looks for. After a task DMEM,
 * IMEM, RDRAM and SP_PC are those of a machine that has all memory inside, after as many steps. */
#define _GNU_SOURCE
#include "fuzz.h"
#include "mupen64plus.h"
#include <dlfcn.h>

enum { MEMORY = 1024, RDRAM = 1 << 20, MOST_TASKS = 3, MOST_STEPS = 512 }; /* words, and what an input may have */
enum { MI_INTR, SP_MEM_ADDR, SP_DRAM_ADDR, SP_RD_LEN, SP_WR_LEN, SP_STATUS, SP_DMA_FULL, SP_DMA_BUSY, SP_PC, SP_SEMAPHORE, DPC_START, REGISTERS = 18 };
enum { DMA_TO_RDRAM = 1 << 3, DPC_MOVES = 0xff00, STATUS_BITS = 0x7fe2 };
static unsigned registers[REGISTERS];
static uint32_t *memory[3]; /* by brsp_bank, as words of the host */

/* The plugin's calls. */
int PluginStartup(void *core, void *context, m64p_message *message);
void InitiateRSP(m64p_rsp_info given, unsigned *cycles);
unsigned DoRspCycles(unsigned cycles);
void RomClosed(void);

/* The emulator's calls. RDRAM has 4 MB, and no option is set. */
m64p_get_versions CoreGetAPIVersions;
m64p_open_section ConfigOpenSection;
m64p_save_section ConfigSaveSection;
m64p_get ConfigGetParameter;
m64p_default_float ConfigSetDefaultFloat;
m64p_default_int ConfigSetDefaultInt, ConfigSetDefaultBool;
m64p_default_text ConfigSetDefaultString;
m64p_get_int ConfigGetParamInt, ConfigGetParamBool;
m64p_get_text ConfigGetParamString;
m64p_do_command CoreDoCommand;
void CoreGetAPIVersions(int *config, int *debug, int *video, int *more) { (void)debug, (void)video, (void)more, *config = M64_API; }
int ConfigOpenSection(const char *name, void **section) { return (void)name, *section = registers, M64_SUCCESS; }
int ConfigSaveSection(const char *name) { return (void)name, M64_SUCCESS; }
int ConfigGetParameter(void *section, const char *name, int type, void *value, int size) { return (void)section, (void)name, (void)type, (void)value, (void)size, 1; }
int ConfigSetDefaultFloat(void *section, const char *name, float value, const char *help) { return (void)section, (void)name, (void)value, (void)help, 0; }
int ConfigSetDefaultInt(void *section, const char *name, int value, const char *help) { return (void)section, (void)name, (void)value, (void)help, 0; }
int ConfigSetDefaultBool(void *section, const char *name, int value, const char *help) { return ConfigSetDefaultInt(section, name, value, help); }
int ConfigSetDefaultString(void *section, const char *name, const char *value, const char *help) { return (void)section, (void)name, (void)value, (void)help, 0; }
int ConfigGetParamInt(void *section, const char *name) { return (void)section, (void)name, 512; }
int ConfigGetParamBool(void *section, const char *name) { return (void)section, !strcmp(name, "DisableExtraMem"); }
const char *ConfigGetParamString(void *section, const char *name) { return (void)section, (void)name, ""; }
int CoreDoCommand(int command, int number, void *pointer) { return (void)command, (void)number, (void)pointer, 1; }
static void nothing(void) {}

/* RDRAM as it is at first: as words of the host, and as bytes. */
static uint32_t first_words[RDRAM];
static uint8_t first_bytes[4 * RDRAM];

static void put_word(uint8_t *to, uint32_t word)
{
    to[0] = (uint8_t)(word >> 24), to[1] = (uint8_t)(word >> 16), to[2] = (uint8_t)(word >> 8), to[3] = (uint8_t)word;
}

/* The machine with all memory inside, and RDRAM on both sides as it is at first. */
static void reset_rdram(brsp_machine *m)
{
    memcpy(memory[BRSP_RDRAM], first_words, sizeof first_words);
    MUST(brsp_load(m, BRSP_RDRAM, 0, first_bytes, sizeof first_bytes) == BRSP_OK);
}

static void start(brsp_machine *m)
{
    static uint8_t zeros[4 * RDRAM];
    unsigned *r = registers;
    memory[BRSP_DMEM] = room(4 * MEMORY);
    memory[BRSP_IMEM] = room(4 * MEMORY);
    memory[BRSP_RDRAM] = room(4 * RDRAM);
    for (uint32_t i = 0; i < RDRAM; i++) put_word(first_bytes + 4 * i, first_words[i] = i * 2654435761u);
    MUST(brsp_new(m, zeros, sizeof zeros, 0) == BRSP_OK);
    reset_rdram(m);
    MUST(PluginStartup(dlopen(NULL, RTLD_NOW), NULL, NULL) == M64_SUCCESS);
    InitiateRSP((m64p_rsp_info){ (void *)memory[BRSP_RDRAM], (void *)memory[BRSP_DMEM], (void *)memory[BRSP_IMEM], r, r + 1, r + 2, r + 3, r + 4, r + 5, r + 6,
        r + 7, r + 8, r + 9, r + 10, r + 11, r + 12, r + 13, r + 14, r + 15, r + 16, r + 17, nothing, nothing, nothing, nothing, nothing }, NULL);
}

/* A word of microcode: any one, or one of those that a transfer is made of. */
static uint32_t take_word(input *in)
{
    uint32_t kind = take_number(in, 1), rt = kind >> 2 & 7;
    if (kind % 4 == 0) return take_number(in, 4);
    if (kind % 4 == 1) return 0x40800000 | rt << 16 | (take_number(in, 1) & 7) << 11; /* mtc0 */
    return (kind % 4 == 2 ? 0x34000000 | rt << 21 : 0x3c000000) | rt << 16 | take_number(in, 2); /* ori rt, rt, or lui */
}

/* Gives the machine what the emulator has, but for RDRAM. */
static void give(brsp_machine *m)
{
    static const int numbers[] = { SP_MEM_ADDR, SP_DRAM_ADDR, SP_RD_LEN, SP_WR_LEN, SP_STATUS, SP_DMA_FULL, SP_DMA_BUSY, SP_SEMAPHORE };
    brsp_sp_words sp = { 0 };
    for (int n = 0; n < 8; n++) sp.words[n] = registers[numbers[n]];
    for (int n = 8; n < 16; n++) sp.words[n] = registers[DPC_START + n - 8];
    MUST(brsp_set_sp(m, &sp) == BRSP_OK);
    MUST(brsp_load_words(m, BRSP_DMEM, 0, memory[BRSP_DMEM], MEMORY) == BRSP_OK && brsp_load_words(m, BRSP_IMEM, 0, memory[BRSP_IMEM], MEMORY) == BRSP_OK);
}

/* Executes a reserved word as the plugin does: as NOP. */
static void pass_reserved(brsp_machine *m, const brsp_stop *at)
{
    static const uint32_t nop = 0;
    MUST(at->reason == BRSP_AT_RESERVED && brsp_load_words(m, BRSP_IMEM, at->pc, &nop, 1) == BRSP_OK && brsp_step(m) == BRSP_OK);
    MUST(brsp_load_words(m, BRSP_IMEM, at->pc, &at->word, 1) == BRSP_OK);
}

/* Makes as many steps as the plugin made. Returns 0 at a move of a DPC register, which belongs to the emulator. `is_written` gets 1 if RDRAM may have
 * changed. */
static int follow(brsp_machine *m, uint32_t steps, int *is_written)
{
    while (steps) {
        brsp_move at;
        MUST(brsp_run_until_move(m, steps, DPC_MOVES, DPC_MOVES | DMA_TO_RDRAM, &at) == BRSP_OK);
        steps -= at.stop.steps;
        if (!steps) break;
        steps--;
        if (at.stop.reason != BRSP_AT_MOVE) {
            pass_reserved(m, &at.stop);
            continue;
        }
        *is_written = 1;
        if (at.number >= 8) return 0;
        MUST(brsp_step(m) == BRSP_OK);
    }
    return 1;
}

static void see_memory(brsp_machine *m, uint32_t bank)
{
    static uint32_t found[MEMORY];
    MUST(brsp_memory_words(m, bank, 0, found, MEMORY) == BRSP_OK && !memcmp(found, memory[bank], sizeof found));
}

/* A part of RDRAM, as long as DMEM. It is compared word by word only if a side has changed it: for all of RDRAM that would take half of the time. */
static void see_part(const uint8_t *found, uint32_t first)
{
    const uint32_t *words = memory[BRSP_RDRAM] + first;
    uint8_t bytes[4];
    if (!memcmp(found, first_bytes + 4 * first, 4 * MEMORY) && !memcmp(words, first_words + first, 4 * MEMORY)) return;
    for (uint32_t i = 0; i < MEMORY; i++) put_word(bytes, words[i]), MUST(!memcmp(bytes, found + 4 * i, 4));
}

static void see_rdram(brsp_machine *m)
{
    static uint8_t found[4 * RDRAM];
    MUST(brsp_memory(m, BRSP_RDRAM, 0, found, sizeof found) == BRSP_OK);
    for (uint32_t at = 0; at < RDRAM; at += MEMORY) see_part(found + 4 * at, at);
}

/* A task on both. Returns 0 if it can't be compared. */
static int run_task(brsp_machine *m, uint32_t most, int *is_written)
{
    brsp_scalars now;
    give(m);
    uint32_t steps = DoRspCycles(most);
    MUST(steps <= most);
    if (!follow(m, steps, is_written)) return 0;
    MUST(brsp_regs(m, &now) == BRSP_OK && registers[SP_PC] == now.pc);
    see_memory(m, BRSP_DMEM);
    see_memory(m, BRSP_IMEM);
    if (*is_written) see_rdram(m);
    return 1;
}

static void set_registers(input *in)
{
    memset(registers, 0, sizeof registers);
    registers[SP_MEM_ADDR] = take_edge(in) & 0x1ff8;
    registers[SP_DRAM_ADDR] = take_edge(in) & 0xfffff8;
    registers[SP_RD_LEN] = registers[SP_WR_LEN] = 0xff8;
    registers[SP_STATUS] = take_number(in, 2) & STATUS_BITS;
    registers[SP_PC] = take_edge(in) & 0xffc;
}

int LLVMFuzzerTestOneInput(const uint8_t *data, size_t size)
{
    static brsp_machine m = BRSP_NONE;
    static brsp_state zeros = { .npc = 4 };
    input in = { data, size };
    int is_written = 0;
    if (!m.at) start(&m);
    set_registers(&in);
    uint32_t words = take_number(&in, 1);
    for (uint32_t i = 0; i < MEMORY; i++) memory[BRSP_DMEM][i] = i * 40503, memory[BRSP_IMEM][i] = i < words ? take_word(&in) : 0;
    zeros.sp[2] = zeros.sp[3] = 0xff8;
    MUST(brsp_set(&m, &zeros) == BRSP_OK && brsp_set_pc(&m, registers[SP_PC]) == BRSP_OK);
    for (int task = 0; task < MOST_TASKS; task++) {
        if (!run_task(&m, take_number(&in, 2) % MOST_STEPS + 1, &is_written)) break;
        registers[SP_STATUS] = take_number(&in, 2) & STATUS_BITS;
        uint32_t *bank = memory[take_number(&in, 1) % 2], place = take_number(&in, 2) % MEMORY;
        bank[place] = take_number(&in, 4);
    }
    RomClosed(); /* frees the plugin's machine, so that the next input finds none */
    if (is_written) reset_rdram(&m);
    return 0;
}
