/* The other plugin of check mode. It never sees the emulator: its memories and registers are here. */
#define _GNU_SOURCE
#include "check.h"
#include <dlfcn.h>
#include <link.h>
#include <stdlib.h>
#include <string.h>

/* As in options.c. */
#ifdef __x86_64__
__asm__(".symver dlopen, dlopen@GLIBC_2.2.5\n.symver dlsym, dlsym@GLIBC_2.2.5\n.symver dlerror, dlerror@GLIBC_2.2.5\n.symver dladdr, dladdr@GLIBC_2.2.5");
#endif
other_plugin other;
enum { SP_SPACE = 1 << 20 }; /* more than there is: a plugin's DMA may run past the end */
static void (*initiate)(m64p_rsp_info, unsigned *);
static unsigned (*run)(unsigned);

static uint32_t n_lists; /* of this task */

static void nothing(void) {}
static void take_list(void) { replay_list(n_lists++, other.registers + DPC_START); }

static void initiate_other(void)
{
    static unsigned cycles;
    unsigned *r = other.registers;
    m64p_rsp_info info = { (void *)other.memory[BRSP_RDRAM], (void *)other.memory[BRSP_DMEM], (void *)other.memory[BRSP_IMEM], r + REGISTER_INTERRUPTS, r, r + 1,
        r + 2, r + 3, r + 4, r + 5, r + 6, r + REGISTER_PC, r + 7, r + 8, r + 9, r + 10, r + 11, r + 12, r + 13, r + 14, r + 15,
        nothing, nothing, nothing, take_list, nothing };
    initiate(info, &cycles);
}

/* Runs four instructions, and looks at what the plugin does with a count of 1 and with the flag for single steps. */
static void probe(const void *base, size_t size)
{
    static const uint32_t words[] = { 0x3c011234, 0x34215678, 0xc8032000, 0x0000000d }; /* lui, ori $1; lqv $v3[0], 0($0); break */
    uint32_t *dmem = other.memory[BRSP_DMEM], pc[2];
    for (int flag = 0; flag < 2; flag++) {
        memcpy(other.memory[BRSP_IMEM], words, sizeof words);
        memset(other.registers, 0, sizeof other.registers);
        for (int i = 0; i < 4; i++) dmem[i] = 0x01020304u * (uint32_t)(i + 1);
        other.registers[SP_STATUS] = flag ? SINGLE_STEP : 0;
        run(1);
        pc[flag] = other.registers[REGISTER_PC] & 0xfff;
        other.registers[SP_STATUS] = 0;
        run(0x100000);
    }
    other.steps_by_count = pc[0] == 4;
    other.steps_by_flag = pc[1] == 4;
    other.is_z64 = is_z64(base, size, dmem);
    initiate_other();
}

/* The memory of the file in which the plugin's calls are, from its base to its end. */
static int measure(struct dl_phdr_info *about, size_t size, void *data)
{
    void **found = data;
    (void)size;
    if ((void *)about->dlpi_addr != found[0]) return 0;
    for (int i = 0; i < about->dlpi_phnum; i++) {
        const ElfW(Phdr) *it = &about->dlpi_phdr[i];
        if (it->p_type == PT_LOAD) found[1] = (void *)(uintptr_t)(it->p_vaddr + it->p_memsz);
    }
    return 1;
}

static int find_calls(const char *path)
{
    int (*start)(void *, void *, m64p_message *);
    void *file = dlopen(path, RTLD_NOW | RTLD_LOCAL);
    if (!file) return tell(M64_ERROR, "check: %s", dlerror()), 0;
    *(void **)&start = dlsym(file, "PluginStartup");
    *(void **)&initiate = dlsym(file, "InitiateRSP");
    *(void **)&run = dlsym(file, "DoRspCycles");
    if (!start || !initiate || !run) return tell(M64_ERROR, "check: %s isn't an RSP plugin", path), 0;
    start(file, NULL, NULL);
    return 1;
}

/* Loads the plugin. Returns 0, with a message, if it is none. */
int open_other(const char *path)
{
    void *extent[2] = { 0 };
    Dl_info at;
    if (!find_calls(path) || !dladdr(*(void **)&run, &at)) return 0;
    extent[0] = at.dli_fbase;
    dl_iterate_phdr(measure, extent);
    if (!other.memory[BRSP_RDRAM]) other.memory[BRSP_RDRAM] = (uint32_t *)make_pages();
    if (!other.memory[BRSP_DMEM]) other.memory[BRSP_DMEM] = calloc(1, SP_SPACE);
    if (!other.memory[BRSP_RDRAM] || !other.memory[BRSP_DMEM]) return tell(M64_ERROR, "check: there is no memory for it"), 0;
    other.memory[BRSP_IMEM] = other.memory[BRSP_DMEM] + MEMORY_WORDS;
    close_pages();
    initiate_other();
    probe(at.dli_fbase, (size_t)extent[1]);
    stop_watching();
    return 1;
}

/* Gives it the task's beginning. It may run until stop_watching. */
void begin_other(const task_start *start)
{
    close_pages();
    n_lists = 0;
    memcpy(other.memory[BRSP_DMEM], start->memory[BRSP_DMEM], 4 * MEMORY_WORDS);
    memcpy(other.memory[BRSP_IMEM], start->memory[BRSP_IMEM], 4 * MEMORY_WORDS);
    memcpy(other.registers, start->registers, sizeof other.registers);
    if (other.is_z64) set_z64(&start->state);
}

void run_other(void) { run(0xffffffff); }

/* One instruction, which is this word. A plugin that only knows the flag for single steps shows it in SP_STATUS, halts, and says it broke. */
void step_other(uint32_t word)
{
    unsigned *status = &other.registers[SP_STATUS];
    if (other.steps_by_count) { run(1); return; }
    *status = (*status & ~(unsigned)(HALTED | BROKE)) | SINGLE_STEP;
    run(1);
    *status &= ~(unsigned)(word == 0x0000000d ? SINGLE_STEP : SINGLE_STEP | HALTED | BROKE);
}
