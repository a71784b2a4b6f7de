/* The parts of check mode to one another. */
#ifndef CHECK_H
#define CHECK_H
#include "plugin.h"
#include <stdio.h>

enum { PAGE = 4096, RDRAM_BYTES = 0x800000, REGISTERS = 18, REGISTER_PC = 16, REGISTER_INTERRUPTS = 17 };

/* A task's beginning: the machine's registers, and what the emulator has. */
typedef struct task_start {
    brsp_state state;
    uint32_t memory[2][MEMORY_WORDS]; /* by brsp_bank */
    uint32_t registers[REGISTERS];    /* SP and DPC registers, SP_PC, MI_INTR */
    unsigned long task;
} task_start;

/* check.c */
extern const char *const register_names[REGISTERS];
const uint8_t *page_before(size_t page); /* a page of RDRAM as it was when the task began */
void replay_list(uint32_t number, unsigned *dpc); /* what a list of the task made of the eight DPC registers */

/* pages.c: the other plugin's RDRAM, whose pages are filled at their first use. */
uint8_t *make_pages(void);
void close_pages(void);
void stop_watching(void);
void use_pages(uint32_t address, uint32_t len);
int pages_differ(const uint32_t *rdram, uint32_t *address);

/* other.c: the other plugin, with memories and registers of its own. */
typedef struct other_plugin {
    uint32_t *memory[3]; /* by brsp_bank */
    size_t rdram_size;   /* that of the emulator */
    unsigned registers[REGISTERS];
    int is_z64, steps_by_count, steps_by_flag;
} other_plugin;
extern other_plugin other;
int open_other(const char *path);
void begin_other(const task_start *start);
void run_other(void);
void step_other(uint32_t word);

/* z64.c: the registers of one known plugin. */
int is_z64(const void *base, size_t size, const uint32_t *dmem);
void set_z64(const brsp_state *state);
void clear_z64_bits(uint32_t number, uint32_t bits);
void get_z64(brsp_state *state);

/* lockstep.c: both from a task's beginning on, step by step, in a process of its own. */
int begin_lock_step(const task_start *start, uint32_t steps);
int end_lock_step(int is_wanted);

/* divider.c; make_searcher is called before. */
int make_searcher(void);
const char *divided_for(const brsp_state *state, uint16_t *half);

/* report.c: the files about a difference. */
typedef struct difference {
    unsigned long task, step;                 /* both from 1 */
    uint32_t word;
    brsp_line line;
    char text[256];                           /* what differs */
    brsp_state from, before, after;            /* where the script begins, and around the instruction */
    uint32_t from_memory[2][MEMORY_WORDS];
    unsigned long from_step;
    dma_rows rows;                            /* what a DMA reads, if the instruction begins one; else count is 0 */
    const uint32_t *rdram;                    /* before it */
    const uint32_t *our_dmem, *their_dmem;    /* after it */
} difference;
void write_report(const difference *it);

#endif
