/* brsp.h: the Nintendo 64's Reality Signal Processor (RSP): emulator, debugger, assembler and disassembler,
 * for C and C++. Each call is proved to do what the instruction table and the definitions of this
 * repository say. (Only tested are that calls free the memory of a handle, that an allocation failed if a
 * call returns BRSP_NO_MEMORY, the words that explain a fault, that brsp_load_words and brsp_memory_words
 * refuse a length that no memory can have, and the four functions at the end, which are C.)
 * docs/EMBEDDING.md shows how to build and link the library, docs/SYSTEMS.md lists the systems, and
 * docs/FAULTS.md compares the statuses with the faults of scripts.
 *
 * Preconditions, which no call can check:
 *   - A handle is BRSP_NONE before its first call, and afterwards as the last call left it. Never write its
 *     field. You may move a handle, that is, assign it to another one that holds nothing. Then use only the
 *     other one, until you have set the first to BRSP_NONE. What a handle points to belongs to the library:
 *     nobody else reads, writes or frees it.
 *   - Only one call at a time uses a handle: no call takes a lock, which would cost time at each step.
 *     Between two calls you may hand it to another thread, by a mutex or a join as for any data, because
 *     nothing in a machine is bound to a thread.
 *   - No pointer is null, not even that of an empty buffer. A buffer has at least as many elements as its
 *     length says, and the alignment of its type.
 *   - No two pointers of one call overlap, and nobody writes a buffer while a call reads it.
 *   - malloc, realloc and free are of one allocator, and align to 16 bytes, as the platform's do.
 *   - No signal handler makes a call. If a process with more than one thread forks, no call in the child
 *     makes or frees a handle, reads a text, or uses a session, because these calls allocate or free memory.
 *   - A call has BRSP_STACK bytes of stack, or if it takes a machine and isn't brsp_new, BRSP_MACHINE_STACK.
 * To find a call that breaks one, run the program in valgrind. Compilers' sanitizers don't see what the
 * library itself reads and writes, because it is assembly without their checks: under AddressSanitizer a
 * call with a machine that was freed can return BRSP_OK.
 *
 * Postconditions: every call returns, whatever numbers it gets, and all calls except brsp_version, brsp_free
 * and brsp_session_free return a status. If the status isn't BRSP_OK, no machine has changed, and neither
 * has anything that the call fills, with three exceptions: brsp_assemble fills `out` to say why,
 * BRSP_NO_ROOM of a call with a `count` says there how many labels or bytes there are, and
 * BRSP_TOO_LONG ends a session. A call with a handle that holds nothing returns BRSP_NO_MACHINE, except for
 * the calls that make or free; brsp_copy returns BRSP_NO_MACHINE only if `from` holds nothing. The comments
 * below don't list BRSP_OK and BRSP_NO_MACHINE again. */
#ifndef BRSP_H
#define BRSP_H

#include <stddef.h>
#include <stdint.h>

#ifdef __cplusplus
extern "C" {
#endif

/* The handle of a machine. A call fills the caller's handle, and a query takes no `const` one, because a
 * function that Rattle exports can't return a pointer, and follows this one only if it may change it. */
typedef struct brsp_machine {
    void *at;
} brsp_machine;
#ifdef __cplusplus
#define BRSP_NONE {}
#else
#define BRSP_NONE { 0 }
#endif

/* The most bytes of stack that a call needs. This is measured, not proved. */
#define BRSP_STACK 131072

/* The same of the calls that take a machine, except brsp_new. */
#define BRSP_MACHINE_STACK 8192

/* What a call returns. A status other than BRSP_OK is above 100, because the numbers of faults are below
 * 100. */
enum brsp_status {
    BRSP_OK = 0,              /* done; after a step: one instruction was executed */
    BRSP_NO_MACHINE = 101,    /* the handle holds no machine, or no session */
    BRSP_NO_MEMORY = 102,     /* an allocation failed; brsp_new, brsp_session_new: or the processor is
                                 an x86-64 that lacks x86-64-v2 */
    BRSP_OUT_OF_RANGE = 103,  /* a number, a length or a count is out of its range */
    BRSP_HALTED = 104,        /* brsp_step, brsp_pass_move, brsp_pass_dma: the machine is halted */
    BRSP_RESERVED = 105,      /* brsp_step: the word at pc is reserved */
    BRSP_NO_MEANING = 106,    /* brsp_assemble, brsp_labels: the text has a fault: see brsp_assembled;
                                 brsp_explain, brsp_explain_text: the text isn't UTF-8 */
    BRSP_TASK_PLACE = 107,    /* brsp_start_task: it isn't a multiple of 8, or 64 bytes pass the image */
    BRSP_TASK_SIZE = 108,     /* brsp_start_task: the size of the boot code isn't 1 to 4096 */
    BRSP_BREAK_FULL = 109,    /* brsp_add_break: sixteen addresses have a breakpoint */
    BRSP_BREAK_TWICE = 110,   /* brsp_add_break: the address has a breakpoint */
    BRSP_NO_BREAK = 111,      /* brsp_drop_break: the address has no breakpoint */
    BRSP_WATCH_FULL = 112,    /* brsp_add_watch: there are eight watches */
    BRSP_NO_WATCH = 113,      /* brsp_drop_watch: the number has no watch */
    BRSP_SHORT_HISTORY = 114, /* brsp_back: the history holds fewer states */
    BRSP_NO_ROOM = 115,       /* brsp_assemble, brsp_labels, brsp_explain_text, brsp_explain_reply: there are
                                 more words, labels or bytes than the buffer can hold; brsp_session_take,
                                 brsp_session_end: it has fewer than BRSP_REPLIES bytes */
    BRSP_ENDED = 116,         /* brsp_session_take, brsp_session_end: the end of input was met */
    BRSP_TOO_LONG = 117,      /* brsp_session_take, brsp_session_end: it has more than 1048576 bytes */
    BRSP_OTHER_WORD = 118     /* brsp_pass_move, brsp_pass_dma: another word is at pc */
};

/* The fault of a text (docs/FAULTS.md). */
enum brsp_fault {
    BRSP_FAULT_NONE = 0,
    BRSP_FAULT_BAD_LINE = 10,      /* a line is too long, has an unprintable byte, or no label before `:` */
    BRSP_FAULT_UNKNOWN_NAME = 11,  /* no statement has this name */
    BRSP_FAULT_BAD_OPERAND = 12,   /* there are too many or too few operands, or one has another form */
    BRSP_FAULT_OUT_OF_RANGE = 13,  /* a number doesn't fit into its field */
    BRSP_FAULT_LABEL_TWICE = 14,   /* an earlier line has the same label */
    BRSP_FAULT_LABEL_MISSING = 15, /* no line has the label */
    BRSP_FAULT_PAST_END = 16,      /* a word would be at 4096 or later */
    BRSP_FAULT_OUT_OF_MEMORY = 17, /* an allocation failed */
    BRSP_FAULT_NOT_TEXT = 33       /* the text isn't UTF-8 */
};

/* The three memories. DMEM and IMEM have 4096 bytes, RDRAM as many as the image of brsp_new. */
enum brsp_bank { BRSP_DMEM = 0, BRSP_IMEM = 1, BRSP_RDRAM = 2 };

/* Why a run stopped. If several reasons hold, the first of this list counts, except that a move comes before
 * the limit. (In brsp_event the limit comes before a move, and after the last two reasons.) */
enum brsp_reason {
    BRSP_AT_RESERVED = 0, /* the machine isn't halted, and the word at pc is reserved */
    BRSP_AT_HALT = 1,     /* it is halted, as after the instruction BREAK, whatever the word is */
    BRSP_AT_WATCH = 2,    /* the last step changed a byte of a watch */
    BRSP_AT_BREAK = 3,    /* the last step came to a breakpoint (brsp_add_break) */
    BRSP_AT_LIMIT = 4,    /* all steps are made */
    BRSP_AT_MOVE = 5,     /* brsp_run_until_move, brsp_event: such a move is next */
    BRSP_AT_DMA = 6,      /* brsp_event: a DMA is next */
    BRSP_AT_INTERRUPT = 7, /* brsp_event, if asked: the last step raised the interrupt by an MTC0 */
    BRSP_AT_STATUS = 8    /* brsp_event, if asked: the last step was another MTC0 to SP_STATUS */
};

/* Bit 16 of brsp_event's mask `writes`, which asks for BRSP_AT_INTERRUPT and BRSP_AT_STATUS. */
#define BRSP_STATUS_WRITES 65536

typedef struct brsp_stop {
    uint32_t reason; /* a brsp_reason */
    uint32_t steps;  /* the number of steps that were made */
    size_t watch;    /* at a watch its number, otherwise 0 */
    uint16_t pc;     /* the address of the next instruction */
    uint32_t word;   /* at a reserved word the word, otherwise 0 */
} brsp_stop;

/* Where brsp_run_until_move stopped. All fields except `stop` are 0 unless it stopped before a move. A DMA
 * is such a move: an MTC0 to register 2 or 3. */
typedef struct brsp_move {
    brsp_stop stop;   /* before a move the reason is BRSP_AT_MOVE */
    uint32_t word;   /* the move: MFC0 or MTC0 */
    uint32_t number; /* the number of its SP register, 0 to 15 */
    uint32_t writes; /* 1 for MTC0, 0 for MFC0 */
    uint32_t value;  /* what the scalar register rt holds, which an MTC0 would write */
} brsp_move;

/* A DMA: rows of bytes. In the bank they follow one another, and addresses wrap at 4096. In RDRAM there are
 * `skip` bytes between two rows, and addresses wrap at 2^24. Bytes are moved one by one, row by row. */
typedef struct brsp_dma {
    uint32_t bank;     /* BRSP_DMEM or BRSP_IMEM */
    uint32_t address;  /* the first address in the bank, a multiple of 8 below 4096 */
    uint32_t rdram;    /* the first address in RDRAM, a multiple of 8 below 2^24, perhaps past its end */
    uint32_t length;   /* the bytes of a row, a multiple of 8 from 8 to 4096 */
    uint32_t rows;     /* the number of rows, 1 to 256 */
    uint32_t skip;     /* a multiple of 8 below 4096 */
    uint32_t to_rdram; /* 1 if the bytes go to RDRAM (SP_WR_LEN), 0 if they come from there (SP_RD_LEN) */
} brsp_dma;

/* What brsp_event reached. */
typedef struct brsp_reached {
    brsp_move at;        /* where it stopped, and the move; before a DMA the reason is BRSP_AT_DMA */
    brsp_dma dma;        /* the DMA that is next; if there is none, all fields are 0 */
    uint32_t status;    /* SP_STATUS there */
    uint32_t interrupt; /* 1 if the interrupt flag is set there, otherwise 0 */
} brsp_reached;

/* An entry of a trace: what a step did. The struct has no padding: equal entries are equal for memcmp. */
typedef struct brsp_traced {
    uint32_t word;     /* the word that was executed */
    uint32_t value;    /* what the scalar register `scalar` holds after the step; 0 if none */
    uint16_t pc;       /* the address of the word */
    uint16_t address;  /* the address of a store in DMEM, below 4096; otherwise 0 */
    uint16_t vco, vcc; /* after the step */
    uint8_t vce;       /* after the step */
    uint8_t scalar;    /* the number of the scalar register that the step wrote, 1 to 31; 0 if none */
    uint8_t vector;    /* the vector register that it wrote, for LTV the first of the group; 32 if none */
    uint8_t stored;    /* 1 for a store, otherwise 0 */
    uint16_t lanes[8]; /* what the vector register `vector` holds after the step; 0 if none */
} brsp_traced;

typedef struct brsp_scalars {
    uint32_t words[32];
    uint16_t pc, npc; /* the addresses of the next instruction, and of the one after it */
} brsp_scalars;

typedef struct brsp_lanes {
    uint16_t lanes[8];
} brsp_lanes;

/* The accumulators of the eight lanes: bits 47 to 32 of each, 31 to 16, and 15 to 0. */
typedef struct brsp_accumulators {
    uint16_t high[8], middle[8], low[8];
} brsp_accumulators;

/* Flags, with bit i for lane i. Bits 0 to 7 of VCO are carry and bits 8 to 15 differ (not-equal); those of
 * VCC are compare and clip; VCE is extra. */
typedef struct brsp_flag_bits {
    uint8_t carry, differ, compare, clip, extra;
} brsp_flag_bits;

/* What divide instructions leave for the next one: DIV_IN, DIV_OUT, and 1 if DIV_IN is loaded, otherwise
 * 0. */
typedef struct brsp_divide_state {
    uint16_t input, output, loaded;
} brsp_divide_state;

/* All registers. */
typedef struct brsp_state {
    uint32_t words[32];       /* scalar registers; register 0 is 0 */
    uint16_t vectors[32][8];  /* vector registers, lane 0 first */
    brsp_accumulators accumulators;
    brsp_flag_bits flags;
    uint8_t zero;             /* brsp_get writes 0, so memcmp compares its states; brsp_set ignores it */
    brsp_divide_state divider;
    uint16_t pc, npc;         /* multiples of 4 below 4096 */
    uint32_t sp[16];          /* SP registers 0 to 7 and the DPC's 0 to 7, as brsp_peek gives them */
    uint32_t interrupt;       /* 1 if the interrupt flag is set, otherwise 0 */
} brsp_state;

/* What a step changed. The struct has no padding. Some changes aren't in it: those of the other seven
 * registers of the group that an LTV writes; those of SP registers by MFC0, MTC0, BREAK and single step; and
 * those of memories by a DMA. */
typedef struct brsp_changes {
    brsp_traced traced;        /* its entry in a trace */
    uint16_t pc, npc;         /* after the step, as are all fields below */
    brsp_divide_state divider;
    uint16_t quadword;        /* the address of the quadword that contains a store's address; otherwise 0 */
    brsp_accumulators accumulators;
    uint8_t bytes[2][16];     /* for a store that quadword and the next one, modulo 4096; otherwise 0 */
} brsp_changes;

/* The SP registers 0 to 7 and the DPC's 0 to 7, as brsp_peek gives them; 1 if the interrupt flag is set,
 * otherwise 0. */
typedef struct brsp_sp_words {
    uint32_t words[16];
    uint32_t interrupt;
} brsp_sp_words;

/* The fields of a state that can have a value which no machine can have. */
enum brsp_field {
    BRSP_FIELD_NONE = 0,
    BRSP_FIELD_ZERO = 1,      /* words[0] isn't 0 */
    BRSP_FIELD_LOADED = 2,    /* divider.loaded isn't 0 or 1 */
    BRSP_FIELD_PC = 3,        /* pc isn't a multiple of 4 below 4096 */
    BRSP_FIELD_NPC = 4,       /* npc isn't a multiple of 4 below 4096 */
    BRSP_FIELD_INTERRUPT = 5, /* interrupt isn't 0 or 1 */
    BRSP_FIELD_SP = 16        /* 16 + n, n below 8: sp[n] can't be read from that register */
};

typedef struct brsp_assembled {
    size_t count;   /* the number of words; 0 if there is a fault */
    size_t line;    /* the line of the fault, from 1; 0 without a fault, and if the text isn't UTF-8 */
    uint32_t fault; /* a brsp_fault */
} brsp_assembled;

/* A label of a text. */
typedef struct brsp_label {
    uint16_t address; /* its address in IMEM, at most 4096 */
    uint16_t len;     /* the bytes of its name, 1 to 32 */
    char name[36];    /* the name, then zeros, at least four */
} brsp_label;

/* A word with its disassembly. */
typedef struct brsp_line {
    uint32_t word;
    uint16_t address; /* its address in IMEM */
    uint16_t len;   /* the bytes of the text, at most 64 */
    char text[68];  /* the text, then zeros, at least four */
} brsp_line;

/* The version of this interface. It is raised when a call, a struct or a number changes its meaning, or is
 * removed. A call that is added raises only the second number of BRSP_RELEASE: a program that makes such a
 * call needs a library of that release, or of a later one with the same BRSP_VERSION. With an older library
 * the system's loader ends the program: at its start, or at the first such call if the loader looks for
 * calls only then. */
#define BRSP_VERSION 1

/* The release of rsp that this header belongs to. */
#define BRSP_RELEASE "0.9.0"

/* Returns the library's BRSP_VERSION. */
uint32_t brsp_version(void);

/* ---- Creating and freeing ---- */

/* Makes a machine with a copy of an image of RDRAM (64 to 8388608 bytes, a multiple of 8) and a history of
 * `depth` states, at most 4096. Everything else is 0, except npc, which is 4, and SP registers 2 and 3,
 * which read 0xff8. So the machine isn't halted, while a console's is after a reset: write 2 to register 4
 * if your CPU expects that. This call allocates all memory; no later call on the handle allocates any. What
 * the handle held before is freed, unless the call fails. Returns BRSP_OUT_OF_RANGE for any other length or
 * depth, without reading the image, and otherwise BRSP_NO_MEMORY if an allocation fails. */
uint32_t brsp_new(brsp_machine *m, const uint8_t *image, size_t len, uint32_t depth);

/* Makes in `to` a second machine with the registers and memories of the one in `from`, which stays as it is.
 * The history of the new machine has room for as many states, but is empty; there are no breakpoints and no
 * watches. What `to` held before is freed, unless the call fails. Returns BRSP_NO_MEMORY. */
uint32_t brsp_copy(brsp_machine *to, brsp_machine *from);

/* Frees the machine, if there is one, and leaves BRSP_NONE in the handle. */
void brsp_free(brsp_machine *m);

/* ---- Whole states: all registers. The memories stay unchanged. ---- */

/* Gives the state, and changes nothing. */
uint32_t brsp_get(brsp_machine *m, brsp_state *out);

/* Sets what brsp_get gives, so that brsp_get gives the same back. Empties the history. Returns
 * BRSP_OUT_OF_RANGE for a state that no machine can have: brsp_state_fault says why. */
uint32_t brsp_set(brsp_machine *m, const brsp_state *state);

/* Gives the first brsp_field for which brsp_set refuses a state, or BRSP_FIELD_NONE if it takes the
 * state. */
uint32_t brsp_state_fault(const brsp_state *state, uint32_t *out);

/* ---- Memories. Each returns BRSP_OUT_OF_RANGE if there is no such bank, or the bytes pass its end. ---- */

/* Gives the number of bytes of the image of RDRAM. Returns no other status. */
uint32_t brsp_image_length(brsp_machine *m, size_t *out);

/* Writes bytes to a memory, and empties the history. */
uint32_t brsp_load(brsp_machine *m, uint32_t bank, uint32_t address, const uint8_t *bytes, size_t len);

/* Writes words, the high byte of each first. Empties the history. */
uint32_t brsp_load_words(brsp_machine *m, uint32_t bank, uint32_t address, const uint32_t *words,
                         size_t len);

/* Reads bytes of a memory. */
uint32_t brsp_memory(brsp_machine *m, uint32_t bank, uint32_t address, uint8_t *bytes, size_t len);

/* Reads words, the high byte of each first. */
uint32_t brsp_memory_words(brsp_machine *m, uint32_t bank, uint32_t address, uint32_t *words, size_t len);

/* ---- Where the machine continues ---- */

/* Starts the task whose structure of 64 bytes is at an address of RDRAM, and clears halted. The structure
 * and the boot code are read from the machine's own RDRAM, so this isn't for hosts that keep RDRAM outside.
 * Empties the history. Returns BRSP_TASK_PLACE unless the address is a multiple of 8 and the 64 bytes are in
 * the image, and otherwise BRSP_TASK_SIZE unless the boot code has 1 to 4096 bytes. */
uint32_t brsp_start_task(brsp_machine *m, uint32_t address);

/* Lets the machine continue at an address of IMEM; a halted machine stays halted. Empties the history.
 * Returns BRSP_OUT_OF_RANGE unless the address is a multiple of 4 below 4096. */
uint32_t brsp_set_pc(brsp_machine *m, uint32_t pc);

/* ---- Steps. An executed instruction adds a state to the history; one that starts a DMA empties it. ---- */

/* Executes one instruction. Returns BRSP_HALTED or BRSP_RESERVED. */
uint32_t brsp_step(brsp_machine *m);

/* The same, and gives what the step changed. Returns BRSP_HALTED or BRSP_RESERVED. */
uint32_t brsp_step_changes(brsp_machine *m, brsp_changes *out);

/* Makes at most n steps, up to the first reason to stop. Returns BRSP_OUT_OF_RANGE unless n is 1 to
 * 1000000. */
uint32_t brsp_run(brsp_machine *m, uint32_t n, brsp_stop *out);

/* The same, and also stops before an MFC0 from an SP register whose bit is set in `reads`, and before an
 * MTC0 to one whose bit is set in `writes`: bit r is for register r. It may stop there before the first
 * step. Returns BRSP_OUT_OF_RANGE unless n is 1 to 1000000 and both masks are below 65536. */
uint32_t brsp_run_until_move(brsp_machine *m, uint32_t n, uint32_t reads, uint32_t writes, brsp_move *out);

/* Runs to the next event, for a caller that owns RDRAM, and describes what is next. Like
 * brsp_run_until_move, but it also stops before each DMA, whatever `writes` is. A move or a DMA is an event
 * only if fewer than n steps were made: after n steps the reason is BRSP_AT_LIMIT. So a caller that steps
 * over the event, by brsp_pass_move, brsp_pass_dma or brsp_step, has made `steps` + 1 of its n steps.
 *
 * With BRSP_STATUS_WRITES in `writes` it also stops after each MTC0 to SP_STATUS, whose step it makes, so
 * that a caller hears of an interrupt before the next instruction. (A BREAK that raises one halts, and every
 * run stops there.) If the machine is then halted, or the next word is reserved or has a breakpoint, that is
 * the reason. Otherwise the reason is BRSP_AT_INTERRUPT if the interrupt flag was clear before that step and
 * is set after it, and BRSP_AT_STATUS if not. So a caller that waits for an interrupt compares `interrupt`
 * with its value before the call, because the reason can be another one. With BRSP_STATUS_WRITES bit 4 of
 * `writes` makes no difference.
 *
 * Returns BRSP_OUT_OF_RANGE unless n is 1 to 1000000, `reads` is below 65536, and `writes` is too without
 * BRSP_STATUS_WRITES. */
uint32_t brsp_event(brsp_machine *m, uint32_t n, uint32_t reads, uint32_t writes, brsp_reached *out);

/* The same as brsp_run, with an entry for each step; the other entries stay unchanged. Returns
 * BRSP_OUT_OF_RANGE unless n is 1 to 1000000. */
uint32_t brsp_trace(brsp_machine *m, brsp_traced *out, size_t n, brsp_stop *stop);

/* Undoes n steps. Returns BRSP_OUT_OF_RANGE unless n is 1 to 1000000, and otherwise BRSP_SHORT_HISTORY if
 * the history holds fewer states. */
uint32_t brsp_back(brsp_machine *m, uint32_t n);

/* Gives the number of steps that can be undone, which is the number of states in the history. */
uint32_t brsp_history(brsp_machine *m, size_t *out);

/* Steps over the MFC0 or MTC0 at pc, for a caller that owns the SP registers. pc and npc advance, register
 * rt of an MFC0 becomes `value`, single step halts as after any instruction, and nothing else happens.
 * Empties the history. Returns BRSP_HALTED if the machine is halted, and otherwise BRSP_OTHER_WORD if
 * another word is at pc.
 *
 * To set SP registers by brsp_set_sp as well, call first brsp_pass_move, then brsp_sp, then brsp_set_sp,
 * because what brsp_sp gave before brsp_pass_move would undo the halt by single step. Leave SP_STATUS to the
 * machine, because BREAK and single step change it too: at a move of register 4, call brsp_step. */
uint32_t brsp_pass_move(brsp_machine *m, uint32_t value);

/* Steps over the DMA at pc, for a caller that moves its bytes. Everything is as after brsp_step, SP
 * registers included, except that the memories stay unchanged. Move the bytes after this call, because they
 * may overwrite the word at pc; the brsp_dma of brsp_event describes them. Empties the history. Returns
 * BRSP_HALTED if the machine is halted, and otherwise BRSP_OTHER_WORD if the word at pc starts no DMA. */
uint32_t brsp_pass_dma(brsp_machine *m);

/* ---- Breakpoints at addresses of IMEM, at most sixteen, and watches of DMEM, at most eight ---- */

/* Adds a breakpoint. A run stops when a step comes to it, so not at once if the run begins there. Returns
 * BRSP_OUT_OF_RANGE unless the address is a multiple of 4 below 4096, otherwise BRSP_BREAK_TWICE if the
 * address has a breakpoint, and otherwise BRSP_BREAK_FULL if sixteen addresses have one. */
uint32_t brsp_add_break(brsp_machine *m, uint32_t address);

/* Removes a breakpoint. Returns BRSP_OUT_OF_RANGE unless the address is a multiple of 4 below 4096, and
 * otherwise BRSP_NO_BREAK if it has no breakpoint. */
uint32_t brsp_drop_break(brsp_machine *m, uint32_t address);

/* Watches 1 to 64 bytes inside DMEM, and gives the watch the lowest free number, 0 to 7. Returns
 * BRSP_OUT_OF_RANGE for other bytes, and otherwise BRSP_WATCH_FULL if there are eight watches. */
uint32_t brsp_add_watch(brsp_machine *m, uint32_t address, uint32_t len, size_t *number);

/* Removes a watch. Returns BRSP_NO_WATCH if no watch has this number. */
uint32_t brsp_drop_watch(brsp_machine *m, uint32_t number);

/* ---- Parts of the state. These calls change nothing. ---- */

/* The scalar register n. Returns BRSP_OUT_OF_RANGE unless n is below 32. */
uint32_t brsp_reg(brsp_machine *m, uint32_t n, uint32_t *out);

/* All scalar registers, with pc and npc. */
uint32_t brsp_regs(brsp_machine *m, brsp_scalars *out);

/* The lanes of the vector register n. Returns BRSP_OUT_OF_RANGE unless n is below 32. */
uint32_t brsp_vreg(brsp_machine *m, uint32_t n, brsp_lanes *out);

/* The accumulators. */
uint32_t brsp_acc(brsp_machine *m, brsp_accumulators *out);

/* VCO, VCC and VCE. */
uint32_t brsp_flags(brsp_machine *m, brsp_flag_bits *out);

/* DIV_IN, DIV_OUT, and whether DIV_IN is loaded. */
uint32_t brsp_divider(brsp_machine *m, brsp_divide_state *out);

/* ---- SP registers: 0 to 7, and the DPC's from 8 on ---- */

/* Reads the SP register n, modulo 16, as the CPU does. A read of the semaphore, 7, takes it and empties the
 * history. */
uint32_t brsp_read(brsp_machine *m, uint32_t n, uint32_t *out);

/* Gives the word that brsp_read of the SP register n, modulo 16, would give, and changes nothing. */
uint32_t brsp_peek(brsp_machine *m, uint32_t n, uint32_t *out);

/* Writes the SP register n, modulo 16, as the CPU does, with its DMA if it is a length register. Empties the
 * history. */
uint32_t brsp_write(brsp_machine *m, uint32_t n, uint32_t value);

/* The same for a caller that owns RDRAM, and moves the bytes of the DMA itself: the memories stay unchanged.
 * Gives the DMA that the write starts, as brsp_event does; if it starts none, all fields are 0. */
uint32_t brsp_write_dma(brsp_machine *m, uint32_t n, uint32_t value, brsp_dma *out);

/* Gives all SP registers and the interrupt flag, and changes nothing. */
uint32_t brsp_sp(brsp_machine *m, brsp_sp_words *out);

/* Sets all SP registers and the interrupt flag, without a DMA. Empties the history. Returns
 * BRSP_OUT_OF_RANGE if a word can't be read from its register, or `interrupt` isn't 0 or 1. */
uint32_t brsp_set_sp(brsp_machine *m, const brsp_sp_words *given);

/* ---- Texts ---- */

/* Assembles a text in UTF-8 to at most 1024 words, of which the first is for the address `origin`, a
 * multiple of 4 up to 4096. What follows the words in `words` stays unchanged. Returns
 *   - BRSP_OUT_OF_RANGE for another origin; `out` then stays unchanged;
 *   - BRSP_NO_MEANING if the text has a fault: `out` has the fault and its line;
 *   - BRSP_NO_ROOM if there are more words than `capacity`: `out` has their count, so pass a capacity of 0
 *     to learn the count;
 *   - BRSP_NO_MEMORY: `out` has fault 17 and the line whose label had no memory. No line up to that one has
 *     a fault, except perhaps in an operand that depends on the labels of all lines. */
uint32_t brsp_assemble(uint32_t origin, const uint8_t *text, size_t len, uint32_t *words, size_t capacity,
                      brsp_assembled *out);

/* Gives the labels of a text with their addresses, in the order of their lines. `origin` is as for
 * brsp_assemble. `count` gets the number of labels, at most one for each line; what follows them in `labels`
 * stays unchanged. Returns
 *   - BRSP_OUT_OF_RANGE for another origin;
 *   - BRSP_NO_MEANING if the text has a fault or isn't UTF-8: brsp_assemble says which;
 *   - BRSP_NO_ROOM if there are more labels than `capacity`: `count` has their number, so pass a capacity of
 *     0 to learn the number;
 *   - BRSP_NO_MEMORY: no line up to some line with a label has a fault, except perhaps in an operand that
 *     depends on the labels of all lines; or no line has a fault at all. */
uint32_t brsp_labels(uint32_t origin, const uint8_t *text, size_t len, brsp_label *labels, size_t capacity,
                    size_t *count);

/* Disassembles a word for an address of IMEM, a multiple of 4 below 4096. Returns BRSP_OUT_OF_RANGE for
 * another address. */
uint32_t brsp_text(uint32_t word, uint32_t address, brsp_line *out);

/* Disassembles `len` words of IMEM from an address on. The machine ignores bits 10 to 25 of a jump, but no
 * jump in source text sets them, so the text of such a word is a `.word`; brsp_text(word & 0xfc0003ff, ..)
 * says where the jump leads. Returns BRSP_OUT_OF_RANGE unless the address is a multiple of 4 below 4096 and
 * the words don't pass IMEM's end. */
uint32_t brsp_listing(brsp_machine *m, uint32_t address, brsp_line *lines, size_t len);

/* The kind of an operand that a statement takes. */
enum brsp_operand_kind {
    BRSP_OPERAND_NOTHING = 0,        /* none: the statement has all its operands */
    BRSP_OPERAND_WORD = 1,           /* a number of .word */
    BRSP_OPERAND_SCALAR = 2,         /* a scalar register */
    BRSP_OPERAND_SHIFT = 3,          /* a shift amount */
    BRSP_OPERAND_IMMEDIATE = 4,      /* an immediate of 16 bits */
    BRSP_OPERAND_JUMP = 5,           /* the target of a jump */
    BRSP_OPERAND_BRANCH = 6,         /* the target of a branch */
    BRSP_OPERAND_SCALAR_MEMORY = 7,  /* an offset, and a scalar register in parentheses */
    BRSP_OPERAND_VECTOR_MEMORY = 8,  /* the same for a vector load or store */
    BRSP_OPERAND_SP = 9,             /* an SP register */
    BRSP_OPERAND_CONTROL = 10,       /* a control register */
    BRSP_OPERAND_VECTOR = 11,        /* a vector register */
    BRSP_OPERAND_VECTOR_BYTE = 12,   /* a vector register with a byte of it */
    BRSP_OPERAND_VECTOR_ELEMENT = 13, /* a vector register with the element of a computing instruction */
    BRSP_OPERAND_VECTOR_LANE = 14    /* a vector register with a lane */
};

typedef struct brsp_operand {
    int64_t low;     /* the lowest number that it may be, if it has a range; otherwise 0 */
    int64_t high;    /* the highest one */
    size_t number;   /* which operand of the line, from 1, even if it is missing; 0 if none is refused */
    uint32_t kind;   /* what the statement takes there: a brsp_operand_kind */
    uint32_t step;   /* the numbers of the range are multiples of this; 0 if there is no range */
} brsp_operand;

/* Finds the operand for which brsp_assemble refuses a text, with fault 12, 13 or 15. Returns
 *   - BRSP_OUT_OF_RANGE for an origin that isn't a multiple of 4 up to 4096;
 *   - BRSP_NO_MEANING if the text isn't UTF-8;
 *   - BRSP_NO_MEMORY: no line up to some line with a label has a fault, except perhaps in an operand that
 *     depends on the labels of all lines. */
uint32_t brsp_explain(uint32_t origin, const uint8_t *text, size_t len, brsp_operand *out);

/* Says what is wrong with a text, as `rsp asm --explain` does: a line `line N: fault ..` for each of its
 * faults, at most twenty, with indented lines that explain the fault, and then how many faults more there
 * are. A text without a fault gets no bytes. `origin` is as for brsp_assemble. `said` gets these lines, each
 * with an LF, and `count` the number of their bytes; what follows them in `said` stays unchanged. Returns
 *   - BRSP_OUT_OF_RANGE for another origin;
 *   - BRSP_NO_MEANING if the text isn't UTF-8;
 *   - BRSP_NO_ROOM if there are more bytes than `capacity`: `count` has their number, so pass a capacity of
 *     0 to learn the number;
 *   - BRSP_NO_MEMORY. */
uint32_t brsp_explain_text(uint32_t origin, const uint8_t *text, size_t len, uint8_t *said, size_t capacity,
                           size_t *count);

/* ---- Scripts: docs/SCRIPT.md lists their commands and replies ---- */

/* A session answers a script, on a machine of its own. What the top of this file says of handles also holds
 * for this one. */
typedef struct brsp_session {
    void *at;
} brsp_session;

/* The least number of bytes of a buffer for replies. */
#define BRSP_REPLIES 16384

/* Makes a session whose machine has a copy of an image of RDRAM (64 to 8388608 bytes, a multiple of 8) and a
 * history of 256 states. What the handle held before is freed, unless the call fails. Returns
 * BRSP_OUT_OF_RANGE for any other length, without reading the image, and otherwise BRSP_NO_MEMORY if an
 * allocation fails. */
uint32_t brsp_session_new(brsp_session *b, const uint8_t *image, size_t len);

/* Takes the next bytes of a script: up to and including the first LF, or all of them if there is none.
 * `used` gets the number of bytes taken, 0 only if `len` is 0; the next call continues after them. `reply`
 * gets the reply to the line that the LF ended, and `written` its length; what follows it stays unchanged.
 * However you divide a script into calls, the replies in this order, with that of brsp_session_end last, are
 * what `rsp run` writes. Returns
 *   - BRSP_NO_ROOM for a capacity below BRSP_REPLIES;
 *   - BRSP_ENDED after brsp_session_end;
 *   - BRSP_TOO_LONG if 1048576 bytes were taken and there are more. Then stop: all lines that had ended are
 *     answered, and with BRSP_REPLIES bytes for replies brsp_session_take and brsp_session_end return this
 *     again. brsp_session_memory still reads, and brsp_session_new makes a new session in the handle;
 *   - BRSP_NO_MEMORY, only for a line of an `asm` block or its `end`. You may make the same call again. */
uint32_t brsp_session_take(brsp_session *b, const uint8_t *bytes, size_t len, size_t *used, uint8_t *reply,
                        size_t capacity, size_t *written);

/* Ends the script: `reply` gets the reply to a last line without an LF, if it has any bytes, and the fault
 * of an `asm` block that is still open. Returns the statuses of brsp_session_take. */
uint32_t brsp_session_end(brsp_session *b, uint8_t *reply, size_t capacity, size_t *written);

/* Says what is wrong with lines of a script whose reply is a fault, as `rsp run --explain` does: a line with
 * a command, or a block from its `asm` on, up to its `end` or to the end of the script. `before` is how many
 * lines the script has before them. A reply that is no fault gets no bytes, and neither do lines that have
 * no reply. If more than one of the lines has a reply, the first counts. `said` and `count` are filled, and
 * BRSP_NO_ROOM and BRSP_NO_MEMORY returned, as by brsp_explain_text. */
uint32_t brsp_explain_reply(size_t before, const uint8_t *lines, size_t len, const uint8_t *reply,
                            size_t reply_len, uint8_t *said, size_t capacity, size_t *count);

/* Reads bytes of a memory of its machine, and changes nothing. Returns BRSP_OUT_OF_RANGE if there is no such
 * bank, or the bytes pass its end. */
uint32_t brsp_session_memory(brsp_session *b, uint32_t bank, uint32_t address, uint8_t *bytes, size_t len);

/* Frees the session, if there is one, and leaves BRSP_NONE in the handle. */
void brsp_session_free(brsp_session *b);

/* The name of a status, for messages. Here and in the two functions below it is "unknown" for any other
 * number. */
static inline const char *brsp_status_name(uint32_t status)
{
    static const char *const names[] = {
        "OK", "NO_MACHINE", "NO_MEMORY", "OUT_OF_RANGE", "HALTED", "RESERVED", "NO_MEANING", "TASK_PLACE",
        "TASK_SIZE", "BREAK_FULL", "BREAK_TWICE", "NO_BREAK", "WATCH_FULL", "NO_WATCH", "SHORT_HISTORY",
        "NO_ROOM", "ENDED", "TOO_LONG", "OTHER_WORD"
    };
    uint32_t n = status > 100 ? status - 100 : status ? sizeof names : 0;
    return n < sizeof names / sizeof *names ? names[n] : "unknown";
}

/* The name of the fault of an assembly (docs/FAULTS.md). */
static inline const char *brsp_fault_name(uint32_t fault)
{
    static const char *const names[] = {
        "BadLine", "UnknownName", "BadOperand", "OutOfRange", "LabelTwice", "LabelMissing", "PastEnd",
        "OutOfMemory"
    };
    if (fault == BRSP_FAULT_NOT_TEXT) return "NotText";
    return fault >= 10 && fault - 10 < sizeof names / sizeof *names ? names[fault - 10] : "unknown";
}

/* The name of the reason of a stop. */
static inline const char *brsp_reason_name(uint32_t reason)
{
    static const char *const names[] = { "RESERVED", "HALT", "WATCH", "BREAK", "LIMIT", "MOVE", "DMA",
                                         "INTERRUPT", "STATUS" };
    return reason < sizeof names / sizeof *names ? names[reason] : "unknown";
}

/* What may be in the place of an operand of a kind, for messages. If the operand has a range, the range
 * follows a form that ends with a comma. */
static inline const char *brsp_operand_form(uint32_t kind)
{
    switch (kind) {
    case BRSP_OPERAND_NOTHING: return "nothing";
    case BRSP_OPERAND_SCALAR: return "a scalar register, $0 to $31 or as $t0, but not $v0 and $v1";
    case BRSP_OPERAND_SP: return "an SP register, $c0 to $c15";
    case BRSP_OPERAND_CONTROL: return "$vco, $vcc or $vce";
    case BRSP_OPERAND_VECTOR: return "a vector register, $v0 to $v31";
    case BRSP_OPERAND_VECTOR_BYTE:
        return "a vector register, $v0 to $v31, with a byte, [0] to [15], or none";
    case BRSP_OPERAND_VECTOR_ELEMENT:
        return "a vector register, $v0 to $v31, with an element, "
               "[v], [0q], [1q], [0h] to [3h] or [0] to [7], or none";
    case BRSP_OPERAND_VECTOR_LANE: return "a vector register, $v0 to $v31, with a lane, [0] to [7]";
    default: return kind < BRSP_OPERAND_VECTOR_LANE ? "a number or a label," : "unknown";
    }
}

#ifdef __cplusplus
}
#endif
#endif
