/* brsp_helpers.h: tested, not proved. What C, C++, Python, Rust and JavaScript have in common over the
 * calls of brsp.h: savestates, the first difference between a machine and an emulator, and texts of
 * states, of refusals and of differences. These functions are part of the library, and are written in C
 * over the proved calls.
 *
 * What brsp.h says of handles, pointers and buffers also holds here, and a call has BRSP_STACK bytes of
 * stack. The functions allocate nothing, keep nothing between two calls, and call nothing of yours.
 *
 * Texts: a function that returns size_t and takes `text` and `capacity` does what snprintf does. It
 * returns the number of bytes of the whole text, without a final NUL. It writes as many of them as fit,
 * and then a NUL, so at most `capacity` bytes in all. With a capacity of 0 `text` may be null. All texts
 * are ASCII, except for what you pass in yourself. Lines end with LF, except for the last one. */
#ifndef BRSP_HELPERS_H
#define BRSP_HELPERS_H

#include "brsp.h"

#ifdef __cplusplus
extern "C" {
#endif

/* ---- Savestates ---- */

/* A savestate is a whole machine as one string of bytes: its registers, its memories and its image of
 * RDRAM, but not its history, its breakpoints and its watches. conformance/FORMS.md lists the bytes,
 * which are the same on every computer and in every language. */

#define BRSP_SAVESTATE_VERSION 1

/* How many bytes a savestate has before those of the image. */
#define BRSP_SAVESTATE_BYTES 8976

/* What is wrong with bytes that brsp_load_state refuses. If several of these hold, the first counts. */
enum brsp_savestate_fault {
    BRSP_SAVESTATE_FINE = 0,
    BRSP_SAVESTATE_MAGIC = 1,         /* they don't begin with `RSPS` */
    BRSP_SAVESTATE_OTHER_VERSION = 2, /* their version isn't BRSP_SAVESTATE_VERSION */
    BRSP_SAVESTATE_LENGTH = 3,        /* there are fewer bytes, or more, than the savestate says */
    BRSP_SAVESTATE_IMAGE = 4,         /* the machine's image has another length */
    BRSP_SAVESTATE_STATE = 5          /* brsp_set refuses the state, or its field `zero` isn't 0 */
};

/* Writes the savestate of a machine, and changes nothing in it. `length` gets the number of its bytes.
 * Returns BRSP_NO_ROOM if there are more than `capacity`: `length` then has their number all the same,
 * and no byte is written. With a capacity of 0 `bytes` may be null. */
uint32_t brsp_save_state(brsp_machine *m, uint8_t *bytes, size_t capacity, size_t *length);

/* Gives the first brsp_savestate_fault for which brsp_load_state refuses bytes, or BRSP_SAVESTATE_FINE if
 * it takes them. */
uint32_t brsp_savestate_check(brsp_machine *m, const uint8_t *bytes, size_t length, uint32_t *fault);

/* Sets all registers and memories from a savestate, and empties the history. Breakpoints and watches
 * stay. Afterwards brsp_save_state gives the same bytes. Returns BRSP_OUT_OF_RANGE, and changes nothing,
 * if brsp_savestate_check finds a fault. */
uint32_t brsp_load_state(brsp_machine *m, const uint8_t *bytes, size_t length);

/* Such a fault in words; "unknown" for any other number. */
const char *brsp_savestate_fault_text(uint32_t fault);

/* Why brsp_load_state refuses these bytes for a machine with an image of `image` bytes, with the numbers
 * that are wrong: `the savestate has version 2, not 1`. It is empty if brsp_load_state takes them. */
size_t brsp_savestate_refusal_text(const uint8_t *bytes, size_t length, size_t image, char *text,
                                   size_t capacity);

/* ---- Structures of registers as texts, and the parts in which two of them differ ---- */

/* The structures of brsp.h that have a text and parts. */
enum brsp_structure {
    BRSP_OF_STATE = 0,        /* brsp_state: the lines of `regs`, `vregs` and `flags` in scripts */
    BRSP_OF_SCALARS = 1,      /* brsp_scalars: the lines of `regs` */
    BRSP_OF_ACCUMULATORS = 2, /* brsp_accumulators: the lines of `acc` */
    BRSP_OF_FLAGS = 3,        /* brsp_flag_bits: `vco 0000 vcc 0000 vce 00` */
    BRSP_OF_DIVIDER = 4,      /* brsp_divide_state: `in 0000 out 0000 loaded 0` */
    BRSP_OF_SP = 5,           /* brsp_sp_words: a line for each register, and one for the interrupt flag */
    BRSP_OF_TRACED = 6,       /* brsp_traced: a step in a line: what was executed, and what it wrote */
    BRSP_OF_CHANGES = 7       /* brsp_changes: the line of its entry, those of `acc`, the rest in a line */
};

/* The text of a structure of this kind, a brsp_structure; empty for any other kind. */
size_t brsp_structure_text(uint32_t kind, const void *structure, char *text, size_t capacity);

/* The most parts that a structure has. */
#define BRSP_PARTS 321

/* The bank of a brsp_part that is no part of a memory. */
#define BRSP_NO_BANK 3

/* A part that differs: its name, which is that of a register, such as `$3`, or of a quadword of a memory,
 * such as `DMEM 3f0`; the machine's value and the emulator's, the high 64 bits first; and the number of
 * hexadecimal digits. The struct has no padding.
 *
 * A register has a number in its structure. In a brsp_state 0 is pc and 1 npc, 2 to 33 are the scalar
 * registers, 34 to 289 the lanes of the vector registers, 290 to 297 the accumulators, 298 to 303 VCO,
 * VCC, VCE, DIV_IN, DIV_OUT and whether DIV_IN is loaded, 304 to 319 the SP registers, and 320 is the
 * interrupt flag. */
typedef struct brsp_part {
    char name[24];
    uint64_t value[2], other[2];
    uint32_t digits;
    uint32_t bank;    /* of a quadword the brsp_bank, of a register BRSP_NO_BANK */
    uint32_t address; /* of a quadword its address, otherwise 0 */
    uint32_t number;  /* of a register its number, otherwise 0 */
} brsp_part;

/* Gives the parts in which two structures of a kind differ, in their order in scripts, at most `capacity`
 * of them, and returns how many there are, at most BRSP_PARTS. A state's byte `zero` is no part. With a
 * capacity of 0 `parts` may be null. */
size_t brsp_structure_parts(uint32_t kind, const void *structure, const void *other, brsp_part *parts,
                            size_t capacity);

/* Gives the quadwords in which `len` bytes of a memory differ, at most `capacity` of them, and returns how
 * many there are. The bytes are those of a brsp_bank from its beginning, and `len` is a multiple of 8. With a
 * capacity of 0 `parts` may be null. */
size_t brsp_memory_parts(uint32_t bank, const uint8_t *bytes, const uint8_t *other, size_t len,
                         brsp_part *parts, size_t capacity);

/* The sentence `$3 is fffffff0 HERE and 3ffffff0 THERE`. */
size_t brsp_part_text(const brsp_part *part, const char *here, const char *there, char *text,
                      size_t capacity);

/* The disassembly of a word for an address, as brsp_text gives it, but with the name of an instruction
 * whose ignored bits aren't 0: `ctc2 $12, $vcc, with ignored bits`. Only a reserved word, and any word
 * for an address that isn't a multiple of 4 below 4096, is a `.word`. The text has at most 64 bytes. */
size_t brsp_word_text(uint32_t word, uint32_t address, char *text, size_t capacity);

/* ---- The first step after which an emulator differs from a machine ---- */

/* A search asks for one thing after another, and calls nobody back. brsp_compare.h has a loop around it,
 * for an emulator in C. In short:
 *
 *     brsp_request request;
 *     uint8_t *search = malloc(brsp_search_bytes(image_length));
 *     status = brsp_search_begin(&machine, 64, 1000000, search, brsp_search_bytes(image_length));
 *     while (status == BRSP_OK && (status = brsp_search_next(&machine, search, &request)) == BRSP_OK &&
 *            request.kind != BRSP_REQUEST_OVER)
 *         ..do what the request says
 *     if (status == BRSP_OK) brsp_search_difference(search, &difference);
 *
 * First the machine's registers and memories are copied into the emulator, read back, and compared. Then
 * both run in stretches of at most `every` steps, which end before a DMA. After each stretch, and after
 * each DMA, all registers, DMEM and IMEM are compared, and after a DMA also the bytes of RDRAM that it
 * wrote. If they differ after a stretch, both go back to the last comparison and are stepped from there. (A
 * wrong value that is overwritten before the end of its stretch isn't seen: repeat with 1 for `every`. What
 * shows only if the emulator makes several steps without a pause needs longer stretches.) At the end all of
 * RDRAM is compared. Both are left after the step that differs, and the machine's history is empty.
 * Breakpoints and watches are ignored.
 *
 * A search may be dropped at any time: nothing has to be freed but its bytes, which are yours. */

/* What a search asks for, by the names of the functions that an emulator has. Bytes are exchanged in
 * those of the search. BREAK is a step, which sets bits 0 and 1 of SP_STATUS. Of registers that the
 * emulator lacks, it puts what it was last asked to set. */
enum brsp_request_kind {
    BRSP_REQUEST_OVER = 0,  /* nothing: the search is over */
    BRSP_REQUEST_RUN = 1,   /* make `steps` steps; the machine has made as many, so none begins halted */
    BRSP_REQUEST_SET = 2,   /* set all registers from the brsp_state whose bytes are there */
    BRSP_REQUEST_LOAD = 3,  /* write the `len` bytes that are there to a memory */
    BRSP_REQUEST_GET = 4,   /* put the bytes of a brsp_state with all registers there */
    BRSP_REQUEST_MEMORY = 5 /* put `len` bytes of a memory there */
};

typedef struct brsp_request {
    uint32_t kind;    /* a brsp_request_kind; fields below that it doesn't mention are 0 */
    uint32_t steps;   /* RUN: 1 to 1000000 */
    uint32_t bank;    /* LOAD, MEMORY: a brsp_bank */
    uint32_t address; /* LOAD, MEMORY: of the first byte in this memory; 0 for DMEM and IMEM */
    size_t at;        /* SET, LOAD, GET, MEMORY: where the bytes are, from the search's first byte on */
    size_t len;       /* SET, LOAD, GET, MEMORY: how many they are; 4096 for DMEM and IMEM */
} brsp_request;

/* A step after which they differ: its number, from 1; its instruction; the state before it; and the parts
 * that differ after it, registers first. Step 0 means that they differ before the first step, because the
 * emulator didn't keep what it was given. If `steps` isn't 1, that many steps up to `step` lead to a
 * difference. The first of them is at line.address, and `before` is the state before it. If the parts are
 * in RDRAM, a step changed it where no DMA wrote: a smaller limit finds the step. Otherwise none of the
 * steps alone leads to the difference, because the emulator has state that BRSP_REQUEST_GET and _SET
 * don't carry: repeat with every = 1. The text of an instruction is that of brsp_word_text. */
typedef struct brsp_difference {
    uint32_t step, steps;
    brsp_line line;
    brsp_state before;
    brsp_part *parts; /* the caller's: brsp_search_difference sets it to null */
    size_t count;     /* how many parts differ; 0 if there is no difference */
} brsp_difference;

/* How many bytes a search has on a machine with an image of this length: less than 65536, and twice the
 * image. */
size_t brsp_search_bytes(size_t image);

/* Begins a search for the first difference within `limit` steps, or before a halt or a reserved word. The
 * bytes of the search are the caller's: they need no alignment, and may be moved between two calls.
 * Returns
 *   - BRSP_OUT_OF_RANGE unless `every` is 1 to 1000000;
 *   - BRSP_NO_ROOM if `length` is less than brsp_search_bytes says. */
uint32_t brsp_search_begin(brsp_machine *m, uint32_t every, uint32_t limit, uint8_t *search, size_t length);

/* Takes the answer to the last request, if there was one, and gives the next one. A request that wasn't
 * answered gives a wrong difference, and nothing worse. After BRSP_REQUEST_OVER it gives that again.
 * Returns BRSP_OUT_OF_RANGE if the machine's image isn't as long as that of brsp_search_begin. */
uint32_t brsp_search_next(brsp_machine *m, uint8_t *search, brsp_request *request);

/* Gives what a search that is over has found, without the parts. */
void brsp_search_difference(const uint8_t *search, brsp_difference *found);

/* Gives the parts that differ, as many as `count` of brsp_search_difference says. */
void brsp_search_parts(const uint8_t *search, brsp_part *parts);

/* A difference in at most twenty lines: one for the step, such as `step 3, 008: vadd $v2, $v2, $v1`, and
 * one for each part, with two spaces before it: `$3 is fffffff0 on the machine and 3ffffff0 in the
 * emulator`. If there are more parts, the last line says how many: `and 300 more`. */
size_t brsp_difference_text(const brsp_difference *found, char *text, size_t capacity);

/* ---- Refusals in a sentence. docs/FAULTS.md lists the sentences. ---- */

/* Why a call was refused with a status: `set_pc: pc is 3, not a multiple of 4 below 4096`. `call` is the
 * call's name without `brsp_`, or that of another function of a language, such as `run_to_halt`; brsp_new
 * is `Machine`, and brsp_session_new `Session`. `numbers` are the numbers that it was given, decimal,
 * with a space between two, in the order of its arguments (brsp_argument_name): "2 64 8" for `memory`.
 * Numbers of any length are taken, also negative ones. A text may have fewer than the call has arguments. */
size_t brsp_refusal_text(uint32_t status, const char *call, const char *numbers, char *text,
                         size_t capacity);

/* The name of an argument of a call that is a number, from 0 on; null if there is none. */
const char *brsp_argument_name(const char *call, size_t number);

/* Why brsp_set refuses a state: `pc is 3, not a multiple of 4 below 4096`. It is empty if brsp_set takes
 * it. */
size_t brsp_state_refusal_text(const brsp_state *state, char *text, size_t capacity);

/* Which operand brsp_explain has found in a text that brsp_assemble refuses with this fault, a
 * brsp_fault, and what it may be: `operand 2 may be a number or a label, -32768 to 65535`. It is empty if
 * no operand is at fault. */
size_t brsp_operand_text(const brsp_operand *found, uint32_t fault, char *text, size_t capacity);

#ifdef __cplusplus
}
#endif
#endif
