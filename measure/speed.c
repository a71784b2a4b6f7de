/* speed HOW DEPTH N TEXT: assembles a text, and makes N steps in calls of 1,000,000 (HOW is run, until: brsp_run_until_move before any move, or
 * event: brsp_event) or of 1024 (trace), or makes N calls: HOW is run1 (brsp_run of one step), until1, event1, step, regs (a step and all
 * scalars), reg (one register), changes (brsp_step_changes), get, set, sp, set_sp, fault, copy, read or write (of SP_STATUS), pass (which
 * goes back to 0 each time), load or words (brsp_load_words or brsp_memory_words of 1024 words), or line (the line `step`, answered by a
 * bench). With +watch after HOW bytes of DMEM are watched. Under `valgrind --tool=callgrind` the difference of two N, divided by the
 * difference of the N, is what one costs in host instructions. */
#include "brsp.h"
#include <stdlib.h>
#include <string.h>

enum { MOST = 1000000 };

static brsp_machine m = BRSP_NONE, copy = BRSP_NONE;
static brsp_session b = BRSP_NONE;
static uint8_t reply[BRSP_REPLIES];
static uint32_t words[1024], word;
static size_t used, written;
static brsp_scalars scalars;
static brsp_state state;
static brsp_sp_words sp;
static brsp_stop stop;
static brsp_move move;
static brsp_reached event;
static brsp_traced entries[1024];
static brsp_changes changes;

/* The rows: each makes its calls for n steps, or n times, and returns whether one was refused. */
#define STEPS(name, most, call) \
    static uint32_t name(long n) { uint32_t status = 0; for (; n > 0; n -= most) { uint32_t count = n < most ? (uint32_t)n : most; status |= call; } return status; }
#define CALL(name, call) static uint32_t name(long n) { uint32_t status = 0; for (; n; n--) status |= call; return status; }
STEPS(run, MOST, brsp_run(&m, count, &stop))
STEPS(until, MOST, brsp_run_until_move(&m, count, 0xffff, 0xffff, &move))
STEPS(events, MOST, brsp_event(&m, count, 0, 0, &event))
STEPS(trace, 1024, brsp_trace(&m, entries, count, &stop))
CALL(run1, brsp_run(&m, 1, &stop))
CALL(until1, brsp_run_until_move(&m, 1, 0xffff, 0xffff, &move))
CALL(event1, brsp_event(&m, 1, 0, 0, &event))
CALL(step, brsp_step(&m))
CALL(regs, brsp_step(&m) | brsp_regs(&m, &scalars))
CALL(reg, brsp_reg(&m, 5, &word))
CALL(step_changes, brsp_step_changes(&m, &changes))
CALL(get, brsp_get(&m, &state))
CALL(set, brsp_set(&m, &state))
CALL(get_sp, brsp_sp(&m, &sp))
CALL(set_sp, brsp_set_sp(&m, &sp))
CALL(fault, brsp_state_fault(&state, &word))
CALL(copies, brsp_copy(&copy, &m))
CALL(reads, brsp_read(&m, 4, &word))
CALL(writes, brsp_write(&m, 4, 0x400 /* set signal 0 */))
CALL(pass, brsp_pass_move(&m, 7) | brsp_set_pc(&m, 0))
CALL(load, brsp_load_words(&m, BRSP_DMEM, 0, words, 1024))
CALL(memory, brsp_memory_words(&m, BRSP_DMEM, 0, words, 1024))
CALL(line, brsp_session_take(&b, (const uint8_t *)"step\n", 5, &used, reply, sizeof reply, &written))

static const struct {
    const char *name;
    uint32_t (*made)(long n);
} rows[] = {
    { "run", run }, { "until", until }, { "event", events }, { "trace", trace }, { "run1", run1 }, { "until1", until1 }, { "event1", event1 },
    { "step", step }, { "regs", regs }, { "reg", reg }, { "changes", step_changes }, { "get", get }, { "set", set }, { "sp", get_sp },
    { "set_sp", set_sp }, { "fault", fault }, { "copy", copies }, { "read", reads }, { "write", writes }, { "pass", pass }, { "load", load },
    { "words", memory }, { "line", line },
};

int main(int argc, char **argv)
{
    static const uint8_t image[64] = { 0 };
    uint32_t status;
    brsp_assembled out;
    size_t i = 0, number;
    char *more;
    if (argc != 5) return 2;
    if (brsp_new(&m, image, sizeof image, (uint32_t)atol(argv[2])) != BRSP_OK) return 2;
    if (brsp_session_new(&b, image, sizeof image) != BRSP_OK) return 2;
    if (brsp_assemble(0, (const uint8_t *)argv[4], strlen(argv[4]), words, 1024, &out) != BRSP_OK) return 2;
    if (brsp_load_words(&m, BRSP_IMEM, 0, words, out.count) != BRSP_OK) return 2;
    if (brsp_get(&m, &state) != BRSP_OK || brsp_sp(&m, &sp) != BRSP_OK) return 2;
    if ((more = strchr(argv[1], '+'))) {
        if (strcmp(more, "+watch") || brsp_add_watch(&m, 4000, 4, &number) != BRSP_OK) return 2;
        *more = 0;
    }
    while (i < sizeof rows / sizeof *rows && strcmp(rows[i].name, argv[1])) i++;
    if (i == sizeof rows / sizeof *rows) return 2;
    status = rows[i].made(atol(argv[3]));
    brsp_free(&m);
    brsp_free(&copy);
    brsp_session_free(&b);
    return (int)status;
}
