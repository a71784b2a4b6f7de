/* The plugin with a planted fault, linked with -Wl,--wrap=brsp_step,--wrap=brsp_run_until_move,--wrap=rows_out.
 * FAULT 1: VMUDM sets the lowest bit of lane 5. FAULT 2: a DMA to RDRAM writes eight bytes more. FAULT 3: it
 * writes nothing. FAULT 4: as 1, and the plugin ends each process that the emulator has forked.
 * With any of them, 0 too, a process that the plugin has forked ends as soon as the plugin or the library in it
 * takes or frees memory. */
#include "plugin.h"
#include <signal.h>
#include <stdio.h>
#include <stdlib.h>
#include <sys/wait.h>
#include <unistd.h>

#define WRAP(result, name, parameters) result __real_##name parameters; result __wrap_##name parameters; result __wrap_##name parameters

static pid_t loaded_by;

static __attribute__((constructor)) void note_process(void) { loaded_by = getpid(); }
static void check_process(void) { if (getpid() != loaded_by) abort(); }

WRAP(void *, malloc, (size_t len)) { return check_process(), __real_malloc(len); }
WRAP(void *, calloc, (size_t n, size_t len)) { return check_process(), __real_calloc(n, len); }
WRAP(void *, realloc, (void *at, size_t len)) { return check_process(), __real_realloc(at, len); }
WRAP(void, free, (void *at)) { check_process(), __real_free(at); }

static uint32_t next_word(brsp_machine *m)
{
    brsp_scalars now;
    uint32_t word = 0;
    if (brsp_regs(m, &now) == BRSP_OK) brsp_memory_words(m, BRSP_IMEM, now.pc, &word, 1);
    return word;
}

/* What is wrong after a word. It is the same if it is done twice. */
static void spoil(brsp_machine *m, uint32_t word)
{
    brsp_state s;
    if ((FAULT != 1 && FAULT != 4) || (word & 0xfe00003f) != 0x4a000005) return;
    brsp_get(m, &s);
    s.vectors[word >> 6 & 31][5] |= 1;
    brsp_set(m, &s);
}

/* For a plugin with another DMA. */
WRAP(void, rows_out, (rsp_unit *unit, uint32_t address, uint32_t length_word))
{
    if (FAULT != 3) __real_rows_out(unit, address, length_word + (FAULT == 2 ? 8 : 0));
}

/* Ends the children of this process, and returns when they have ended. They aren't waited for otherwise. */
static void end_children(void)
{
    FILE *in = fopen("/proc/thread-self/children", "r");
    siginfo_t ended;
    int pid;
    while (in && fscanf(in, "%d", &pid) == 1) {
        kill(pid, SIGKILL);
        waitid(P_PID, (id_t)pid, &ended, WEXITED | WNOWAIT);
    }
    if (in) fclose(in);
}

WRAP(uint32_t, brsp_step, (brsp_machine *m))
{
    uint32_t word = next_word(m), status = __real_brsp_step(m);
    if (status == BRSP_OK) spoil(m, word);
    return status;
}

WRAP(uint32_t, brsp_run_until_move, (brsp_machine *m, uint32_t n, uint32_t reads, uint32_t writes, brsp_move *out))
{
    uint32_t steps = 0, status;
    if (FAULT == 4) end_children();
    do {
        uint32_t word = next_word(m);
        status = __real_brsp_run_until_move(m, 1, reads, writes, out);
        if (out->stop.steps) spoil(m, word);
        steps += out->stop.steps;
    } while (out->stop.reason == BRSP_AT_LIMIT && steps < n);
    out->stop.steps = steps;
    return status;
}
