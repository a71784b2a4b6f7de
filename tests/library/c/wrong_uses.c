/* The wrong uses of brsp_first_difference in tests/library/wrong_uses.tsv, each with what it comes to. The machine has 64 bytes of RDRAM. */
#include "brsp_compare.h"

enum { NOTHING, NO_SET, NO_LOAD, GARBAGE, ZEROS, NO_RUN };

typedef struct emulator {
    brsp_machine m;
    int fault;
} emulator;

static void run(void *self, uint32_t steps)
{
    emulator *e = (emulator *)self;
    for (; steps && e->fault != NO_RUN; steps--) brsp_step(&e->m);
}

static void get(void *self, brsp_state *state)
{
    emulator *e = (emulator *)self;
    brsp_get(&e->m, state);
    if (e->fault == GARBAGE) state->words[0] = state->interrupt = 7, state->pc = 3;
}

static void set(void *self, const brsp_state *state)
{
    emulator *e = (emulator *)self;
    if (e->fault != NO_SET) brsp_set(&e->m, state);
}

static void memory(void *self, uint32_t bank, uint32_t address, uint8_t *bytes, size_t len)
{
    emulator *e = (emulator *)self;
    if (e->fault != ZEROS) brsp_memory(&e->m, bank, address, bytes, len); /* otherwise nothing is written */
}

static void load(void *self, uint32_t bank, uint32_t address, const uint8_t *bytes, size_t len)
{
    emulator *e = (emulator *)self;
    if (e->fault != NO_LOAD) brsp_load(&e->m, bank, address, bytes, len);
}

static void use(const char *name, int fault, uint32_t every, const uint32_t *words, int has_machine)
{
    static const uint8_t image[64] = { 1, 2, 3 }, zeros[64] = { 0 };
    emulator its = { BRSP_NONE, NOTHING };
    brsp_emulator e = { NULL, run, get, set, memory, load };
    brsp_machine m = BRSP_NONE;
    brsp_difference found;
    uint32_t status;
    e.self = &its;
    its.fault = fault;
    if (brsp_new(&its.m, zeros, 64, 0) != BRSP_OK) exit(1);
    if (has_machine && brsp_new(&m, image, 64, 0) != BRSP_OK) exit(1);
    if (has_machine && (brsp_load_words(&m, BRSP_IMEM, 0, words, 3) != BRSP_OK || brsp_set_pc(&m, 0) != BRSP_OK)) exit(1);
    if (has_machine) { /* a register isn't 0, so that it shows what the emulator was given */
        brsp_state state;
        brsp_get(&m, &state);
        state.words[5] = 1;
        brsp_set(&m, &state);
    }
    status = brsp_first_difference(&m, &e, every, 10, &found);
    if (status != BRSP_OK) printf("%s\t%s\n", name, brsp_status_name(status));
    else if (!found.count) printf("%s\tnone\n", name);
    else printf("%s\tstep %u\n", name, (unsigned)found.step);
    brsp_difference_free(&found);
    brsp_free(&m);
    brsp_free(&its.m);
}

int main(void)
{
    static const uint32_t words[] = { 0x24010001, 0x24020002, 13 }, halt[] = { 13, 13, 13 }, reserved[] = { 0xfffffffe, 0, 0 };
    use("every is 0", NOTHING, 0, words, 1);
    use("every is 1000001", NOTHING, 1000001, words, 1);
    use("no machine", NOTHING, 4, words, 0);
    use("a halted machine", NOTHING, 4, halt, 1);
    use("a reserved word", NOTHING, 4, reserved, 1);
    use("set does nothing", NO_SET, 4, words, 1);
    use("load does nothing", NO_LOAD, 4, words, 1);
    use("get gives what no machine can have", GARBAGE, 4, words, 1);
    use("memory gives zeros", ZEROS, 4, words, 1);
    use("run does nothing", NO_RUN, 4, words, 1);
    return 0;
}
