/* brsp_first_difference of brsp_compare.h between the library and an emulator with the calls of cases.h, which is linked to this. The standard
 * input has EVERY and LIMIT, a state, and the memories; the output a line for the step, and one for each part that differs. */
#include "cases.h"
#include "brsp_compare.h"

static uint8_t memories[CASES_MEMORIES];

static void run(void *self, uint32_t steps) { cases_step(self, steps); }
static void get(void *self, brsp_state *state) { cases_get(self, state); }
static void set(void *self, const brsp_state *state) { cases_set(self, state); }

static void memory(void *self, uint32_t bank, uint32_t address, uint8_t *bytes, size_t len)
{
    static uint8_t all[CASES_MEMORIES];
    cases_look(self, all);
    memcpy(bytes, all + bank * 4096 + address, len);
}

static void load(void *self, uint32_t bank, uint32_t address, const uint8_t *bytes, size_t len)
{
    memcpy(memories + bank * 4096 + address, bytes, len);
    cases_load(self, memories);
}

int main(void)
{
    brsp_machine m = BRSP_NONE;
    brsp_emulator e = { 0, run, get, set, memory, load };
    brsp_difference found;
    brsp_state state;
    uint32_t numbers[2];
    if (fread(numbers, sizeof numbers, 1, stdin) != 1 || fread(&state, sizeof state, 1, stdin) != 1 || fread(memories, CASES_MEMORIES, 1, stdin) != 1)
        return 2;
    e.self = cases_open("", memories);
    if (!e.self || brsp_new(&m, memories + CASES_RDRAM, CASES_RDRAM_LENGTH, 0) != BRSP_OK || brsp_set(&m, &state) != BRSP_OK) return 3;
    brsp_load(&m, BRSP_DMEM, 0, memories, 4096);
    brsp_load(&m, BRSP_IMEM, 0, memories + CASES_IMEM, 4096);
    if (brsp_first_difference(&m, &e, numbers[0], numbers[1], &found) != BRSP_OK) return 4;
    if (found.count) printf("%u %u %03x %08x %s pc %03x\n", found.step, found.steps, found.line.address, found.line.word, found.line.text, found.before.pc);
    for (size_t i = 0; i < found.count; i++) {
        const brsp_part *part = found.parts + i;
        printf("%s %llx%016llx %llx%016llx %u\n", part->name, (unsigned long long)part->value[0], (unsigned long long)part->value[1],
               (unsigned long long)part->other[0], (unsigned long long)part->other[1], part->digits);
    }
    brsp_difference_free(&found);
    brsp_free(&m);
    return 0;
}
