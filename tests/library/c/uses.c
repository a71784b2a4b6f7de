/* Uses each function that a header in C defines, once: test_header.py sees whether a compiler warns. Each header is included twice, and
 * `min` and `max` are macros, as in Microsoft's windows.h. */
#define min(a, b) ((a) < (b) ? (a) : (b))
#define max(a, b) ((a) > (b) ? (a) : (b))
#include "brsp_compare.h"
#include "brsp_compare.h"
#include "brsp_savestate.h"
#include "brsp_savestate.h"
#include "brsp_dmas.h"
#include "brsp_dmas.h"

static void run(void *self, uint32_t steps)
{
    brsp_stop stop;
    brsp_run((brsp_machine *)self, steps, &stop);
}

static void get(void *self, brsp_state *to)
{
    brsp_get((brsp_machine *)self, to);
}

static void set(void *self, const brsp_state *from)
{
    brsp_set((brsp_machine *)self, from);
}

static void memory(void *self, uint32_t bank, uint32_t address, uint8_t *bytes, size_t len)
{
    brsp_memory((brsp_machine *)self, bank, address, bytes, len);
}

static void load(void *self, uint32_t bank, uint32_t address, const uint8_t *bytes, size_t len)
{
    brsp_load((brsp_machine *)self, bank, address, bytes, len);
}

static int save_and_load(brsp_machine *m)
{
    size_t length;
    uint8_t *bytes;
    uint32_t fault = BRSP_SAVESTATE_FINE, status;
    if (brsp_save_state(m, NULL, 0, &length) != BRSP_NO_ROOM || !(bytes = (uint8_t *)malloc(length))) return 1;
    brsp_save_state(m, bytes, length, &length);
    brsp_savestate_check(m, bytes, length, &fault);
    status = brsp_load_state(m, bytes, length);
    if (status != BRSP_OK) puts(brsp_savestate_fault_text(fault));
    free(bytes);
    return status != BRSP_OK;
}

static int compare(brsp_machine *m, brsp_machine *other)
{
    brsp_emulator emulator = { 0 };
    brsp_difference found;
    uint32_t status;
    emulator.self = other;
    emulator.run = run;
    emulator.get = get;
    emulator.set = set;
    emulator.memory = memory;
    emulator.load = load;
    status = brsp_first_difference(m, &emulator, 64, 1000, &found);
    brsp_difference_free(&found);
    return status != BRSP_OK;
}

int main(void)
{
    static const uint8_t image[64] = { 0 };
    brsp_machine m = BRSP_NONE, other = BRSP_NONE;
    brsp_session session = BRSP_NONE;
    uint32_t status = brsp_new(&m, image, sizeof image, 0);
    puts(brsp_status_name(status));
    puts(brsp_fault_name(BRSP_FAULT_BAD_LINE));
    puts(brsp_reason_name(BRSP_AT_HALT));
    puts(brsp_operand_form(BRSP_OPERAND_SP));
    if (status != BRSP_OK || brsp_copy(&other, &m) != BRSP_OK) return 1;
    return save_and_load(&m) + compare(&m, &other) + (int)brsp_session_new(&session, image, sizeof image);
}
