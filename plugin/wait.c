/* Whether a task waits for the CPU. It does if it comes to a read of an SP register as it came to an earlier read: with the same registers and the same
 * DMEM, and with no DMA and no write of a DPC register in between. Only a DMA changes IMEM, so that is the same too, and the task repeats the same
 * steps until the CPU changes something. A task that counts, wherever it counts, never comes to a read so. */
#include "plugin.h"
#include <string.h>

/* A stop at a read costs as much as some ten steps. So reads are compared only after FIRST_SPAN steps without a DMA or a list, and one for STEPS_A_READ
 * of these steps. If the task doesn't wait, the next span is twice as long, so that a wait with any number of reads in its turn is found in the end. */
enum { FIRST_SPAN = 4096, STEPS_A_READ = 512 };

static void search_after(wait_search *search, uint32_t steps, uint32_t span)
{
    search->begins = steps + span;
    search->span = span;
    search->left = 0;
}

/* Begins anew after so many steps of the task. */
void begin_search(wait_search *search, uint32_t steps) { search_after(search, steps, FIRST_SPAN); }

static void keep_read(rsp_unit *unit, wait_search *search)
{
    brsp_get(&unit->machine, &search->state);
    brsp_memory(&unit->machine, BRSP_DMEM, 0, search->dmem, sizeof search->dmem);
    search->left = search->span / STEPS_A_READ;
}

static int is_as_kept(rsp_unit *unit, const wait_search *search)
{
    brsp_state state;
    uint8_t dmem[sizeof search->dmem];
    brsp_get(&unit->machine, &state);
    if (memcmp(&state, &search->state, sizeof state)) return 0;
    brsp_memory(&unit->machine, BRSP_DMEM, 0, dmem, sizeof dmem);
    return !memcmp(dmem, search->dmem, sizeof dmem);
}

/* Whether the task waits, at a read before which it has stopped after so many steps. */
int is_waiting(rsp_unit *unit, wait_search *search, uint32_t steps)
{
    if (!search->left) keep_read(unit, search);
    else if (is_as_kept(unit, search)) return 1;
    else if (!--search->left) search_after(search, steps, 2 * search->span);
    return 0;
}
