/* Memories between the machine and the emulator. The machine has bytes in the console's order, the emulator words in the order of the host. DMEM and
 * IMEM are compared with the plugin's own copy of what the machine has, and only what differs is carried. Of RDRAM only the rows of a DMA are carried.
 * The machine makes every DMA itself, so that each follows the definition. */
#include "plugin.h"
#include <string.h>

enum { BLOCK = 64 }; /* words that are compared at once */

/* Words of the host into bytes in the console's order, or back. */
void swap_bytes(void *restrict to, const void *restrict from, size_t words)
{
    uint32_t *restrict out = to;
    const uint32_t *restrict in = from;
    for (size_t i = 0; i < words; i++) out[i] = __builtin_bswap32(in[i]);
}

/* A part of a memory. */
typedef struct span {
    uint32_t first, len;
} span;

/* The words from the first block that differs to the last one; none if the memories are equal. */
static span differing(const void *a, const void *b)
{
    const uint32_t *x = a, *y = b;
    uint32_t first = 0, end = MEMORY_WORDS;
    if (!memcmp(x, y, 4 * MEMORY_WORDS)) return (span){ 0, 0 };
    while (!memcmp(x + first, y + first, 4 * BLOCK)) first += BLOCK;
    while (!memcmp(x + end - BLOCK, y + end - BLOCK, 4 * BLOCK)) end -= BLOCK;
    return (span){ first, end - first };
}

/* Gives the machine what the emulator has changed in DMEM or IMEM. */
void carry_in(rsp_unit *unit, uint32_t bank)
{
    memory_copy *copy = &unit->copy[bank];
    span it = differing(copy->words, unit->memory[bank]);
    if (!it.len) return;
    memcpy(copy->words + it.first, unit->memory[bank] + it.first, 4 * it.len);
    swap_bytes(copy->bytes + 4 * it.first, copy->words + it.first, it.len);
    brsp_load(&unit->machine, bank, 4 * it.first, copy->bytes + 4 * it.first, 4 * it.len);
}

/* Gives the emulator what the machine has changed in DMEM or IMEM. */
void carry_out(rsp_unit *unit, uint32_t bank)
{
    memory_copy *copy = &unit->copy[bank];
    uint8_t bytes[4 * MEMORY_WORDS];
    brsp_memory(&unit->machine, bank, 0, bytes, sizeof bytes);
    span it = differing(copy->bytes, bytes);
    if (!it.len) return;
    memcpy(copy->bytes + 4 * it.first, bytes + 4 * it.first, 4 * it.len);
    swap_bytes(copy->words + it.first, copy->bytes + 4 * it.first, it.len);
    memcpy(unit->memory[bank] + it.first, copy->words + it.first, 4 * it.len);
}

/* The rows of the DMA that a length word starts at an address of RDRAM: docs/MACHINE.md. Rows without a skip between them are one. */
dma_rows rows_of(uint32_t address, uint32_t length_word)
{
    uint32_t len = (length_word & 0xff8) + 8, count = (length_word >> 12 & 0xff) + 1, skip = length_word >> 20 & 0xff8;
    if (!skip && count * len <= 4 * MEMORY_WORDS) len *= count, count = 1;
    return (dma_rows){ address, len, len + skip, count };
}

/* The part of a row that is in an RDRAM of this size. Addresses wrap at 16 MB, so a row that begins past the end of RDRAM may come round to its begin.
 * Returns the length. */
uint32_t row_inside(size_t rdram_size, uint32_t address, uint32_t len, uint32_t *from)
{
    uint32_t size = (uint32_t)rdram_size, wrap = 1 << 24;
    *from = address + len > wrap ? 0 : address;
    if (address + len > wrap) return address + len - wrap;
    if (address >= size) return 0;
    return address + len > size ? size - address : len;
}

/* Brings the machine's RDRAM up to date where the DMA that a length word starts at an address reads it. */
void rows_in(rsp_unit *unit, uint32_t address, uint32_t length_word)
{
    dma_rows rows = rows_of(address, length_word);
    for (; rows.count; rows.count--, rows.address = (rows.address + rows.stride) & 0xffffff) {
        uint32_t from, len = row_inside(unit->rdram_size, rows.address, rows.len, &from);
        if (len) brsp_load_words(&unit->machine, BRSP_RDRAM, from, unit->memory[BRSP_RDRAM] + from / 4, len / 4);
    }
}

/* Gives the emulator the words of RDRAM that such a DMA wrote. */
void rows_out(rsp_unit *unit, uint32_t address, uint32_t length_word)
{
    dma_rows rows = rows_of(address, length_word);
    for (; rows.count; rows.count--, rows.address = (rows.address + rows.stride) & 0xffffff) {
        uint32_t from, len = row_inside(unit->rdram_size, rows.address, rows.len, &from);
        if (!len) continue;
        if (unit->storing) unit->storing(from, len);
        brsp_memory_words(&unit->machine, BRSP_RDRAM, from, unit->memory[BRSP_RDRAM] + from / 4, len / 4);
    }
}
