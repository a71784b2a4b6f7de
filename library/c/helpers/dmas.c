/* Runs that pass over DMAs. It is tested, not proved, as all of this folder. */
#include "../brsp_dmas.h"

enum { SP_MEMORY = 4096, RDRAM_SIDE = 1 << 24 }; /* addresses wrap there */

/* Whether two ranges of so many bytes have a byte in common, where addresses wrap at `end`, a power of two. */
static int meet(uint32_t first, uint32_t size, uint32_t other, uint32_t other_size, uint32_t end)
{
    return (other - first) % end < size || (first - other) % end < other_size;
}

/* Whether a DMA may write to a range. What lies between its first and its last row counts, too. */
static int may_write(const brsp_dma *dma, const brsp_range *it)
{
    if (it->bank != (dma->to_rdram ? (uint32_t)BRSP_RDRAM : dma->bank)) return 0;
    if (dma->to_rdram) return meet(dma->rdram, dma->rows * (dma->length + dma->skip), it->address, it->length, RDRAM_SIDE);
    return meet(dma->address, dma->rows * dma->length, it->address, it->length, SP_MEMORY);
}

static int may_write_any(const brsp_dma *dma, const brsp_range *ranges, size_t count)
{
    for (size_t n = 0; n < count; n++)
        if (may_write(dma, &ranges[n])) return 1;
    return 0;
}

uint32_t brsp_run_until_dma(brsp_machine *m, uint32_t n, const brsp_range *ranges, size_t count, brsp_stop *stop, brsp_dma *dma)
{
    const brsp_dma none = { 0, 0, 0, 0, 0, 0, 0 };
    uint32_t made = 0;
    for (;;) {
        brsp_reached reached;
        uint32_t status = brsp_event(m, n - made, 0, 0, &reached);
        if (status != BRSP_OK) return status;
        *stop = reached.at.stop;
        *dma = reached.dma;
        made += stop->steps;
        if (stop->reason == BRSP_AT_DMA && !may_write_any(dma, ranges, count)) {
            *dma = none;
            status = brsp_run(m, 1, stop); /* brsp_step doesn't say that it came to a breakpoint */
            if (status != BRSP_OK) return status;
            made += stop->steps;
            if (stop->reason == BRSP_AT_LIMIT && made < n) continue;
        }
        stop->steps = made;
        return BRSP_OK;
    }
}
