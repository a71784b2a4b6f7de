/* brsp_dmas.h: tested, not proved. Runs up to the DMAs that concern the caller, such as a debugger that
 * watches bytes of RDRAM, and over all others. rsp.Timeline of Python uses this, because a program changes
 * RDRAM and IMEM only by DMAs.
 *
 * What brsp.h says of handles, pointers and buffers also holds here, and a call has BRSP_STACK bytes of
 * stack. The function is part of the library for Linux, Windows and macOS, and not of that for JavaScript. */
#ifndef BRSP_DMAS_H
#define BRSP_DMAS_H

#include "brsp.h"

#ifdef __cplusplus
extern "C" {
#endif

/* Bytes of a memory. */
typedef struct brsp_range {
    uint32_t bank;    /* a brsp_bank */
    uint32_t address; /* of the first byte */
    uint32_t length;  /* how many bytes */
} brsp_range;

/* The same as brsp_run, and also stops before each DMA that may write to one of these ranges, with the reason
 * BRSP_AT_DMA. (A range in a gap between two rows counts, too.) As in brsp_event, a DMA is a reason only if
 * fewer than n steps were made. `dma` gets the DMA that is next; without one all its fields are 0. Returns
 * BRSP_OUT_OF_RANGE unless n is 1 to 1000000. */
uint32_t brsp_run_until_dma(brsp_machine *m, uint32_t n, const brsp_range *ranges, size_t count,
                            brsp_stop *stop, brsp_dma *dma);

#ifdef __cplusplus
}
#endif
#endif
