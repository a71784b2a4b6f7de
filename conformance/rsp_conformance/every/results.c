/* Compares ends, and keeps the first differences. A difference counts as `count` cases: those of an operation are its wrong lanes. */
#include "every.h"

void compare_end(const brsp_case *in, const brsp_end *expected, const brsp_end *got, uint32_t differs_alone, uint32_t count)
{
    const uint64_t *mask = (const uint64_t *)&seen, *ours = (const uint64_t *)expected, *theirs = (const uint64_t *)got;
    uint64_t wrong = 0;
    for (size_t i = 0; i < sizeof *got / 8; i++) wrong |= (ours[i] ^ theirs[i]) & mask[i];
    if (!wrong) return;
    if (shared->kept < SHOWN) shared->shown[shared->kept++] = (difference){ *in, *expected, *got, differs_alone, 0 };
    shared->differ += count;
}
