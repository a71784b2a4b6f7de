/* The reciprocal and the square root of the divide instructions, in the words of docs/INSTRUCTIONS.md: for all 2^32 numbers. */
#pragma once
#include <stdint.h>

static uint32_t reciprocal_entries[512], root_entries[512];

static uint32_t root_entry(uint32_t i)
{
    uint64_t a = i % 2 ? (512 + i) / 2 : 512 + i, b = 0; /* b becomes the greatest number with a * b * b < 2^44, bit by bit */
    for (uint64_t bit = 1 << 18; bit; bit /= 2)
        if (a * (b + bit) * (b + bit) < (uint64_t)1 << 44) b += bit;
    return (uint32_t)(b / 2 % 65536);
}

static void make_entries(void)
{
    reciprocal_entries[0] = 0xFFFF;
    for (uint32_t i = 1; i < 512; i++) reciprocal_entries[i] = (uint32_t)((((uint64_t)1 << 34) / (512 + i) + 1) / 256 % 65536);
    for (uint32_t i = 0; i < 512; i++) root_entries[i] = root_entry(i);
}

static inline uint32_t divided(int32_t x, int is_root)
{
    if (x == 0) return 0x7FFFFFFF;
    if (x == -32768) return 0xFFFF0000;
    uint32_t y = x > 0 ? (uint32_t)x : x > -32768 ? -(uint32_t)x : ~(uint32_t)x;
    uint32_t zeros = (uint32_t)__builtin_clz(y), index = (y << zeros) >> 22 & 511; /* the nine bits below the leading one */
    uint32_t entry = is_root ? root_entries[(index & ~1u) | zeros % 2] : reciprocal_entries[index];
    uint32_t found = (65536 + entry) << 14 >> (is_root ? (31 - zeros) / 2 : 31 - zeros);
    return x > 0 ? found : ~found;
}
