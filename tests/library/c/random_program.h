/* Random microcode: DMAs of any place and size, single step, halts, reserved words, branches, loads, stores, vector instructions. For C and C++. */
#ifndef RANDOM_PROGRAM_H
#define RANDOM_PROGRAM_H

#include <stddef.h>
#include <stdint.h>

static uint64_t seed = 1;

static uint32_t random_below(uint32_t limit)
{
    seed = seed * 6364136223846793005u + 1442695040888963407u;
    return (uint32_t)(seed >> 33) % limit;
}

static uint32_t any(void) { return random_below(65536) << 16 | random_below(65536); }

static uint32_t upper(uint32_t reg, uint32_t value) { return 0x3c000000 | reg << 16 | value >> 16; }           /* lui */
static uint32_t lower(uint32_t reg, uint32_t value) { return 0x34000000 | reg << 21 | reg << 16 | (value & 0xffff); } /* ori */

/* A value for an SP register: addresses of all of RDRAM and past its end, lengths mostly short, each pair of bits of SP_STATUS. */
static uint32_t value_for(uint32_t number)
{
    static const uint32_t status[] = { 0x40, 0x20, 2, 1, 0x200400, 0x100, 0x10, 0x6a05, 4, 8 };
    if (number == 1) return random_below(4) ? random_below(0x10000) * 8 : random_below(3) ? 0x7fff00 + random_below(512) : any();
    if (number == 2 || number == 3) return random_below(20) ? random_below(256) | random_below(6) << 12 | random_below(64) << 20 : any() & 0xfff1ffff;
    return number == 4 ? status[random_below(10)] : any();
}

/* Puts a random instruction, or three that write an SP register, at an address of IMEM. Returns the address after them. */
static size_t put(uint32_t *words, size_t i)
{
    uint32_t number = random_below(3) ? random_below(4) : random_below(16), value, at = 8 + random_below(4);
    switch (random_below(16)) {
    case 0: case 1: case 2: case 3: case 4: case 5: case 6:
        value = value_for(number);
        words[i++] = upper(at, value);
        words[i++] = lower(at, value);
        words[i++] = 0x40800000 | at << 16 | number << 11; /* mtc0 */
        break;
    case 7: case 8: words[i++] = 0x40000000 | random_below(32) << 16 | random_below(16) << 11; break; /* mfc0 */
    case 9: words[i++] = 0x10000000 | random_below(2) << 26 | random_below(32) << 21 | (random_below(9) + 1); break; /* beq, bne: on */
    case 10: words[i++] = 0x1000fff0 | random_below(2) << 26 | random_below(32) << 21 | random_below(12); break; /* and back */
    case 11: words[i++] = 0xac000000 | random_below(32) << 16 | random_below(1024) * 4; break; /* sw */
    case 12: words[i++] = 0x8c000000 | random_below(32) << 16 | random_below(1024) * 4; break; /* lw */
    case 13: words[i++] = random_below(8) ? 0x4a000000 | random_below(1 << 25) : random_below(2) ? 0x0000000d : any(); break; /* vectors, break */
    default: words[i++] = 0x20000000 | random_below(1 << 29); /* with an immediate, and a coprocessor's */
    }
    return i;
}

/* Fills IMEM with a random program. */
static inline void random_program(uint32_t words[1027])
{
    for (size_t i = 0; i < 1024;) i = put(words, i);
}

#endif
