/* Random numbers, edges and states. */
#include "every.h"

static uint64_t seed;
uint16_t edges[EDGES];

void begin_numbers(uint64_t from)
{
    seed = (from + 1) * 0x9E3779B97F4A7C15u;
    for (int i = 0; i < 4; i++) any_number();
}

uint64_t any_number(void)
{
    seed ^= seed << 13, seed ^= seed >> 7, seed ^= seed << 17;
    return seed * 2685821657736338717u;
}

static uint32_t edge_count;
static void add_edge(uint16_t edge) /* if it isn't there yet */
{
    static uint8_t is_there[1 << 16];
    if (edge_count < EDGES && !is_there[edge]) edges[edge_count++] = edge;
    is_there[edge] = 1;
}
void make_edges(void) /* around each power of two and its negative, and then others */
{
    for (int i = 0; i < 16 * 9; i++) {
        int power = 1 << i / 9, near = i % 9 - 4;
        add_edge((uint16_t)(power + near)), add_edge((uint16_t)(near - power));
    }
    for (uint32_t i = 0; edge_count < EDGES; i++) add_edge((uint16_t)(i * 40503u + 0x1234));
}

uint16_t edge16(void)
{
    uint64_t n = any_number();
    return n & 1 ? (uint16_t)(n >> 16) : edges[(n >> 8) % NEAR_POWERS];
}

uint32_t edge32(void)
{
    uint64_t n = any_number();
    uint32_t bit = (uint32_t)1 << (n >> 8 & 31);
    return n & 1 ? (uint32_t)(n >> 32) : n & 2 ? (uint32_t)edge16() << 16 | edge16() : n & 4 ? (uint32_t)(int16_t)edge16() : bit + (uint32_t)(n >> 16) % 3 - 1;
}

static void any_state(brsp_state *s)
{
    uint64_t n = any_number();
    memset(s, 0, sizeof *s);
    for (uint32_t i = 1; i < 32; i++) s->words[i] = edge32();
    for (uint32_t i = 0; i < 256; i++) s->vectors[i / 8][i % 8] = edge16();
    for (uint32_t i = 0; i < 8; i++) put_accumulator(s, i, (int64_t)((uint64_t)edge16() << 32 | (uint64_t)edge16() << 16 | edge16()));
    for (uint32_t i = 0; i < 8; i += 2) s->accumulators.high[i] = (uint16_t)-(n >> 48 >> i & 1);
    s->flags = (brsp_flag_bits){ (uint8_t)n, (uint8_t)(n >> 8), (uint8_t)(n >> 16), (uint8_t)(n >> 24), (uint8_t)(n >> 32) };
    s->divider = (brsp_divide_state){ edge16(), edge16(), n >> 40 & 1 };
    s->sp[0] = (uint32_t)any_number() & 0x1FF8, s->sp[1] = (uint32_t)any_number() & 0xFFFFF8, s->sp[2] = s->sp[3] = ((uint32_t)any_number() & 0xFF800000) | 0xFF8;
    s->sp[4] = (uint32_t)any_number() & 0x7FE2, s->sp[7] = any_number() & 1, s->interrupt = any_number() & 1;
    for (uint32_t i = 8; i < 16; i++) s->sp[i] = (uint32_t)any_number();
    s->npc = 4;
}

static brsp_state pool[64];
void some_state(brsp_state *s) /* one of 64, with other flags, and with four registers of others */
{
    if (!pool[0].npc) {
        uint64_t kept = seed;
        begin_numbers(0);
        for (int i = 0; i < 64; i++) any_state(pool + i);
        seed = kept;
    }
    uint64_t n = any_number(), m = any_number();
    *s = pool[n & 63];
    for (int i = 0; i < 4; i++) memcpy(s->vectors[n >> (8 + 5 * i) & 31], pool[m >> 6 * i & 63].vectors[i], 16);
    s->flags = pool[m >> 24 & 63].flags, s->accumulators = pool[m >> 30 & 63].accumulators, s->divider = pool[m >> 36 & 63].divider;
}

uint64_t spread(uint64_t position, uint32_t bits)
{
    uint64_t golden = 0x9E3779B97F4A7C15u >> (64 - bits) | 1; /* odd, so that each number comes once */
    return position * golden & (((uint64_t)1 << bits) - 1);
}
