/* All upper parts of an accumulator, its bits 47 to 16, before an instruction that reads them. */
#include "every.h"

/* Numbers a and b whose product grows the upper part by the same number whatever the accumulator is: either the product is a multiple of 65536, or it is so
 * small that the low part, which begins at 32768, never passes its end in 128 operations. */
static void choose(uint32_t function, int16_t *a, int16_t *b)
{
    uint64_t n = any_number();
    int16_t x = (int16_t)(int8_t)n, y = (int16_t)(int8_t)(n >> 8);
    switch (function) {
    case 0x08: case 0x09: *a = (int16_t)(x * 128), *b = (int16_t)(y * 256); break;      /* 2 * a * b */
    case 0x0D: *a = (int16_t)(x * 256), *b = (int16_t)((y & 127) * 256); break;         /* a * unsigned b */
    case 0x0E: *a = (int16_t)((x & 127) * 256), *b = (int16_t)(y * 256); break;         /* unsigned a * b */
    case 0x0C: *a = (int16_t)(x & 255), *b = (int16_t)(n >> 16); break;                 /* unsigned, and only the high half of the product */
    default: *a = x, *b = y;                                                            /* a * b * 65536; what VRNDP and VRNDN add */
    }
}
/* The operation before each one is a VMADH of $v31 (1 in all lanes) with a register, which moves the upper parts on to the next number. The registers $v20 to
 * $v23 have, for 32 operations each, 1 less what an operation adds, because VMACQ adds the same only to 32 numbers one after the other. */
static plan *plan_of(const test *t)
{
    static plan p;
    static int64_t added[LANES];
    if (p.operations.count) return &p;
    uint32_t vs = t->setting[5] == 'o';
    for (uint32_t i = 0; i < OPERATIONS; i++) {
        p.operations.words[2 * i] = vector_word(0x0F, 0, i ? 20 + (i - 1) / 32 : 31, 31, 19);
        p.operations.words[2 * i + 1] = vector_word(function_of(t), 0, 2, vs, 24 + i % 7);
    }
    p.operations.count = OPERATIONS, p.operations.group = 2, p.operations.are_new = 1, p.added = added;
    given.vs = (int32_t)vs;
    return &p;
}
static void put_lane(const test *t, plan *p, brsp_state *s, uint32_t i, int64_t upper)
{
    int64_t *added = (int64_t *)p->added, low = function_of(t) == 0x0B ? (int64_t)(any_number() & 0xFFFF) : 32768;
    int16_t a = (int16_t)s->vectors[given.vs][i], b = (int16_t)s->vectors[2][i];
    s->vectors[31][i] = 1;
    put_accumulator(s, i, (upper - 1) * 65536 + low);
    for (uint32_t block = 0; block < 4; block++)
        s->vectors[20 + block][i] = (uint16_t)(1 - delta_of(t, (upper + 32 * (int64_t)block) * 65536 + low, a, b));
    for (uint32_t k = 0; k < OPERATIONS; k++) {
        added[8 * k + i] = k ? (int64_t)(int16_t)s->vectors[20 + (k - 1) / 32][i] * 65536 : 65536;
        given.a[8 * k + i] = a, given.b[8 * k + i] = b;
    }
}
/* 2^22 positions: 128 numbers one after the other in each of eight lanes, which begin with three bits of their own. */
void upper_accumulators(const test *t, uint64_t position)
{
    plan *p = plan_of(t);
    brsp_state s;
    uint64_t base = spread(position & 0x3FFFFF, 22) * OPERATIONS, turn = position >> 22;
    some_state(&s);
    s.sp[4] &= ~0x20u; /* no single step */
    for (uint32_t i = 0; i < 8; i++) {
        int16_t a, b;
        choose(function_of(t), &a, &b);
        s.vectors[given.vs][i] = (uint16_t)a, s.vectors[2][i] = (uint16_t)b;
        put_lane(t, p, &s, i, (int32_t)(uint32_t)((i + turn) % 8 << 29 | base));
    }
    run_batch(t, &s, p);
}
