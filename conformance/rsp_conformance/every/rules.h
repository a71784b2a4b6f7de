/* What each computing instruction of the vector unit does to one lane, in the words of docs/INSTRUCTIONS.md: a function each, with the instruction's name, to
 * be checked by eye. Nothing here is taken from the emulator, from its definitions or from second.c. A rule has no loop and no branch that the compiler
 * can't turn into a choice, so that gcc makes loops over many lanes of it with vector instructions of the host. */
#pragma once
#include <stdint.h>

typedef struct lane {
    int32_t a, b;        /* the lane of vs, and the lane of vt that the element selects, as signed numbers */
    int32_t vs;          /* the number of vs, whose lowest bit VRNDP and VRNDN read */
    int64_t accumulator; /* before the instruction, and after it: a signed number of 48 bits */
    int32_t carry, not_equal, compare, clip, extra; /* the same of the flags, each 0 or 1 */
    int32_t result;      /* what the lane of vd becomes, modulo 65536 */
} lane;
#ifndef RULE /* -DRULE=void makes each rule a function of its own, for a tool that reads objects */
#define RULE static inline __attribute__((always_inline, unused)) void
#endif
#define HELPER static inline __attribute__((always_inline, unused))

HELPER int32_t unsigned_of(int32_t signed_lane) { return signed_lane & 0xFFFF; }
HELPER int64_t wrapped_to_48_bits(int64_t n) { return (int64_t)((uint64_t)n << 16) >> 16; }
HELPER int32_t clamped_to_16_bits(int64_t n) { return n < -32768 ? -32768 : n > 32767 ? 32767 : (int32_t)n; }

/* --- Multiplies. The accumulator becomes a number modulo 2^48; the result is that accumulator, clamped in one of three ways. */
HELPER void accumulate_signed(lane *k, int64_t n)
{
    k->accumulator = wrapped_to_48_bits(n);
    k->result = clamped_to_16_bits(k->accumulator >> 16);
}
HELPER void accumulate_unsigned(lane *k, int64_t n)
{
    k->accumulator = wrapped_to_48_bits(n);
    int64_t high = k->accumulator >> 16;
    k->result = high < 0 ? 0 : high > 32767 ? 65535 : (int32_t)high;
}
HELPER void accumulate_low(lane *k, int64_t n)
{
    k->accumulator = wrapped_to_48_bits(n);
    int64_t high = k->accumulator >> 16;
    k->result = high < -32768 ? 0 : high > 32767 ? 65535 : (int32_t)(k->accumulator & 65535);
}
HELPER int64_t fraction_product(const lane *k) { return 2 * ((int64_t)k->a * k->b); }                     /* VMULF, VMULU, VMACF, VMACU */
HELPER int64_t low_product(const lane *k) { return (uint32_t)unsigned_of(k->a) * (uint32_t)unsigned_of(k->b) >> 16; } /* VMUDL, VMADL */
HELPER int64_t middle_product(const lane *k) { return (int64_t)k->a * unsigned_of(k->b); }                /* VMUDM, VMADM */
HELPER int64_t mixed_product(const lane *k) { return (int64_t)unsigned_of(k->a) * k->b; }                 /* VMUDN, VMADN */
HELPER int64_t high_product(const lane *k) { return (int64_t)(k->a * k->b) * 65536; }                     /* VMUDH, VMADH */

RULE vmulf(lane *k) { accumulate_signed(k, fraction_product(k) + 32768); }
RULE vmulu(lane *k) { accumulate_unsigned(k, fraction_product(k) + 32768); }
RULE vmudl(lane *k) { accumulate_low(k, low_product(k)); }
RULE vmudm(lane *k) { accumulate_signed(k, middle_product(k)); }
RULE vmudn(lane *k) { accumulate_low(k, mixed_product(k)); }
RULE vmudh(lane *k) { accumulate_signed(k, high_product(k)); }
RULE vmacf(lane *k) { accumulate_signed(k, k->accumulator + fraction_product(k)); }
RULE vmacu(lane *k) { accumulate_unsigned(k, k->accumulator + fraction_product(k)); }
RULE vmadl(lane *k) { accumulate_low(k, k->accumulator + low_product(k)); }
RULE vmadm(lane *k) { accumulate_signed(k, k->accumulator + middle_product(k)); }
RULE vmadn(lane *k) { accumulate_low(k, k->accumulator + mixed_product(k)); }
RULE vmadh(lane *k) { accumulate_signed(k, k->accumulator + high_product(k)); }

/* --- MPEG coefficients */
HELPER int64_t rounding(const lane *k) { return k->vs & 1 ? (int64_t)k->b * 65536 : k->b; }
RULE vrndp(lane *k) { accumulate_signed(k, k->accumulator >= 0 ? k->accumulator + rounding(k) : k->accumulator); }
RULE vrndn(lane *k) { accumulate_signed(k, k->accumulator < 0 ? k->accumulator + rounding(k) : k->accumulator); }
/* Half of a product, clamped, without its low four bits. */
HELPER int32_t half_of(int32_t product) { return clamped_to_16_bits(product >> 1) & ~15; }
RULE vmulq(lane *k)
{
    int32_t product = k->a * k->b;
    product += product < 0 ? 31 : 0;
    k->accumulator = (int64_t)product * 65536;
    k->result = half_of(product);
}
RULE vmacq(lane *k)
{
    int32_t product = (int32_t)(k->accumulator >> 16); /* modulo 2^32, but the accumulator has no more bits */
    int32_t towards_zero = product < 0 ? 32 : product >= 32 ? -32 : 0;
    product += product & 32 ? 0 : towards_zero;
    k->accumulator = (int64_t)product * 65536 + (k->accumulator & 65535);
    k->result = half_of(product);
}

/* --- All others write the low 16 bits of the accumulator, which usually become the result. */
HELPER void set_low(lane *k, int32_t n) { k->accumulator = (k->accumulator & ~(int64_t)65535) | unsigned_of(n); }
HELPER void set_both(lane *k, int32_t n)
{
    k->result = n;
    set_low(k, n);
}
HELPER void clear_vco(lane *k) { k->carry = k->not_equal = 0; }
HELPER void clear_vco_and_vce(lane *k) { k->carry = k->not_equal = k->extra = 0; }

/* --- Add and subtract */
HELPER void set_clamped(lane *k, int32_t n)
{
    set_low(k, n);
    k->result = clamped_to_16_bits(n);
}
RULE vadd(lane *k)
{
    set_clamped(k, k->a + k->b + k->carry);
    clear_vco(k);
}
RULE vsub(lane *k)
{
    set_clamped(k, k->a - k->b - k->carry);
    clear_vco(k);
}
RULE vabs(lane *k) { set_clamped(k, k->a < 0 ? -k->b : k->a == 0 ? 0 : k->b); }
RULE vaddc(lane *k)
{
    int32_t sum = unsigned_of(k->a) + unsigned_of(k->b);
    set_both(k, sum);
    k->carry = sum > 65535;
    k->not_equal = 0;
}
RULE vsubc(lane *k)
{
    int32_t difference = unsigned_of(k->a) - unsigned_of(k->b);
    set_both(k, difference);
    k->carry = difference < 0;
    k->not_equal = difference != 0;
}

/* --- Compare: the result is a if the comparison holds, and b otherwise. */
HELPER void compared(lane *k, int32_t holds)
{
    set_both(k, holds ? k->a : k->b);
    k->compare = holds;
    k->clip = 0;
    clear_vco(k);
}
RULE vlt(lane *k) { compared(k, (k->a < k->b) | ((k->a == k->b) & k->carry & k->not_equal)); }
RULE veq(lane *k) { compared(k, (k->a == k->b) & !k->not_equal); }
RULE vne(lane *k) { compared(k, (k->a != k->b) | k->not_equal); }
RULE vge(lane *k) { compared(k, (k->a > k->b) | ((k->a == k->b) & !(k->carry & k->not_equal))); }

/* --- Clip */
HELPER int32_t signs_differ(const lane *k) { return (k->a < 0) != (k->b < 0); }
RULE vch(lane *k)
{
    int32_t differ = signs_differ(k), n = differ ? k->a + k->b : k->a - k->b, b_is_negative = k->b < 0;
    set_both(k, differ ? (n <= 0 ? -k->b : k->a) : n >= 0 ? k->b : k->a);
    k->carry = differ;
    k->not_equal = differ ? (n != 0) & (n != -1) : n != 0;
    k->compare = differ ? n <= 0 : b_is_negative;
    k->clip = differ ? b_is_negative : n >= 0;
    k->extra = differ & (n == -1);
}
RULE vcl(lane *k)
{
    int32_t a = unsigned_of(k->a), b = unsigned_of(k->b), sum = a + b;
    int32_t carry_alone = k->carry & !k->not_equal, neither = !k->carry & !k->not_equal;
    int32_t sum_fits = k->extra ? (sum & 65535) == 0 || sum < 65536 : sum == 0;
    k->compare = carry_alone ? sum_fits : k->compare;
    k->clip = neither ? a >= b : k->clip;
    set_both(k, k->carry ? (k->compare ? -b : a) : k->clip ? b : a);
    clear_vco_and_vce(k);
}
RULE vcr(lane *k)
{
    int32_t differ = signs_differ(k), b_is_negative = k->b < 0;
    k->compare = differ ? k->a + k->b + 1 <= 0 : b_is_negative;
    k->clip = differ ? b_is_negative : k->a - k->b >= 0;
    set_both(k, differ ? (k->compare ? ~k->b : k->a) : k->clip ? k->b : k->a);
    clear_vco_and_vce(k);
}
RULE vmrg(lane *k)
{
    set_both(k, k->compare ? k->a : k->b);
    clear_vco(k);
}

/* --- Logic */
RULE vand(lane *k) { set_both(k, k->a & k->b); }
RULE vnand(lane *k) { set_both(k, ~(k->a & k->b)); }
RULE vor(lane *k) { set_both(k, k->a | k->b); }
RULE vnor(lane *k) { set_both(k, ~(k->a | k->b)); }
RULE vxor(lane *k) { set_both(k, k->a ^ k->b); }
RULE vnxor(lane *k) { set_both(k, ~(k->a ^ k->b)); }

/* --- All rules, with the function of the instruction's word. VSAR and the divides aren't lane by lane. */
#define LANE_RULES(X) \
    X(vmulf, 0x00) X(vmulu, 0x01) X(vmudl, 0x04) X(vmudm, 0x05) X(vmudn, 0x06) X(vmudh, 0x07) \
    X(vmacf, 0x08) X(vmacu, 0x09) X(vmadl, 0x0C) X(vmadm, 0x0D) X(vmadn, 0x0E) X(vmadh, 0x0F) \
    X(vrndp, 0x02) X(vrndn, 0x0A) X(vmulq, 0x03) X(vmacq, 0x0B) \
    X(vadd, 0x10) X(vsub, 0x11) X(vabs, 0x13) X(vaddc, 0x14) X(vsubc, 0x15) \
    X(vlt, 0x20) X(veq, 0x21) X(vne, 0x22) X(vge, 0x23) X(vcl, 0x24) X(vch, 0x25) X(vcr, 0x26) X(vmrg, 0x27) \
    X(vand, 0x28) X(vnand, 0x29) X(vor, 0x2A) X(vnor, 0x2B) X(vxor, 0x2C) X(vnxor, 0x2D)
