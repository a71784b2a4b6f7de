/* A second core of the RSP, written from docs/INSTRUCTIONS.md and docs/MACHINE.md. Without PLANTED it has no known fault; -DPLANTED=N plants fault N
 * of bugs.tsv, which says what it does. tests/campaigns/test_planted.py builds it once for each of them. It is an emulator for conformance/campaign, and
 * core_step and core_until_halt run the vectors. */
#include "cases.h"

#ifndef PLANTED
#define PLANTED 0
#endif
#define BUG(n) (PLANTED == (n))

typedef struct core {
    brsp_state s;
    uint8_t memory[CASES_RDRAM];  /* DMEM, then IMEM */
    uint32_t rdram_length;
    uint32_t next;          /* what npc becomes */
    uint8_t rdram[1 << 17];
} core;

/* --- memories and registers */
/* Byte i from address a of DMEM on. With `past` the address doesn't wrap, and IMEM is behind the end. */
static uint8_t *byte(core *m, uint32_t a, uint32_t i, int past) { return m->memory + (past ? (a & 4095) + i : (a + i) & 4095); }
static uint32_t load_bytes(core *m, uint32_t a, uint32_t n, int past) {
    uint32_t value = 0;
    for (uint32_t i = 0; i < n; i++) value = value << 8 | *byte(m, a, i, past);
    return value;
}
static void store_bytes(core *m, uint32_t a, uint32_t value, uint32_t n, int past) {
    for (uint32_t i = 0; i < n; i++) *byte(m, a, i, past) = (uint8_t)(value >> 8 * (n - 1 - i));
}
static uint8_t get_byte(core *m, uint32_t v, uint32_t i) { return (uint8_t)(m->s.vectors[v][i / 2] >> (i & 1 ? 0 : 8)); }
static void set_byte(core *m, uint32_t v, uint32_t i, uint8_t value) {
    uint16_t *lane = &m->s.vectors[v][i / 2];
    *lane = (uint16_t)(i & 1 ? (*lane & 0xFF00) | value : (*lane & 0x00FF) | value << 8);
}
static int32_t clamp(int64_t n) { return n < -32768 ? -32768 : n > 32767 ? 32767 : (int32_t)n; }
static int64_t accumulator(const core *m, int i) {
    const brsp_accumulators *a = &m->s.accumulators;
    return (int64_t)(int16_t)a->high[i] * 4294967296 + ((int64_t)a->middle[i] << 16) + a->low[i];
}
static void set_accumulator(core *m, int i, int64_t n) {
    brsp_accumulators *a = &m->s.accumulators;
    a->high[i] = (uint16_t)(n >> 32), a->middle[i] = (uint16_t)(n >> 16), a->low[i] = (uint16_t)n;
}

/* --- SP registers */
static void dma(core *m, uint32_t word, int to_rdram) {
    uint32_t *sp = m->s.sp, length = ((word & 0xFFF) | 7) + 1, rows = (word >> 12 & (BUG(99) ? 3 : BUG(100) ? 127 : 255)) + 1, bank = sp[0] & 0x1000;
    uint32_t skip = word >> 20 & (BUG(101) ? 0x0F8 : BUG(102) ? 0xFFF : 0xFF8);
    for (uint32_t k = 0; k < rows; k++)
        for (uint32_t i = 0; i < length; i++) {
            uint32_t row = BUG(103) ? rows - 1 - k : k;
            uint32_t at = (sp[0] + row * length + i) & 4095, from = (sp[1] + row * (length + skip) + i) & (BUG(104) ? 0xFFFFFFFF : 0xFFFFFF);
            uint8_t *here = m->memory + (BUG(1) ? (sp[0] + row * length + i) & 8191 : bank + at);
            if (BUG(2)) from %= m->rdram_length;
            if (!to_rdram) *here = from < m->rdram_length ? m->rdram[from] : 0;
            else if (from < m->rdram_length) m->rdram[from] = *here;
        }
    sp[0] = bank | ((sp[0] + rows * length) & 4095);
    sp[1] = (sp[1] + rows * length + (rows - !BUG(3)) * skip) & 0xFFFFFF;
    sp[2] = sp[3] = skip << 20 | 0xFF8;
}
/* The flag after a write to SP_STATUS that clears it by bit `clear` and sets it by the next bit. */
static uint32_t pair(uint32_t flag, uint32_t word, int clear) {
    uint32_t off = word >> clear & 1, on = word >> (clear + 1) & 1;
    return on && (BUG(4) || !off) ? 1 : off && !on ? 0 : flag;
}
static void write_status(core *m, uint32_t word) {
    uint32_t old = m->s.sp[4], made = pair(old & 1, word, 0) | (word >> 2 & 1 ? 0 : old & 2);
    for (int bit = 5; bit < 15; bit++) made |= pair(old >> bit & 1, word, 2 * bit - 5) << bit;
    m->s.interrupt = pair(m->s.interrupt, word, 3);
    m->s.sp[4] = made;
}
static void write_sp(core *m, uint32_t number, uint32_t word) {
    if (number < 2) m->s.sp[number] = word & (number == 0 ? 0x1FF8 : 0xFFFFF8);
    else if (number < 4) dma(m, word, number == 3);
    else if (number == 4) write_status(m, word);
    else if (number == 7) m->s.sp[7] = BUG(5) ? word & 1 : 0;
    else if (number > 7) m->s.sp[number] = word;
}

/* --- scalar instructions */
static uint32_t link_of(core *m) { return (m->s.npc + 4u) & 0xFFC; }
static void branch(core *m, uint32_t word, int taken) {
    int32_t target = (BUG(6) ? m->s.pc + 4 : m->s.npc) + 4 * (int16_t)word;
    if (taken) m->next = BUG(7) && target > 4092 ? 4092 : (uint32_t)target & 0xFFC;
}
static int special(core *m, uint32_t w) {
    uint32_t *r = m->s.words, rs = w >> 21 & 31, rt = w >> 16 & 31, rd = w >> 11 & 31, s = r[rs], t = r[rt], sa = w >> 6 & 31, *d = r + rd;
    switch (w & 63) {
    case 0x00: *d = t << sa; return 1; case 0x02: if (!BUG(8) || sa) *d = t >> sa; return 1; case 0x03: *d = (uint32_t)((int32_t)t >> sa); return 1;
    case 0x04: *d = t << (s & 31); return 1; case 0x06: *d = t >> (s & 31); return 1;
    case 0x07: *d = (uint32_t)((int32_t)t >> (BUG(9) && s & 32 ? 31 : s & 31)); return 1;
    case 0x08: m->next = s & 0xFFC; return 1; case 0x09: *d = link_of(m); m->next = (BUG(10) ? r[rs] : s) & 0xFFC; return 1;
    case 0x0D:
        m->s.sp[4] |= 3;
        if (m->s.sp[4] & 0x40) m->s.interrupt = 1;
        if (BUG(11)) m->s.npc = (m->s.pc + 4) & 0xFFC;
        return 1;
    case 0x20: case 0x21: *d = s + t; return 1; case 0x22: case 0x23: *d = s - t; return 1;
    case 0x24: *d = s & t; return 1; case 0x25: *d = s | t; return 1; case 0x26: *d = s ^ t; return 1; case 0x27: *d = ~(s | t); return 1;
    case 0x2A: *d = BUG(93) ? (int32_t)(s - t) < 0 : (int32_t)s < (int32_t)t; return 1; case 0x2B: *d = s < t; return 1;
    }
    return 0;
}
static int regimm(core *m, uint32_t w) {
    uint32_t rs = w >> 21 & 31, rt = w >> 16 & 31;
    int32_t s = (int32_t)m->s.words[rs];
    if (rt & 14) return 0;
    if (rt & 16) m->s.words[31] = BUG(12) ? m->s.npc + 4u : link_of(m);
    if (BUG(13)) s = (int32_t)m->s.words[rs];
    branch(m, w, rt & 1 ? s >= 0 : s < 0);
    return 1;
}
/* Numbers, and loads and stores of the scalar unit. */
static int immediate(core *m, uint32_t w) {
    uint32_t *r = m->s.words, rs = w >> 21 & 31, s = r[rs], *t = r + (w >> 16 & 31), zimm = w & 0xFFFF, simm = (uint32_t)(int16_t)w, a = s + simm;
    switch (w >> 26) {
    case 0x08: case 0x09: *t = s + (BUG(14) && rs == 0 ? zimm : simm); return 1;
    case 0x0A: *t = (int32_t)s < (int32_t)simm; return 1; case 0x0B: *t = s < (BUG(15) ? zimm : simm); return 1;
    case 0x0C: *t = s & zimm; return 1; case 0x0D: *t = s | zimm; return 1; case 0x0E: *t = s ^ zimm; return 1; case 0x0F: *t = zimm << 16; return 1;
    case 0x20: *t = (uint32_t)(int8_t)load_bytes(m, a, 1, 0); return 1; case 0x21: *t = (uint32_t)(int16_t)load_bytes(m, a, 2, 0); return 1;
    case 0x23: case 0x27:
        if (BUG(16)) *t = load_bytes(m, a, 2, 0) << 16, *t |= load_bytes(m, r[rs] + simm + 2, 2, 0);
        else *t = load_bytes(m, a, 4, BUG(17));
        return 1;
    case 0x24: *t = load_bytes(m, a, 1, 0); return 1; case 0x25: *t = load_bytes(m, a, 2, BUG(92)); return 1;
    case 0x28: store_bytes(m, a, *t, 1, 0); return 1; case 0x29: store_bytes(m, a, *t, 2, BUG(18)); return 1;
    case 0x2B: store_bytes(m, a, *t, 4, BUG(91)); return 1;
    }
    return 0;
}
static int move_sp(core *m, uint32_t w) {
    uint32_t rt = w >> 16 & 31, number = w >> 11 & 15, kind = w >> 21 & 31;
    if (kind == 4) write_sp(m, number, m->s.words[rt]);
    if (kind == 0) m->s.words[rt] = m->s.sp[number];
    if (kind == 0 && number == 7 && !(BUG(19) && rt == 0)) m->s.sp[7] = 1;
    return kind == 0 || kind == 4;
}

/* --- moves between the units, control registers */
static int move_vector(core *m, uint32_t w) {
    uint32_t *t = m->s.words + (w >> 16 & 31), rd = w >> 11 & 31, e = w >> 7 & (BUG(84) && w >> 21 & 4 ? 14 : 15), control = rd & 3;
    brsp_flag_bits *f = &m->s.flags;
    int32_t vco = (int16_t)(f->differ << 8 | f->carry) & (BUG(20) ? 0xFFFF : -1), vcc = (int16_t)(f->clip << 8 | f->compare);
    if (BUG(21) && control == 3) control = 1;
    switch (w >> 21 & 31) {
    case 0: *t = (uint32_t)(int16_t)(get_byte(m, rd, e) << 8 | get_byte(m, (rd + (BUG(22) && e == 15)) & 31, (e + 1) & 15)); return 1;
    case 2: *t = control > 1 ? f->extra : (uint32_t)(control ? vcc : vco); return 1;
    case 4: set_byte(m, rd, e, (uint8_t)(*t >> 8)); if (e < 15) set_byte(m, rd, e + 1, (uint8_t)*t); return 1;
    case 6:
        if (control > 1) f->extra = (uint8_t)*t;
        else *(control ? &f->clip : &f->differ) = (uint8_t)(*t >> 8), *(control ? &f->compare : &f->carry) = (uint8_t)*t;
        return 1;
    }
    return 0;
}

/* --- computing instructions, a lane at a time */
static int lane_of(int e, int i) { return e < 2 ? i : e < 4 ? (i & 6) | (e & 1) : e < 8 ? (i & 4) | (e & 3) : e & 7; }
static uint16_t multiply(core *m, int f, int i, int16_t a, int16_t b) {
    int64_t ua = (uint16_t)a, ub = (uint16_t)b, n, old = accumulator(m, i), kind = f & 7;
    n = kind < 2 ? 2 * (int64_t)a * b + (f < 8 ? 32768 : 0) : kind == 4 ? ua * ub / 65536 : kind == 5 ? a * ub : kind == 6 ? ua * b
        : (int64_t)a * b * 65536;
    if (f >= 8) n += old;
    if (BUG(23) && f == 4) n |= old & ~0xFFFFll;
    set_accumulator(m, i, n);
    if (!BUG(24) || f != 8) n = accumulator(m, i);
    int64_t h = n >> 16;
    if (kind == 4 || kind == 6) return h < -32768 + (BUG(25) && f == 14) ? 0 : h > 32767 ? 65535 : (uint16_t)n;
    if (kind == 1) return h < 0 ? 0 : h > 32767 - BUG(26) ? 65535 : (uint16_t)h;
    return (uint16_t)clamp(h);
}
static uint16_t mpeg(core *m, int f, int i, int16_t a, int16_t b, int vs) {
    int64_t old = accumulator(m, i), n = old, p = old >> 16;
    if (f == 2 || f == 10) {
        if ((f == 2) == (old >= 0)) n = old + (vs & 1 ? (int64_t)b * 65536 : b);
        if (BUG(27) && f == 10) n = (old & ~0xFFFFFFFFll) | (n & 0xFFFFFFFFll);
        set_accumulator(m, i, n);
        return (uint16_t)clamp(accumulator(m, i) >> 16);
    }
    if (f == 3) p = (int64_t)a * b, p += p < 0 ? 31 : 0;
    else if (!(p & 32)) p += p < 0 ? 32 : p >= 32 ? -32 : 0;
    set_accumulator(m, i, p * 65536 + (f == 3 || BUG(28) ? 0 : old & 0xFFFF));
    return (uint16_t)((BUG(29) ? (int32_t)(p >> 1) : clamp(p >> 1)) & ~15);
}
/* VCL, VCH, VCR. The flags of the lane are c (carry), d (not-equal), g (compare), l (clip), x (extra). */
typedef struct lane_flags { int c, d, g, l, x; } lane_flags;
static int clip(int f, int32_t a, int32_t b, lane_flags *k) {
    int differ = (a ^ b) < 0;
    if (f == 0x25) {
        int32_t n = differ ? a + b : a - b;
        *k = differ ? (lane_flags){1, n != 0 && (n != -1 || BUG(31)), n <= 0, b < 0, n == -1}
            : (lane_flags){0, n != 0, b < 0, n >= 0, k->x && BUG(30)};
        return differ ? (k->g ? -b : a) : k->l ? b : a;
    }
    if (f == 0x26) {
        *k = (lane_flags){0, 0, differ ? a + b + 1 <= 0 : b < 0, differ ? b < 0 : a - b >= 0, k->x && BUG(32)};
        return differ ? (k->g ? ~b : a) : k->l ? b : a;
    }
    int32_t ua = a & 0xFFFF, ub = b & 0xFFFF, n = ua + ub;
    if (k->c && !k->d) k->g = k->x ? (n == 65536 && !BUG(33)) || n < 65536 : n == 0;
    if (!k->c && !k->d) k->l = ua >= ub;
    int result = k->c ? (k->g ? -b : a) : k->l ? b : a;
    *k = (lane_flags){0, 0, k->g, k->l, k->x && BUG(34) && k->d && !k->c};
    return result;
}
static uint16_t add_or_choose(core *m, int f, int i, int32_t a, int32_t b) {
    brsp_flag_bits *g = &m->s.flags;
    lane_flags k = {g->carry >> i & 1, g->differ >> i & 1, g->compare >> i & 1, g->clip >> i & 1, g->extra >> i & 1};
    int32_t r = 0, low, n, ua = a & 0xFFFF, ub = b & 0xFFFF, both = k.c && (k.d || (BUG(35) && f == 0x23));
    int is_comparison = f >= 0x20 && f < 0x24, kept_d = (BUG(36) && f == 0x10) || (BUG(37) && f == 0x14) ? k.d : 0;
    if (is_comparison) {
        k.g = f == 0x20 ? a < b || (a == b && both) : f == 0x21 ? a == b && !k.d : f == 0x22 ? a != b || k.d : a > b || (a == b && !both);
        r = k.g ? a : b; k.c = k.d = 0;
        k.l = BUG(38) && f == 0x20 ? k.l : 0;
    }
    low = r;
    switch (f) {
    case 0x10: case 0x11: low = n = f == 0x10 ? a + b + k.c : (BUG(85) ? clamp(a - b) : a - b) - k.c; r = clamp(n); k.c = 0; k.d = kept_d; break;
    case 0x13: low = a < 0 ? -b : a ? b : 0; r = BUG(39) ? low : clamp(low); break;
    case 0x14: low = r = ua + ub; k.c = r > 65535; k.d = kept_d; break;
    case 0x15: low = r = ua - ub; k.c = r < 0; k.d = r != 0; break;
    case 0x24: case 0x25: case 0x26: low = r = clip(f, a, b, &k); break;
    case 0x27: low = r = k.g ? a : b; if (!BUG(40)) k.c = k.d = 0; break;
    case 0x28: case 0x29: low = r = a & b; break; case 0x2A: case 0x2B: low = r = a | b; break; case 0x2C: case 0x2D: low = r = a ^ b; break;
    }
    if (f >= 0x28 && f & 1) low = r = ~r;
    uint8_t *planes[] = {&g->carry, &g->differ, &g->compare, &g->clip, &g->extra};
    int bits[] = {k.c, k.d, k.g, k.l, k.x};
    for (int j = 0; j < 5; j++) *planes[j] = (uint8_t)((*planes[j] & ~(1 << i)) | bits[j] << i);
    m->s.accumulators.low[i] = (uint16_t)low;
    if (BUG(41) && f == 0x15) m->s.accumulators.middle[i] = r < 0 ? 0xFFFF : 0;
    return (uint16_t)r;
}

/* --- the divider */
static uint32_t answer(int64_t x, int is_root, int is_low) {
    if (x == 0) return 0x7FFFFFFF;
    if (x == -32768 && !(BUG(42) && is_low)) return 0xFFFF0000;
    uint32_t y = (uint32_t)(x > 0 ? x : x > -32768 || (BUG(43) && is_root) ? -x : -x - 1);
    uint32_t z = (uint32_t)__builtin_clz(y), k = y << z >> 22 & 511, shift = 31 - z;
    uint64_t entry = k ? ((((uint64_t)1 << 34) / (512 + k)) + 1) / 256 & 0xFFFF : 0xFFFF;
    if (is_root) {
        k = (k & ~1u) | (z & 1);
        uint64_t a = k & 1 ? (512 + k) / 2 : 512 + k, b = 0;
        for (uint64_t step = 1 << 19; step; step /= 2) if (a * (b + step) * (b + step) < (uint64_t)1 << 44) b += step;
        entry = b / 2 & 0xFFFF;
        shift /= 2;
    }
    if (is_root ? BUG(98) && k == 301 : BUG(97) && k == 300) entry ^= 16;
    uint32_t found = (uint32_t)((65536 + entry) << 14 >> shift);
    return x < 0 ? ~found : found;
}
static void divide(core *m, int f, int e, int vt, int de, int vd) {
    brsp_divide_state *div = &m->s.divider;
    uint16_t *t = m->s.vectors[vt], *d = m->s.vectors[vd], chosen[8], source = t[e & 7];
    int is_root = f >= 0x34, is_low = (f & 3) == 1, keeps = BUG(44) && f == 0x33 && e == de + 8;
    int loaded = div->loaded && !(BUG(86) && div->input == 0);
    for (int i = 0; i < 8; i++) chosen[i] = t[BUG(45) && f == 0x36 ? i : lane_of(e, i)];
    if ((BUG(46) && f == 0x30) || (BUG(47) && f == 0x32)) source = chosen[de];
    if ((BUG(48) && f == 0x31 && !(e & 1)) || (BUG(49) && f == 0x35 && e & 1)) loaded = BUG(49);
    if (f == 0x33) d[de] = BUG(50) ? source : chosen[de];
    else if ((f & 3) == 2) {
        d[de] = div->output, div->input = source;
        if (!BUG(51) || !is_root) div->loaded = 1;
    } else {
        uint32_t found = answer(is_low && loaded ? (int32_t)((uint32_t)div->input << 16 | source) : (int16_t)source, is_root, is_low);
        d[de] = (uint16_t)found;
        if (!BUG(94) || source) div->output = (uint16_t)(found >> 16);
        if (!BUG(52) || f != 0x34) div->loaded = 0;
        if (BUG(53) && f == 0x30) div->input = source;
    }
    for (int i = 0; i < 8; i++) if (!keeps) m->s.accumulators.low[i] = BUG(54) ? t[lane_of(e, i)] : chosen[i];
}
static int compute(core *m, uint32_t w) {
    int f = w & 63, e = w >> 21 & 15, vt = w >> 16 & 31, vs = w >> 11 & 31, vd = w >> 6 & 31;
    if (0x7F00C000DFC40000 >> f & 1) return 0;
    if (BUG(55) && f == 0x37) for (int i = 0; i < 8; i++) m->s.accumulators.low[i] = m->s.vectors[vt][lane_of(e, i)];
    if (f >= 0x30 && f < 0x37) divide(m, f, e, vt, vs & 7, vd);
    if (f >= 0x30) return 1;
    uint16_t *d = m->s.vectors[vd], a[8], b[8], *plane[] = {m->s.accumulators.high, m->s.accumulators.middle, m->s.accumulators.low};
    int is_plain = (BUG(56) && f == 0x2A && vs == vt), part = (BUG(57) && (e == 1 || e == 2)) || (BUG(58) && e > 11) ? e & 3 : e - 8;
    for (int i = 0; i < 8; i++) a[i] = m->s.vectors[vs][i], b[i] = m->s.vectors[vt][is_plain ? i : lane_of(e, i)];
    for (int j = 0; j < 8; j++) {
        int i = BUG(96) ? 7 - j : j;
        if (BUG(95) || BUG(96) || (BUG(59) && f == 0x0F)) b[i] = m->s.vectors[vt][lane_of(e, i)];
        if (f == 0x1D) d[i] = part >= 0 && part < 3 ? plane[part][i] : 0;
        else if (f < 16 && (f & 6) == 2) d[i] = mpeg(m, f, i, (int16_t)a[i], (int16_t)b[i], vs);
        else if (f < 16) d[i] = multiply(m, f, i, (int16_t)a[i], (int16_t)b[i]);
        else d[i] = add_or_choose(m, f, i, (int16_t)a[i], (int16_t)b[i]);
        if (BUG(60) && f == 0x11 && vs == vt) d[i] = m->s.accumulators.low[i] = 0;
    }
    return 1;
}

/* --- vector loads and stores */
enum { B, S, L, D, Q, R, P, U, H, F, W, T }; static const uint8_t SCALES[] = {0, 1, 2, 3, 4, 4, 3, 3, 4, 4, 4, 4};
static void load_block(core *m, int op, uint32_t v, uint32_t e, uint32_t a) { /* LPV, LUV, LHV, LFV, LTV */
    uint32_t from = a & ~7u, odd = a & 7;
    int past = (BUG(65) && op == H) || (BUG(66) && op == T) || (BUG(90) && op == U);
    for (uint32_t j = 0; j < 8 && op != T; j++) {
        uint32_t at = op == H ? odd - e + 2 * j : op == F ? odd + 4 * (j & 3) : odd - e + j;
        if (op == F && (j ^ e / 2) & 4) continue;
        if (BUG(67) && op == P && (int32_t)at < 0) at = 0;
        if (!BUG(68) || op != F || e == 0) at &= 15;
        m->s.vectors[v][j] = (uint16_t)(*byte(m, from, at, past) << (op == P ? 8 : 7));
    }
    for (uint32_t k = 0; k < 16 && op == T; k++)
        set_byte(m, BUG(69) ? (v + e / 2 + k / 2) & 31 : (v & 24) + ((e / 2 + k / 2) & 7), k, *byte(m, from, (k + e + (a & 8)) & 15, past));
}
static void load_vector(core *m, int op, uint32_t v, uint32_t e, uint32_t a) {
    uint32_t rest = a & 15, first = op == R ? 16 - rest + e : e, count = op == R ? rest : op == Q ? 16 - rest : 1u << op;
    if (op > R) { load_block(m, op, v, e, a); return; }
    for (uint32_t i = 0; i < count; i++)
        if (first + i < 16 || (BUG(71) && op == Q) || (BUG(87) && op == S) || (BUG(88) && op == R))
            set_byte(m, v, (first + i) & 15, *byte(m, op == R ? a & ~15u : a, i, BUG(70) && op == D));
}
static void store_block(core *m, int op, uint32_t v, uint32_t e, uint32_t a) { /* SPV, SUV, SHV, SFV, SWV, STV */
    uint32_t from = a & ~7u, odd = a & 7, even = e & 14;
    uint16_t *lanes = m->s.vectors[v];
    for (uint32_t j = 0; j < 8 && (op == P || op == U); j++) {
        uint32_t k = BUG(72) && op == U ? e + j : (e + j) & 15;
        *byte(m, a, j, BUG(73) && op == P) = (uint8_t)(lanes[k & 7] >> ((k < 8) == (op == P) ? 8 : 7));
    }
    for (uint32_t j = 0; j < 8 && op == H; j++) {
        uint32_t at = (BUG(74) ? even : e) + 2 * j;
        *byte(m, from, (odd + 2 * j) & 15, 0) = (uint8_t)((get_byte(m, v, at & 15) << 8 | get_byte(m, v, (at + 1) & 15)) >> 7);
    }
    for (uint32_t j = 0; j < 4 && op == F; j++) *byte(m, from, (odd + 4 * j) & 15, BUG(89)) = (uint8_t)(lanes[j + e / 2] >> 7);
    for (uint32_t j = 0; j < 16 && op == W; j++)
        *byte(m, from, (odd + j) & 15, BUG(75)) = get_byte(m, v, (e + j + (BUG(76) ? odd : 0)) & 15);
    for (uint32_t k = 0; k < 16 && op == T; k++)
        *byte(m, from, (odd - even + k) & 15, BUG(77)) = get_byte(m, (v & 24) + k / 2, (k - even) & 15);
}
static void store_vector(core *m, int op, uint32_t v, uint32_t e, uint32_t a) {
    uint32_t rest = a & 15, first = op == R ? e + 16 - rest : e, count = op == R ? rest : op == Q ? 16 - rest : 1u << op;
    if (op > R) { store_block(m, op, v, e, a); return; }
    if (BUG(78) && op == Q && count > 16 - e) count = 16 - e;
    if (BUG(81) && op == R && rest == 0) count = 16;
    for (uint32_t i = 0; i < count; i++) {
        uint32_t from = BUG(79) && op == L && e + i > 15 ? (v + 1) & 31 : v;
        *byte(m, op == R ? a & ~15u : a, i, BUG(80) && op == D) = get_byte(m, from, (first + i) & 15);
    }
}
static int move_memory(core *m, uint32_t w, int is_load) {
    uint32_t base = w >> 21 & 31, op = w >> 11 & 31, e = w >> 7 & 15;
    if (op > T || (is_load && op == W) || (op == F && e & 7)) return 0;
    int32_t offset = (int32_t)(w << 25) >> 25;
    uint32_t a = m->s.words[base] + (uint32_t)offset * (BUG(82 + !is_load) && base == 0 ? 1u : 1u << SCALES[op]);
    (is_load ? load_vector : store_vector)(m, (int)op, w >> 16 & 31, e, a);
    return 1;
}

/* --- a step */
static int execute(core *m, uint32_t w) {
    uint32_t *r = m->s.words, s = r[w >> 21 & 31], t = r[w >> 16 & 31], opcode = w >> 26;
    switch (opcode) {
    case 0x00: return special(m, w); case 0x01: return regimm(m, w); case 0x10: return move_sp(m, w);
    case 0x03: r[31] = BUG(61) ? m->s.npc + 4u : BUG(62) ? (m->s.pc + 8u) & 0xFFC : link_of(m); /* fall through */
    case 0x02: m->next = w << 2 & 0xFFC; return 1;
    case 0x04: branch(m, w, s == t); return 1; case 0x05: branch(m, w, s != t && !(BUG(63) && (w >> 21 & 31) == 0)); return 1;
    case 0x06: branch(m, w, (int32_t)s <= 0); return 1; case 0x07: branch(m, w, (int32_t)s > 0); return 1;
    case 0x12: return w >> 25 & 1 ? compute(m, w) : move_vector(m, w);
    case 0x32: return move_memory(m, w, 1); case 0x3A: return move_memory(m, w, 0);
    default: return immediate(m, w);
    }
}
uint32_t core_step(core *m) {
    brsp_state *s = &m->s;
    uint32_t w = 0, single = s->sp[4] & 0x20;
    if (s->sp[4] & 1) return BRSP_HALTED;
    for (int i = 0; i < 4; i++) w = w << 8 | m->memory[CASES_IMEM + s->pc + i];
    m->next = (s->npc + 4u) & 0xFFC;
    if (!execute(m, w)) return BRSP_RESERVED;
    s->pc = s->npc, s->npc = (uint16_t)m->next;
    s->words[0] = 0;
    if (s->sp[4] & 0x20 || (BUG(64) && single)) s->sp[4] |= 1;
    return BRSP_OK;
}
uint32_t core_until_halt(core *m, uint32_t steps) {
    uint32_t status = BRSP_OK;
    while (steps-- && status == BRSP_OK) status = core_step(m);
    return status;
}

/* --- what side.h asks for */
typedef core side_machine;
static int side_make(core *m, const char *what) { (void)what; m->rdram_length = CASES_RDRAM_LENGTH; return 1; }
static int side_is_shown(const brsp_case *in) { (void)in; return 1; }
static int side_set(core *m, const brsp_state *s) { m->s = *s; return 1; }
static uint32_t side_step(core *m) { return core_step(m); }
static void side_get(core *m, brsp_state *s) { *s = m->s; }
static void side_put(core *m, uint32_t pc, uint32_t word) { for (uint32_t i = 0; i < 4; i++) m->memory[CASES_IMEM + pc + i] = (uint8_t)(word >> (24 - 8 * i)); }
static void side_load(core *m, const uint8_t *memories, size_t to) {
    memcpy(m->memory, memories, CASES_RDRAM);
    if (to > CASES_RDRAM) memcpy(m->rdram, memories + CASES_RDRAM, CASES_RDRAM_LENGTH);
}
static void side_look(core *m, uint8_t *memories, size_t to) {
    memcpy(memories, m->memory, CASES_RDRAM);
    if (to > CASES_RDRAM) memcpy(memories + CASES_RDRAM, m->rdram, CASES_RDRAM_LENGTH);
}

#include "side.h"
