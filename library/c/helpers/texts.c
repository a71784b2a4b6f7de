/* Structures of registers as texts, and the parts in which two of them differ. It is tested, not proved, as all of this folder. */
#include "writer.h"

/* How a number lies in its structure: as a number of so many bytes in the host's order, or otherwise. */
enum { U8 = 1, U16 = 2, U32 = 4, FLAGS = 5, ACCUMULATOR = 6, BYTES = 7 };

/* Numbers that follow one another in a structure. In a name `#` is the number's place in this row, `/` that place divided by 8, and `%` the
 * remainder. */
typedef struct row {
    const char *name;
    size_t at;
    uint32_t form, count, digits;
} row;

#define SCALARS(type) { "pc", offsetof(type, pc), U16, 1, 3 }, { "npc", offsetof(type, npc), U16, 1, 3 }, { "$#", offsetof(type, words), U32, 32, 8 }
#define ACCUMULATORS(at) { "accumulator #", at, ACCUMULATOR, 8, 12 }
#define FLAG_BITS(at) { "vco", at, FLAGS, 1, 4 }, { "vcc", (at) + 2, FLAGS, 1, 4 }, { "vce", (at) + 4, U8, 1, 2 }
#define DIVIDER(at) { "in", at, U16, 1, 4 }, { "out", (at) + 2, U16, 1, 4 }, { "loaded", (at) + 4, U16, 1, 1 }
#define SP_WORDS(at, interrupt) \
    { "SP_MEM_ADDR", at, U32, 1, 8 }, { "SP_DRAM_ADDR", (at) + 4, U32, 1, 8 }, { "SP_RD_LEN", (at) + 8, U32, 1, 8 }, \
    { "SP_WR_LEN", (at) + 12, U32, 1, 8 }, { "SP_STATUS", (at) + 16, U32, 1, 8 }, { "SP_DMA_FULL", (at) + 20, U32, 1, 8 }, \
    { "SP_DMA_BUSY", (at) + 24, U32, 1, 8 }, { "SP_SEMAPHORE", (at) + 28, U32, 1, 8 }, { "DPC register #", (at) + 32, U32, 8, 8 }, \
    { "interrupt", interrupt, U32, 1, 1 }
#define TRACED(at) \
    { "pc", (at) + offsetof(brsp_traced, pc), U16, 1, 3 }, { "word", (at) + offsetof(brsp_traced, word), U32, 1, 8 }, \
    { "scalar register", (at) + offsetof(brsp_traced, scalar), U8, 1, 2 }, { "value", (at) + offsetof(brsp_traced, value), U32, 1, 8 }, \
    { "vector register", (at) + offsetof(brsp_traced, vector), U8, 1, 2 }, { "lane #", (at) + offsetof(brsp_traced, lanes), U16, 8, 4 }, \
    { "vco", (at) + offsetof(brsp_traced, vco), U16, 1, 4 }, { "vcc", (at) + offsetof(brsp_traced, vcc), U16, 1, 4 }, \
    { "vce", (at) + offsetof(brsp_traced, vce), U8, 1, 2 }, { "stored", (at) + offsetof(brsp_traced, stored), U8, 1, 1 }, \
    { "address", (at) + offsetof(brsp_traced, address), U16, 1, 3 }
#define END { 0, 0, 0, 0, 0 }

static const row of_state[] = {
    SCALARS(brsp_state), { "$v/ lane %", offsetof(brsp_state, vectors), U16, 256, 4 }, ACCUMULATORS(offsetof(brsp_state, accumulators)),
    FLAG_BITS(offsetof(brsp_state, flags)), DIVIDER(offsetof(brsp_state, divider)),
    SP_WORDS(offsetof(brsp_state, sp), offsetof(brsp_state, interrupt)), END
};
static const row of_scalars[] = { SCALARS(brsp_scalars), END };
static const row of_accumulators[] = { ACCUMULATORS(0), END };
static const row of_flags[] = { FLAG_BITS(0), END };
static const row of_divider[] = { DIVIDER(0), END };
static const row of_sp[] = { SP_WORDS(offsetof(brsp_sp_words, words), offsetof(brsp_sp_words, interrupt)), END };
static const row of_traced[] = { TRACED(0), END };
static const row of_changes[] = {
    TRACED(offsetof(brsp_changes, traced)), ACCUMULATORS(offsetof(brsp_changes, accumulators)), { "next pc", offsetof(brsp_changes, pc), U16, 1, 3 },
    { "npc", offsetof(brsp_changes, npc), U16, 1, 3 }, DIVIDER(offsetof(brsp_changes, divider)),
    { "quadword", offsetof(brsp_changes, quadword), U16, 1, 3 }, { "bytes[#]", offsetof(brsp_changes, bytes), BYTES, 2, 32 }, END
};
static const row *const structures[] = { of_state, of_scalars, of_accumulators, of_flags, of_divider, of_sp, of_traced, of_changes };

/* A number of the host. */
static uint32_t host_number(const uint8_t *at, size_t size)
{
    uint16_t half;
    uint32_t word;
    if (size == U8) return *at;
    if (size == U16) return memcpy(&half, at, size), half;
    return memcpy(&word, at, size), word;
}

/* The n-th number of a row. */
static void read_number(const row *r, const void *structure, uint32_t n, uint64_t value[2])
{
    const uint8_t *at = (const uint8_t *)structure + r->at;
    value[0] = 0;
    switch (r->form) {
    case FLAGS: value[1] = (uint64_t)at[1] << 8 | at[0]; break;
    case ACCUMULATOR:
        value[1] = (uint64_t)host_number(at + 2 * n, U16) << 32 | (uint64_t)host_number(at + 16 + 2 * n, U16) << 16 | host_number(at + 32 + 2 * n, U16);
        break;
    case BYTES: read_quadword(at + QUADWORD * n, QUADWORD, value); break;
    default: value[1] = host_number(at + r->form * n, r->form);
    }
}

static void put_name(writer *w, const row *r, uint32_t n)
{
    for (const char *it = r->name; *it; it++) {
        if (*it == '#') put_number(w, n);
        else if (*it == '/') put_number(w, n / 8);
        else if (*it == '%') put_number(w, n % 8);
        else put(w, *it);
    }
}

static void put_value(writer *w, const uint64_t value[2], uint32_t digits)
{
    if (digits > 16) put_hex(w, value[0], digits - 16);
    put_hex(w, value[1], digits > 16 ? 16 : digits);
}

size_t brsp_structure_parts(uint32_t kind, const void *structure, const void *other, brsp_part *parts, size_t capacity)
{
    size_t count = 0;
    uint32_t number = 0;
    if (kind > BRSP_OF_CHANGES) return 0;
    for (const row *r = structures[kind]; r->name; number += r++->count) {
        for (uint32_t n = 0; n < r->count; n++) {
            uint64_t value[2], others[2];
            read_number(r, structure, n, value);
            read_number(r, other, n, others);
            if (value[0] == others[0] && value[1] == others[1]) continue;
            if (count++ >= capacity) continue;
            brsp_part *part = &parts[count - 1];
            writer name = { part->name, sizeof part->name, 0 };
            memset(part, 0, sizeof *part);
            put_name(&name, r, n);
            memcpy(part->value, value, sizeof value);
            memcpy(part->other, others, sizeof others);
            part->digits = r->digits;
            part->bank = BRSP_NO_BANK;
            part->number = number + n;
        }
    }
    return count;
}

size_t brsp_memory_parts(uint32_t bank, const uint8_t *bytes, const uint8_t *other, size_t len, brsp_part *parts, size_t capacity)
{
    static const char *const names[] = { "DMEM ", "IMEM ", "RDRAM " };
    size_t count = 0;
    for (size_t at = 0; at < len; at += QUADWORD) {
        const size_t size = len - at < QUADWORD ? len - at : QUADWORD; /* RDRAM may end with eight bytes */
        if (!is_other(bytes + at, other + at, size) || count++ >= capacity) continue;
        brsp_part *part = &parts[count - 1];
        writer name = { part->name, sizeof part->name, 0 };
        memset(part, 0, sizeof *part);
        put_text(&name, bank < 3 ? names[bank] : "");
        put_hex_from(&name, at, 3);
        read_quadword(bytes + at, size, part->value);
        read_quadword(other + at, size, part->other);
        part->digits = 2 * QUADWORD;
        part->bank = bank;
        part->address = (uint32_t)at;
    }
    return count;
}

size_t brsp_part_text(const brsp_part *part, const char *here, const char *there, char *text, size_t capacity)
{
    writer w = { text, capacity, 0 };
    put_text(&w, part->name);
    put_text(&w, " is ");
    put_value(&w, part->value, part->digits);
    put(&w, ' ');
    put_text(&w, here);
    put_text(&w, " and ");
    put_value(&w, part->other, part->digits);
    put(&w, ' ');
    put_text(&w, there);
    return ended(&w);
}

/* ---- Structures as text ---- */

/* Numbers in a line after a name, which has its number in two digits. */
static void put_numbers(writer *w, char name, unsigned n, const void *structure, row r)
{
    put(w, '\n');
    put(w, name);
    put_decimal(w, n, 2);
    for (uint32_t it = 0; it < r.count; it++) {
        uint64_t value[2];
        read_number(&r, structure, it, value);
        put(w, ' ');
        put_value(w, value, r.digits);
    }
}

/* Rows of one number each, with their names, and with a character between two. */
static void put_rows(writer *w, const row *rows, const void *structure, char between)
{
    for (const row *r = rows; r->name; r++) {
        for (uint32_t n = 0; n < r->count; n++) {
            uint64_t value[2];
            if (r != rows || n) put(w, between);
            put_name(w, r, n);
            put(w, ' ');
            read_number(r, structure, n, value);
            put_value(w, value, r->digits);
        }
    }
}

/* The lines of `regs`. `rows` are the scalars. */
static void put_scalars(writer *w, const row *rows, const void *structure)
{
    const row counters[] = { rows[0], rows[1], END };
    put_rows(w, counters, structure, ' ');
    for (uint32_t n = 0; n < 32; n += 4) {
        row four = rows[2];
        four.at += n * U32, four.count = 4;
        put_numbers(w, 'r', n, structure, four);
    }
}

static void put_accumulators(writer *w, const brsp_accumulators *it)
{
    for (unsigned lane = 0; lane < 8; lane++) {
        uint64_t value[2];
        if (lane) put(w, '\n');
        put(w, 'a');
        put_number(w, lane);
        put(w, ' ');
        read_number(of_accumulators, it, lane, value);
        put_value(w, value, 12);
    }
}

static void put_state(writer *w, const brsp_state *state)
{
    put_scalars(w, of_state, state);
    for (uint32_t n = 0; n < 32; n++) {
        const row lanes = { "", offsetof(brsp_state, vectors) + 16 * n, U16, 8, 4 };
        put_numbers(w, 'v', n, state, lanes);
    }
    put(w, '\n');
    put_rows(w, of_flags, &state->flags, ' ');
    put(w, ' ');
    put_rows(w, of_divider, &state->divider, ' ');
}

static void put_traced(writer *w, const brsp_traced *it)
{
    static const row flags[] = { { "vco", offsetof(brsp_traced, vco), U16, 1, 4 }, { "vcc", offsetof(brsp_traced, vcc), U16, 1, 4 },
                                 { "vce", offsetof(brsp_traced, vce), U8, 1, 2 }, END };
    put_hex(w, it->pc, 3);
    put(w, ' ');
    put_hex(w, it->word, 8);
    if (it->scalar) put_text(w, " $"), put_number(w, it->scalar), put(w, ' '), put_hex(w, it->value, 8);
    if (it->vector < 32) {
        put_text(w, " $v");
        put_number(w, it->vector);
        for (unsigned lane = 0; lane < 8; lane++) put(w, ' '), put_hex(w, it->lanes[lane], 4);
    }
    if (it->stored) put_text(w, " stored "), put_hex(w, it->address, 3);
    put(w, ' ');
    put_rows(w, flags, it, ' ');
}

static void put_changes(writer *w, const brsp_changes *it)
{
    const row *rest = of_changes;
    while (!is_equal(rest->name, "next pc")) rest++;
    const row some[] = { rest[0], rest[1], rest[2], rest[3], rest[4], rest[5], END };
    put_traced(w, &it->traced);
    put(w, '\n');
    put_accumulators(w, &it->accumulators);
    put(w, '\n');
    put_rows(w, some, it, ' ');
    put_text(w, " bytes ");
    for (unsigned n = 0; n < sizeof it->bytes; n++) put_hex(w, it->bytes[n / QUADWORD][n % QUADWORD], 2);
}

size_t brsp_structure_text(uint32_t kind, const void *structure, char *text, size_t capacity)
{
    writer w = { text, capacity, 0 };
    switch (kind) {
    case BRSP_OF_STATE: put_state(&w, (const brsp_state *)structure); break;
    case BRSP_OF_SCALARS: put_scalars(&w, of_scalars, structure); break;
    case BRSP_OF_ACCUMULATORS: put_accumulators(&w, (const brsp_accumulators *)structure); break;
    case BRSP_OF_FLAGS: put_rows(&w, of_flags, structure, ' '); break;
    case BRSP_OF_DIVIDER: put_rows(&w, of_divider, structure, ' '); break;
    case BRSP_OF_SP: put_rows(&w, of_sp, structure, '\n'); break;
    case BRSP_OF_TRACED: put_traced(&w, (const brsp_traced *)structure); break;
    case BRSP_OF_CHANGES: put_changes(&w, (const brsp_changes *)structure); break;
    default: break;
    }
    return ended(&w);
}
