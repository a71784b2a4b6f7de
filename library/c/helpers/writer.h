/* What the helpers share: writing texts, and comparing bytes. */
#ifndef BRSP_WRITER_H
#define BRSP_WRITER_H

#include "../brsp_helpers.h"

/* All that is called of the C library, by the compiler's names, so that a number is copied without a call even if it doesn't know that library
 * (-ffreestanding). */
#define memcpy __builtin_memcpy
#define memset __builtin_memset

/* Of a function that is called in many places. Inlined, the texts would take twice the code. */
#define SHARED static __attribute__((noinline, unused))

enum { QUADWORD = 16 };

/* A text of which as much is written as fits before a NUL. */
typedef struct writer {
    char *to;
    size_t capacity, length;
} writer;

SHARED void put(writer *w, char it)
{
    if (w->length + 1 < w->capacity) w->to[w->length] = it;
    w->length++;
}

SHARED void put_text(writer *w, const char *text)
{
    while (*text) put(w, *text++);
}

SHARED void put_hex(writer *w, uint64_t number, uint32_t digits)
{
    while (digits--) put(w, "0123456789abcdef"[digits < 16 ? number >> 4 * digits & 15 : 0]);
}

SHARED void put_hex_from(writer *w, uint64_t number, uint32_t least)
{
    while (least < 16 && number >> 4 * least) least++;
    put_hex(w, number, least);
}

SHARED void put_decimal(writer *w, uint64_t number, unsigned least)
{
    char digits[20];
    unsigned count = 0;
    do digits[count++] = (char)('0' + number % 10);
    while ((number /= 10) || count < least);
    while (count) put(w, digits[--count]);
}

SHARED void put_number(writer *w, uint64_t number) { put_decimal(w, number, 1); }

SHARED void put_signed(writer *w, int64_t number)
{
    if (number < 0) put(w, '-');
    put_number(w, number < 0 ? 0 - (uint64_t)number : (uint64_t)number);
}

/* Ends a text. Returns its length, whole or not. */
SHARED size_t ended(writer *w)
{
    if (w->capacity) w->to[w->length < w->capacity ? w->length : w->capacity - 1] = 0;
    return w->length;
}

static inline int is_equal(const char *text, const char *other)
{
    for (; *text == *other; text++, other++)
        if (!*text) return 1;
    return 0;
}

static inline int begins(const char *text, const char *with)
{
    while (*with)
        if (*text++ != *with++) return 0;
    return 1;
}

/* The number of at most a quadword of bytes, the first of them highest: its high 64 bits, and the low ones. */
static inline void read_quadword(const uint8_t *bytes, size_t size, uint64_t value[2])
{
    value[0] = value[1] = 0;
    for (size_t n = 0; n < size; n++) {
        value[0] = value[0] << 8 | value[1] >> 56;
        value[1] = value[1] << 8 | bytes[n];
    }
}

/* Whether bytes differ. */
static inline int is_other(const uint8_t *here, const uint8_t *there, size_t len)
{
    size_t at = 0;
    uint64_t mine, its;
    for (; at + sizeof mine <= len; at += sizeof mine) {
        memcpy(&mine, here + at, sizeof mine);
        memcpy(&its, there + at, sizeof its);
        if (mine != its) return 1;
    }
    for (; at < len; at++)
        if (here[at] != there[at]) return 1;
    return 0;
}

#endif
