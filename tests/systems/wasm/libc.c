/* What libc.h declares, as far as the tests use it: printf of %s, %d, %u, %lu, %ld and %x with zeros. */
#include "libc.h"

/* What the page gives: it takes text, and has a clock in microseconds. */
void page_write(const char *text, size_t len);
clock_t page_clock(void);

clock_t clock(void) { return page_clock(); }

size_t strlen(const char *text)
{
    size_t n = 0;
    while (text[n]) n++;
    return n;
}

int memcmp(const void *a, const void *b, size_t len)
{
    const uint8_t *x = (const uint8_t *)a, *y = (const uint8_t *)b;
    size_t n;
    for (n = 0; n < len; n++)
        if (x[n] != y[n]) return x[n] - y[n];
    return 0;
}

int strcmp(const char *a, const char *b)
{
    while (*a && *a == *b) a++, b++;
    return (uint8_t)*a - (uint8_t)*b;
}

unsigned long strtoul(const char *text, char **end, int base)
{
    unsigned long value = 0;
    (void)end;
    while (*text >= '0' && *text <= '9') value = value * (unsigned long)base + (unsigned long)(*text++ - '0');
    return value;
}

long atol(const char *text) { return (long)strtoul(text, NULL, 10); }

static void exchange(char *a, char *b, size_t size)
{
    while (size--) {
        char kept = *a;
        *a++ = *b;
        *b++ = kept;
    }
}

void qsort(void *items, size_t count, size_t size, int (*compare)(const void *, const void *))
{
    char *first = (char *)items, *at, *it;
    for (at = first + size; at < first + count * size; at += size)
        for (it = at; it > first && compare(it - size, it) > 0; it -= size) exchange(it - size, it, size);
}

static void put_number(unsigned long value, unsigned base, size_t width)
{
    char digits[24];
    size_t at = sizeof digits;
    do {
        digits[--at] = "0123456789abcdef"[value % base];
        value /= base;
    } while (value);
    while (sizeof digits - at < width) digits[--at] = '0';
    page_write(digits + at, sizeof digits - at);
}

static void put_signed(long value)
{
    if (value < 0) page_write("-", 1);
    put_number(value < 0 ? 0 - (unsigned long)value : (unsigned long)value, 10, 0);
}

int puts(const char *text)
{
    page_write(text, strlen(text));
    page_write("\n", 1);
    return 0;
}

int printf(const char *form, ...)
{
    __builtin_va_list given;
    __builtin_va_start(given, form);
    for (; *form; form++) {
        size_t width = 0;
        int is_long = 0;
        const char *text;
        if (*form != '%') {
            page_write(form, 1);
            continue;
        }
        for (form++; *form >= '0' && *form <= '9'; form++) width = width * 10 + (size_t)(*form - '0');
        for (; *form == 'l' || *form == 'z'; form++) is_long = 1;
        switch (*form) {
        case 's':
            text = __builtin_va_arg(given, const char *);
            page_write(text, strlen(text));
            break;
        case 'd': put_signed(is_long ? __builtin_va_arg(given, long) : __builtin_va_arg(given, int)); break;
        default:
            put_number(is_long ? __builtin_va_arg(given, unsigned long) : __builtin_va_arg(given, unsigned),
                       *form == 'x' ? 16 : 10, width);
        }
    }
    __builtin_va_end(given);
    return 0;
}
