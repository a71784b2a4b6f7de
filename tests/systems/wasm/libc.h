/* What the tests of the library need of the C library, in WebAssembly. stdio.h and its kin are this file there. */
#ifndef LIBC_H
#define LIBC_H

typedef __SIZE_TYPE__ size_t;
typedef __UINT8_TYPE__ uint8_t;
typedef __UINT16_TYPE__ uint16_t;
typedef __UINT32_TYPE__ uint32_t;
typedef __UINT64_TYPE__ uint64_t;
typedef __INT16_TYPE__ int16_t;
typedef __INT32_TYPE__ int32_t;
typedef __INT64_TYPE__ int64_t;
typedef long clock_t;

#define NULL ((void *)0)
#define SIZE_MAX __SIZE_MAX__
#define CLOCKS_PER_SEC 1000000
#define offsetof(type, member) __builtin_offsetof(type, member)

int printf(const char *form, ...) __attribute__((format(printf, 1, 2)));
int puts(const char *text);
#define fprintf(to, ...) printf(__VA_ARGS__)
void *malloc(size_t len);
void *realloc(void *at, size_t len);
void free(void *at);
void *memcpy(void *to, const void *from, size_t len);
void *memmove(void *to, const void *from, size_t len);
void *memset(void *to, int byte, size_t len);
int memcmp(const void *a, const void *b, size_t len);
size_t strlen(const char *text);
int strcmp(const char *a, const char *b);
unsigned long strtoul(const char *text, char **end, int base);
long atol(const char *text);
void qsort(void *items, size_t count, size_t size, int (*compare)(const void *, const void *));
clock_t clock(void);

#endif
