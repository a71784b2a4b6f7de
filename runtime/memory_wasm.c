/* Where allocator.c has its memory in WebAssembly, and four functions that the library calls. */
typedef __SIZE_TYPE__ size;

enum { PAGE = 65536, MOST_PAGES = 65536, UNIT = 16, LEAST = 64 };

/* The linker's: the end of stack and data, and that of the memory at the start. */
extern char __heap_base, __heap_end;

char *heap_more(size len, size *got);
void *memcpy(void *to, const void *from, size len);
void *memmove(void *to, const void *from, size len);
void *memset(void *to, int byte, size len);
void __multi3(unsigned long long *product, unsigned long long a, unsigned long long a_high, unsigned long long b,
              unsigned long long b_high);

/* At first what the memory has after the data. Others may have grown it before. Lowering to a 32-bit memory cuts the
 * number of pages to 32 bits, and then a memory that can't grow returns 2^32 - 1 and not 2^64 - 1. */
char *heap_more(size len, size *got)
{
    static int is_begun;
    size first = ((size)&__heap_base + UNIT - 1) & ~(size)(UNIT - 1), end = (size)&__heap_end;
    size pages = len / PAGE + (len % PAGE != 0);
    if (!is_begun && end - first >= LEAST) {
        is_begun = 1;
        *got = end - first;
        return (char *)first;
    }
    if (pages > MOST_PAGES) return 0;
    first = __builtin_wasm_memory_grow(0, pages);
    *got = pages * PAGE;
    return first > MOST_PAGES ? 0 : (char *)(first * PAGE);
}

void *memcpy(void *to, const void *from, size len) { return __builtin_memcpy(to, from, len); }

void *memmove(void *to, const void *from, size len) { return __builtin_memmove(to, from, len); }

void *memset(void *to, int byte, size len) { return __builtin_memset(to, byte, len); }

/* The product of two numbers of 128 bits, its low half first: clang calls it where a product of 64 bits may be too large. */
void __multi3(unsigned long long *product, unsigned long long a, unsigned long long a_high, unsigned long long b,
              unsigned long long b_high)
{
    const unsigned long long half = 0xffffffff;
    unsigned long long low = (a & half) * (b & half), middle = (a >> 32) * (b & half) + (low >> 32);
    unsigned long long other = (a & half) * (b >> 32) + (middle & half);
    product[0] = other << 32 | (low & half);
    product[1] = (a >> 32) * (b >> 32) + (middle >> 32) + (other >> 32) + a * b_high + a_high * b;
}
