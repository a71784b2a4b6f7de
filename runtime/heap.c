/* The kit's three functions of the heap, over malloc, realloc and free of the C library.
 *
 * Each returns two numbers in two registers, as the library expects. By the contract of the kit's functions an alignment is at most 16, which is
 * that of malloc. */
typedef __SIZE_TYPE__ size;

typedef struct tried {
    size is_there, at;
} tried;

void *malloc(size n);
void *realloc(void *at, size n);
void free(void *at);

static char nothing;

static tried answer(void *at) { return (tried){ at != 0, (size)(at ? at : &nothing) }; }

#ifdef __x86_64__
static unsigned features(unsigned leaf)
{
    unsigned eax = leaf, ebx, ecx = 0, edx;
    __asm__("cpuid" : "+a"(eax), "=b"(ebx), "+c"(ecx), "=d"(edx));
    return ecx;
}

/* Whether the processor has x86-64-v2, for which the library is compiled: SSE3, SSSE3, CMPXCHG16B, SSE4.1, SSE4.2, POPCNT, and LAHF. It is asked once,
 * because a virtual machine answers slowly; threads that ask at once find the same. */
static int is_able(void)
{
    enum { WANTED = 1 | 1 << 9 | 1 << 13 | 1 << 19 | 1 << 20 | 1 << 23, YES = 1, NO = 2 };
    static int known;
    int found = __atomic_load_n(&known, __ATOMIC_RELAXED);
    if (!found) {
        found = (features(1) & WANTED) == WANTED && (features(0x80000001) & 1) ? YES : NO;
        __atomic_store_n(&known, found, __ATOMIC_RELAXED);
    }
    return found == YES;
}
#else
static int is_able(void) { return 1; }
#endif

/* An older processor has no memory to give. So brsp_new, a program's first call, returns a status there, and no later call, which could end the program
 * by an instruction that the processor lacks, has a machine. */
tried rattle_alloc(size n, size align) { return answer(is_able() ? malloc(n ? n : align) : 0); }

tried rattle_realloc(void *at, size kept, size n, size align)
{
    (void)kept;
    return answer(realloc(at, n ? n : align));
}

void rattle_dealloc(void *at) { free(at); }
