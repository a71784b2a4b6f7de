/* How many bytes of stack each call of brsp.h uses. A thread gets a stack that is filled with one byte; after the call, the lowest byte that
 * has changed shows how far it went. A thread that makes no call is the measure that is taken off. On Windows, which takes no stack from a
 * program, a thread fills its own. The last line is `N passed, M failed`; with an argument each call is printed. */
#ifdef _WIN32
#include <windows.h>
#else
#define _POSIX_C_SOURCE 200809L
#include <pthread.h>
#endif
#include "brsp.h"
#include "each_call.h"
#include <stdio.h>
#include <stdlib.h>
#include <string.h>

enum { STACK_SIZE = 1 << 20, FILL = 0xa5 };

static brsp_machine m = BRSP_NONE, copy = BRSP_NONE;
static uint8_t bytes[4096], image[8192];
static uint32_t words[1024], word;
static char text[65536];
static const char faulty[] = "asm 0\nvadd $v1 , $5, v3\nmulff $1\nlqv $v1, 4, 2, $16\nj 0x1080\n.word 99999999999, x y\nend\n";
static brsp_state state;
static brsp_sp_words sp;
static brsp_line lines[1024];
static brsp_stop stop;
static brsp_assembled assembled;
static brsp_operand operand;
static brsp_label found[4];
static size_t number;
static brsp_move move;
static brsp_reached reached;
static brsp_traced entries[256];
static brsp_changes changes;

static brsp_session b = BRSP_NONE;
static uint8_t reply[BRSP_REPLIES];
static size_t written;

static void nothing(void) { }
static void version(void) { word = brsp_version(); }
static void make(void) { word = brsp_new(&m, image, sizeof image, 4096); }
static void copied(void) { word = brsp_copy(&copy, &m); }
static void freed(void) { brsp_free(&copy); }
static void get(void) { word = brsp_get(&m, &state); }
static void set(void) { word = brsp_set(&m, &state); }
static void fault(void) { brsp_state_fault(&state, &word); }
static void load(void) { word = brsp_load(&m, BRSP_DMEM, 0, bytes, 4096); }
static void memory(void) { word = brsp_memory(&m, BRSP_DMEM, 0, bytes, 4096); }
static void load_words(void) { word = brsp_load_words(&m, BRSP_IMEM, 0, words, 1024); }
static void memory_words(void) { word = brsp_memory_words(&m, BRSP_IMEM, 0, words, 1024); }
static void task(void) { word = brsp_start_task(&m, 0); }
static void step(void) { word = brsp_step(&m); }
static void changed(void) { word = brsp_step_changes(&m, &changes); }
static void run(void) { word = brsp_run(&m, 100000, &stop); }
static void run_until_move(void) { word = brsp_run_until_move(&m, 100000, 1, 0, &move); }
static void event(void) { word = brsp_event(&m, 100000, 0xffff, 0xffff, &reached); }
static void traced(void) { word = brsp_trace(&m, entries, 256, &stop); }
static void add_break(void) { word = brsp_add_break(&m, 4092); }
static void add_watch(void) { word = brsp_add_watch(&m, 4032, 64, &number); }
static void transfer(void) { word = brsp_write(&m, 2, 0xfffff); }
static void described(void) { word = brsp_write_dma(&m, 2, 0xfffff, &reached.dma); }
static void set_sp(void) { word = brsp_sp(&m, &sp) | brsp_set_sp(&m, &sp); }
static void assemble(void) { word = brsp_assemble(0, (const uint8_t *)text, strlen(text), words, 1024, &assembled); }
static void explain(void) { word = brsp_explain(0, (const uint8_t *)text, strlen(text), &operand); }
static void explain_text(void) { word = brsp_explain_text(0, (const uint8_t *)faulty + 6, strlen(faulty) - 6, reply, sizeof reply, &number); }
static void explain_reply(void)
{
    static const char fault[] = "fault 12 BadOperand line 1";
    word = brsp_explain_reply(0, (const uint8_t *)faulty, strlen(faulty), (const uint8_t *)fault, strlen(fault), reply, sizeof reply, &number);
}
static void labels(void) { word = brsp_labels(0, (const uint8_t *)text, strlen(text), found, 4, &number); }
static void disassemble(void) { word = brsp_text(0x4a631050u, 0, lines); }
static void listing(void) { word = brsp_listing(&m, 0, lines, 1024); }
static void session(void) { word = brsp_session_new(&b, image, sizeof image); }
static void give(const char *bytes, size_t len)
{
    for (; len; bytes += number, len -= number)
        word = brsp_session_take(&b, (const uint8_t *)bytes, len, &number, reply, sizeof reply, &written);
}
static void open_block(void) { give("asm 0\n", 6); give(text, strlen(text)); }
static void close_block(void) { give("end\n", 4); }
static void session_run(void) { give("watch 0 64\nrun 100000\n", 22); }
static void session_looks(void) { give("vregs\nregs\nmem dmem 0 1024\ndis 0 64\n", 37); }
static void session_memory(void) { word = brsp_session_memory(&b, BRSP_RDRAM, 0, bytes, sizeof bytes); }
static void session_end(void) { give("vregs", 5); word = brsp_session_end(&b, reply, sizeof reply, &written); }
static void session_free(void) { brsp_session_free(&b); }

/* Those above are given what costs them most; here is each call on a handle, given little. */
static uint64_t room[4][128];
#define ONE(n) 1
#define ROOM(n) room[n]
#define MAKE(call, given) static void each_##call(void) { word = call given; }
#define ENTRY(call, given) { #call " of 1", each_##call },
EACH_CALL(MAKE, &m, &b, ONE, ROOM)

/* In an order in which they follow one another: `assemble` fills `words`, and the steps run what it made. */
static const struct {
    const char *name;
    void (*made)(void);
} calls[] = {
    { "nothing", nothing }, { "brsp_version", version }, { "brsp_new", make }, { "brsp_assemble", assemble }, { "brsp_load_words", load_words },
    { "brsp_explain", explain }, { "brsp_explain_text", explain_text }, { "brsp_explain_reply", explain_reply }, { "brsp_labels", labels },
    { "brsp_load", load }, { "brsp_memory", memory }, { "brsp_memory_words", memory_words }, { "brsp_step", step }, { "brsp_run", run },
    { "brsp_step_changes", changed },
    { "brsp_run_until_move", run_until_move }, { "brsp_event", event }, { "brsp_trace", traced },
    { "brsp_add_watch", add_watch }, { "brsp_add_break", add_break }, { "brsp_run with both", run },
    { "brsp_copy", copied }, { "brsp_free", freed }, { "brsp_get", get },
    { "brsp_set", set }, { "brsp_state_fault", fault },
    { "brsp_write", transfer }, { "brsp_write_dma", described }, { "brsp_set_sp", set_sp }, { "brsp_text", disassemble }, { "brsp_listing", listing },
    { "brsp_start_task", task }, { "brsp_session_new", session }, { "brsp_session_take of lines", open_block }, { "brsp_session_take of end", close_block },
    { "brsp_session_take of run", session_run }, { "brsp_session_take of looks", session_looks }, { "brsp_session_memory", session_memory },
    { "brsp_session_end", session_end }, { "brsp_session_free", session_free }, EACH_CALL(ENTRY, &m, &b, ONE, ROOM)
};

#ifdef _WIN32
static uintptr_t lowest;

/* Makes the system give the stack room below the caller. */
static void take_pages(int count)
{
    volatile uint8_t page[4096];
    page[0] = FILL;
    lowest = (uintptr_t)page;
    if (count) take_pages(count - 1);
    page[1] = page[0];
}

/* Fills the room below its own part of the stack, and looks there after the call. */
static DWORD WINAPI in_thread(void *given)
{
    volatile uint8_t own = FILL;
    uintptr_t top = (uintptr_t)&own - 512, at;
    size_t *n = (size_t *)given;
    take_pages(STACK_SIZE / 2 / 4096);
    for (at = lowest; at < top; at++) *(volatile uint8_t *)at = own;
    calls[*n].made();
    for (at = lowest; at < top && *(volatile uint8_t *)at == FILL; at++) { }
    *n = top - at;
    return 0;
}

static void begin(void) { }

/* How many bytes of the stack the call has changed, below some that are the thread's own. */
static size_t used(size_t n)
{
    HANDLE thread = CreateThread(NULL, STACK_SIZE, in_thread, &n, STACK_SIZE_PARAM_IS_A_RESERVATION, NULL);
    if (!thread || WaitForSingleObject(thread, INFINITE)) exit(2);
    CloseHandle(thread);
    return n;
}
#else
static uint8_t *stack;

static void *in_thread(void *given)
{
    calls[*(size_t *)given].made();
    return NULL;
}

static void begin(void)
{
    if (posix_memalign((void **)&stack, 4096, STACK_SIZE)) exit(2);
}

/* How many bytes of the stack the call has changed. */
static size_t used(size_t n)
{
    pthread_attr_t attr;
    pthread_t thread;
    size_t low = 0;
    memset(stack, FILL, STACK_SIZE);
    if (pthread_attr_init(&attr) || pthread_attr_setstack(&attr, stack, STACK_SIZE) || pthread_create(&thread, &attr, in_thread, &n)) exit(2);
    pthread_join(thread, NULL);
    while (low < STACK_SIZE && stack[low] == FILL) low++;
    return STACK_SIZE - low;
}
#endif

/* A text of 1024 words with labels and the most expensive operands. */
static void fill_text(void)
{
    size_t n, len = 0;
    for (n = 0; n < 340; n++) {
        len += (size_t)sprintf(text + len, "label_%u: lqv $v1[0], 16($0)\nvmudh $v2, $v1, $v1[1q]\n", (unsigned)n);
        len += (size_t)sprintf(text + len, "beq $0, $0, label_%u\n", (unsigned)(n ? n - 1 : 0));
    }
}

/* How much brsp.h gives a call: the calls of texts and scripts, and the one that makes a machine, need more than all others. */
static size_t limit_of(const char *name)
{
    static const char *const large[] = { "brsp_new", "brsp_assemble", "brsp_labels", "brsp_explain", "brsp_session" };
    size_t n;
    for (n = 0; n < sizeof large / sizeof *large; n++)
        if (strncmp(name, large[n], strlen(large[n])) == 0) return BRSP_STACK;
    return BRSP_MACHINE_STACK;
}

int main(int argc, char **argv)
{
    size_t n, most = 0, none = 0;
    int failed = 0;
    (void)argv;
    image[64 + 0x08 + 2] = 1, image[0x0c + 3] = 8;
    begin();
    fill_text();
    used(0); /* the first thread also does what a C library does once */
    for (n = 0; n < sizeof calls / sizeof *calls; n++) {
        size_t bytes_used = used(n);
        if (n == 0) none = bytes_used;
        if (argc > 1) printf("%-20s %6zu, status %u\n", calls[n].name, bytes_used - none, (unsigned)word);
        if (bytes_used - none > most) most = bytes_used - none;
        if (bytes_used - none > limit_of(calls[n].name) / 2) {
            failed++;
            printf("FAIL %s uses %zu bytes of stack, more than half of %zu\n", calls[n].name, bytes_used - none, limit_of(calls[n].name));
        }
    }
    if (most < 512) failed++, printf("FAIL no call was seen to use stack\n");
    printf("%d passed, %d failed\n", (int)(n - (size_t)failed), failed);
    return failed != 0;
}
