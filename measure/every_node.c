/* The worker of conformance/every in WebAssembly, over the functions of rsp.wasm, which take addresses and lengths of 64 bits. It is in the memory of
 * rsp.wasm, after what that has at the start. every_node.mjs runs it in Node. */
#include "../conformance/rsp_conformance/every/every.h"

#ifdef __wasm__
#define OF_RSP(name) __attribute__((import_module("rsp"), import_name(#name)))
#define EXPORTED __attribute__((visibility("default")))
#else /* to be read by other compilers */
#define OF_RSP(name)
#define EXPORTED
#endif
typedef uint64_t address;
OF_RSP(brsp_new) uint32_t rsp_new(address m, address image, uint64_t length, uint32_t depth);
OF_RSP(brsp_set) uint32_t rsp_set(address m, address s);
OF_RSP(brsp_get) uint32_t rsp_get(address m, address s);
OF_RSP(brsp_step) uint32_t rsp_step(address m);
OF_RSP(brsp_vreg) uint32_t rsp_vreg(address m, uint32_t n, address into);
OF_RSP(brsp_acc) uint32_t rsp_acc(address m, address into);
OF_RSP(brsp_flags) uint32_t rsp_flags(address m, address into);
OF_RSP(brsp_load_words) uint32_t rsp_load_words(address m, uint32_t bank, uint32_t from, address words, uint64_t count);
OF_RSP(brsp_load) uint32_t rsp_load(address m, uint32_t bank, uint32_t from, address bytes, uint64_t length);
OF_RSP(brsp_memory) uint32_t rsp_memory(address m, uint32_t bank, uint32_t from, address bytes, uint64_t length);

typedef struct side_machine { uint64_t handle; } side_machine;
static const uint8_t zeros[CASES_RDRAM_LENGTH] = { 0 };
static const size_t start_of[] = { CASES_DMEM, CASES_IMEM, CASES_RDRAM, CASES_MEMORIES };
static address at(const void *pointer) { return (uintptr_t)pointer; }

static int side_make(side_machine *m, const char *what) { (void)what; return rsp_new(at(m), at(zeros), sizeof zeros, 0) == BRSP_OK; }
static int side_is_shown(const brsp_case *in) { (void)in; return 1; }
static int side_set(side_machine *m, const brsp_state *s) { return rsp_set(at(m), at(s)) == BRSP_OK; }
static uint32_t side_step(side_machine *m) { return rsp_step(at(m)); }
static void side_get(side_machine *m, brsp_state *s) { rsp_get(at(m), at(s)); }
static void side_put(side_machine *m, uint32_t pc, uint32_t word) { rsp_load_words(at(m), BRSP_IMEM, pc, at(&word), 1); }
static void side_load(side_machine *m, const uint8_t *memories, size_t to)
{
    for (uint32_t bank = 0; start_of[bank] < to; bank++)
        rsp_load(at(m), bank, 0, at(memories + start_of[bank]), start_of[bank + 1] - start_of[bank]);
}
static void side_look(side_machine *m, uint8_t *memories, size_t to)
{
    for (uint32_t bank = 0; start_of[bank] < to; bank++)
        rsp_memory(at(m), bank, 0, at(memories + start_of[bank]), start_of[bank + 1] - start_of[bank]);
}
#define SIDE_LANES lanes
static void lanes(side_machine *m, uint32_t vd, brsp_lane_ends *ends, uint32_t i)
{
    brsp_accumulators a;
    rsp_vreg(at(m), vd, at(ends->result[i]));
    rsp_acc(at(m), at(&a));
    rsp_flags(at(m), at(ends->flags + i));
    memcpy(ends->high[i], a.high, 16);
    memcpy(ends->middle[i], a.middle, 16);
    memcpy(ends->low[i], a.low, 16);
}
#include "../conformance/rsp_conformance/campaign/side.h"

/* side.h asks for memory for itself, here and in second.c. */
static uint64_t sides[2][1 << 15];
static int used;
void *calloc(size_t count, size_t size) { return count == 1 && size <= sizeof sides[0] && used < 2 ? sides[used++] : NULL; }

static progress made;
static uint8_t memories[CASES_MEMORIES];
static char setting[32], kind_name[32];
static test running;
EXPORTED uint8_t *memories_at(void) { return memories; }
EXPORTED char *setting_at(void) { return setting; }
EXPORTED char *kind_at(void) { return kind_name; }
EXPORTED progress *progress_at(void) { return &made; }
EXPORTED uint32_t progress_length(void) { return sizeof made; }
EXPORTED int begin(uint32_t value, uint32_t bits) /* 0 if it can't */
{
    shared = &made, memories_before = memories, made.has_lanes = 1;
    running = (test){ value, bits, setting };
    tested = (emulator){ cases_open("", memories), cases_run, cases_lanes, cases_load };
    model = open_model(memories);
    memset(&seen, 255, sizeof seen);
    seen.state.zero = 0;
    make_edges();
    return tested.at && model.at && kind_of(kind_name);
}
EXPORTED void run_some(uint64_t from, uint64_t to)
{
    kind *run = kind_of(kind_name);
    for (; from < to; from++) run_position(run, &running, from);
}
