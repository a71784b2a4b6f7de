// An emulator in C++ as a shared object of cases: a class over the library, and the calls that side.h asks for. The names before them are such as
// emulators have, so cases.h and side.h may not have them.
enum { DMEM, IMEM, RDRAM, RDRAM_LENGTH, MEMORIES, UNSHOWN };
struct machine {};
struct side {};
int digest, is_dma, make, is_shown, set, step, get, put, load, look, one;
#include "cases.h"
#include <array>

class Wrapped {
public:
    bool open() { return brsp_new(&handle, image.data(), image.size(), 0) == BRSP_OK; }
    bool set(const brsp_state &state) { return brsp_set(&handle, &state) == BRSP_OK; }
    void get(brsp_state &state) { brsp_get(&handle, &state); }
    uint32_t step() { return brsp_step(&handle); }
    void put(uint32_t pc, uint32_t word) { brsp_load_words(&handle, BRSP_IMEM, pc, &word, 1); }

    void load(const uint8_t *memories, size_t to)
    {
        for (uint32_t bank = 0; starts[bank] < to; bank++) brsp_load(&handle, bank, 0, memories + starts[bank], starts[bank + 1] - starts[bank]);
    }

    void look(uint8_t *memories, size_t to)
    {
        for (uint32_t bank = 0; starts[bank] < to; bank++) brsp_memory(&handle, bank, 0, memories + starts[bank], starts[bank + 1] - starts[bank]);
    }

private:
    static constexpr std::array<size_t, 4> starts{ CASES_DMEM, CASES_IMEM, CASES_RDRAM, CASES_MEMORIES };
    std::array<uint8_t, CASES_RDRAM_LENGTH> image{};
    brsp_machine handle = BRSP_NONE;
};

using side_machine = Wrapped *;

static int side_make(side_machine *m, const char *) { *m = new Wrapped; return (*m)->open(); }
static int side_is_shown(const brsp_case *) { return 1; }
static int side_set(side_machine *m, const brsp_state *s) { return (*m)->set(*s); }
static uint32_t side_step(side_machine *m) { return (*m)->step(); }
static void side_get(side_machine *m, brsp_state *s) { (*m)->get(*s); }
static void side_put(side_machine *m, uint32_t pc, uint32_t word) { (*m)->put(pc, word); }
static void side_load(side_machine *m, const uint8_t *memories, size_t to) { (*m)->load(memories, to); }
static void side_look(side_machine *m, uint8_t *memories, size_t to) { (*m)->look(memories, to); }

#include "side.h"
