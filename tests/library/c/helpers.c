/* The search for the first difference, and the texts of brsp_helpers.h. An emulator is a second machine with a fault; random programs find the step
 * of a fault in stretches of any length. The last line is `N passed, M failed`. */
#include "brsp_compare.h"
#include "random_program.h"

enum { IMAGE = 4096 + 8, STATE = sizeof(brsp_state) };
typedef enum { IN_STATE, IN_DMEM, IN_IMEM, IN_RDRAM, NOWHERE } place;

static int passed, failed;

static void see(const char *what, int is_right)
{
    passed += is_right;
    failed += !is_right;
    if (!is_right && failed < 20) printf("FAIL %s\n", what);
}

/* A machine that changes a bit in a memory, or in its state, after the step from a state; or that runs or answers wrongly. */
typedef struct emulator {
    brsp_machine m;
    brsp_state before;
    place where;
    uint32_t at, bit, step_at; /* the byte and the bit of it; the pc of a step that it leaves out, or 1 */
    int lies, lies_at, skips;  /* in all states, or before the word at this address; the last step of a stretch */
} emulator;

static void spoil(emulator *e)
{
    uint8_t byte;
    brsp_state state;
    if (e->where == IN_STATE) {
        brsp_get(&e->m, &state);
        ((uint8_t *)&state)[e->at] ^= (uint8_t)(1 << e->bit);
        brsp_set(&e->m, &state);
    } else if (e->where != NOWHERE) {
        const uint32_t bank = (uint32_t)e->where - IN_DMEM;
        brsp_memory(&e->m, bank, e->at, &byte, 1);
        byte ^= (uint8_t)(1 << e->bit);
        brsp_load(&e->m, bank, e->at, &byte, 1);
    }
}

static void run(void *self, uint32_t steps)
{
    emulator *e = (emulator *)self;
    for (steps -= e->skips && steps > 1; steps; steps--) {
        brsp_state state;
        brsp_get(&e->m, &state);
        if (state.pc == e->step_at) continue;
        brsp_step(&e->m);
        if (!memcmp(&state, &e->before, STATE)) spoil(e);
    }
}

static void get(void *self, brsp_state *state)
{
    emulator *e = (emulator *)self;
    brsp_get(&e->m, state);
    if (e->lies || (e->lies_at && state->pc == (uint32_t)e->lies_at)) state->words[9] ^= 0x80;
    state->zero = 0x5a; /* which has no meaning */
}

static void set(void *self, const brsp_state *state) { brsp_set(&((emulator *)self)->m, state); }

static void memory(void *self, uint32_t bank, uint32_t address, uint8_t *bytes, size_t len)
{
    brsp_memory(&((emulator *)self)->m, bank, address, bytes, len);
}

static void load(void *self, uint32_t bank, uint32_t address, const uint8_t *bytes, size_t len)
{
    brsp_load(&((emulator *)self)->m, bank, address, bytes, len);
}

/* Both sides: the machine with a program and registers that aren't 0, and an emulator without a fault. */
static void begin(brsp_machine *m, emulator *e, const uint32_t *words, size_t count)
{
    uint8_t image[IMAGE];
    const brsp_machine none = BRSP_NONE;
    for (size_t i = 0; i < IMAGE; i++) image[i] = (uint8_t)(i * 3 + i / 256);
    memset(e, 0, sizeof *e);
    e->m = none;
    e->where = NOWHERE;
    e->step_at = 1;
    if (brsp_new(m, image, IMAGE, 0) != BRSP_OK || brsp_new(&e->m, image, IMAGE, 0) != BRSP_OK || brsp_load_words(m, BRSP_IMEM, 0, words, count) != BRSP_OK) exit(2);
    brsp_load(m, BRSP_DMEM, 0, image + 64, 2048);
}

static void end(brsp_machine *m, emulator *e)
{
    brsp_free(m);
    brsp_free(&e->m);
}

static uint32_t compare(brsp_machine *m, emulator *e, uint32_t every, uint32_t limit, brsp_difference *found)
{
    const brsp_emulator functions = { e, run, get, set, memory, load };
    return brsp_first_difference(m, &functions, every, limit, found);
}

/* ---- Random programs ---- */

/* Makes steps of a copy, up to one before a halt. Leaves the state before each. Returns how many there are. */
static uint32_t states_of(brsp_machine *m, brsp_state *states, uint32_t most)
{
    brsp_machine copy = BRSP_NONE;
    uint32_t n = 0;
    if (brsp_copy(&copy, m) != BRSP_OK) exit(2);
    for (; n < most; n++) {
        brsp_get(&copy, &states[n]);
        if (brsp_step(&copy) != BRSP_OK) break;
    }
    brsp_free(&copy);
    return n;
}

/* A bit of a state that every machine may have in another way. */
static void choose(emulator *e)
{
    static const uint32_t sizes[] = { 692 - 4, 4096, 4096, IMAGE };
    e->where = (place)random_below(4);
    e->at = random_below(sizes[e->where]) + (e->where == IN_STATE ? 4 : 0);
    e->bit = random_below(8);
}

/* A fault after a step of a random program is found at that step; in stretches it may also be healed before one ends. */
static unsigned random_case(uint32_t every)
{
    static brsp_state states[400];
    static uint32_t words[1027];
    brsp_machine m = BRSP_NONE;
    emulator e;
    brsp_difference found;
    uint32_t count, step;
    unsigned is_found;
    random_program(words);
    begin(&m, &e, words, 1024);
    count = states_of(&m, states, 400);
    if (!count) return end(&m, &e), 0;
    step = random_below(count);
    e.before = states[step];
    for (uint32_t n = 0; n < step; n++)
        if (!memcmp(&states[n], &e.before, STATE)) step = n; /* the first time that it is in this state */
    choose(&e);
    see("a status", compare(&m, &e, every, 400, &found) == BRSP_OK);
    is_found = found.count != 0;
    if (e.where == IN_RDRAM) {
        see("RDRAM", !is_found || found.step > step);
    } else {
        see("a difference", is_found || every > 1);
        see("the step", !is_found || (found.step > step && found.steps == 1));
        see("the first step", every > 1 || found.step == step + 1);
        see("one part", !is_found || (found.count == 1 && (found.parts[0].bank == BRSP_NO_BANK) == (e.where == IN_STATE)));
        see("the state before", !is_found || !memcmp(&found.before, &e.before, STATE));
    }
    brsp_difference_free(&found);
    end(&m, &e);
    return is_found;
}

static void random_cases(void)
{
    static const uint32_t lengths[] = { 1, 2, 7, 64, 1000 };
    for (size_t i = 0; i < 5; i++) {
        unsigned found = 0;
        for (seed = 1; seed < 120; seed++) {
            const uint64_t kept = seed;
            found += random_case(lengths[i]);
            seed = kept;
        }
        see("most are found", found > 40);
    }
}

/* ---- Emulators that are wrong in one way ---- */

/* ori $1, $0, 64; mtc0 $1, $c1; ori $2, $0, 7 | rows << 12 | skip << 20; mtc0 $2, $c3; addiu $9, $9, 1 and nop four times; break */
static const uint32_t transfer[] = { 0x34010040, 0x40810800, 0x3c020080, 0x3442200f, 0x40821800, 0x25290001, 0, 0, 0, 13 };
enum { TRANSFER = 5, ADD = 6, STEPS = 10 }; /* its steps: rows of 16 bytes, 3 of them, 8 bytes between two: 64, 88, 112 */

/* The program that both sides run. */
static uint32_t program[STEPS];

static void differs(const char *what, const emulator *wrong, uint32_t every, uint32_t limit, uint32_t step, uint32_t steps, const char *part)
{
    brsp_machine m = BRSP_NONE;
    emulator e;
    brsp_difference found;
    begin(&m, &e, program, STEPS);
    e.where = wrong->where, e.at = wrong->at, e.bit = wrong->bit;
    e.step_at = wrong->step_at, e.lies = wrong->lies, e.lies_at = wrong->lies_at, e.skips = wrong->skips;
    {
        static brsp_state states[STEPS];
        states_of(&m, states, STEPS);
        if (wrong->where != NOWHERE) e.before = states[wrong->before.pc / 4];
    }
    see(what, compare(&m, &e, every, limit, &found) == BRSP_OK);
    if (part) see(what, found.step == step && found.steps == steps && found.count && !strcmp(found.parts[0].name, part));
    else see(what, !found.count);
    brsp_difference_free(&found);
    end(&m, &e);
}

/* A fault after the step from an address. */
static emulator fault(uint32_t pc, place where, uint32_t at)
{
    emulator e;
    memset(&e, 0, sizeof e);
    e.before.pc = (uint16_t)pc;
    e.where = where;
    e.at = at;
    e.step_at = 1;
    return e;
}

static void wrong_emulators(void)
{
    static const uint32_t lengths[] = { 1, 3, 64 };
    emulator whole;
    memcpy(program, transfer, sizeof program);
    for (size_t i = 0; i < 3; i++) {
        const uint32_t every = lengths[i];
        emulator e = fault(4 * (ADD - 1), IN_IMEM, 0x805);
        differs("IMEM is spoilt", &e, every, 100, ADD, 1, "IMEM 800");
        e = fault(4 * (ADD + 1), IN_IMEM, 0x80f);
        differs("IMEM is spoilt in the midst of a stretch", &e, every, 100, ADD + 2, 1, "IMEM 800");
        e = fault(4 * (TRANSFER - 1), IN_RDRAM, 64 + 15);
        differs("the first row", &e, every, 100, TRANSFER, 1, "RDRAM 040");
        e = fault(4 * (TRANSFER - 1), IN_RDRAM, 112 + 15);
        differs("the last byte of the last row", &e, every, 100, TRANSFER, 1, "RDRAM 070");
        e = fault(4 * (TRANSFER - 1), IN_RDRAM, 80);
        differs("RDRAM between two rows", &e, every, 100, STEPS, STEPS, "RDRAM 050");
        e = fault(4 * (TRANSFER - 1), IN_RDRAM, IMAGE - 1);
        differs("the end of RDRAM", &e, every, 100, STEPS, STEPS, "RDRAM 1000");
        e = fault(4 * ADD, IN_RDRAM, 200);
        differs("RDRAM without a DMA", &e, every, 100, STEPS, STEPS, "RDRAM 0c0");
        differs("and up to a limit", &e, every, ADD + 1, ADD + 1, ADD + 1, "RDRAM 0c0");
        differs("and before it", &e, every, ADD, 0, 0, NULL);
        e = fault(0, NOWHERE, 0);
        e.lies = 1;
        differs("a lie in each state", &e, every, 100, 0, 1, "$9");
        e.lies = 0, e.lies_at = 4 * ADD;
        differs("a lie in one state", &e, every, 100, every == 1 ? ADD : 0, 1, every == 1 ? "$9" : NULL); /* which others don't ask for */
        e.lies_at = 0, e.step_at = 4 * (ADD + 1);
        differs("a step that it doesn't make", &e, every, 100, ADD + 2, 1, "pc");
        e.step_at = 1;
        differs("no fault", &e, every, 100, 0, 0, NULL);
    }
    whole = fault(0, NOWHERE, 0);
    whole.skips = 1;
    differs("a stretch whose last step it leaves out", &whole, 64, 100, TRANSFER - 1, TRANSFER - 1, "pc");
}

/* Rows that wrap around 2^24, or pass RDRAM's end. */
static void ends_of_rdram(void)
{
    emulator e = fault(4 * (TRANSFER - 1), IN_RDRAM, 3);
    memcpy(program, transfer, sizeof program);
    program[0] = 0x3c0100ff; /* lui $1, 0xff */
    program[1] = 0x3421fff8; /* ori $1, $1, 0xfff8 */
    program[2] = 0x40810800; /* mtc0 $1, $c1 */
    program[3] = 0x3402000f; /* ori $2, $0, 15: a row of 16 bytes */
    differs("a row that wraps", &e, 64, 100, TRANSFER, 1, "RDRAM 000");
    e.at = 8;
    differs("past a row that wraps", &e, 64, 100, STEPS, STEPS, "RDRAM 000");
    program[0] = 0x3c010000, program[1] = 0x34211000; /* $1 = 4096 */
    e.at = IMAGE - 1;
    differs("a row that passes the end", &e, 64, 100, TRANSFER, 1, "RDRAM 1000");
    program[1] = 0x34212000; /* $1 = 8192 */
    differs("a row past the end", &e, 64, 100, STEPS, STEPS, "RDRAM 1000");
}

/* ---- The calls one by one ---- */

/* A search by its calls, whose bytes are moved after each request, and lie at an odd address. */
static void moved_search(void)
{
    brsp_machine m = BRSP_NONE, other = BRSP_NONE;
    emulator e;
    brsp_request request;
    brsp_difference found;
    static const uint8_t small[64] = { 0 };
    const size_t length = brsp_search_bytes(IMAGE);
    uint8_t *one = (uint8_t *)malloc(length + 1), *two = (uint8_t *)malloc(length + 1), *kept;
    unsigned asked = 0;
    if (!one || !two || brsp_new(&other, small, 64, 0) != BRSP_OK) exit(2);
    begin(&m, &e, transfer, STEPS);
    see("how many bytes", length > 2 * IMAGE && length < 2 * IMAGE + 65536);
    see("too few bytes", brsp_search_begin(&m, 1, 1, one, length - 1) == BRSP_NO_ROOM);
    see("every", brsp_search_begin(&m, 0, 1, one, length) == BRSP_OUT_OF_RANGE && brsp_search_begin(&m, 1000001, 1, one, length) == BRSP_OUT_OF_RANGE);
    see("begun", brsp_search_begin(&m, 2, 100, one + 1, length) == BRSP_OK);
    see("another machine", brsp_search_next(&other, one + 1, &request) == BRSP_OUT_OF_RANGE);
    for (request.kind = BRSP_REQUEST_RUN; request.kind != BRSP_REQUEST_OVER && asked < 1000; asked++) {
        const brsp_emulator functions = { &e, run, get, set, memory, load };
        if (brsp_search_next(&m, one + 1, &request) != BRSP_OK) break;
        if (request.kind != BRSP_REQUEST_OVER) brsp_compare_answer(&functions, &request, one + 1 + request.at);
        memcpy(two, one, length + 1);
        memset(one, 0xa5, length + 1);
        kept = one, one = two, two = kept;
    }
    see("it is over", request.kind == BRSP_REQUEST_OVER && asked > 20 && asked < 1000);
    see("again", brsp_search_next(&m, one + 1, &request) == BRSP_OK && request.kind == BRSP_REQUEST_OVER);
    brsp_search_difference(one + 1, &found);
    see("no difference", !found.count && !found.parts);
    end(&m, &e);
    brsp_free(&other);
    free(one);
    free(two);
}

/* Of a DMA of 256 bytes so many are asked for, however long RDRAM is. */
static void asked_bytes(void)
{
    static const uint32_t words[] = { 0x340100ff, 0x40811800, 13 }; /* ori $1, $0, 255; mtc0 $1, $c3; break */
    static const uint32_t lengths[] = { 64 << 10, 8 << 20 };
    for (size_t i = 0; i < 2; i++) {
        uint8_t *image = (uint8_t *)calloc(1, lengths[i]), *search = (uint8_t *)malloc(brsp_search_bytes(lengths[i]));
        brsp_machine m = BRSP_NONE, other = BRSP_NONE;
        const size_t length = brsp_search_bytes(lengths[i]);
        brsp_request request;
        size_t moved = 0;
        if (!image || !search || brsp_new(&m, image, lengths[i], 0) != BRSP_OK || brsp_new(&other, image, lengths[i], 0) != BRSP_OK) exit(2);
        brsp_load_words(&m, BRSP_IMEM, 0, words, 3);
        see("begun", brsp_search_begin(&m, 64, 2, search, length) == BRSP_OK);
        while (brsp_search_next(&m, search, &request) == BRSP_OK && request.kind != BRSP_REQUEST_OVER) {
            emulator e;
            const brsp_emulator functions = { &e, run, get, set, memory, load };
            memset(&e, 0, sizeof e);
            e.m = other, e.where = NOWHERE, e.step_at = 1;
            brsp_compare_answer(&functions, &request, search + request.at);
            if (request.bank == BRSP_RDRAM && request.len != lengths[i]) moved += request.len;
        }
        see("the bytes of a DMA", moved == 256);
        brsp_free(&m);
        brsp_free(&other);
        free(image);
        free(search);
    }
}

/* ---- Texts ---- */

/* Each text fits into as many bytes as it has, is cut to fewer, and writes none past them. */
static void cut_text(size_t (*write)(char *text, size_t capacity), const char *expected)
{
    char text[4096];
    const size_t length = strlen(expected);
    see(expected, write(NULL, 0) == length && length + 8 < sizeof text);
    for (size_t capacity = 1; capacity < length + 4; capacity++) {
        const size_t shown = capacity > length ? length : capacity - 1;
        memset(text, '#', sizeof text);
        see(expected, write(text, capacity) == length && !memcmp(text, expected, shown) && !text[shown] && text[capacity] == '#');
    }
}

static brsp_difference given;
static brsp_part parts[24];
static size_t refusal(char *to, size_t n) { return brsp_refusal_text(BRSP_OUT_OF_RANGE, "set_pc", "3", to, n); }
static size_t unknown_call(char *to, size_t n) { return brsp_refusal_text(BRSP_OUT_OF_RANGE, "new_call", "3", to, n); }
static size_t unknown_status(char *to, size_t n) { return brsp_refusal_text(7, "run", "", to, n); }
static size_t without_number(char *to, size_t n) { return brsp_refusal_text(BRSP_NO_BREAK, "drop_break", "", to, n); }
static size_t wrong_bank(char *to, size_t n) { return brsp_refusal_text(BRSP_NO_BREAK, "load", "9 1", to, n); }
static size_t no_digit(char *to, size_t n) { return brsp_refusal_text(BRSP_OUT_OF_RANGE, "load", " 4096", to, n); }
static size_t leading_zero(char *to, size_t n) { return brsp_refusal_text(BRSP_OUT_OF_RANGE, "load", "02 5", to, n); }
static size_t flags(char *to, size_t n)
{
    static const brsp_flag_bits it = { 1, 2, 3, 4, 5 };
    return brsp_structure_text(BRSP_OF_FLAGS, &it, to, n);
}
static size_t traced(char *to, size_t n)
{
    static const brsp_traced it = { 0xac010040, 7, 0x12c, 0x40, 0x102, 0x304, 5, 2, 3, 1, { 1, 2, 3, 4, 5, 6, 7, 0xffff } };
    return brsp_structure_text(BRSP_OF_TRACED, &it, to, n);
}
static size_t unknown_kind(char *to, size_t n) { return brsp_structure_text(8, &given, to, n); }
static size_t part(char *to, size_t n) { return brsp_part_text(&parts[0], "here", "there", to, n); }
static size_t difference(char *to, size_t n) { return brsp_difference_text(&given, to, n); }
static size_t ignored(char *to, size_t n) { return brsp_word_text(0x48cc2c00, 0, to, n); }
static size_t jump(char *to, size_t n) { return brsp_word_text(0x0bfffc02, 0x100, to, n); }
static size_t branch(char *to, size_t n) { return brsp_word_text(0x10220801, 0x100, to, n); }
static size_t reserved(char *to, size_t n) { return brsp_word_text(0xffffffff, 0, to, n); }
static size_t no_place(char *to, size_t n) { return brsp_word_text(0, 2, to, n); }
static size_t plain(char *to, size_t n) { return brsp_word_text(0x34010007, 0, to, n); }
static size_t right_state(char *to, size_t n) { return brsp_state_refusal_text(&given.before, to, n); }

static void texts(void)
{
    static const char expected[] = "step 3, 008: nop\n  $3 is fffffff0 on the machine and 3ffffff0 in the emulator";
    char text[4096];
    brsp_part three = { "$3", { 0, 0xfffffff0 }, { 0, 0x3ffffff0 }, 8, BRSP_NO_BANK, 0, 5 };
    cut_text(refusal, "set_pc: pc is 3, not a multiple of 4 below 4096");
    cut_text(unknown_call, "new_call: a number is out of its range");
    cut_text(unknown_status, "run: refused");
    cut_text(without_number, "drop_break: it has no breakpoint");
    cut_text(wrong_bank, "load: 9 has no breakpoint");
    cut_text(no_digit, "load: bank is , not DMEM, IMEM or RDRAM");
    cut_text(leading_zero, "load: the bytes from 5 on pass the end of RDRAM");
    cut_text(flags, "vco 0201 vcc 0403 vce 05");
    cut_text(traced, "12c ac010040 $2 00000007 $v3 0001 0002 0003 0004 0005 0006 0007 ffff stored 040 vco 0102 vcc 0304 vce 05");
    cut_text(unknown_kind, "");
    cut_text(ignored, "ctc2 $12, $vcc, with ignored bits");
    cut_text(jump, "j 0x008, with ignored bits");
    cut_text(branch, "beq $1, $2, 0x108, with ignored bits");
    cut_text(reserved, ".word 0xffffffff");
    cut_text(no_place, ".word 0x00000000");
    cut_text(plain, "ori $1, $0, 0x0007");
    memset(&given, 0, sizeof given);
    given.before.npc = 4, given.before.sp[2] = given.before.sp[3] = 0xff8;
    cut_text(right_state, "");
    for (size_t i = 0; i < 24; i++) parts[i] = three;
    cut_text(part, "$3 is fffffff0 here and 3ffffff0 there");
    given.step = 3, given.steps = 1, given.count = 1, given.parts = parts, given.line.address = 8;
    memcpy(given.line.text, "nop", 4);
    cut_text(difference, expected);
    for (given.count = 19; given.count < 24; given.count++) {
        size_t lines = 1;
        brsp_difference_text(&given, text, sizeof text);
        for (const char *at = text; *at; at++) lines += *at == '\n';
        see("at most twenty lines", lines == 20);
        if (given.count > 19) see("and how many more", !strcmp(strrchr(text, '\n'), given.count == 20 ? "\n  and 2 more" : given.count == 21 ? "\n  and 3 more" : given.count == 22 ? "\n  and 4 more" : "\n  and 5 more"));
    }
    see("a name", !strcmp(brsp_argument_name("memory", 2), "length") && !brsp_argument_name("memory", 3) && !brsp_argument_name("x", 0));
}

/* A word with ignored bits does what the named instruction does, and a reserved word has no name. */
static void random_words(void)
{
    static const uint8_t image[64] = { 0 };
    static const uint32_t opcodes[] = { 0, 1, 2, 3, 4, 5, 6, 7, 15, 16, 18, 18, 18, 50, 58 };
    brsp_machine a = BRSP_NONE, b = BRSP_NONE;
    unsigned named = 0;
    if (brsp_new(&a, image, 64, 0) != BRSP_OK || brsp_new(&b, image, 64, 0) != BRSP_OK) exit(2);
    seed = 1;
    for (unsigned n = 0; n < 60000; n++) {
        const uint32_t word = n % 4 ? (any() & 0x3ffffff) | opcodes[random_below(15)] << 26 : any(), at = random_below(1024) * 4;
        uint32_t same = 0, status;
        char text[128], *end;
        brsp_assembled about;
        brsp_state state, other;
        brsp_get(&a, &state);
        for (uint32_t i = 1; i < 32; i++) state.words[i] = any();
        for (uint32_t i = 0; i < 256; i++) state.vectors[i / 8][i % 8] = (uint16_t)any();
        state.pc = (uint16_t)at, state.npc = (uint16_t)((at + 4) % 4096), state.sp[4] = 0;
        brsp_set(&a, &state);
        brsp_set(&b, &state);
        brsp_load_words(&a, BRSP_IMEM, at, &word, 1);
        status = brsp_step(&a);
        see("it fits into a line", brsp_word_text(word, at, text, sizeof text) <= 64);
        end = strstr(text, ", with ignored bits");
        if (end) *end = 0;
        see(text, (status == BRSP_RESERVED) == !memcmp(text, ".word", 5));
        if (!end) continue;
        named++;
        see(text, brsp_assemble(at, (const uint8_t *)text, strlen(text), &same, 1, &about) == BRSP_OK && same != word);
        brsp_load_words(&b, BRSP_IMEM, at, &same, 1);
        brsp_step(&b);
        brsp_get(&a, &state);
        brsp_get(&b, &other);
        see(text, !memcmp(&state, &other, STATE));
    }
    see("some were named", named > 10000);
    brsp_free(&a);
    brsp_free(&b);
}

int main(void)
{
    random_cases();
    wrong_emulators();
    ends_of_rdram();
    moved_search();
    asked_bytes();
    texts();
    random_words();
    printf("%d passed, %d failed\n", passed, failed);
    return failed != 0;
}
