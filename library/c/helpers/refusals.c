/* Why calls are refused, in sentences. docs/FAULTS.md lists them. */
#include "writer.h"

/* The numbers that an argument may be. */
typedef struct range {
    uint32_t low, high, step;
    const char *text;
} range;

static const range word = { 0, 0xffffffff, 1, "0 to 4294967295" };
static const range place = { 0, 4092, 4, "a multiple of 4 below 4096" };
static const range origin = { 0, 4096, 4, "a multiple of 4 up to 4096" };
static const range count = { 1, 1000000, 1, "1 to 1000000" };
static const range mask = { 0, 65535, 1, "0 to 65535" };
static const range event_mask = { 0, 131071, 1, "0 to 131071" };
static const range registers = { 0, 31, 1, "0 to 31" };
static const range bank = { 0, 2, 1, "DMEM, IMEM or RDRAM" };
static const range image = { 64, 8388608, 8, "a multiple of 8 from 64 to 8388608" };
static const range depth = { 0, 4096, 1, "0 to 4096" };
static const range dmem = { 0, 4095, 1, "0 to 4095" };
static const range watched = { 1, 64, 1, "1 to 64" };
static const range listed = { 0, 1024, 1, "0 to 1024" };

static const char *const banks[] = { "DMEM", "IMEM", "RDRAM" };

typedef struct argument {
    const char *name;
    const range *allowed;
} argument;

enum { MOST_ARGUMENTS = 3 };

/* A call with its arguments that are numbers, and what is wrong if each of them is in its range: `{0}` is the first of them. */
static const struct call {
    const char *name;
    argument given[MOST_ARGUMENTS];
    const char *together;
} calls[] = {
    { "Machine", { { "image", &image }, { "depth", &depth } }, 0 },
    { "Session", { { "image", &image } }, 0 },
    { "load", { { "bank", &bank }, { "address", &word } }, "the bytes from {1} on pass the end of {0}" },
    { "load_words", { { "bank", &bank }, { "address", &word } }, "the words from {1} on pass the end of {0}" },
    { "memory", { { "bank", &bank }, { "address", &word }, { "length", &word } }, "{2} bytes from {1} on pass the end of {0}" },
    { "memory_words", { { "bank", &bank }, { "address", &word }, { "count", &word } }, "{2} words from {1} on pass the end of {0}" },
    { "start_task", { { "address", &word } }, 0 },
    { "set_pc", { { "pc", &place } }, 0 },
    { "run", { { "steps", &count } }, 0 },
    { "run_until_move", { { "steps", &count }, { "reads", &mask }, { "writes", &mask } }, 0 },
    { "event", { { "steps", &count }, { "reads", &mask }, { "writes", &event_mask } }, 0 },
    { "trace", { { "steps", &count } }, 0 },
    { "iter_trace", { { "limit", &word } }, 0 },
    { "run_to_halt", { { "limit", &word } }, 0 },
    { "back", { { "states", &count } }, 0 },
    { "pass_move", { { "value", &word } }, "the word at pc is no MFC0 or MTC0" },
    { "pass_dma", { { 0, 0 } }, "the word at pc starts no DMA" },
    { "add_break", { { "address", &place } }, 0 },
    { "drop_break", { { "address", &place } }, 0 },
    { "add_watch", { { "address", &dmem }, { "length", &watched } }, "{1} bytes from {0} on pass the end of DMEM" },
    { "drop_watch", { { "number", &word } }, 0 },
    { "reg", { { "number", &registers } }, 0 },
    { "vreg", { { "number", &registers } }, 0 },
    { "set_reg", { { "number", &registers }, { "value", &word } }, "register 0 holds 0, and not {1}" },
    { "set_vreg", { { "number", &registers } }, 0 },
    { "read", { { "number", &word } }, 0 },
    { "peek", { { "number", &word } }, 0 },
    { "write", { { "number", &word }, { "value", &word } }, 0 },
    { "write_dma", { { "number", &word }, { "value", &word } }, 0 },
    { "set_sp", { { 0, 0 } }, "a word can't be read from its SP register, or interrupt isn't 0 or 1" },
    { "assemble", { { "origin", &origin } }, 0 },
    { "labels", { { "origin", &origin } }, 0 },
    { "explain", { { "origin", &origin } }, 0 },
    { "explain_text", { { "origin", &origin } }, 0 },
    { "explain_reply", { { "before", &word } }, 0 },
    { "text", { { "word", &word }, { "address", &place } }, 0 },
    { "listing", { { "address", &place }, { "count", &listed } }, "{1} words from {0} on pass the end of IMEM" },
    { "first_difference", { { "every", &count }, { "limit", &word } }, 0 },
    { "missing", { { "limit", &word } }, 0 },
};

/* By the statuses from BRSP_NO_MACHINE on. */
static const char *const sentences[] = {
    "the handle holds nothing",
    "an allocation failed",
    "a number is out of its range",
    "the machine is halted",
    "the word at pc is reserved",
    "the text isn't UTF-8",
    "{0} isn't a multiple of 8, or the 64 bytes from there pass the image's end",
    "the size of the boot code, the word at offset 12 of the structure at {0}, isn't 1 to 4096",
    "sixteen addresses have a breakpoint",
    "{0} has a breakpoint",
    "{0} has no breakpoint",
    "there are eight watches",
    "no watch has the number {0}",
    "the history holds fewer states than {0}",
    "the text has more than 1024 words",
    "the script has ended",
    "the script has more than 1048576 bytes",
    "another word is at pc",
};

static const struct call *call_of(const char *name)
{
    for (size_t n = 0; n < sizeof calls / sizeof *calls; n++)
        if (is_equal(calls[n].name, name)) return &calls[n];
    return 0;
}

const char *brsp_argument_name(const char *call, size_t number)
{
    const struct call *of = call_of(call);
    return of && number < MOST_ARGUMENTS ? of->given[number].name : 0;
}

/* The n-th of numbers with a space between two; an empty text if there are fewer. */
static const char *nth(const char *numbers, size_t n)
{
    for (; *numbers && n; numbers++) n -= *numbers == ' ';
    return numbers;
}

/* The number that a text begins with; one that no range has if it has no digit, or anything else up to a space. */
static uint64_t value_of(const char *number)
{
    const uint64_t none = (uint64_t)1 << 32;
    uint64_t value = *number && *number != ' ' ? 0 : none;
    for (; *number && *number != ' '; number++) {
        if (*number < '0' || *number > '9' || value >= none) return none;
        value = value * 10 + (uint64_t)(*number - '0');
    }
    return value;
}

static int is_in(const range *allowed, uint64_t value)
{
    return value >= allowed->low && value <= allowed->high && (value - allowed->low) % allowed->step == 0;
}

static void put_given(writer *w, const char *number)
{
    while (*number && *number != ' ') put(w, *number++);
}

/* A sentence with the numbers of a call in it, those of banks by their names. */
static void put_sentence(writer *w, const char *sentence, const struct call *of, const char *numbers)
{
    for (; *sentence; sentence++) {
        if (*sentence != '{') {
            put(w, *sentence);
            continue;
        }
        const size_t n = (size_t)(sentence[1] - '0');
        const char *number = nth(numbers, n);
        if (!*number) put_text(w, "it");
        else if (of && of->given[n].allowed == &bank && is_in(&bank, value_of(number))) put_text(w, banks[value_of(number)]);
        else put_given(w, number);
        sentence += 2;
    }
}

/* The first number that isn't in its range. Returns whether there is one. */
static int put_out_of_range(writer *w, const struct call *of, const char *numbers)
{
    for (size_t n = 0; n < MOST_ARGUMENTS && of->given[n].name; n++) {
        const argument *it = &of->given[n];
        const char *number = nth(numbers, n);
        if (!*number || is_in(it->allowed, value_of(number))) continue;
        put_text(w, it->name);
        put_text(w, it->allowed == &image ? " has " : " is ");
        put_given(w, number);
        put_text(w, it->allowed == &image ? " bytes, not " : ", not ");
        put_text(w, it->allowed->text);
        return 1;
    }
    return 0;
}

size_t brsp_refusal_text(uint32_t status, const char *call, const char *numbers, char *text, size_t capacity)
{
    writer w = { text, capacity, 0 };
    const struct call *of = call_of(call);
    const int is_number = status == BRSP_OUT_OF_RANGE || status == BRSP_OTHER_WORD;
    const uint32_t n = status - BRSP_NO_MACHINE;
    put_text(&w, call);
    put_text(&w, ": ");
    if (is_number && of && put_out_of_range(&w, of, numbers)) return ended(&w);
    if (is_number && of && of->together) put_sentence(&w, of->together, of, numbers);
    else put_sentence(&w, n < sizeof sentences / sizeof *sentences ? sentences[n] : "refused", of, numbers);
    return ended(&w);
}

/* ---- States ---- */

static void put_field(writer *w, const char *name, uint32_t number, const char *allowed)
{
    put_text(w, name);
    put_text(w, " is ");
    put_number(w, number);
    put_text(w, ", not ");
    put_text(w, allowed);
}

/* An SP register whose word it can't hold. The parts of two states name it. */
static void put_sp(writer *w, const brsp_state *state, uint32_t n)
{
    brsp_state other = *state;
    brsp_part part;
    other.sp[n] ^= 1;
    brsp_structure_parts(BRSP_OF_STATE, state, &other, &part, 1);
    put_text(w, "sp[");
    put_number(w, n);
    put_text(w, "] is 0x");
    put_hex_from(w, state->sp[n], 1);
    put_text(w, ", which ");
    put_text(w, part.name);
    put_text(w, " can't hold");
}

size_t brsp_state_refusal_text(const brsp_state *state, char *text, size_t capacity)
{
    writer w = { text, capacity, 0 };
    uint32_t field = BRSP_FIELD_NONE;
    brsp_state_fault(state, &field);
    switch (field) {
    case BRSP_FIELD_NONE: break;
    case BRSP_FIELD_ZERO: put_field(&w, "words[0]", state->words[0], "0"); break;
    case BRSP_FIELD_LOADED: put_field(&w, "divider.loaded", state->divider.loaded, "0 or 1"); break;
    case BRSP_FIELD_PC: put_field(&w, "pc", state->pc, place.text); break;
    case BRSP_FIELD_NPC: put_field(&w, "npc", state->npc, place.text); break;
    case BRSP_FIELD_INTERRUPT: put_field(&w, "interrupt", state->interrupt, "0 or 1"); break;
    default: put_sp(&w, state, field - BRSP_FIELD_SP);
    }
    return ended(&w);
}

/* ---- Operands of a text ---- */

static void put_span(writer *w, const brsp_operand *found)
{
    put_signed(w, found->low);
    put_text(w, " to ");
    put_signed(w, found->high);
    if (found->step > 1) {
        put_text(w, ", a multiple of ");
        put_number(w, found->step);
    }
}

size_t brsp_operand_text(const brsp_operand *found, uint32_t fault, char *text, size_t capacity)
{
    writer w = { text, capacity, 0 };
    const int is_form = fault == BRSP_FAULT_BAD_OPERAND;
    const int is_memory = found->kind == BRSP_OPERAND_SCALAR_MEMORY || found->kind == BRSP_OPERAND_VECTOR_MEMORY;
    if (!found->number) return ended(&w);
    put_text(&w, "operand ");
    put_number(&w, found->number);
    put_text(&w, " may be ");
    if (is_form) put_text(&w, found->kind > BRSP_OPERAND_VECTOR_LANE ? "another one" : brsp_operand_form(found->kind));
    if (fault == BRSP_FAULT_LABEL_MISSING) put_text(&w, "the label of a line, or ");
    if (is_form && found->step) put(&w, ' ');
    if (found->step) put_span(&w, found);
    if (is_form && is_memory) put_text(&w, ", and a scalar register in parentheses");
    return ended(&w);
}
