/* Savestates, and why one is refused. */
#include "writer.h"

/* Where the parts of a savestate begin. */
enum { AT_VERSION = 4, AT_LENGTH = 8, AT_STATE = 12, AT_DMEM = AT_STATE + sizeof(brsp_state), MEMORY = 4096, AT_IMEM = AT_DMEM + MEMORY };

static const char magic[] = "RSPS";

static void write_number(uint8_t *to, uint32_t n)
{
    for (int it = 0; it < 4; it++) to[it] = (uint8_t)(n >> (24 - 8 * it));
}

static uint32_t read_number(const uint8_t *from) { return (uint32_t)from[0] << 24 | (uint32_t)from[1] << 16 | (uint32_t)from[2] << 8 | from[3]; }

/* Numbers from the host's order into that of a savestate, the high byte first, or back. */
static void turn_words(uint32_t *numbers, size_t count)
{
    for (size_t i = 0; i < count; i++) {
        uint8_t bytes[4];
        write_number(bytes, numbers[i]);
        memcpy(&numbers[i], bytes, 4);
    }
}

static void turn_halves(uint16_t *numbers, size_t count)
{
    for (size_t i = 0; i < count; i++) {
        const uint8_t bytes[2] = { (uint8_t)(numbers[i] >> 8), (uint8_t)numbers[i] };
        memcpy(&numbers[i], bytes, 2);
    }
}

static void turn(brsp_state *state)
{
    turn_words(state->words, 32);
    for (size_t i = 0; i < 32; i++) turn_halves(state->vectors[i], 8);
    turn_halves(state->accumulators.high, 8);
    turn_halves(state->accumulators.middle, 8);
    turn_halves(state->accumulators.low, 8);
    turn_halves(&state->divider.input, 1);
    turn_halves(&state->divider.output, 1);
    turn_halves(&state->divider.loaded, 1);
    turn_halves(&state->pc, 1);
    turn_halves(&state->npc, 1);
    turn_words(state->sp, 16);
    turn_words(&state->interrupt, 1);
}

static void read_state(const uint8_t *bytes, brsp_state *state)
{
    memcpy(state, bytes + AT_STATE, sizeof *state);
    turn(state);
}

uint32_t brsp_save_state(brsp_machine *m, uint8_t *bytes, size_t capacity, size_t *length)
{
    size_t image;
    brsp_state state;
    uint32_t status = brsp_image_length(m, &image);
    if (status != BRSP_OK) return status;
    *length = BRSP_SAVESTATE_BYTES + image;
    if (capacity < *length) return BRSP_NO_ROOM;
    memcpy(bytes, magic, 4);
    write_number(bytes + AT_VERSION, BRSP_SAVESTATE_VERSION);
    write_number(bytes + AT_LENGTH, (uint32_t)image);
    brsp_get(m, &state);
    turn(&state);
    memcpy(bytes + AT_STATE, &state, sizeof state);
    brsp_memory(m, BRSP_DMEM, 0, bytes + AT_DMEM, MEMORY);
    brsp_memory(m, BRSP_IMEM, 0, bytes + AT_IMEM, MEMORY);
    return brsp_memory(m, BRSP_RDRAM, 0, bytes + BRSP_SAVESTATE_BYTES, image);
}

/* What is wrong with bytes for a machine with an image of this length. */
static uint32_t fault_in(const uint8_t *bytes, size_t length, size_t image)
{
    brsp_state state;
    uint32_t field = BRSP_FIELD_NONE;
    for (size_t n = 0; n < 4; n++)
        if (length <= n || bytes[n] != (uint8_t)magic[n]) return BRSP_SAVESTATE_MAGIC;
    if (length < AT_LENGTH) return BRSP_SAVESTATE_LENGTH;
    if (read_number(bytes + AT_VERSION) != BRSP_SAVESTATE_VERSION) return BRSP_SAVESTATE_OTHER_VERSION;
    if (length < BRSP_SAVESTATE_BYTES) return BRSP_SAVESTATE_LENGTH;
    if (length - BRSP_SAVESTATE_BYTES != read_number(bytes + AT_LENGTH)) return BRSP_SAVESTATE_LENGTH;
    if (length - BRSP_SAVESTATE_BYTES != image) return BRSP_SAVESTATE_IMAGE;
    read_state(bytes, &state);
    brsp_state_fault(&state, &field);
    return field != BRSP_FIELD_NONE || state.zero ? BRSP_SAVESTATE_STATE : BRSP_SAVESTATE_FINE;
}

uint32_t brsp_savestate_check(brsp_machine *m, const uint8_t *bytes, size_t length, uint32_t *fault)
{
    size_t image;
    uint32_t status = brsp_image_length(m, &image);
    if (status == BRSP_OK) *fault = fault_in(bytes, length, image);
    return status;
}

uint32_t brsp_load_state(brsp_machine *m, const uint8_t *bytes, size_t length)
{
    brsp_state state;
    uint32_t fault, status = brsp_savestate_check(m, bytes, length, &fault);
    if (status != BRSP_OK) return status;
    if (fault != BRSP_SAVESTATE_FINE) return BRSP_OUT_OF_RANGE;
    read_state(bytes, &state);
    brsp_set(m, &state);
    brsp_load(m, BRSP_DMEM, 0, bytes + AT_DMEM, MEMORY);
    brsp_load(m, BRSP_IMEM, 0, bytes + AT_IMEM, MEMORY);
    return brsp_load(m, BRSP_RDRAM, 0, bytes + BRSP_SAVESTATE_BYTES, length - BRSP_SAVESTATE_BYTES);
}

const char *brsp_savestate_fault_text(uint32_t fault)
{
    static const char *const texts[] = {
        "nothing is wrong", "the bytes don't begin with RSPS", "the savestate has another version",
        "there are fewer bytes, or more, than the savestate says", "the machine's image has another length", "no machine can have this state"
    };
    return fault < sizeof texts / sizeof *texts ? texts[fault] : "unknown";
}

/* The sentence of a savestate whose state is refused, where its field `zero` is the last that may be wrong. */
static size_t refuse_state(const uint8_t *bytes, writer *w)
{
    brsp_state state;
    size_t length;
    read_state(bytes, &state);
    length = brsp_state_refusal_text(&state, w->to, w->capacity);
    if (length) return length;
    put_text(w, "byte ");
    put_number(w, AT_STATE + offsetof(brsp_state, zero));
    put_text(w, " isn't 0");
    return ended(w);
}

size_t brsp_savestate_refusal_text(const uint8_t *bytes, size_t length, size_t image, char *text, size_t capacity)
{
    writer w = { text, capacity, 0 };
    const uint32_t fault = fault_in(bytes, length, image);
    switch (fault) {
    case BRSP_SAVESTATE_FINE: break;
    case BRSP_SAVESTATE_OTHER_VERSION:
        put_text(&w, "the savestate has version ");
        put_number(&w, read_number(bytes + AT_VERSION));
        put_text(&w, ", not ");
        put_number(&w, BRSP_SAVESTATE_VERSION);
        break;
    case BRSP_SAVESTATE_LENGTH:
        put_text(&w, "there are ");
        put_number(&w, length);
        put_text(&w, " bytes, not ");
        put_number(&w, BRSP_SAVESTATE_BYTES);
        put_text(&w, " and those of the image");
        break;
    case BRSP_SAVESTATE_IMAGE:
        put_text(&w, "its image has ");
        put_number(&w, length - BRSP_SAVESTATE_BYTES);
        put_text(&w, " bytes, and that of the machine ");
        put_number(&w, image);
        break;
    case BRSP_SAVESTATE_STATE: return refuse_state(bytes, &w);
    default: put_text(&w, brsp_savestate_fault_text(fault));
    }
    return ended(&w);
}
