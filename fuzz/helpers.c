/* helpers: the search for the first difference, and texts. A second machine answers a search, whose answers are spoilt here and there; a right one shows no
 * difference, whatever program the input has. Texts of any structures, words, numbers and savestates end in buffers of exactly their capacity. */
#include "fuzz.h"
#include "brsp_helpers.h"

enum { MOST_STEPS = 200, MOST_REQUESTS = 200000 };

/* A text in a buffer of its capacity: as long as is said, cut to what fits, and with a NUL. */
#define SEE_TEXT(in, call, ...) \
    do { \
        size_t whole = call(__VA_ARGS__, NULL, 0), capacity = take_number(in, 1) % 4 ? whole + 1 : take_edge(in) % (whole + 2); \
        char *text = room(capacity); \
        MUST(call(__VA_ARGS__, text, capacity) == whole); \
        MUST(!capacity || strlen(text) == (capacity > whole ? whole : capacity - 1)); \
        free(text); \
    } while (0)

/* ---- The search ---- */

static void see_request(const brsp_request *it, size_t length, size_t image)
{
    const size_t size = it->bank == BRSP_RDRAM ? image : 4096;
    const int is_state = it->kind == BRSP_REQUEST_SET || it->kind == BRSP_REQUEST_GET, is_bytes = it->kind == BRSP_REQUEST_LOAD || it->kind == BRSP_REQUEST_MEMORY;
    MUST(it->kind <= BRSP_REQUEST_MEMORY && it->at <= length && it->len <= length - it->at);
    MUST((it->kind == BRSP_REQUEST_RUN) == (it->steps != 0) && it->steps <= MOST_STEPS);
    MUST(!is_state || it->len == sizeof(brsp_state));
    MUST(!is_bytes || (it->bank <= BRSP_RDRAM && it->len && it->address <= size && it->len <= size - it->address));
    MUST(it->kind != BRSP_REQUEST_LOAD || (!it->address && it->len == size));
}

/* Does what is asked. Returns whether the answer is spoilt. */
static int answer(input *in, brsp_machine *m, const brsp_request *it, uint8_t *bytes)
{
    brsp_state state;
    brsp_stop stop;
    int is_spoilt = 0;
    switch (it->kind) {
    case BRSP_REQUEST_RUN:
        for (uint32_t steps = it->steps; steps; steps--) MUST(brsp_run(m, 1, &stop) == BRSP_OK && stop.steps == 1);
        break;
    case BRSP_REQUEST_SET:
        memcpy(&state, bytes, sizeof state);
        MUST(brsp_set(m, &state) == BRSP_OK);
        break;
    case BRSP_REQUEST_GET:
        MUST(brsp_get(m, &state) == BRSP_OK);
        memcpy(bytes, &state, sizeof state);
        break;
    case BRSP_REQUEST_LOAD: MUST(brsp_load(m, it->bank, it->address, bytes, it->len) == BRSP_OK); break;
    default: MUST(brsp_memory(m, it->bank, it->address, bytes, it->len) == BRSP_OK);
    }
    if ((it->kind == BRSP_REQUEST_GET || it->kind == BRSP_REQUEST_MEMORY) && take_number(in, 1) >= 224) {
        const size_t at = take_number(in, 3) % it->len;
        const uint8_t other = (uint8_t)take_number(in, 1);
        is_spoilt = bytes[at] != other;
        bytes[at] = other;
    }
    return is_spoilt;
}

static void see_difference(input *in, const uint8_t *search, int is_spoilt, uint32_t limit)
{
    brsp_difference found;
    brsp_search_difference(search, &found);
    MUST(is_spoilt || !found.count);
    MUST(found.step <= limit && found.steps <= limit + 1 && !found.parts && (!found.count || found.steps));
    MUST(strlen(found.line.text) == found.line.len && found.line.len <= 64);
    if (!found.count) return;
    found.parts = room(found.count * sizeof *found.parts);
    brsp_search_parts(search, found.parts);
    for (size_t i = 0; i < found.count; i++) MUST(memcmp(found.parts[i].value, found.parts[i].other, 16) && found.parts[i].name[0]);
    SEE_TEXT(in, brsp_difference_text, &found);
    free(found.parts);
}

static void see_search(input *in)
{
    static const size_t lengths[] = { 64, 72, 4096, 65536 };
    const size_t image = lengths[take_number(in, 1) % 4], length = brsp_search_bytes(image);
    const uint32_t every = take_edge(in), limit = take_number(in, 1) % MOST_STEPS, words = 4 * take_number(in, 1);
    uint8_t *bytes = calloc(image, 1), *search = room(length), *program = take_bytes(in, words);
    brsp_machine m = BRSP_NONE, other = BRSP_NONE;
    brsp_request request = { BRSP_REQUEST_RUN, 0, 0, 0, 0, 0 };
    int is_spoilt = 0, count = 0;
    MUST(bytes && brsp_new(&m, bytes, image, 0) == BRSP_OK && brsp_new(&other, bytes, image, 0) == BRSP_OK);
    MUST(brsp_load(&m, BRSP_IMEM, 0, program, words) == BRSP_OK);
    uint32_t status = brsp_search_begin(&m, every, limit, search, length);
    MUST(status == (every >= 1 && every <= 1000000 ? BRSP_OK : BRSP_OUT_OF_RANGE));
    while (status == BRSP_OK && request.kind != BRSP_REQUEST_OVER) {
        MUST(brsp_search_next(&m, search, &request) == BRSP_OK && ++count < MOST_REQUESTS);
        see_request(&request, length, image);
        if (request.kind != BRSP_REQUEST_OVER) is_spoilt |= answer(in, &other, &request, search + request.at);
    }
    if (status == BRSP_OK) see_difference(in, search, is_spoilt, limit);
    brsp_free(&m);
    brsp_free(&other);
    free(bytes);
    free(search);
    free(program);
}

/* ---- Texts ---- */

static void see_structures(input *in)
{
    static const size_t sizes[] = { sizeof(brsp_state), sizeof(brsp_scalars), sizeof(brsp_accumulators), sizeof(brsp_flag_bits), sizeof(brsp_divide_state),
                                    sizeof(brsp_sp_words), sizeof(brsp_traced), sizeof(brsp_changes) };
    const uint32_t kind = take_number(in, 1) % 9;
    const size_t size = kind < 8 ? sizes[kind] : 1, capacity = take_number(in, 1);
    uint8_t *one = take_bytes(in, size), *two = take_bytes(in, size);
    brsp_part *parts = room(capacity * sizeof *parts);
    const size_t count = brsp_structure_parts(kind, one, two, parts, capacity);
    MUST(count <= BRSP_PARTS && (count || !capacity || kind == 8 || !brsp_structure_parts(kind, two, one, parts, capacity)));
    for (size_t i = 0; i < count && i < capacity; i++) SEE_TEXT(in, brsp_part_text, &parts[i], "here", "there");
    SEE_TEXT(in, brsp_structure_text, kind, one);
    free(one);
    free(two);
    free(parts);
}

/* So many bytes as a text with a NUL. */
static char *take_text(input *in)
{
    const size_t len = take_number(in, 1) % 48;
    char *text = room(len + 1);
    for (size_t i = 0; i < len; i++) text[i] = (char)(take_number(in, 1) % 255 + 1);
    text[len] = 0;
    return text;
}

static void see_refusals(input *in)
{
    static const char *const names[] = { "Machine", "load", "memory", "memory_words", "event", "listing", "add_watch", "set_reg", "pass_dma", "text", "" };
    const uint32_t status = take_number(in, 1), kind = take_number(in, 1);
    char *name = take_text(in), *numbers = take_text(in);
    const char *call = kind % 12 < 11 ? names[kind % 12] : name;
    if (kind >= 64) for (char *it = numbers; *it; it++) *it = "0123456789 -"[(uint8_t)*it % 12];
    SEE_TEXT(in, brsp_refusal_text, status, call, numbers);
    MUST(!brsp_argument_name(call, kind) || strlen(brsp_argument_name(call, kind)) < 20);
    free(name);
    free(numbers);
}

static void see_states(input *in)
{
    uint8_t *bytes = take_bytes(in, sizeof(brsp_state));
    brsp_state state;
    brsp_operand operand = { (int64_t)take_edge(in) - 70000, take_edge(in), take_number(in, 1), take_number(in, 1), take_number(in, 1) };
    uint32_t field = 99, fault = take_number(in, 1) % 18, word = take_number(in, 4), address = take_edge(in);
    memcpy(&state, bytes, sizeof state);
    MUST(brsp_state_fault(&state, &field) == BRSP_OK);
    MUST((brsp_state_refusal_text(&state, NULL, 0) == 0) == (field == BRSP_FIELD_NONE));
    SEE_TEXT(in, brsp_state_refusal_text, &state);
    SEE_TEXT(in, brsp_operand_text, &operand, fault);
    SEE_TEXT(in, brsp_word_text, word, address);
    MUST(brsp_word_text(word, address, NULL, 0) <= 64);
    free(bytes);
}

/* A savestate that is changed a little, or cut: it has a reason exactly if it is refused. */
static void see_savestate(input *in)
{
    static const uint8_t image[72];
    brsp_machine m = BRSP_NONE;
    size_t len = 0;
    uint32_t fault = 99;
    uint8_t *whole = room(BRSP_SAVESTATE_BYTES + sizeof image), *bytes;
    MUST(brsp_new(&m, image, sizeof image, 0) == BRSP_OK);
    MUST(brsp_save_state(&m, whole, BRSP_SAVESTATE_BYTES + sizeof image, &len) == BRSP_OK);
    for (uint32_t n = take_number(in, 1) % 4; n; n--) whole[take_number(in, 2) % 800] = (uint8_t)take_number(in, 1);
    if (take_number(in, 1) % 2) len = take_edge(in) % (len + 1);
    bytes = copy_of(whole, len);
    MUST(brsp_savestate_check(&m, bytes, len, &fault) == BRSP_OK && *brsp_savestate_fault_text(fault));
    MUST((brsp_savestate_refusal_text(bytes, len, sizeof image, NULL, 0) == 0) == (fault == BRSP_SAVESTATE_FINE));
    MUST((brsp_load_state(&m, bytes, len) == BRSP_OK) == (fault == BRSP_SAVESTATE_FINE));
    SEE_TEXT(in, brsp_savestate_refusal_text, bytes, len, sizeof image);
    brsp_free(&m);
    free(bytes);
    free(whole);
}

int LLVMFuzzerTestOneInput(const uint8_t *data, size_t size)
{
    input in = { data, size };
    switch (take_number(&in, 1) % 8) {
    case 0: see_structures(&in); break;
    case 1: see_refusals(&in); break;
    case 2: see_states(&in); break;
    case 3: see_savestate(&in); break;
    default: see_search(&in);
    }
    return 0;
}
