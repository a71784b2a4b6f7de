/* calls: sequences of calls on three machines and two sessions. Each status is a documented one, a refused call changes and fills nothing, numbers out of
 * their range are refused and no others, what is set is what is got, a copy is equal, and what is undone is as it was. texts.c has the calls on texts. */
#include "fuzz.h"
#include "brsp_dmas.h"
#include "brsp_savestate.h"

enum { MACHINES = 3, AT_DMEM = 784, SESSIONS = 2, MOST_CALLS = 64, MOST_STEPS = 20000, SEEN = 8192, FRESH = 0xa5 };

/* What is read of a machine: all but the bytes of RDRAM from SEEN on. */
typedef struct view {
    int is_there;
    size_t image;
    brsp_state state;
    uint8_t memories[8192 + SEEN];
} view;

/* One call: where it takes its numbers from, what it is made on, and its buffers. */
typedef struct attempt {
    input *in;
    brsp_machine *m, *other;
    brsp_session *b;
    view *before, *other_before;
    size_t *image, *other_image; /* the bytes of RDRAM */
    size_t *session_image;
    uint32_t *steps;             /* how many are left */
    void *given[2];
    uint8_t *filled[3];
    size_t lengths[3];
} attempt;

/* A buffer that the call fills. */
static void *fills(attempt *a, size_t len)
{
    int i = a->filled[0] ? a->filled[1] ? 2 : 1 : 0;
    a->lengths[i] = len;
    return a->filled[i] = memset(room(len), FRESH, len);
}

/* A buffer that the call reads. */
static void *reads(attempt *a, size_t len)
{
    int i = a->given[0] != NULL;
    return a->given[i] = take_bytes(a->in, len);
}

static int is_fresh(const uint8_t *bytes, size_t from, size_t len)
{
    for (size_t i = from; i < len; i++)
        if (bytes[i] != FRESH) return 0;
    return 1;
}

static void look(brsp_machine *m, size_t image, view *now)
{
    uint32_t status = brsp_get(m, &now->state), fault;
    now->is_there = status != BRSP_NO_MACHINE;
    if (!now->is_there) return;
    now->image = image < SEEN ? image : SEEN;
    MUST(status == BRSP_OK && brsp_state_fault(&now->state, &fault) == BRSP_OK && fault == BRSP_FIELD_NONE);
    MUST(brsp_memory(m, BRSP_DMEM, 0, now->memories, 4096) == BRSP_OK && brsp_memory(m, BRSP_IMEM, 0, now->memories + 4096, 4096) == BRSP_OK);
    MUST(brsp_memory(m, BRSP_RDRAM, 0, now->memories + 8192, now->image) == BRSP_OK);
}

static int is_same(const view *a, const view *b)
{
    if (!a->is_there || !b->is_there) return a->is_there == b->is_there;
    return a->image == b->image && !memcmp(&a->state, &b->state, sizeof a->state) && !memcmp(a->memories, b->memories, 8192 + a->image);
}

/* A status that is BRSP_OUT_OF_RANGE unless the numbers are in their range, if there is a machine. */
static uint32_t ranged(const attempt *a, int is_in_range, uint32_t status)
{
    MUST(!a->before->is_there || (status != BRSP_OUT_OF_RANGE) == is_in_range);
    return status;
}

static int is_inside(size_t image, uint32_t bank, uint32_t address, size_t len)
{
    size_t end = bank < BRSP_RDRAM ? 4096 : bank == BRSP_RDRAM ? image : 0;
    return bank <= BRSP_RDRAM && address <= end && len <= end - address;
}

static int is_place(uint32_t address) { return address < 4096 && address % 4 == 0; }

/* A count of steps: any number that is refused, or one of those that are left. */
static uint32_t take_steps(attempt *a)
{
    uint32_t n = take_edge(a->in);
    if (n == 0 || n > 1000000) return n;
    if (n > 1000) n = n % 1000 + 1;
    if (n > *a->steps) return 1;
    *a->steps -= n;
    return n;
}

static int is_count(uint32_t n) { return n >= 1 && n <= 1000000; }

/* Calls that look, alone or at a number; and calls that take a number. */
#define LOOK(name, type) static uint32_t name(attempt *a) { return brsp_##name(a->m, fills(a, sizeof(type))); }
#define LOOK_AT(name, type, is_in_range) \
    static uint32_t name(attempt *a) { uint32_t n = take_edge(a->in); return ranged(a, is_in_range, brsp_##name(a->m, n, fills(a, sizeof(type)))); }
#define CHANGE(name, is_in_range) static uint32_t name(attempt *a) { uint32_t n = take_edge(a->in); return ranged(a, is_in_range, brsp_##name(a->m, n)); }
LOOK(image_length, size_t)
LOOK(get, brsp_state)
LOOK(regs, brsp_scalars)
LOOK(acc, brsp_accumulators)
LOOK(flags, brsp_flag_bits)
LOOK(divider, brsp_divide_state)
LOOK(sp, brsp_sp_words)
LOOK_AT(reg, uint32_t, n < 32)
LOOK_AT(vreg, brsp_lanes, n < 32)
LOOK_AT(read, uint32_t, 1)
LOOK_AT(peek, uint32_t, 1)
CHANGE(start_task, 1)
CHANGE(set_pc, is_place(n))
CHANGE(back, is_count(n))
CHANGE(add_break, is_place(n))
CHANGE(drop_break, is_place(n))
CHANGE(drop_watch, 1)

static uint32_t new(attempt *a)
{
    static const size_t lengths[] = { 0, 8, 56, 63, 64, 65, 72, 128, 4096, 65536, 8388616 };
    size_t len = lengths[take_number(a->in, 1) % (sizeof lengths / sizeof *lengths)];
    uint32_t depth = take_edge(a->in);
    uint8_t *image = a->given[0] = calloc(len, 1);
    for (size_t i = 0; i < len && i < 64; i++) image[i] = (uint8_t)take_number(a->in, 1);
    uint32_t status = brsp_new(a->m, image, len, depth);
    MUST((status == BRSP_OUT_OF_RANGE) == (len < 64 || len > 8388608 || len % 8 || depth > 4096));
    if (status == BRSP_OK) *a->image = len;
    return status;
}

static uint32_t copy(attempt *a)
{
    static view now;
    uint32_t status = brsp_copy(a->m, a->other);
    MUST((status == BRSP_NO_MACHINE) == !a->other_before->is_there);
    if (status != BRSP_OK) return status;
    *a->image = *a->other_image;
    look(a->m, *a->image, &now);
    MUST(is_same(&now, a->other_before));
    return status;
}

static uint32_t free_machine(attempt *a)
{
    brsp_free(a->m);
    MUST(!a->m->at);
    return BRSP_OK;
}

/* A state that is changed a little, or any bytes. */
static uint32_t set(attempt *a)
{
    brsp_state *state = reads(a, sizeof *state), got;
    uint32_t fault = 99;
    if (take_number(a->in, 1) % 4) {
        *state = a->before->state;
        for (uint32_t n = take_number(a->in, 1) % 6; n; n--) ((uint8_t *)state)[take_number(a->in, 2) % sizeof *state] = (uint8_t)take_number(a->in, 1);
    }
    MUST(brsp_state_fault(state, &fault) == BRSP_OK);
    uint32_t status = ranged(a, fault == BRSP_FIELD_NONE, brsp_set(a->m, state));
    state->zero = 0;
    MUST(status != BRSP_OK || (brsp_get(a->m, &got) == BRSP_OK && !memcmp(&got, state, sizeof got)));
    return status;
}

static uint32_t state_fault(attempt *a)
{
    uint32_t *fault = fills(a, sizeof *fault), status = brsp_state_fault(reads(a, sizeof(brsp_state)), fault);
    MUST(*fault <= BRSP_FIELD_INTERRUPT || (*fault >= BRSP_FIELD_SP && *fault < BRSP_FIELD_SP + 16));
    return status;
}

static uint32_t load(attempt *a)
{
    uint32_t bank = take_number(a->in, 1) % 5, address = take_edge(a->in);
    size_t len = take_number(a->in, 1) % 64 ? take_number(a->in, 1) : take_edge(a->in) % 5000;
    return ranged(a, is_inside(*a->image, bank, address, len), brsp_load(a->m, bank, address, reads(a, len), len));
}

static uint32_t load_words(attempt *a)
{
    uint32_t bank = take_number(a->in, 1) % 4, address = take_edge(a->in);
    size_t len = take_number(a->in, 1) % 64 ? take_number(a->in, 1) % 16 : take_edge(a->in) % 1030;
    return ranged(a, is_inside(*a->image, bank, address, 4 * len), brsp_load_words(a->m, bank, address, reads(a, 4 * len), len));
}

static uint32_t memory(attempt *a)
{
    uint32_t bank = take_number(a->in, 1) % 5, address = take_edge(a->in);
    size_t len = take_edge(a->in) % 5000;
    return ranged(a, is_inside(*a->image, bank, address, len), brsp_memory(a->m, bank, address, fills(a, len), len));
}

static uint32_t memory_words(attempt *a)
{
    uint32_t bank = take_number(a->in, 1) % 5, address = take_edge(a->in);
    size_t len = take_edge(a->in) % 1030;
    return ranged(a, is_inside(*a->image, bank, address, 4 * len), brsp_memory_words(a->m, bank, address, fills(a, 4 * len), len));
}

static uint32_t step(attempt *a) { return brsp_step(a->m); }

static uint32_t step_changes(attempt *a)
{
    brsp_changes *out = fills(a, sizeof *out);
    brsp_state now;
    uint32_t status = brsp_step_changes(a->m, out);
    if (status != BRSP_OK) return status;
    MUST(brsp_get(a->m, &now) == BRSP_OK && out->pc == now.pc && out->npc == now.npc);
    MUST(!memcmp(&out->accumulators, &now.accumulators, sizeof now.accumulators) && !memcmp(&out->divider, &now.divider, sizeof now.divider));
    return status;
}

static void see_stop(const brsp_stop *stop, uint32_t n, uint32_t last_reason)
{
    MUST(stop->steps <= n && stop->reason <= last_reason && is_place(stop->pc));
    MUST(stop->reason != BRSP_AT_LIMIT || stop->steps == n);
}

static uint32_t run(attempt *a)
{
    brsp_stop *stop = fills(a, sizeof *stop);
    uint32_t n = take_steps(a), status = ranged(a, is_count(n), brsp_run(a->m, n, stop));
    if (status == BRSP_OK) see_stop(stop, n, BRSP_AT_LIMIT);
    return status;
}

static uint32_t run_until_move(attempt *a)
{
    brsp_move *at = fills(a, sizeof *at);
    uint32_t n = take_steps(a), of_reads = take_edge(a->in), of_writes = take_edge(a->in);
    int is_in_range = is_count(n) && of_reads < 65536 && of_writes < 65536;
    uint32_t status = ranged(a, is_in_range, brsp_run_until_move(a->m, n, of_reads, of_writes, at));
    if (status != BRSP_OK) return status;
    see_stop(&at->stop, n, BRSP_AT_MOVE);
    MUST(at->stop.reason == BRSP_AT_MOVE ? (at->writes ? of_writes : of_reads) >> at->number & 1 : !at->word && !at->number && !at->writes && !at->value);
    return status;
}

static uint32_t event(attempt *a)
{
    brsp_reached *out = fills(a, sizeof *out);
    uint32_t n = take_steps(a), of_reads = take_edge(a->in), of_writes = take_edge(a->in), status_word;
    static const brsp_dma none;
    int is_in_range = is_count(n) && of_reads < 65536 && of_writes < 131072;
    uint32_t status = ranged(a, is_in_range, brsp_event(a->m, n, of_reads, of_writes, out));
    if (status != BRSP_OK) return status;
    see_stop(&out->at.stop, n, of_writes >= BRSP_STATUS_WRITES ? BRSP_AT_STATUS : BRSP_AT_DMA);
    int is_dma = out->at.stop.reason == BRSP_AT_DMA;
    MUST(is_dma ? out->at.writes && (out->at.number == 2 || out->at.number == 3) && out->at.stop.steps < n : !memcmp(&out->dma, &none, sizeof none));
    MUST(!is_dma || (out->dma.length >= 8 && out->dma.length <= 4096 && out->dma.rows >= 1 && out->dma.rows <= 256 && out->dma.address < 4096));
    MUST(out->at.stop.reason != BRSP_AT_INTERRUPT || (out->interrupt && !a->before->state.interrupt) || out->at.stop.steps > 1);
    MUST(brsp_peek(a->m, 4, &status_word) == BRSP_OK && out->status == status_word);
    return status;
}

static uint32_t run_until_dma(attempt *a)
{
    brsp_stop *stop = fills(a, sizeof *stop);
    brsp_dma *dma = fills(a, sizeof *dma);
    static const brsp_dma none;
    size_t count = take_number(a->in, 1) % 3;
    const brsp_range *ranges = reads(a, count * sizeof *ranges);
    uint32_t n = take_steps(a), status = ranged(a, is_count(n), brsp_run_until_dma(a->m, n, ranges, count, stop, dma));
    if (status != BRSP_OK) return status;
    see_stop(stop, n, BRSP_AT_DMA);
    MUST(stop->reason == BRSP_AT_DMA ? dma->rows && count && stop->steps < n : !memcmp(dma, &none, sizeof none));
    return status;
}

static uint32_t trace(attempt *a)
{
    uint32_t n = take_steps(a);
    size_t len = is_count(n) ? n : 1;
    brsp_traced *entries = fills(a, len * sizeof *entries);
    brsp_stop *stop = fills(a, sizeof *stop);
    uint32_t status = ranged(a, is_count(n), brsp_trace(a->m, entries, n, stop));
    if (status != BRSP_OK) return status;
    see_stop(stop, n, BRSP_AT_LIMIT);
    MUST(is_fresh(a->filled[0], stop->steps * sizeof *entries, len * sizeof *entries));
    return status;
}

/* Steps, which are then undone, unless one of them emptied the history. */
static uint32_t there_and_back(attempt *a)
{
    static view now;
    brsp_stop stop = { 0 };
    uint32_t status = brsp_run(a->m, 1 + take_number(a->in, 1) % 64, &stop);
    if (status != BRSP_OK || !stop.steps || brsp_back(a->m, stop.steps) != BRSP_OK) return status;
    look(a->m, *a->image, &now);
    MUST(is_same(&now, a->before));
    return status;
}

/* As many steps can be undone as the history has, and no more. */
static uint32_t history(attempt *a)
{
    size_t *count = fills(a, sizeof *count);
    uint32_t status = brsp_history(a->m, count);
    MUST(status != BRSP_OK || (*count <= 4096 && brsp_back(a->m, (uint32_t)*count + 1) == BRSP_SHORT_HISTORY));
    return status;
}

/* It is the step but for the memories, and then moves no byte. */
static uint32_t pass_dma(attempt *a)
{
    static view now;
    uint32_t status = brsp_pass_dma(a->m);
    if (status != BRSP_OK) return status;
    look(a->m, *a->image, &now);
    MUST(!memcmp(now.memories, a->before->memories, 8192 + now.image));
    return status;
}

static uint32_t pass_move(attempt *a) { return brsp_pass_move(a->m, take_number(a->in, 4)); }

static uint32_t add_watch(attempt *a)
{
    size_t *number = fills(a, sizeof *number);
    uint32_t address = take_edge(a->in), len = take_edge(a->in);
    uint32_t status = ranged(a, len >= 1 && len <= 64 && is_inside(0, BRSP_DMEM, address, len), brsp_add_watch(a->m, address, len, number));
    MUST(status != BRSP_OK || *number < 8);
    return status;
}

static uint32_t write(attempt *a)
{
    uint32_t n = take_edge(a->in);
    return brsp_write(a->m, n, take_number(a->in, 1) % 2 ? take_edge(a->in) : take_number(a->in, 4));
}

/* It is the write except for the memories, and then moves no byte. */
static uint32_t write_dma(attempt *a)
{
    static view now;
    brsp_dma *dma = fills(a, sizeof *dma);
    uint32_t n = take_edge(a->in), value = take_number(a->in, 4), status = brsp_write_dma(a->m, n, value, dma);
    if (status != BRSP_OK) return status;
    MUST((n % 16 == 2 || n % 16 == 3) == (dma->rows > 0));
    look(a->m, *a->image, &now);
    MUST(!memcmp(now.memories, a->before->memories, 8192 + now.image));
    return status;
}

static uint32_t set_sp(attempt *a)
{
    brsp_sp_words *words = reads(a, sizeof *words), got;
    if (take_number(a->in, 1) % 4 && brsp_sp(a->m, words) == BRSP_OK)
        for (uint32_t n = take_number(a->in, 1) % 5; n; n--) ((uint8_t *)words)[take_number(a->in, 1) % sizeof *words] = (uint8_t)take_number(a->in, 1);
    uint32_t status = brsp_set_sp(a->m, words);
    MUST(status != BRSP_OK || (brsp_sp(a->m, &got) == BRSP_OK && !memcmp(&got, words, sizeof got)));
    return status;
}

static uint32_t listing(attempt *a)
{
    size_t len = take_edge(a->in) % 1030;
    uint32_t address = take_edge(a->in);
    return ranged(a, is_place(address) && address + 4 * len <= 4096, brsp_listing(a->m, address, fills(a, len * sizeof(brsp_line)), len));
}

static uint32_t save_state(attempt *a)
{
    size_t whole = a->before->is_there ? BRSP_SAVESTATE_BYTES + *a->image : 0, length = whole;
    size_t capacity = take_number(a->in, 1) % 4 ? whole + take_number(a->in, 1) : take_edge(a->in) % (whole + 1);
    uint8_t *bytes = fills(a, capacity);
    uint32_t status = brsp_save_state(a->m, bytes, capacity, &length);
    MUST(length == whole && (status == BRSP_NO_ROOM) == (capacity < whole));
    MUST(status != BRSP_OK || (is_fresh(bytes, whole, capacity) && brsp_load_state(a->m, bytes, whole) == BRSP_OK));
    return status;
}

/* The savestate of another machine, or of this one, changed a little, cut, or any bytes. It is refused, or it is what is saved then. */
static uint32_t load_state(attempt *a)
{
    size_t len = 0, history = 99;
    uint32_t fault = 99, kind = take_number(a->in, 1);
    brsp_machine *from = kind % 2 ? a->other : a->m;
    uint8_t *bytes = NULL;
    if (kind % 8 < 7 && brsp_save_state(from, bytes, 0, &len) == BRSP_NO_ROOM) {
        bytes = a->given[0] = room(len);
        MUST(brsp_save_state(from, bytes, len, &len) == BRSP_OK);
        for (uint32_t n = take_number(a->in, 1) % 4; n; n--) bytes[take_number(a->in, 2) % (kind % 4 ? AT_DMEM : len)] = (uint8_t)take_number(a->in, 1);
        if (kind >= 192) len = take_edge(a->in) % (len + 1);
    } else {
        len = take_edge(a->in) % 10000;
        bytes = reads(a, len);
    }
    uint32_t status = brsp_savestate_check(a->m, bytes, len, &fault);
    MUST(status == BRSP_NO_MACHINE ? fault == 99 : fault <= BRSP_SAVESTATE_STATE);
    status = ranged(a, fault == BRSP_SAVESTATE_FINE, brsp_load_state(a->m, bytes, len));
    if (status != BRSP_OK) return status;
    uint8_t *saved = room(len);
    MUST(brsp_save_state(a->m, saved, len, &len) == BRSP_OK && !memcmp(saved, bytes, len));
    MUST(brsp_history(a->m, &history) == BRSP_OK && history == 0);
    free(saved);
    return status;
}

static uint32_t session_new(attempt *a)
{
    static const size_t lengths[] = { 0, 8, 64, 65, 72, 4096, 8388616 };
    size_t len = lengths[take_number(a->in, 1) % (sizeof lengths / sizeof *lengths)];
    uint8_t *image = a->given[0] = calloc(len, 1);
    uint32_t status = brsp_session_new(a->b, image, len);
    MUST((status == BRSP_OUT_OF_RANGE) == (len < 64 || len > 8388608 || len % 8));
    if (status == BRSP_OK) *a->session_image = len;
    return status;
}

static size_t take_capacity(attempt *a) { return take_number(a->in, 1) % 8 ? BRSP_REPLIES : take_edge(a->in) % 20000; }

static uint32_t session_take(attempt *a)
{
    size_t len = take_number(a->in, 1), capacity = take_capacity(a), *used = fills(a, sizeof *used), *written = fills(a, sizeof *written);
    uint32_t status = brsp_session_take(a->b, reads(a, len), len, used, fills(a, capacity), capacity, written);
    MUST((status == BRSP_NO_MACHINE) == !a->b->at);
    if (status != BRSP_OK) return status;
    MUST(capacity >= BRSP_REPLIES && *used <= len && (*used || !len) && *written <= capacity && is_fresh(a->filled[2], *written, capacity));
    return status;
}

static uint32_t session_end(attempt *a)
{
    size_t capacity = take_capacity(a), *written = fills(a, sizeof *written), used, again;
    uint8_t *reply = fills(a, capacity), replies[BRSP_REPLIES];
    uint32_t status = brsp_session_end(a->b, reply, capacity, written);
    if (status != BRSP_OK) return status;
    MUST(*written <= capacity && is_fresh(reply, *written, capacity));
    MUST(brsp_session_take(a->b, (const uint8_t *)"\n", 1, &used, replies, sizeof replies, &again) == BRSP_ENDED);
    return status;
}

static uint32_t session_memory(attempt *a)
{
    uint32_t bank = take_number(a->in, 1) % 5, address = take_edge(a->in);
    size_t len = take_edge(a->in) % 5000;
    uint32_t status = brsp_session_memory(a->b, bank, address, fills(a, len), len);
    MUST(!a->b->at || (status == BRSP_OK) == is_inside(*a->session_image, bank, address, len));
    return status;
}

static uint32_t session_free(attempt *a)
{
    if (take_number(a->in, 1) % 4 == 0) brsp_session_free(a->b);
    MUST(brsp_version() == BRSP_VERSION);
    return BRSP_OK;
}

/* Each call, the statuses that brsp.h gives it besides BRSP_OK, and on what it works: it changes a machine or looks at one, makes or frees one, or has none. */
enum on { CHANGES, LOOKS, MAKES, APART };
#define S(status) (1u << (BRSP_##status - BRSP_NO_MACHINE))
static const struct {
    uint32_t (*make)(attempt *a);
    uint32_t statuses;
    enum on on;
} calls[] = {
    { new, S(NO_MEMORY) | S(OUT_OF_RANGE), MAKES }, { new, S(NO_MEMORY) | S(OUT_OF_RANGE), MAKES }, { copy, S(NO_MACHINE) | S(NO_MEMORY), MAKES },
    { free_machine, 0, MAKES }, { get, 0, LOOKS }, { set, S(OUT_OF_RANGE), CHANGES }, { state_fault, 0, APART }, { load, S(OUT_OF_RANGE), CHANGES },
    { load_words, S(OUT_OF_RANGE), CHANGES }, { memory, S(OUT_OF_RANGE), LOOKS }, { memory_words, S(OUT_OF_RANGE), LOOKS },
    { start_task, S(TASK_PLACE) | S(TASK_SIZE), CHANGES }, { set_pc, S(OUT_OF_RANGE), CHANGES }, { step, S(HALTED) | S(RESERVED), CHANGES },
    { step_changes, S(HALTED) | S(RESERVED), CHANGES }, { run, S(OUT_OF_RANGE), CHANGES }, { run_until_move, S(OUT_OF_RANGE), CHANGES },
    { trace, S(OUT_OF_RANGE), CHANGES }, { back, S(OUT_OF_RANGE) | S(SHORT_HISTORY), CHANGES }, { there_and_back, 0, CHANGES },
    { pass_move, S(HALTED) | S(OTHER_WORD), CHANGES }, { add_break, S(OUT_OF_RANGE) | S(BREAK_TWICE) | S(BREAK_FULL), LOOKS },
    { drop_break, S(OUT_OF_RANGE) | S(NO_BREAK), LOOKS }, { add_watch, S(OUT_OF_RANGE) | S(WATCH_FULL), LOOKS }, { drop_watch, S(NO_WATCH), LOOKS },
    { reg, S(OUT_OF_RANGE), LOOKS }, { regs, 0, LOOKS }, { vreg, S(OUT_OF_RANGE), LOOKS }, { acc, 0, LOOKS }, { flags, 0, LOOKS }, { divider, 0, LOOKS },
    { read, 0, CHANGES }, { peek, 0, LOOKS }, { write, 0, CHANGES }, { sp, 0, LOOKS }, { set_sp, S(OUT_OF_RANGE), CHANGES },
    { listing, S(OUT_OF_RANGE), LOOKS }, { session_new, S(NO_MEMORY) | S(OUT_OF_RANGE), APART },
    { session_take, S(NO_MACHINE) | S(NO_MEMORY) | S(NO_ROOM) | S(ENDED) | S(TOO_LONG), APART },
    { session_end, S(NO_MACHINE) | S(NO_MEMORY) | S(NO_ROOM) | S(ENDED) | S(TOO_LONG), APART },
    { session_memory, S(NO_MACHINE) | S(OUT_OF_RANGE), APART }, { session_free, 0, APART },
    { event, S(OUT_OF_RANGE), CHANGES }, { history, 0, LOOKS }, { pass_dma, S(HALTED) | S(OTHER_WORD), CHANGES }, { image_length, 0, LOOKS },
    { write_dma, 0, CHANGES }, { save_state, S(NO_ROOM), LOOKS }, { load_state, S(OUT_OF_RANGE), CHANGES },
    { run_until_dma, S(OUT_OF_RANGE), CHANGES }
};

static brsp_machine machines[MACHINES];
static brsp_session sessions[SESSIONS];
static size_t images[MACHINES], session_images[SESSIONS];
static view before[MACHINES];

/* Compares all machines with what they were before a call on machine k. */
static void see_machines(int k, int may_change)
{
    static view now;
    for (int i = 0; i < MACHINES; i++) {
        look(&machines[i], images[i], &now);
        MUST((i == k && may_change) || is_same(&now, &before[i]));
        before[i] = now;
    }
}

static void make_call(input *in, uint32_t *steps)
{
    uint32_t number = take_number(in, 1) % (sizeof calls / sizeof *calls), on = take_number(in, 1);
    int k = (int)(on % MACHINES), other = (k + 1 + (int)(on / MACHINES % 2)) % MACHINES, b = (int)(on % SESSIONS);
    attempt a = { .in = in, .m = &machines[k], .other = &machines[other], .b = &sessions[b], .before = &before[k], .other_before = &before[other],
        .image = &images[k], .other_image = &images[other], .session_image = &session_images[b], .steps = steps };
    int is_on_machine = calls[number].on == CHANGES || calls[number].on == LOOKS;
    uint32_t status = calls[number].make(&a);
    MUST((status == BRSP_OK || (status >= BRSP_NO_MACHINE && status <= BRSP_OTHER_WORD)) && (!is_on_machine || (status == BRSP_NO_MACHINE) == !before[k].is_there));
    MUST(status == BRSP_OK || (status == BRSP_NO_MACHINE && is_on_machine) || calls[number].statuses >> (status - BRSP_NO_MACHINE) & 1);
    for (int i = 0; i < 3; i++) {
        MUST(status == BRSP_OK || is_fresh(a.filled[i], 0, a.lengths[i]));
        free(a.filled[i]);
    }
    free(a.given[0]);
    free(a.given[1]);
    see_machines(k, status == BRSP_OK && (calls[number].on == CHANGES || calls[number].on == MAKES));
}

int LLVMFuzzerTestOneInput(const uint8_t *data, size_t size)
{
    input in = { data, size };
    uint32_t steps = MOST_STEPS;
    memset(before, 0, sizeof before);
    for (int n = 0; in.left && n < MOST_CALLS; n++) make_call(&in, &steps);
    for (int i = 0; i < MACHINES; i++) brsp_free(&machines[i]);
    for (int i = 0; i < SESSIONS; i++) brsp_session_free(&sessions[i]);
    return 0;
}
