/* The search for the first step after which an emulator differs from the machine. */
#include "writer.h"

enum { MEMORY = 4096, SP_MEMORIES = 2 * MEMORY, RDRAM_ENDS = 1 << 24, MOST_REQUESTS = 8, LINES = 20 };

/* What is compared of a side lies in the bytes of a search: its registers, DMEM and IMEM. BEFORE is the machine at the last comparison, and the
 * next two are both sides after a stretch while its steps are made one by one. */
enum { MINE, ITS, BEFORE, STRETCH_MINE, STRETCH_ITS, SIDES };
enum { SIDE = sizeof(brsp_state) + SP_MEMORIES };

/* What the search does when all its requests are answered. */
enum { COPIED, RAN, NARROWED, MOVED, ENDED, OVER };

/* A search. Its bytes begin with this, then come the sides, two states, and RDRAM of both sides. Both are alike in RDRAM, as far as it was
 * compared, until a difference is found. */
typedef struct search {
    uint64_t image;
    uint32_t every, limit;
    uint32_t phase;
    uint32_t asked, given;    /* how many requests there are, and how many of them were handed out */
    uint32_t steps;           /* after so many steps both were alike */
    uint32_t made, narrowed;  /* of a stretch all steps, and those that were made one by one */
    uint32_t row, is_moved;   /* of a DMA the next row; whether a row differs */
    uint32_t step, span;      /* what was found: the step, and how many lead to it */
    brsp_dma dma;
    brsp_line start, line;    /* the first instruction, and that of the step that is made */
    brsp_line stretch;        /* the first instruction of a stretch */
    brsp_request requests[MOST_REQUESTS];
} search;

/* The states before the first step, and before the step that is made. */
enum { START, STEP, STATES };

static size_t state_at(unsigned side) { return sizeof(search) + side * (size_t)SIDE; }
static size_t memory_at(unsigned side, unsigned bank) { return state_at(side) + sizeof(brsp_state) + bank * (size_t)MEMORY; }
static size_t kept_at(unsigned state) { return state_at(SIDES) + state * sizeof(brsp_state); }
static size_t rdram_at(const search *s, unsigned side) { return kept_at(STATES) + side * (size_t)s->image; }

size_t brsp_search_bytes(size_t image) { return kept_at(STATES) + 2 * image; }

static brsp_state state_of(const uint8_t *bytes, size_t at)
{
    brsp_state state;
    memcpy(&state, bytes + at, sizeof state);
    return state;
}

/* ---- Requests ---- */

static void ask(search *s, uint32_t kind, uint32_t bank, uint32_t address, size_t at, size_t len)
{
    const brsp_request request = { kind, 0, bank, address, at, len };
    s->requests[s->asked++] = request;
}

static void ask_run(search *s, uint32_t steps)
{
    const brsp_request request = { BRSP_REQUEST_RUN, steps, 0, 0, 0, 0 };
    s->requests[s->asked++] = request;
}

/* Brings the emulator's registers, DMEM and IMEM to those of a side. */
static void ask_put(search *s, unsigned side)
{
    ask(s, BRSP_REQUEST_SET, 0, 0, state_at(side), sizeof(brsp_state));
    for (uint32_t bank = BRSP_DMEM; bank <= BRSP_IMEM; bank++) ask(s, BRSP_REQUEST_LOAD, bank, 0, memory_at(side, bank), MEMORY);
}

static void ask_see(search *s)
{
    ask(s, BRSP_REQUEST_GET, 0, 0, state_at(ITS), sizeof(brsp_state));
    for (uint32_t bank = BRSP_DMEM; bank <= BRSP_IMEM; bank++) ask(s, BRSP_REQUEST_MEMORY, bank, 0, memory_at(ITS, bank), MEMORY);
}

/* ---- The machine's side, and both ---- */

/* Reads the machine's registers, DMEM and IMEM. */
static uint32_t see_mine(brsp_machine *m, uint8_t *bytes)
{
    brsp_state state;
    uint32_t status = brsp_get(m, &state);
    if (status == BRSP_OK) status = brsp_memory(m, BRSP_DMEM, 0, bytes + memory_at(MINE, BRSP_DMEM), MEMORY);
    if (status == BRSP_OK) status = brsp_memory(m, BRSP_IMEM, 0, bytes + memory_at(MINE, BRSP_IMEM), MEMORY);
    if (status == BRSP_OK) memcpy(bytes + state_at(MINE), &state, sizeof state);
    return status;
}

/* Reads so many bytes of the machine's RDRAM. */
static uint32_t see_rdram(brsp_machine *m, const search *s, uint8_t *bytes, uint32_t address, size_t len)
{
    return brsp_memory(m, BRSP_RDRAM, address, bytes + rdram_at(s, MINE) + address, len);
}

static size_t state_parts(const uint8_t *bytes, brsp_part *parts, size_t capacity)
{
    const brsp_state mine = state_of(bytes, state_at(MINE)), its = state_of(bytes, state_at(ITS));
    return brsp_structure_parts(BRSP_OF_STATE, &mine, &its, parts, capacity);
}

/* Whether the sides differ in registers, DMEM or IMEM. The byte `zero` of a state may differ. */
static int differ(const uint8_t *bytes)
{
    if (is_other(bytes + memory_at(MINE, BRSP_DMEM), bytes + memory_at(ITS, BRSP_DMEM), SP_MEMORIES)) return 1;
    return is_other(bytes + state_at(MINE), bytes + state_at(ITS), sizeof(brsp_state)) && state_parts(bytes, 0, 0);
}

static void copy_side(uint8_t *bytes, unsigned to, unsigned from) { memcpy(bytes + state_at(to), bytes + state_at(from), SIDE); }

/* ---- What the search does ---- */

/* The search is over. Up to `step` so many steps lead to a difference; without one `span` is 0. */
static void end(search *s, uint32_t step, uint32_t span)
{
    s->step = step;
    s->span = span;
    s->phase = OVER;
}

/* Asks for all of RDRAM, where no DMA may have written. */
static void ask_end(search *s)
{
    if (!s->steps) { /* it has just been compared */
        end(s, 0, 0);
        return;
    }
    ask(s, BRSP_REQUEST_MEMORY, BRSP_RDRAM, 0, rdram_at(s, ITS), (size_t)s->image);
    s->phase = ENDED;
}

/* Makes a step of both. What was seen of the machine is what it has. */
static uint32_t make_step(brsp_machine *m, search *s, uint8_t *bytes, uint32_t phase)
{
    const brsp_state before = state_of(bytes, state_at(MINE));
    uint32_t status = brsp_listing(m, before.pc, &s->line, 1);
    memcpy(bytes + kept_at(STEP), &before, sizeof before);
    if (status == BRSP_OK) status = brsp_step(m);
    if (status != BRSP_OK) return status;
    ask_run(s, 1);
    ask_see(s);
    s->phase = phase;
    return see_mine(m, bytes);
}

/* Begins the next stretch, or makes the DMA before which the machine is, or ends. */
static uint32_t begin_stretch(brsp_machine *m, search *s, uint8_t *bytes)
{
    const brsp_state state = state_of(bytes, state_at(MINE));
    const uint32_t left = s->limit - s->steps;
    brsp_reached reached;
    uint32_t status = BRSP_OK;
    if (!left) {
        ask_end(s);
        return status;
    }
    copy_side(bytes, BEFORE, MINE);
    status = brsp_listing(m, state.pc, &s->stretch, 1);
    if (status == BRSP_OK) status = brsp_event(m, left < s->every ? left : s->every, 0, 0, &reached);
    if (status != BRSP_OK) return status;
    s->made = reached.at.stop.steps;
    if (s->made) {
        ask_run(s, s->made);
        ask_see(s);
        s->phase = RAN;
        return see_mine(m, bytes);
    }
    if (reached.at.stop.reason != BRSP_AT_DMA) { /* it is halted, or at a reserved word */
        ask_end(s);
        return status;
    }
    s->dma = reached.dma;
    s->row = s->is_moved = 0;
    return make_step(m, s, bytes, MOVED);
}

/* Brings both sides back to the last comparison. A stretch has no DMA, so the machine's IMEM is as it was. */
static uint32_t begin_narrowing(brsp_machine *m, search *s, uint8_t *bytes)
{
    const brsp_state before = state_of(bytes, state_at(BEFORE));
    uint32_t status = brsp_set(m, &before);
    if (status == BRSP_OK) status = brsp_load(m, BRSP_DMEM, 0, bytes + memory_at(BEFORE, BRSP_DMEM), MEMORY);
    copy_side(bytes, STRETCH_MINE, MINE);
    copy_side(bytes, STRETCH_ITS, ITS);
    copy_side(bytes, MINE, BEFORE);
    s->narrowed = 0;
    ask_put(s, BEFORE);
    return status == BRSP_OK ? make_step(m, s, bytes, NARROWED) : status;
}

/* After a step of a stretch that differs: the step, or the whole stretch if no step alone does. */
static uint32_t narrow(brsp_machine *m, search *s, uint8_t *bytes)
{
    s->narrowed++;
    if (differ(bytes)) {
        end(s, s->steps + s->narrowed, 1);
        return BRSP_OK;
    }
    if (s->narrowed < s->made) return make_step(m, s, bytes, NARROWED);
    copy_side(bytes, MINE, STRETCH_MINE);
    copy_side(bytes, ITS, STRETCH_ITS);
    memcpy(bytes + kept_at(STEP), bytes + state_at(BEFORE), sizeof(brsp_state));
    s->line = s->stretch;
    end(s, s->steps + s->made, s->made);
    return BRSP_OK;
}

/* The bytes of RDRAM that the next row of a DMA wrote: their address and length. Returns 0 if there are none, because no row is left, or all others
 * lie past the end. */
static size_t next_row(search *s, uint32_t *address)
{
    while (s->dma.to_rdram && s->row < s->dma.rows) {
        uint64_t from = ((uint64_t)s->dma.rdram + (uint64_t)s->row++ * (s->dma.length + s->dma.skip)) % RDRAM_ENDS;
        uint64_t to = from + s->dma.length;
        if (to > RDRAM_ENDS) from = 0, to -= RDRAM_ENDS; /* before that the row is past the end */
        if (from >= s->image) continue;
        *address = (uint32_t)from;
        return (size_t)((to < s->image ? to : s->image) - from);
    }
    return 0;
}

/* After a DMA: compares row by row, and then the rest. */
static uint32_t compare_moved(brsp_machine *m, search *s, uint8_t *bytes)
{
    uint32_t address = 0, status = BRSP_OK;
    const brsp_request *last = &s->requests[s->asked - 1];
    size_t len;
    if (last->bank == BRSP_RDRAM && is_other(bytes + rdram_at(s, MINE) + last->address, bytes + last->at, last->len)) s->is_moved = 1;
    s->asked = s->given = 0;
    len = next_row(s, &address);
    if (len) {
        ask(s, BRSP_REQUEST_MEMORY, BRSP_RDRAM, address, rdram_at(s, ITS) + address, len);
        return see_rdram(m, s, bytes, address, len);
    }
    if (s->is_moved || differ(bytes)) {
        end(s, s->steps + 1, 1);
        return status;
    }
    s->steps++;
    return begin_stretch(m, s, bytes);
}

/* After the last step: compares RDRAM. */
static uint32_t compare_end(brsp_machine *m, search *s, uint8_t *bytes)
{
    uint32_t status = see_rdram(m, s, bytes, 0, (size_t)s->image);
    const int is_found = is_other(bytes + rdram_at(s, MINE), bytes + rdram_at(s, ITS), (size_t)s->image);
    memcpy(bytes + kept_at(STEP), bytes + kept_at(START), sizeof(brsp_state));
    s->line = s->start;
    end(s, is_found ? s->steps : 0, is_found ? s->steps : 0);
    return status;
}

/* All requests are answered: what comes next. */
static uint32_t proceed(brsp_machine *m, search *s, uint8_t *bytes)
{
    const uint32_t phase = s->phase;
    if (phase == MOVED) return compare_moved(m, s, bytes);
    s->asked = s->given = 0;
    if (phase == NARROWED) return narrow(m, s, bytes);
    if (phase == ENDED) return compare_end(m, s, bytes);
    if (phase == COPIED) {
        const size_t image = (size_t)s->image;
        if (!differ(bytes) && !is_other(bytes + rdram_at(s, MINE), bytes + rdram_at(s, ITS), image)) return begin_stretch(m, s, bytes);
        end(s, 0, 1);
        return BRSP_OK;
    }
    if (differ(bytes)) return begin_narrowing(m, s, bytes);
    s->steps += s->made;
    return begin_stretch(m, s, bytes);
}

/* ---- The calls ---- */

uint32_t brsp_search_begin(brsp_machine *m, uint32_t every, uint32_t limit, uint8_t *bytes, size_t length)
{
    search s;
    brsp_state state;
    size_t image;
    uint32_t status = brsp_image_length(m, &image);
    if (status != BRSP_OK) return status;
    if (every < 1 || every > 1000000) return BRSP_OUT_OF_RANGE;
    if (length < brsp_search_bytes(image)) return BRSP_NO_ROOM;
    memset(&s, 0, sizeof s);
    s.image = image;
    s.every = every;
    s.limit = limit;
    status = see_mine(m, bytes);
    if (status == BRSP_OK) status = see_rdram(m, &s, bytes, 0, image);
    state = state_of(bytes, state_at(MINE));
    if (status == BRSP_OK) status = brsp_listing(m, state.pc, &s.start, 1);
    s.line = s.start;
    memcpy(bytes + kept_at(START), &state, sizeof state);
    memcpy(bytes + kept_at(STEP), &state, sizeof state);
    ask_put(&s, MINE);
    ask(&s, BRSP_REQUEST_LOAD, BRSP_RDRAM, 0, rdram_at(&s, MINE), image);
    ask_see(&s);
    ask(&s, BRSP_REQUEST_MEMORY, BRSP_RDRAM, 0, rdram_at(&s, ITS), image);
    memcpy(bytes, &s, sizeof s);
    return status;
}

uint32_t brsp_search_next(brsp_machine *m, uint8_t *bytes, brsp_request *request)
{
    search s;
    size_t image;
    uint32_t status = brsp_image_length(m, &image);
    memcpy(&s, bytes, sizeof s);
    if (status == BRSP_OK && image != s.image) status = BRSP_OUT_OF_RANGE;
    while (status == BRSP_OK && s.given == s.asked && s.phase != OVER) status = proceed(m, &s, bytes);
    if (status != BRSP_OK) return status;
    memset(request, 0, sizeof *request);
    if (s.given < s.asked) *request = s.requests[s.given++];
    memcpy(bytes, &s, sizeof s);
    return BRSP_OK;
}

/* All parts that differ, into `parts` if it isn't null. Returns how many there are. */
static size_t all_parts(const search *s, const uint8_t *bytes, brsp_part *parts)
{
    size_t count = state_parts(bytes, parts, parts ? BRSP_PARTS : 0);
    for (uint32_t bank = BRSP_DMEM; bank <= BRSP_RDRAM; bank++) {
        const int is_sp = bank != BRSP_RDRAM;
        const uint8_t *mine = bytes + (is_sp ? memory_at(MINE, bank) : rdram_at(s, MINE));
        const uint8_t *its = bytes + (is_sp ? memory_at(ITS, bank) : rdram_at(s, ITS));
        const size_t len = is_sp ? MEMORY : (size_t)s->image;
        count += brsp_memory_parts(bank, mine, its, len, parts ? parts + count : 0, parts ? len : 0);
    }
    return count;
}

void brsp_search_difference(const uint8_t *bytes, brsp_difference *found)
{
    search s;
    memcpy(&s, bytes, sizeof s);
    memset(found, 0, sizeof *found);
    found->step = s.step;
    found->steps = s.span;
    found->before = state_of(bytes, kept_at(STEP));
    found->line = s.line;
    memset(found->line.text, 0, sizeof found->line.text);
    found->line.len = (uint16_t)brsp_word_text(s.line.word, s.line.address, found->line.text, sizeof found->line.text);
    if (s.phase == OVER && s.span) found->count = all_parts(&s, bytes, 0);
}

void brsp_search_parts(const uint8_t *bytes, brsp_part *parts)
{
    search s;
    memcpy(&s, bytes, sizeof s);
    if (s.phase == OVER && s.span) all_parts(&s, bytes, parts);
}

/* ---- A difference as text ---- */

static void put_head(writer *w, const brsp_difference *found)
{
    put_text(w, found->steps == 1 ? "step " : "steps ");
    if (found->steps != 1) {
        put_number(w, found->step - found->steps + 1);
        put_text(w, " to ");
    }
    put_number(w, found->step);
    put_text(w, found->steps == 1 ? ", " : ", from ");
    put_hex(w, found->line.address, 3);
    if (found->steps == 1) {
        put_text(w, ": ");
        put_text(w, found->line.text);
    } else if (found->count && begins(found->parts->name, "RDRAM ")) {
        put_text(w, " on: RDRAM differs where no DMA wrote: repeat with a smaller limit");
    } else {
        put_text(w, " on: no step alone differs, so get and set leave something out: repeat with every = 1");
    }
}

size_t brsp_difference_text(const brsp_difference *found, char *text, size_t capacity)
{
    writer w = { text, capacity, 0 };
    const size_t shown = found->count < LINES ? found->count : LINES - 2;
    put_head(&w, found);
    for (size_t n = 0; n < shown; n++) {
        char line[160];
        brsp_part_text(&found->parts[n], "on the machine", "in the emulator", line, sizeof line);
        put_text(&w, "\n  ");
        put_text(&w, line);
    }
    if (shown < found->count) {
        put_text(&w, "\n  and ");
        put_number(&w, found->count - shown);
        put_text(&w, " more");
    }
    return ended(&w);
}
