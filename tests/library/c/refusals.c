/* The calls of tests/library/refusals.tsv, which is the standard input, in C: a line for each with the status and the sentence. lib/library/refusals.py
 * says what a call does. A line that this language can't express is left out. */
#include "brsp_compare.h"
#include "brsp_savestate.h"
#include "each_call.h"

enum { IMAGE = 64, DEPTH = 4 };
static const uint8_t zeros[9216] = { 0 }, nop[] = "nop", step[] = "step\n";

typedef struct sides {
    brsp_machine m;
    brsp_session s;
    char why[256]; /* of a refused state or savestate, otherwise empty */
} sides;

static void nothing(void *self, uint32_t steps) { (void)self, (void)steps; }

static uint32_t set(sides *it, uint32_t field, uint32_t value)
{
    brsp_state state;
    brsp_get(&it->m, &state);
    if (field == BRSP_FIELD_ZERO) state.words[0] = value;
    if (field == BRSP_FIELD_LOADED) state.divider.loaded = (uint16_t)value;
    if (field == BRSP_FIELD_PC) state.pc = (uint16_t)value;
    if (field == BRSP_FIELD_NPC) state.npc = (uint16_t)value;
    if (field == BRSP_FIELD_INTERRUPT) state.interrupt = value;
    if (field >= BRSP_FIELD_SP) state.sp[field - BRSP_FIELD_SP] = value;
    brsp_state_refusal_text(&state, it->why, sizeof it->why);
    return brsp_set(&it->m, &state);
}

static uint32_t load_state(sides *it, uint32_t at, uint32_t byte, uint32_t len)
{
    static uint8_t bytes[9216];
    size_t length;
    uint32_t status;
    memset(bytes, 0, sizeof bytes);
    status = brsp_save_state(&it->m, bytes, sizeof bytes, &length);
    if (status != BRSP_OK) return status;
    bytes[at] = (uint8_t)byte;
    brsp_savestate_refusal_text(bytes, len, IMAGE, it->why, sizeof it->why);
    return brsp_load_state(&it->m, bytes, len);
}

static uint32_t set_sp(sides *it, uint32_t interrupt)
{
    brsp_sp_words words;
    brsp_sp(&it->m, &words);
    words.interrupt = interrupt;
    return brsp_set_sp(&it->m, &words);
}

static uint32_t first_difference(sides *it, uint32_t every, uint32_t limit)
{
    const brsp_emulator none = { NULL, nothing, NULL, NULL, NULL, NULL };
    brsp_difference found;
    return brsp_first_difference(&it->m, &none, every, limit, &found);
}

/* Calls that need buffers. */
static uint32_t filling(sides *it, const char *name, const uint32_t *n)
{
    static uint8_t bytes[BRSP_REPLIES];
    static uint32_t words[1024];
    brsp_assembled assembled;
    brsp_line line;
    size_t used, written;
    if (!strcmp(name, "text")) return brsp_text(n[0], n[1], &line);
    if (!strcmp(name, "assemble")) return brsp_assemble(n[0], nop, 3, words, 1024, &assembled);
    if (!strcmp(name, "explain_text")) return brsp_explain_text(n[0], nop, 3, bytes, sizeof bytes, &written);
    if (!strcmp(name, "feed")) return brsp_session_take(&it->s, step, 5, &used, bytes, sizeof bytes, &written);
    if (!strcmp(name, "end")) return brsp_session_end(&it->s, bytes, sizeof bytes, &written);
    if (!strcmp(name, "save_state")) return brsp_save_state(&it->m, bytes, sizeof bytes, &written);
    return ~0u;
}

#define NUMBER(k) n[k]
#define ROOM(k) room[k]
#define MAKE(call, given) if (!strcmp(name, &#call[5])) return call given;

static uint32_t made(sides *it, const char *name, const uint32_t *n)
{
    static uint64_t room[4][16384];
    if (!strcmp(name, "Machine")) return brsp_new(&it->m, zeros, n[0], n[1]);
    if (!strcmp(name, "Session")) return brsp_session_new(&it->s, zeros, n[0]);
    if (!strcmp(name, "free")) return brsp_free(&it->m), BRSP_OK;
    if (!strcmp(name, "set")) return set(it, n[0], n[1]);
    if (!strcmp(name, "set_sp")) return set_sp(it, n[0]);
    if (!strcmp(name, "load_state")) return load_state(it, n[0], n[1], n[2]);
    if (!strcmp(name, "first_difference")) return first_difference(it, n[0], n[1]);
    EACH_CALL(MAKE, &it->m, &it->s, NUMBER, ROOM)
    return filling(it, name, n);
}

/* Makes a call of a line. Its status. */
static uint32_t called(sides *it, const char *text, char *sentence, size_t capacity)
{
    char name[32];
    int at = 0;
    unsigned n[3] = { 0, 0, 0 };
    const uint32_t *numbers = (const uint32_t *)n;
    uint32_t status;
    sscanf(text, "%31s%n", name, &at);
    sscanf(text + at, "%u %u %u", &n[0], &n[1], &n[2]);
    it->why[0] = 0;
    status = made(it, name, numbers);
    if (it->why[0]) snprintf(sentence, capacity, "%s: %s", name, it->why);
    else brsp_refusal_text(status, name, text[at] ? text + at + 1 : "", sentence, capacity);
    return status;
}

/* Makes the calls of a line, which all but the last one take. */
static int line(char *text)
{
    sides it = { BRSP_NONE, BRSP_NONE, "" };
    const uint32_t first = 0x40010000; /* mfc0 $1, $c0 */
    char sentence[256] = "", *next;
    uint32_t status = brsp_new(&it.m, zeros, IMAGE, DEPTH);
    if (status != BRSP_OK || brsp_session_new(&it.s, zeros, IMAGE) != BRSP_OK || brsp_load_words(&it.m, BRSP_IMEM, 0, &first, 1) != BRSP_OK) return 1;
    for (char *at = text; at && status == BRSP_OK; at = next) {
        next = strstr(at, "; ");
        if (next) *next = 0, next += 2;
        status = called(&it, at, sentence, sizeof sentence);
    }
    printf("%s\t%s\n", brsp_status_name(status), sentence);
    brsp_free(&it.m);
    brsp_session_free(&it.s);
    return 0;
}

int main(void)
{
    char text[512];
    while (fgets(text, sizeof text, stdin)) {
        text[strcspn(text, "\n")] = 0;
        if (line(text)) return 1;
    }
    return 0;
}
