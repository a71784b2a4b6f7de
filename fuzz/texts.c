/* texts: assembling, disassembling, explaining, labels. The words of a text, disassembled, assemble to the same words; so do any words. A fault and its
 * explanation agree, and a refused text fills nothing. An input begins with the origin and the room for words; the other bytes are the text, and also words. */
#include "fuzz.h"

enum { MOST_WORDS = 1024, MOST_LABELS = 40, FRESH = 0xa5a5a5a5u };

/* A word's text assembles to that word alone. */
static void see_round_trip(uint32_t word, uint32_t address)
{
    brsp_line line;
    brsp_assembled made;
    uint32_t again;
    MUST(brsp_text(word, address, &line) == BRSP_OK && line.word == word && line.address == address && line.len <= 64);
    for (size_t i = 0; i < sizeof line.text; i++) MUST((line.text[i] != 0) == (i < line.len));
    uint8_t *text = copy_of(line.text, line.len);
    MUST(brsp_assemble(address, text, line.len, &again, 1, &made) == BRSP_OK && made.count == 1 && again == word);
    free(text);
}

/* What is said of a text that isn't taken. */
static void see_fault(const brsp_assembled *made, uint32_t explained, const brsp_operand *operand)
{
    int is_text = made->fault != 33, has_operand = made->fault == 12 || made->fault == 13 || made->fault == 15;
    MUST(!made->count && (is_text ? made->fault >= 10 && made->fault <= 16 && made->line : !made->line));
    MUST(explained == (is_text ? BRSP_OK : BRSP_NO_MEANING));
    MUST(!is_text || (operand->number != 0) == has_operand);
    MUST(operand->kind <= BRSP_OPERAND_VECTOR_LANE && (operand->step ? operand->low <= operand->high : !operand->low && !operand->high));
}

/* The labels of a text: there are some only if it has no fault, and none is filled if there is no room for all. */
static void see_labels(uint32_t origin, const uint8_t *text, size_t len, uint32_t assembled)
{
    static const brsp_label fresh;
    brsp_label labels[MOST_LABELS] = { fresh };
    size_t count = 0, capacity = len % (MOST_LABELS + 1);
    uint32_t status = brsp_labels(origin, text, len, labels, capacity, &count);
    if (assembled == BRSP_OUT_OF_RANGE || assembled == BRSP_NO_MEANING) MUST(status == assembled && !count);
    else MUST(status == (count > capacity ? BRSP_NO_ROOM : BRSP_OK));
    for (size_t i = status == BRSP_OK ? count : 0; i < MOST_LABELS; i++) MUST(!memcmp(&labels[i], &fresh, sizeof fresh));
    for (size_t i = 0; status == BRSP_OK && i < count; i++) MUST(labels[i].address >= origin && labels[i].address <= 4096);
}

/* What is said of a text: nothing if it has no fault, and no byte is filled if there is no room for all. */
static void see_said(uint32_t origin, const uint8_t *text, size_t len, uint32_t assembled, uint32_t fault)
{
    static const uint8_t reply[] = "fault 30 BadCommand";
    uint8_t said[256] = { 0 };
    size_t count = 0, capacity = len % (sizeof said + 1);
    uint32_t status = brsp_explain_text(origin, text, len, said, capacity, &count);
    if (assembled == BRSP_OUT_OF_RANGE || fault == 33) MUST(status == assembled && !count);
    else MUST(status == (count > capacity ? BRSP_NO_ROOM : BRSP_OK) && (count > 0) == (assembled == BRSP_NO_MEANING));
    for (size_t i = status == BRSP_OK ? count : 0; i < sizeof said; i++) MUST(!said[i]);
    status = brsp_explain_reply(origin, text, len, reply, sizeof reply - 1, said, capacity, &count);
    MUST(status == (count > capacity ? BRSP_NO_ROOM : BRSP_OK));
}

/* `text` isn't const, because gcc 12 would then warn that the bytes of malloc are uninitialized. */
static void see_text(uint32_t origin, uint8_t *text, size_t len, size_t capacity)
{
    uint32_t *words = room(4 * capacity);
    for (size_t i = 0; i < capacity; i++) words[i] = FRESH;
    brsp_assembled made;
    brsp_operand operand = { 0 };
    uint32_t status = brsp_assemble(origin, text, len, words, capacity, &made), explained = brsp_explain(origin, text, len, &operand);
    int is_origin = origin <= 4096 && origin % 4 == 0;
    MUST((status == BRSP_OUT_OF_RANGE) == !is_origin && (explained == BRSP_OUT_OF_RANGE) == !is_origin);
    MUST(status == BRSP_OK || status == BRSP_OUT_OF_RANGE || status == BRSP_NO_MEANING || status == BRSP_NO_ROOM);
    if (status == BRSP_NO_MEANING) see_fault(&made, explained, &operand);
    if (status == BRSP_NO_ROOM || status == BRSP_OK) MUST((made.count > capacity) == (status == BRSP_NO_ROOM) && !made.fault && !made.line && !operand.number);
    see_labels(origin, text, len, status);
    see_said(origin, text, len, status, status == BRSP_NO_MEANING ? made.fault : 0);
    size_t count = status == BRSP_OK ? made.count : 0;
    for (size_t i = 0; i < count; i++) see_round_trip(words[i], origin + 4 * (uint32_t)i);
    for (size_t i = count; i < capacity; i++) MUST(words[i] == FRESH);
    free(words);
}

int LLVMFuzzerTestOneInput(const uint8_t *data, size_t size)
{
    input in = { data, size };
    uint32_t origin = take_edge(&in), capacity = take_number(&in, 1) % 8 ? MOST_WORDS : take_number(&in, 1);
    uint8_t *text = copy_of(in.at, in.left);
    see_text(origin, text, in.left, capacity);
    free(text);
    for (uint32_t i = 0; in.left >= 4 && i < 16; i++) see_round_trip(take_number(&in, 4), 4 * (take_number(&in, 1) % MOST_WORDS));
    return 0;
}
