/* Faults of the library, one by FAULT, for the targets of fuzz/ to find. It is linked with -Wl,--wrap=NAME for each call here.
 *   calls     1 a refused brsp_load writes a byte, 2 brsp_memory fills a byte more, 3 brsp_back leaves a flag changed
 *   scripts   4 a piece that is one LF is lost, 5 the last line is not answered after a short piece, 6 a byte of DMEM is wrong after many pieces
 *   texts     7 a load is disassembled as a store, 8 an operand with a scale isn't explained, 9 a text without room fills a word */
#include "brsp.h"

#define WRAP(name, parameters) \
    uint32_t __real_##name parameters; \
    uint32_t __wrap_##name parameters; \
    uint32_t __wrap_##name parameters

static size_t last_piece, pieces;

WRAP(brsp_load, (brsp_machine *m, uint32_t bank, uint32_t address, const uint8_t *bytes, size_t len))
{
    static const uint8_t byte = 0x5a;
    uint32_t status = __real_brsp_load(m, bank, address, bytes, len);
    if (FAULT == 1 && status == BRSP_OUT_OF_RANGE) __real_brsp_load(m, BRSP_DMEM, 0, &byte, 1);
    return status;
}

WRAP(brsp_memory, (brsp_machine *m, uint32_t bank, uint32_t address, uint8_t *bytes, size_t len))
{
    uint32_t status = __real_brsp_memory(m, bank, address, bytes, len);
    if (FAULT == 2 && status == BRSP_OK && len > 1000) bytes[len] = 0;
    return status;
}

WRAP(brsp_back, (brsp_machine *m, uint32_t n))
{
    brsp_state state;
    uint32_t status = __real_brsp_back(m, n);
    if (FAULT == 3 && status == BRSP_OK && brsp_get(m, &state) == BRSP_OK) {
        state.flags.extra ^= 1;
        brsp_set(m, &state);
    }
    return status;
}

WRAP(brsp_session_take, (brsp_session *b, const uint8_t *bytes, size_t len, size_t *used, uint8_t *reply, size_t capacity, size_t *written))
{
    last_piece = len;
    pieces++;
    if (FAULT != 4 || len != 1 || *bytes != '\n') return __real_brsp_session_take(b, bytes, len, used, reply, capacity, written);
    *used = 1;
    *written = 0;
    return BRSP_OK;
}

WRAP(brsp_session_end, (brsp_session *b, uint8_t *reply, size_t capacity, size_t *written))
{
    uint32_t status = __real_brsp_session_end(b, reply, capacity, written);
    if (FAULT == 5 && status == BRSP_OK && last_piece < 3) *written = 0;
    return status;
}

WRAP(brsp_session_memory, (brsp_session *b, uint32_t bank, uint32_t address, uint8_t *bytes, size_t len))
{
    uint32_t status = __real_brsp_session_memory(b, bank, address, bytes, len);
    if (FAULT == 6 && status == BRSP_OK && bank == BRSP_DMEM && pieces > 40) bytes[0] ^= 1;
    if (bank == BRSP_RDRAM) pieces = 0;
    return status;
}

WRAP(brsp_text, (uint32_t word, uint32_t address, brsp_line *out))
{
    uint32_t status = __real_brsp_text(word, address, out);
    if (FAULT == 7 && status == BRSP_OK && out->text[0] == 'l' && out->text[2] == 'v' && (word >> 7 & 15) == 7) out->text[0] = 's';
    return status;
}

WRAP(brsp_explain, (uint32_t origin, const uint8_t *text, size_t len, brsp_operand *out))
{
    uint32_t status = __real_brsp_explain(origin, text, len, out);
    if (FAULT == 8 && status == BRSP_OK && out->step > 4) out->number = 0;
    return status;
}

WRAP(brsp_assemble, (uint32_t origin, const uint8_t *text, size_t len, uint32_t *words, size_t capacity, brsp_assembled *out))
{
    uint32_t status = __real_brsp_assemble(origin, text, len, words, capacity, out);
    if (FAULT == 9 && status == BRSP_NO_ROOM && capacity) words[0] = 0;
    return status;
}
