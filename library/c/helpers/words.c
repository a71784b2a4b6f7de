/* The disassembly of words, also of those whose ignored bits aren't 0. */
#include "writer.h"

/* The bits that select a word's instruction. */
static uint32_t selecting(uint32_t word)
{
    switch (word >> 26) {
    case 0x00: return 0xfc00003f;                                  /* SPECIAL: the function */
    case 0x01: return 0xfc1f0000;                                  /* REGIMM: rt */
    case 0x10: return 0xffe00000;                                  /* COP0: rs */
    case 0x12: return word & 1 << 25 ? 0xfe00003f : 0xffe00000;    /* COP2: the function of a computing instruction, or rs */
    case 0x32:
    case 0x3a: return 0xffffffff;                                  /* LWC2, SWC2: no bit is ignored, and LFV and SFV have two elements */
    default: return 0xfc000000;
    }
}

/* Whether a word has a text that names an instruction. */
static int is_named(uint32_t word, uint32_t address, brsp_line *line)
{
    return brsp_text(word, address, line) == BRSP_OK && !begins(line->text, ".word");
}

/* The word of the same instruction whose ignored bits are 0; a reserved word for a reserved one. With a bit that is ignored a word has no text, so
 * each other bit is found by asking for one. Of a register's number the high bits count where not all do, so they come first. */
static uint32_t canonical(uint32_t word, uint32_t address)
{
    const uint32_t opcode = word >> 26, offset = 0xffff, used = 0x3ff;
    const int is_branch = opcode == 1 || (opcode >= 4 && opcode <= 7);
    uint32_t made = word & selecting(word);
    brsp_line line;
    if (is_branch) made |= word & used; /* IMEM has 1024 words, so only ten bits of the distance count */
    if (is_branch && !is_named(made, address, &line)) made |= offset & ~used;
    for (uint32_t bit = 1 << 25; bit; bit >>= 1)
        if ((word & ~made & bit) && !(is_branch && (bit & offset)) && is_named(made | bit, address, &line)) made |= bit;
    return made;
}

size_t brsp_word_text(uint32_t word, uint32_t address, char *text, size_t capacity)
{
    writer w = { text, capacity, 0 };
    brsp_line line;
    if (is_named(word, address, &line)) {
        put_text(&w, line.text);
    } else if (is_named(canonical(word, address), address, &line)) {
        put_text(&w, line.text);
        put_text(&w, ", with ignored bits");
    } else {
        put_text(&w, ".word 0x");
        put_hex(&w, word, 8);
    }
    return ended(&w);
}
