/* Cases of one instruction: vectors IN OUT.
 *
 * IN has cases, each a state, the length of the image, the word at its pc, and pieces of the memories (bank, address, length, bytes). OUT has of
 * each, if the state that was set is the one that is there, the status of a step, the state after it, DMEM, IMEM and the last 512 bytes of the image. */
#include "brsp.h"
#include <stdio.h>
#include <stdlib.h>
#include <string.h>

enum { WINDOW = 512, BANK = 4096 };

static uint8_t bytes[1 << 17];

static void need(int is_right, const char *what)
{
    if (is_right) return;
    printf("vectors: %s\n", what);
    exit(1);
}

static int number(FILE *in, uint32_t *out) { return fread(out, 4, 1, in) == 1; }

static void put(FILE *out, const void *from, size_t len) { need(fwrite(from, 1, len, out) == len, "OUT can't be written"); }

static void load_pieces(brsp_machine *m, FILE *in, uint32_t count)
{
    uint32_t bank, address, len;
    while (count--) {
        need(number(in, &bank) && number(in, &address) && number(in, &len) && len <= sizeof bytes, "a piece has no head");
        need(fread(bytes, 1, len, in) == len, "a piece is short");
        need(brsp_load(m, bank, address, bytes, len) == BRSP_OK, "a piece isn't taken");
    }
}

static void show(brsp_machine *m, FILE *out, uint32_t len)
{
    brsp_state state;
    need(brsp_get(m, &state) == BRSP_OK, "no state");
    put(out, &state, sizeof state);
    need(brsp_memory(m, BRSP_DMEM, 0, bytes, BANK) == BRSP_OK, "no DMEM");
    put(out, bytes, BANK);
    need(brsp_memory(m, BRSP_IMEM, 0, bytes, BANK) == BRSP_OK, "no IMEM");
    put(out, bytes, BANK);
    need(brsp_memory(m, BRSP_RDRAM, len - WINDOW, bytes, WINDOW) == BRSP_OK, "no RDRAM");
    put(out, bytes, WINDOW);
}

int main(int argc, char **argv)
{
    FILE *in, *out;
    brsp_machine m = BRSP_NONE;
    brsp_state state, set;
    uint32_t len, count, word, got[2];
    if (argc != 3 || !(in = fopen(argv[1], "rb")) || !(out = fopen(argv[2], "wb"))) return 2;
    while (fread(&state, sizeof state, 1, in) == 1) {
        need(number(in, &len) && number(in, &word) && number(in, &count) && len <= sizeof bytes, "a case has no head");
        memset(bytes, 0, len);
        need(brsp_new(&m, bytes, len, 0) == BRSP_OK, "no machine");
        load_pieces(&m, in, count);
        need(brsp_load_words(&m, BRSP_IMEM, state.pc, &word, 1) == BRSP_OK && brsp_set(&m, &state) == BRSP_OK, "the state isn't taken");
        need(brsp_get(&m, &set) == BRSP_OK, "no state");
        got[0] = !memcmp(&state, &set, sizeof state);
        got[1] = brsp_step(&m);
        put(out, got, sizeof got);
        show(&m, out, len);
    }
    brsp_free(&m);
    return fclose(out) != 0;
}
