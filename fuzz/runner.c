/* runner: conformance/runner.c on a file of vectors. It ends with status 0, 1 or 2, and says why. If the first byte of an input is even, the others are
 * the file. Otherwise they are the numbers of a file with one case, whose states are 0: so the fuzzer needn't change 1,600 bytes that belong together. */
#include "fuzz.h"
#include <stdarg.h>

static input given;
static char said[1 << 15], refused[1 << 12];

/* The runner's file is the input. What it prints is kept in `said`, and the sentence on standard error in `refused`. */
static FILE *open_input(void)
{
    return fmemopen((void *)given.at, given.left, "rb");
}

__attribute__((format(printf, 1, 2))) static void say(const char *form, ...)
{
    size_t used = strlen(said);
    va_list arguments;
    va_start(arguments, form);
    vsnprintf(said + used, sizeof said - used, form, arguments);
    va_end(arguments);
}

#define fopen(name, mode) open_input()
#define printf(...) say(__VA_ARGS__)
#define fprintf(to, ...) snprintf(refused, sizeof refused, __VA_ARGS__)
#define main runner_main
#include "../conformance/runner.c"

enum { MOST_PIECES = 4, LONGEST_PIECE = 64 };

static uint8_t *put(uint8_t *to, const void *bytes, size_t len)
{
    memcpy(to, bytes, len);
    return to + len;
}

/* Makes a file of such numbers. Returns its length. */
static size_t make_file(input *in, uint8_t *file)
{
    static const brsp_state state = { .npc = 4 };
    head h = { .name = "ADD", .pieces = take_number(in, 1) % (MOST_PIECES + 1) };
    uint8_t *start = put(put(file, "RSPCASES\2\0\0", 12), "\1\0\0", 4), *at = put(put(start + sizeof h, &state, sizeof state), &state, sizeof state);
    for (uint32_t i = 0; i < h.pieces; i++) {
        piece p;
        p.is_after = take_number(in, 1) % 2;
        p.bank = take_number(in, 1) % 4;
        p.address = take_edge(in);
        p.length = take_edge(in);
        uint8_t bytes[LONGEST_PIECE] = { 0 };
        at = put(put(at, &p, sizeof p), bytes, p.length < LONGEST_PIECE ? (p.length + 3) / 4 * 4 : LONGEST_PIECE);
    }
    h.size = (uint32_t)(at - start);
    if (take_number(in, 1) % 8 == 7) h.size = take_edge(in);
    if (take_number(in, 1) % 8 == 7) h.pieces = take_edge(in);
    put(start, &h, sizeof h);
    return (size_t)(at - file);
}

int LLVMFuzzerTestOneInput(const uint8_t *data, size_t size)
{
    static uint8_t file[8192];
    char program[] = "runner", name[] = "vectors.bin", *words[] = { program, name, NULL };
    input in = { data, size };
    given = take_number(&in, 1) % 2 ? (input){ file, make_file(&in, file) } : in;
    memset(said, 0, sizeof said), memset(refused, 0, sizeof refused);
    int status = runner_main(2, words);
    MUST(status == 0 || status == 1 || status == 2);
    MUST(status == 2 ? !strncmp(refused, name, strlen(name)) && refused[strlen(refused) - 1] == '\n' : strstr(said, " passed, ") != NULL);
    return 0;
}
