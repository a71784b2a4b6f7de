/* fuzz.h: what the targets share: the input as numbers and bytes, buffers that end where the caller says, what must hold, and scripts. A target is a file
 * TARGET.c, which fuzz/build links with libFuzzer. The targets are C over brsp.h, because this is what a caller gets. */
#ifndef FUZZ_H
#define FUZZ_H
#include "brsp.h"
#include <stdio.h>
#include <stdlib.h>
#include <string.h>

/* What libFuzzer calls, or replay.c. */
int LLVMFuzzerTestOneInput(const uint8_t *data, size_t size);

/* Ends the process if a condition doesn't hold: for the fuzzer that is a crash, whose input it keeps. */
#define MUST(condition) ((condition) ? (void)0 : fail(__FILE__, __LINE__, #condition))

static inline _Noreturn void fail(const char *file, int line, const char *condition)
{
    fprintf(stderr, "%s:%d: this doesn't hold: %s\n", file, line, condition);
    abort();
}

/* The bytes of an input that aren't taken yet. */
typedef struct input {
    const uint8_t *at;
    size_t left;
} input;

/* Takes a number of so many bytes. After the input's end they are 0. */
static inline uint32_t take_number(input *in, int bytes)
{
    uint32_t number = 0;
    for (; bytes; bytes--) {
        number = number << 8 | (in->left ? *in->at : 0);
        if (in->left) in->at++, in->left--;
    }
    return number;
}

/* Takes a number that is often at the edge of a range. */
static inline uint32_t take_edge(input *in)
{
    static const uint32_t edges[] = {
        0, 1, 2, 3, 4, 7, 8, 15, 16, 17, 31, 32, 63, 64, 65, 255, 256, 1023, 1024, 4088, 4092, 4093, 4095, 4096, 4097, 65535, 65536, 131064, 131072, 8388600, 8388608,
        999999, 1000000, 1000001, 0x7fffffff, 0x80000000, 0xfffffffc, 0xffffffff
    };
    uint32_t kind = take_number(in, 1);
    return kind < 128 ? edges[kind % (sizeof edges / sizeof *edges)] : take_number(in, kind < 192 ? 1 : kind < 224 ? 2 : 4);
}

/* A buffer of exactly so many bytes on the heap, where ASan sees each access past it. */
static inline void *room(size_t len)
{
    void *at = malloc(len);
    MUST(at);
    return at;
}

static inline uint8_t *copy_of(const void *bytes, size_t len)
{
    return memcpy(room(len), bytes, len);
}

/* Takes so many bytes into a buffer of their own. After the input's end they are 0. */
static inline uint8_t *take_bytes(input *in, size_t len)
{
    uint8_t *bytes = room(len);
    for (size_t i = 0; i < len; i++) bytes[i] = (uint8_t)take_number(in, 1);
    return bytes;
}

/* ---- Scripts ---- */

enum { MOST_RUNS = 4, LONGEST_COUNT = 4 };

/* What a script leaves: replies, DMEM, and the first bytes of RDRAM. */
typedef struct played {
    uint8_t *replies;
    size_t len;
    uint8_t dmem[4096], rdram[4096];
} played;

static inline void keep_reply(played *it, const uint8_t *reply, size_t len)
{
    it->replies = realloc(it->replies, it->len + len + 1);
    MUST(it->replies);
    memcpy(it->replies + it->len, reply, len);
    it->len += len;
}

/* The length of the next piece: all that is left, or a few bytes, as a generator of numbers has it. */
static inline size_t next_piece(size_t left, uint32_t cut, uint32_t *seed)
{
    *seed = *seed * 1664525 + 1013904223;
    size_t piece = cut ? 1 + (*seed >> 16) % (cut * 3) : left;
    return piece < left ? piece : left;
}

/* Gives a session with an image of so many zeros a script: in pieces of at most 3 * cut bytes, or whole if that is 0. */
static inline played play(const uint8_t *script, size_t len, uint32_t cut, size_t image_len)
{
    played it = { 0 };
    brsp_session session = BRSP_NONE;
    uint8_t *reply = room(BRSP_REPLIES), *image = calloc(image_len, 1);
    uint32_t seed = cut;
    size_t written;
    MUST(image && brsp_session_new(&session, image, image_len) == BRSP_OK);
    free(image);
    for (size_t at = 0, used; at < len; at += used) {
        size_t piece = next_piece(len - at, cut, &seed);
        uint8_t *bytes = copy_of(script + at, piece);
        MUST(brsp_session_take(&session, bytes, piece, &used, reply, BRSP_REPLIES, &written) == BRSP_OK);
        MUST(used >= 1 && used <= piece && written <= BRSP_REPLIES);
        keep_reply(&it, reply, written);
        free(bytes);
    }
    MUST(brsp_session_end(&session, reply, BRSP_REPLIES, &written) == BRSP_OK && written <= BRSP_REPLIES);
    keep_reply(&it, reply, written);
    free(reply);
    MUST(brsp_session_memory(&session, BRSP_DMEM, 0, it.dmem, sizeof it.dmem) == BRSP_OK);
    MUST(brsp_session_memory(&session, BRSP_RDRAM, 0, it.rdram, sizeof it.rdram) == BRSP_OK);
    brsp_session_free(&session);
    return it;
}

/* Whether a script may take seconds: it has many runs, or one of more than four digits. */
static inline int is_slow(const uint8_t *script, size_t len)
{
    int runs = 0;
    for (size_t i = 0; i + 3 < len; i++) {
        if (memcmp(script + i, "run", 3) != 0) continue;
        int digits = 0;
        for (size_t k = i + 3; k < len && script[k] != '\n' && script[k] != '#'; k++) digits += script[k] > ' ';
        if (++runs > MOST_RUNS || digits > LONGEST_COUNT) return 1;
    }
    return 0;
}

#endif
