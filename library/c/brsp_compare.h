/* brsp_compare.h: finds the first step after which an emulator differs from a machine of brsp.h. For C and C++:
 * a loop around the search of brsp_helpers.h, for an emulator that is made of functions. Python, Rust,
 * JavaScript and brsp.hpp have the same.
 *
 *     brsp_difference found;
 *     char text[4096];
 *     if (brsp_first_difference(&machine, &emulator, 64, 1000000, &found) == BRSP_OK && found.count) {
 *         brsp_difference_text(&found, text, sizeof text);
 *         puts(text);
 *     }
 *     brsp_difference_free(&found);
 */
#ifndef BRSP_COMPARE_H
#define BRSP_COMPARE_H

#include "brsp_helpers.h"
#include <stdio.h>
#include <stdlib.h>
#include <string.h>

#ifdef __cplusplus
extern "C" {
#endif

/* The functions of an emulator. Each is called with `self`. None may end by longjmp or by an exception of C++,
 * because the memory of the comparison would be lost: brsp.hpp is for emulators that throw. */
typedef struct brsp_emulator {
    void *self;
    /* Makes steps. The machine has made as many, so none of them begins halted. BREAK is a step. */
    void (*run)(void *self, uint32_t steps);
    /* Gives all registers; those that the emulator lacks as `set` gave them. */
    void (*get)(void *self, brsp_state *state);
    void (*set)(void *self, const brsp_state *state);
    /* Gives bytes of a memory: all of DMEM and IMEM, and of RDRAM all or those that a DMA wrote. */
    void (*memory)(void *self, uint32_t bank, uint32_t address, uint8_t *bytes, size_t len);
    /* Sets all bytes of a memory: `address` is 0. */
    void (*load)(void *self, uint32_t bank, uint32_t address, const uint8_t *bytes, size_t len);
} brsp_emulator;

/* Internal: does what a search asks for. The bytes of the request are at `bytes`. */
static inline void brsp_compare_answer(const brsp_emulator *e, const brsp_request *request, uint8_t *bytes)
{
    brsp_state state;
    memset(&state, 0, sizeof state);
    if (request->kind == BRSP_REQUEST_RUN) {
        e->run(e->self, request->steps);
    } else if (request->kind == BRSP_REQUEST_SET) {
        memcpy(&state, bytes, sizeof state);
        e->set(e->self, &state);
    } else if (request->kind == BRSP_REQUEST_GET) {
        e->get(e->self, &state);
        memcpy(bytes, &state, sizeof state);
    } else if (request->kind == BRSP_REQUEST_LOAD) {
        e->load(e->self, request->bank, request->address, bytes, request->len);
    } else {
        e->memory(e->self, request->bank, request->address, bytes, request->len);
    }
}

/* Finds the first step after which an emulator differs from the machine. out->count is 0 if there is no such
 * step within `limit` steps, or before a halt or a reserved word. brsp_helpers.h says what is compared, and
 * when.
 *
 * Returns BRSP_NO_MACHINE; BRSP_OUT_OF_RANGE unless `every` is 1 to 1000000; BRSP_NO_MEMORY. With any status
 * `out` is filled, and brsp_difference_free frees what it holds. */
#ifdef __GNUC__
__attribute__((__warn_unused_result__)) /* without memory out->count is 0, as without a difference */
#endif
static inline uint32_t brsp_first_difference(brsp_machine *m, const brsp_emulator *e, uint32_t every,
                                             uint32_t limit, brsp_difference *out)
{
    brsp_request request;
    uint8_t *search;
    size_t image;
    uint32_t status = brsp_image_length(m, &image);
    memset(out, 0, sizeof *out);
    if (status != BRSP_OK) return status;
    search = (uint8_t *)calloc(1, brsp_search_bytes(image));
    if (!search) return BRSP_NO_MEMORY;
    status = brsp_search_begin(m, every, limit, search, brsp_search_bytes(image));
    while (status == BRSP_OK && (status = brsp_search_next(m, search, &request)) == BRSP_OK) {
        if (request.kind == BRSP_REQUEST_OVER) break;
        brsp_compare_answer(e, &request, search + request.at);
    }
    if (status == BRSP_OK) brsp_search_difference(search, out);
    if (out->count) out->parts = (brsp_part *)malloc(out->count * sizeof(brsp_part));
    if (out->parts) {
        brsp_search_parts(search, out->parts);
    } else if (out->count) {
        status = BRSP_NO_MEMORY;
        out->count = 0;
    }
    free(search);
    return status;
}

/* Frees what brsp_first_difference filled in. */
static inline void brsp_difference_free(brsp_difference *found)
{
    free(found->parts);
    found->parts = NULL;
    found->count = 0;
}

#ifdef __cplusplus
}
#endif

#endif
