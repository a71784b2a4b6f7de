/* A program with all names of others.h beside the library, and functions of its own that had the library's names once. */
#ifdef AFTER
#include "brsp_compare.h"
#endif
#include "others.h"
#ifndef AFTER
#include "brsp_compare.h"
#endif

static uint32_t steps;
uint32_t rsp_step(struct rsp *it) { return it->pc += 4, ++steps; }
void rsp_run(void) { steps += 100; }
void rsp_free(struct rsp *it) { it->pc = 0; }
void rsp_load(rsp_ucode_t *ucode) { ucode->start_pc = 8; }
uint32_t rsp_version(void) { return 77; }

int main(void)
{
    static const uint8_t image[64] = { 0 };
    static const uint32_t words[] = { 0x24010005, 13 };
    struct rsp rsp = { 0 };
    rsp_ucode_t ucode = { 0 };
    brsp_machine machine = BRSP_NONE;
    brsp_stop stop;
    uint32_t value;
    if (brsp_new(&machine, image, sizeof image, 0) != BRSP_OK || brsp_load_words(&machine, BRSP_IMEM, 0, words, 2) != BRSP_OK) return 1;
    if (brsp_step(&machine) != BRSP_OK || steps || brsp_run(&machine, 9, &stop) != BRSP_OK || steps) return 2;
    if (brsp_reg(&machine, 1, &value) != BRSP_OK || value != 5 || brsp_version() != BRSP_VERSION || rsp_version() != 77) return 3;
    rsp_load(&ucode);
    rsp_run();
    if (rsp_step(&rsp) != 101 || rsp.pc != 4 || ucode.start_pc != 8) return 4;
    rsp_free(&rsp);
    brsp_free(&machine);
    return 0;
}
