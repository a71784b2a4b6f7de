/* What has to be divided so that the divider is as in a state: a script for `rsp run` can set DIV_OUT in no other way. */
#include "check.h"

/* $2 is DIV_IN, $1 the divided half, which counts up; $3 has what DIV_OUT shall be, $4 how many halves are left. */
static const char search[] =
    "        mtc2 $2, $v1[0]\n"
    "next:   mtc2 $1, $v1[2]\n"
    "        vrcph $v2[0], $v1[0]\n"
    "        %s $v2[0], $v1[1]\n"
    "        vrcph $v2[0], $v1[0]\n"
    "        mfc2 $5, $v2[0]\n"
    "        andi $5, $5, 0xffff\n"
    "        beq $5, $3, found\n"
    "        addiu $4, $4, -1\n"
    "        bne $4, $0, next\n"
    "        addiu $1, $1, 1\n"
    "        break\n"
    "found:  addiu $6, $0, 1\n"
    "        break\n";

/* What is searched with: the programs of the four instructions, and a machine with its state when it has nothing yet. */
enum { NAMES = 4, SEARCH_WORDS = 14 };
static const char *const names[NAMES] = { "vrcpl", "vrcp", "vrsql", "vrsq" };
static uint32_t programs[NAMES][SEARCH_WORDS];
static brsp_machine searcher;
static brsp_state fresh;

static int assemble(const char *name, uint32_t *words)
{
    char text[sizeof search + 8];
    size_t len = (size_t)snprintf(text, sizeof text, search, name);
    brsp_assembled made;
    return brsp_assemble(0, (const uint8_t *)text, len, words, SEARCH_WORDS, &made) == BRSP_OK;
}

/* Makes them. Returns 0 if there is no memory. */
int make_searcher(void)
{
    static const uint8_t image[64];
    if (searcher.at) return 1;
    for (int i = 0; i < NAMES; i++) if (!assemble(names[i], programs[i])) return 0;
    return brsp_new(&searcher, image, sizeof image, 0) == BRSP_OK && brsp_get(&searcher, &fresh) == BRSP_OK;
}

/* Runs a program. Returns whether a half was found. */
static int find(const uint32_t *program, uint16_t in, uint16_t out, uint16_t *half)
{
    brsp_stop stop = { 0 };
    brsp_state s = fresh;
    s.words[2] = in, s.words[3] = out, s.words[4] = 0x10000;
    brsp_load_words(&searcher, BRSP_IMEM, 0, program, SEARCH_WORDS);
    brsp_set(&searcher, &s);
    do brsp_run(&searcher, 1000000, &stop);
    while (stop.reason == BRSP_AT_LIMIT);
    brsp_get(&searcher, &s);
    *half = (uint16_t)s.words[1];
    return s.words[6] == 1;
}

/* Returns the instruction that leaves the state's DIV_OUT when it divides this half after DIV_IN was loaded, or NULL if none does. */
const char *divided_for(const brsp_state *state, uint16_t *half)
{
    for (int i = 0; i < NAMES; i++) if (find(programs[i], state->divider.input, state->divider.output, half)) return names[i];
    return NULL;
}
