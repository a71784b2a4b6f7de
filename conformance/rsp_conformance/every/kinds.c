/* The kinds of tests, and what all of them share. */
#include "every.h"

emulator tested, model;
progress *shared;
brsp_end seen;
const uint8_t *memories_before;

/* Runs a case on both sides. */
void single_cases(const test *t, uint64_t position)
{
    brsp_end got = { .status = BRSP_OK }, expected = { .status = BRSP_OK };
    lattice_case(t, spread(position, t->bits), &shared->now);
    if (tested.run(tested.at, &shared->now, &got, 1)) got.status = BRSP_OUT_OF_RANGE;
    if (got.status == CASES_UNSHOWN) {
        shared->unshown++;
        return;
    }
    model.run(model.at, &shared->now, &expected, 1);
    shared->cases++;
    shared->missing += got.status == BRSP_RESERVED;
    compare_end(&shared->now, &expected, &got, 1, 1);
}
static const struct { const char *name; kind *run; } kinds[] = {
    { "edges", edge_pairs }, { "pairs", all_pairs }, { "uppers", upper_accumulators }, { "divides", divide_numbers },
    { "divide edges", divide_edges }, { "words", all_words }, { "cases", single_cases },
};

kind *kind_of(const char *name)
{
    for (size_t i = 0; i < sizeof kinds / sizeof *kinds; i++) if (!strcmp(kinds[i].name, name)) return kinds[i].run;
    return NULL;
}
void run_position(kind *run, const test *t, uint64_t position)
{
    begin_numbers(position << 12 | t->value % 4096);
    shared->position = position;
    run(t, position);
}
