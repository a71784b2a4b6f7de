/* main.c: the worker of conformance/every. It is started as
 *   worker OBJECT WHAT PROGRESS MEMORIES LANES KIND VALUE BITS SETTING FROM TO
 * and runs the positions FROM to TO - 1 of a test on the shared object OBJECT, which is opened for WHAT. PROGRESS is a file for `progress`, and MEMORIES one
 * with the memories before each case. LANES is 0 if cases_lanes isn't to be called, so that each word is a case of its own. The status is 0 at the end, and 120
 * with a sentence if the object can't be used; otherwise the emulator has ended it. */
#include "every.h"
#include <dlfcn.h>
#include <fcntl.h>
#include <signal.h>
#include <stddef.h>
#include <stdio.h>
#include <stdlib.h>
#include <sys/mman.h>
#include <sys/prctl.h>

enum { CANNOT = 120 };
static void cannot(const char *object, const char *why)
{
    fprintf(stderr, "%s %s\n", object, why);
    exit(CANNOT);
}
static void *map(const char *path, size_t length, int flags, int protection)
{
    int file = open(path, flags);
    void *at = mmap(NULL, length, protection, MAP_SHARED, file, 0);
    if (at == MAP_FAILED) cannot(path, "can't be mapped");
    return at;
}
/* The bits that the emulator shows. The batches of lanes need all those of vector registers, accumulators and flags. */
static void ask_seen(const char *object, void *function)
{
    void (*call)(void *, brsp_end *) = NULL;
    const uint8_t *bytes = (const uint8_t *)&seen;
    memset(&seen, 255, sizeof seen);
    memcpy(&call, &function, sizeof call);
    if (call) call(tested.at, &seen);
    for (size_t i = offsetof(brsp_state, vectors); i < offsetof(brsp_state, zero); i++)
        if (bytes[i] != 255) cannot(object, "hides vector registers, accumulators or flags, of which conformance/every compares all bits");
    seen.state.zero = 0;
}
static void open_tested(const char *object, const char *what, int with_lanes)
{
    void *library = dlopen(object, RTLD_NOW | RTLD_LOCAL);
    if (!library) cannot("the shared object can't be loaded:", dlerror());
    void *make = dlsym(library, "cases_open"), *run = dlsym(library, "cases_run"), *lanes = dlsym(library, "cases_lanes"), *load = dlsym(library, "cases_load");
    void *(*open_it)(const char *, const uint8_t *);
    if (!make || !run) cannot(object, "has no cases_open or no cases_run, so it is no shared object of cases");
    memcpy(&open_it, &make, sizeof open_it), memcpy(&tested.run, &run, sizeof run);
    memcpy(&tested.load, &load, sizeof load);
    if (load && with_lanes) memcpy(&tested.lanes, &lanes, sizeof lanes);
    shared->has_lanes = lanes && load;
    if (!(tested.at = open_it(what, memories_before))) cannot(*what ? what : object, "can't be opened");
    ask_seen(object, dlsym(library, "cases_seen"));
}
int main(int argc, char **argv)
{
    if (argc != 12) cannot(argv[0], "is started by conformance/every");
    prctl(PR_SET_PDEATHSIG, SIGKILL);
    shared = map(argv[3], sizeof *shared, O_RDWR, PROT_READ | PROT_WRITE);
    memories_before = map(argv[4], CASES_MEMORIES, O_RDONLY, PROT_READ);
    test t = { (uint32_t)strtoul(argv[7], NULL, 16), (uint32_t)atoi(argv[8]), argv[9] };
    kind *run = kind_of(argv[6]);
    if (!run) cannot(argv[6], "is no kind of tests");
    open_tested(argv[1], argv[2], atoi(argv[5]));
    model = open_model(memories_before);
    make_edges();
    for (uint64_t to = strtoull(argv[11], NULL, 10), at = strtoull(argv[10], NULL, 10); at < to; at++) run_position(run, &t, at);
    return 0;
}
