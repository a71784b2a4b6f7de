/* A task again from its beginning, by a second machine and by the other plugin, step by step, to the first instruction after which they differ. It happens
 * in a child process, which is there before the other plugin runs the task: there the plugin is as it was at the beginning, wherever it keeps its state. */
#define _GNU_SOURCE
#include "check.h"
#include <signal.h>
#include <stdlib.h>
#include <string.h>
#include <sys/socket.h>
#include <sys/wait.h>
#include <unistd.h>

static rsp_unit mine;                  /* the second machine, with memories and registers of its own */
static unsigned registers[REGISTERS];
static uint32_t memories[2][MEMORY_WORDS];
static difference found;

static uint32_t n_lists;

static void take_list(void) { replay_list(n_lists++, registers + DPC_START); }

/* Makes the second machine, for a task of an RDRAM of this size. Returns 0 if there is no memory. It is made before there is a child: another thread of
 * the emulator may be in malloc when that is forked, so it makes no call of the library that takes or frees memory. */
static int make_unit(size_t rdram_size)
{
    if (mine.machine.at && mine.rdram_size == rdram_size) return 1;
    brsp_free(&mine.machine);
    free(mine.memory[BRSP_RDRAM]);
    if (!(mine.memory[BRSP_RDRAM] = malloc(rdram_size))) return 0;
    mine.memory[BRSP_DMEM] = memories[BRSP_DMEM];
    mine.memory[BRSP_IMEM] = memories[BRSP_IMEM];
    for (int n = 0; n < 16; n++) mine.sp[n] = registers + n;
    mine.pc = registers + REGISTER_PC;
    mine.interrupts = registers + REGISTER_INTERRUPTS;
    mine.rdram_size = rdram_size;
    mine.list = take_list;
    mine.storing = use_pages;
    return make_machine(&mine);
}

/* Gives the second machine the task's beginning. */
static void restart(const task_start *start)
{
    for (size_t page = 0; page < mine.rdram_size / PAGE; page++) memcpy((uint8_t *)mine.memory[BRSP_RDRAM] + page * PAGE, page_before(page), PAGE);
    memcpy(memories, start->memory, sizeof memories);
    memcpy(registers, start->registers, sizeof registers);
    begin_task(&mine);
    brsp_set(&mine.machine, &start->state);
}

/* Where a script can begin: after this step nothing of RDRAM has to be loaded to go on. */
static void begin_script_here(unsigned long step)
{
    brsp_get(&mine.machine, &found.from);
    memcpy(found.from_memory[BRSP_DMEM], memories[BRSP_DMEM], sizeof memories[BRSP_DMEM]);
    memcpy(found.from_memory[BRSP_IMEM], memories[BRSP_IMEM], sizeof memories[BRSP_IMEM]);
    found.from_step = step;
}

static int is_move(uint32_t word, uint32_t *number) { return *number = word >> 11 & 15, word >> 26 == 16 && (word >> 21 & 31) == 4; }

/* Whether a word does more than a step of `rsp run` does: a DMA needs RDRAM, the RDP's registers are the emulator's, and a reserved word stops there. */
static int is_apart(uint32_t word)
{
    uint32_t number;
    return !strncmp(found.line.text, ".word", 5) || (is_move(word, &number) && (number == SP_RD_LEN || number == SP_WR_LEN || number >= DPC_START));
}

static int differs(const char *name, uint32_t address, const uint32_t *here, const uint32_t *there, uint32_t words)
{
    uint32_t i = 0;
    if (!memcmp(here, there, 4 * words)) return 0;
    while (here[i] == there[i]) i++;
    snprintf(found.text, sizeof found.text, "%s %06x is %08x here and %08x there", name, address + 4 * i, here[i], there[i]);
    return 1;
}

static int rdram_differs(void)
{
    uint32_t at;
    return pages_differ(mine.memory[BRSP_RDRAM], &at) && differs("RDRAM", at, mine.memory[BRSP_RDRAM] + at / 4, other.memory[BRSP_RDRAM] + at / 4, 1);
}

/* Whether memories differ after a step. */
static int memories_differ(uint32_t number, int moved)
{
    if (differs("DMEM", 0, mine.memory[BRSP_DMEM], other.memory[BRSP_DMEM], MEMORY_WORDS)) return 1;
    if (moved && number == SP_RD_LEN && differs("IMEM", 0, mine.memory[BRSP_IMEM], other.memory[BRSP_IMEM], MEMORY_WORDS)) return 1;
    return moved && number == SP_WR_LEN && rdram_differs();
}

static int sp_registers_differ(void)
{
    static const uint32_t compared[8] = { ~0u, ~0u, [SP_STATUS] = KEPT_STATUS & ~(HALTED | BROKE | SINGLE_STEP), [SP_SEMAPHORE] = ~0u };
    for (int n = options.check_addresses ? 0 : 2; n < 8; n++) {
        if (!((found.after.sp[n] ^ other.registers[n]) & compared[n])) continue;
        snprintf(found.text, sizeof found.text, "%s is %08x here and %08x there", register_names[n], found.after.sp[n], other.registers[n]);
        return 1;
    }
    return 0;
}

/* Tells two vectors, or the parts of an accumulator, that differ. */
static int lanes_differ(const char *name, const uint16_t *here, const uint16_t *there)
{
    char text[2][33];
    if (!memcmp(here, there, 16)) return 0;
    for (int lane = 0; lane < 8; lane++) {
        snprintf(text[0] + 4 * lane, 5, "%04x", here[lane]);
        snprintf(text[1] + 4 * lane, 5, "%04x", there[lane]);
    }
    snprintf(found.text, sizeof found.text, "%s is %s here and %s there", name, text[0], text[1]);
    return 1;
}

static int scalars_differ(const brsp_state *here, const brsp_state *there)
{
    for (int n = 0; n < 32; n++) {
        if (here->words[n] == there->words[n]) continue;
        snprintf(found.text, sizeof found.text, "$%d is %08x here and %08x there", n, here->words[n], there->words[n]);
        return 1;
    }
    return 0;
}

static int vectors_differ(const brsp_state *here, const brsp_state *there)
{
    const brsp_accumulators *a = &here->accumulators, *b = &there->accumulators;
    for (int n = 0; n < 32; n++) {
        char name[8];
        snprintf(name, sizeof name, "$v%d", n);
        if (lanes_differ(name, here->vectors[n], there->vectors[n])) return 1;
    }
    return lanes_differ("the accumulator's high part", a->high, b->high) || lanes_differ("the accumulator's middle part", a->middle, b->middle)
        || lanes_differ("the accumulator's low part", a->low, b->low);
}

static int flags_differ(const brsp_state *here, const brsp_state *there)
{
    const brsp_flag_bits *a = &here->flags, *b = &there->flags;
    if (!memcmp(a, b, sizeof *a)) return 0;
    snprintf(found.text, sizeof found.text, "VCO, VCC, VCE are %02x%02x, %02x%02x, %02x here and %02x%02x, %02x%02x, %02x there", a->differ, a->carry,
        a->clip, a->compare, a->extra, b->differ, b->carry, b->clip, b->compare, b->extra);
    return 1;
}

/* Whether anything that can be seen of the other plugin differs after a step, whose word has been executed. */
static int step_differs(uint32_t word)
{
    brsp_state theirs = found.after;
    uint32_t number, pc = other.registers[REGISTER_PC] & 0xffc;
    int moved = is_move(word, &number);
    if (other.is_z64) {
        get_z64(&theirs);
        if (scalars_differ(&found.after, &theirs) || vectors_differ(&found.after, &theirs) || flags_differ(&found.after, &theirs)) return 1;
    }
    if (pc != found.after.pc) {
        snprintf(found.text, sizeof found.text, "pc is %03x here and %03x there", found.after.pc, pc);
        return 1;
    }
    return memories_differ(number, moved) || (word >> 26 == 16 && sp_registers_differ());
}

/* MFC0 of SP_STATUS shows the flag by which the other plugin makes single steps. */
static void hide_flag(uint32_t word)
{
    if (!other.steps_by_count && other.is_z64 && (word & 0xffe07800) == 0x40002000) clear_z64_bits(word >> 16 & 31, SINGLE_STEP);
}

/* One step of both. Returns whether they differ after it. */
static int step(unsigned long number)
{
    uint32_t moved;
    brsp_get(&mine.machine, &found.before);
    found.word = word_at(&mine, found.before.pc);
    found.step = number;
    brsp_text(found.word, found.before.pc, &found.line);
    found.rows = (dma_rows){ 0 };
    if (is_move(found.word, &moved) && (moved == SP_RD_LEN || moved == SP_WR_LEN)) found.rows = rows_of(found.before.sp[SP_DRAM_ADDR], found.before.words[found.word >> 16 & 31]);
    run_task(&mine, 1);
    end_task(&mine);
    brsp_get(&mine.machine, &found.after);
    step_other(found.word);
    hide_flag(found.word);
    if (step_differs(found.word)) return 1;
    if (is_apart(found.word)) begin_script_here(number);
    return 0;
}

/* Both from the task's beginning on, for at most so many steps. Returns whether they differ after one. */
static int lock_step(const task_start *start, uint32_t steps)
{
    unsigned long number = 1;
    restart(start);
    found.task = start->task;
    begin_script_here(0);
    while (number <= steps && !step(number)) number++;
    if (number > steps) return 0;
    tell(M64_WARNING, "check: task %lu, step %lu, %03x: %08x %s: %s", found.task, found.step, found.before.pc, found.word, found.line.text, found.text);
    found.rdram = mine.memory[BRSP_RDRAM];
    found.our_dmem = mine.memory[BRSP_DMEM];
    found.their_dmem = other.memory[BRSP_DMEM];
    write_report(&found);
    return 1;
}

/* The child, the socket by which a byte begins it, and the pipe by which its messages come back, a line each. To write to a socket whose other end is
 * gone is an error; to write to such a pipe would end the emulator. */
static pid_t child;
static int begins, messages;

static void send_message(void *to, int level, const char *text) { dprintf(*(int *)to, "%d%s\n", level, text); }

static void be_child(const task_start *start, uint32_t steps, int wait_at, int *tell_at)
{
    char wanted;
    if (read(wait_at, &wanted, 1) != 1) _exit(0);
    tell_by(send_message, tell_at);
    _exit(lock_step(start, steps));
}

/* Makes the child, which waits. Returns 0 if there can't be one; without memory, and for a plugin that makes no single steps, there is none. */
int begin_lock_step(const task_start *start, uint32_t steps)
{
    int to[2], from[2];
    child = 0;
    if (!other.steps_by_count && !other.steps_by_flag) return 1;
    if (!make_unit(other.rdram_size) || !make_searcher()) return tell(M64_ERROR, "check: there is no memory for a second machine"), 1;
    if (socketpair(AF_UNIX, SOCK_STREAM, 0, to)) return 0;
    if (pipe(from)) return close(to[0]), close(to[1]), 0;
    child = fork();
    if (!child) {
        close(to[1]);
        be_child(start, steps, to[0], &from[1]);
    }
    close(to[0]);
    close(from[1]);
    begins = to[1];
    messages = from[0];
    if (child < 0) close(begins), close(messages);
    return child > 0;
}

static void pass_messages(void)
{
    char line[1024];
    FILE *in = fdopen(messages, "r");
    while (in && fgets(line, sizeof line, in)) {
        line[strcspn(line, "\n")] = 0;
        tell(line[0] - '0', "%s", line + 1);
    }
    if (in) fclose(in);
}

/* Lets the child go on if its steps are wanted, or ends it. Returns whether the task differs, as far as is known. */
int end_lock_step(int is_wanted)
{
    int status = 0;
    if (child <= 0) return is_wanted;
    if (is_wanted && send(begins, "", 1, MSG_NOSIGNAL) == 1) pass_messages();
    else kill(child, SIGKILL), close(messages);
    close(begins);
    waitpid(child, &status, 0);
    if (is_wanted && !WIFEXITED(status)) tell(M64_WARNING, "check: the other plugin failed in single steps, by signal %d", WTERMSIG(status));
    return is_wanted && (!WIFEXITED(status) || WEXITSTATUS(status));
}
