/* The console of examples/c, which owns RDRAM and the registers of the RDP, runs random programs beside a machine that has all inside: with
 * DMAs of any place and size, by the programs and by the CPU, single step, halts, reserved words, and budgets of any number of steps. After
 * each run both have made as many steps, and have equal registers and memories. The last line is `N passed, M failed`. */
#include "console.hpp"
#include "random_program.h"
#include <cstdio>
#include <cstdlib>
#include <cstring>

static int passed, failed;

static void see(const char *what, int program, bool is_right)
{
    passed += is_right;
    failed += !is_right;
    if (!is_right && failed < 10) std::printf("FAIL program %d: %s\n", program, what);
}

template <class Unit> static void compare(int program, Console<Unit> &console, brsp_machine *inside)
{
    static uint8_t mine[4096], other[4096];
    static brsp_state here, there;
    brsp_get(console.machine.handle(), &here);
    brsp_get(inside, &there);
    std::memcpy(here.sp + 8, console.dpc, sizeof console.dpc);
    see("registers", program, !std::memcmp(&here, &there, sizeof here));
    for (uint32_t bank = BRSP_DMEM; bank <= BRSP_IMEM; bank++) {
        brsp_memory(console.machine.handle(), bank, 0, mine, 4096);
        brsp_memory(inside, bank, 0, other, 4096);
        see("a bank", program, !std::memcmp(mine, other, 4096));
    }
}

static bool same_rdram(const std::vector<uint8_t> &mine, brsp_machine *inside)
{
    static std::vector<uint8_t> theirs(mine.size());
    return brsp_memory(inside, BRSP_RDRAM, 0, theirs.data(), theirs.size()) == BRSP_OK && mine == theirs;
}

static bool same_rdram(const std::vector<uint32_t> &mine, brsp_machine *inside)
{
    static std::vector<uint32_t> theirs(mine.size());
    return brsp_memory_words(inside, BRSP_RDRAM, 0, theirs.data(), theirs.size()) == BRSP_OK && mine == theirs;
}

/* What the CPU writes to SP registers, DMAs among them, and what it reads. The RDP's are words that only the console has. */
template <class Unit> static void by_the_cpu(int program, Console<Unit> &console, brsp_machine *inside)
{
    for (uint32_t count = random_below(6); count; count--) {
        uint32_t number = random_below(4) ? random_below(4) : random_below(16), value = value_for(number), theirs;
        console.write(number, value);
        brsp_write(inside, number, value);
        number = random_below(16);
        brsp_read(inside, number, &theirs);
        see("a read", program, console.read(number) == theirs);
    }
    compare(program, console, inside);
}

/* What a console is when it is restored is what it was when it was saved, whatever it has done meanwhile; bytes that aren't of a console change
 * nothing. */
template <class Unit> static void save_and_restore(int program, Console<Unit> &console)
{
    const std::vector<uint8_t> saved = console.save();
    std::vector<uint8_t> other = saved;
    switch (random_below(4)) {
    case 0: other.pop_back(); break;
    case 1: other.resize(random_below(100)); break;
    case 2: other[random_below(4)] ^= 1; break;
    default: other[12 + 700] = 0x10; /* pc */
    }
    bool is_refused = false;
    try { console.restore(other); } catch (const brsp::rsp_error &) { is_refused = true; }
    see("other bytes", program, is_refused && console.save() == saved);
    console.run(200);
    console.write(8 + random_below(8), any());
    console.rdram[random_below(uint32_t(console.rdram.size()))] ^= Unit(1);
    console.restore(saved);
    see("saved and restored", program, console.save() == saved);
}

/* An interrupt that microcode raises ends a run before the next instruction, once until the CPU clears it. */
static void interrupts(void)
{
    Console<uint8_t> console;
    console.machine.load_words(BRSP_IMEM, 0, brsp::assemble("ori $1, $0, 0x10\n" "again: mtc0 $1, $c4\n" "addiu $2, $2, 1\n" "j again\n" "nop\n"));
    see("an interrupt", 0, console.run(1000000) == 2 && console.interrupt() && console.machine.reg(2) == 0);
    see("raised already", 0, console.run(1000) == 1000 && console.machine.reg(2) == 250);
    console.write(4, 8);
    see("raised again", 0, !console.interrupt() && console.run(1000) < 5 && console.interrupt());
}

/* Bytes and words of the host have the same savestate. That of the machine alone is none of a console. */
static void units(void)
{
    Console<uint8_t> bytes;
    Console<uint32_t> words;
    for (uint32_t i = 0; i < 4; i++) bytes.rdram[i] = uint8_t(i + 1);
    words.rdram[0] = 0x01020304;
    bytes.dpc[7] = words.dpc[7] = 0x05060708;
    brsp::bytes saved = bytes.save();
    see("equal savestates", 0, saved == words.save());
    saved.resize(words.STATE);
    bool is_refused = false;
    try { words.restore(saved); } catch (const brsp::rsp_error &) { is_refused = true; }
    see("the machine's", 0, is_refused);
}

/* Runs both in turns, with the CPU's accesses between them, and its write of SP_STATUS where they are halted. */
template <class Unit> static uint64_t run_both(int program, Console<Unit> &console, brsp_machine *inside)
{
    uint64_t made = 0;
    for (int turn = 0; turn < 12; turn++) {
        uint32_t budget = random_below(3) ? 1 + random_below(12) : 1 + random_below(500);
        uint32_t steps = 0;
        while (uint32_t part = console.run(budget - steps)) steps += part; /* an interrupt ends a part of it */
        brsp_stop stop;
        brsp_run(inside, budget, &stop);
        see("steps", program, steps == stop.steps);
        compare(program, console, inside);
        if (random_below(1000) == 0) save_and_restore(program, console);
        if (stop.reason == BRSP_AT_RESERVED) break;
        if (random_below(4) == 0) by_the_cpu(program, console, inside);
        if (stop.reason == BRSP_AT_HALT) { /* it goes on, at times without single step */
            uint32_t goes_on = random_below(2) ? 1 : 0x21;
            console.write(4, goes_on);
            brsp_write(inside, 4, goes_on);
        }
        made += steps;
    }
    return made;
}

template <class Unit> static void programs(int count)
{
    static uint32_t words[1027];
    Console<Unit> console;
    brsp_machine inside = BRSP_NONE;
    std::vector<uint8_t> image(8 << 20);
    uint64_t made = 0;
    see("a machine", 0, brsp_new(&inside, image.data(), image.size(), 0) == BRSP_OK);
    for (int program = 1; program <= count; program++) {
        random_program(words);
        for (brsp_machine *m : { console.machine.handle(), &inside }) {
            brsp_load_words(m, BRSP_IMEM, 0, words, 1024);
            brsp_set_pc(m, random_below(1) * 4);
            brsp_write(m, 4, 0x25); /* clear halted, broke and single step */
        }
        made += run_both(program, console, &inside);
        if (program % 50 == 0) see("RDRAM", program, same_rdram(console.rdram, &inside));
    }
    see("steps are made", 0, made > 100u * (uint64_t)count);
    brsp_free(&inside);
}

int main(int argc, char **argv)
{
    int count = argc > 1 ? std::atoi(argv[1]) : 1000;
    programs<uint8_t>(count);
    programs<uint32_t>(count);
    interrupts();
    units();
    std::printf("%d passed, %d failed\n", passed, failed);
    return failed != 0;
}
