/* DMAs of the console of examples/c, again and again. The words are the register, the word written to it, the address in RDRAM, and how many. */
#include "console.hpp"
#include <cstdlib>

int main(int, char **argv)
{
    const auto number = [&](int i) { return uint32_t(std::strtoul(argv[i], nullptr, 0)); };
    Console<uint8_t> console;
    const uint32_t program[] = { 0x40800800u | 2 << 16, 0x40800000u | 1 << 16 | number(1) << 11, 0x08000000u, 0 }; /* mtc0 $2, $c1; mtc0 $1, $cN; j 0 */
    console.machine.load_words(BRSP_IMEM, 4096 - sizeof program, { program, program + 4 });
    brsp_state state = console.machine.get();
    state.words[1] = number(2);
    state.words[2] = number(3);
    state.pc = 4096 - sizeof program;
    state.npc = uint16_t(state.pc + 4);
    console.machine.set(state);
    for (uint32_t left = number(4); left; left--) {
        if (console.run(2) != 2) return 1;
        console.machine.set_pc(4096 - sizeof program);
    }
}
