// What a game's CPU does to run microcode: it writes SP registers, so that a DMA brings the microcode from RDRAM into IMEM and another one the
// data into DMEM, sets pc, and clears halted. The microcode doubles eight numbers and sends them back. Build it with -std=c++17.
#include "console.hpp"
#include <cstdio>

int main()
{
    Console<uint8_t> console;
    const auto words = brsp::assemble("lqv $v1[0], 0($0)\n" "vaddc $v1, $v1, $v1\n" "sqv $v1[0], 0($0)\n"
        "mtc0 $0, $c0\n" "ori $1, $0, 0x2000\n" "mtc0 $1, $c1\n" "ori $2, $0, 15\n" "mtc0 $2, $c3\n" "break\n");
    for (size_t i = 0; i < 4 * words.size(); i++) console.rdram[0x1000 + i] = uint8_t(words[i / 4] >> (24 - i % 4 * 8));
    for (size_t i = 0; i < 8; i++) console.rdram[0x2000 + 2 * i + 1] = uint8_t(i + 1);

    console.write(0, 0x1000); // SP_MEM_ADDR: address 0 of IMEM
    console.write(1, 0x1000); // SP_DRAM_ADDR
    console.write(2, 4095);   // SP_RD_LEN: a row of 4096 bytes
    console.write(0, 0);      // address 0 of DMEM
    console.write(1, 0x2000);
    console.write(2, 15);
    console.machine.set_pc(0); // SP_PC
    console.write(4, 0x105);   // SP_STATUS: clears halted and broke, sets intbreak
    std::printf("%u steps:", unsigned(console.run(1000)));
    for (size_t i = 0; i < 8; i++) std::printf(" %d", console.rdram[0x2000 + 2 * i] << 8 | console.rdram[0x2000 + 2 * i + 1]);
    brsp_sp_words sp;
    brsp_sp(console.machine.handle(), &sp);
    std::printf(", interrupt %u\n", unsigned(sp.interrupt));
}
