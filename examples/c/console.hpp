// A console that owns RDRAM and the registers of the RDP, for the machine of brsp.hpp (C++17). See docs/EMULATOR.md.
// A Unit is uint8_t, or uint32_t for RDRAM as words of the host.
#pragma once
#include "brsp.hpp"
#include <algorithm> // (std::min) has parentheses because windows.h of Microsoft makes min a macro
#include <cstddef>
#include <cstdint>
#include <cstring>
#include <vector>

inline namespace BRSP_NAMES { // as brsp::machine
template <class Unit> class Console {
public:
    static constexpr uint32_t SIZE = 8 << 20, IMAGE = 64;
    static constexpr size_t STATE = BRSP_SAVESTATE_BYTES + IMAGE, SAVED = STATE + 8 * 4 + SIZE; // the bytes of savestates
    std::vector<Unit> rdram = std::vector<Unit>(SIZE / sizeof(Unit));
    uint32_t dpc[8] = {}; // SP registers 8 to 15
    brsp::machine machine{ brsp::machine::bytes(IMAGE) }; // with an image that is never used

    // Makes at most `budget` steps. Makes fewer if the machine halts or comes to a reserved word, and returns right after a
    // step that raised the interrupt. Returns how many.
    uint32_t run(uint32_t budget)
    {
        uint32_t left = budget;
        while (left) {
            brsp_reached event = machine.event((std::min)(left, 1000000u), 0xff00, 0xff00 | BRSP_STATUS_WRITES);
            left -= event.at.stop.steps;
            if (event.at.stop.reason == BRSP_AT_LIMIT || event.at.stop.reason == BRSP_AT_STATUS) continue;
            if (event.at.stop.reason != BRSP_AT_DMA && event.at.stop.reason != BRSP_AT_MOVE) break;
            left -= 1; // the step that goes past a move or a DMA, before which the machine stopped
            if (event.at.stop.reason == BRSP_AT_DMA) {
                machine.pass_dma(); // first, because the bytes may overwrite the word at pc
                transfer(event.dma);
            } else {
                if (event.at.writes) dpc[event.at.number - 8] = event.at.value;
                machine.pass_move(dpc[event.at.number - 8]);
            }
        }
        return budget - left;
    }

    // Whether the RSP's interrupt is raised. The CPU clears it by SP_STATUS.
    [[nodiscard]] bool interrupt() noexcept
    {
        brsp_sp_words sp;
        return brsp_sp(machine.handle(), &sp) == BRSP_OK && sp.interrupt;
    }

    // The CPU reads an SP register, 0 to 15.
    uint32_t read(uint32_t number) { return number < 8 ? machine.read(number) : dpc[number - 8]; }

    // The CPU writes one. A write to register 2 or 3 is a DMA.
    void write(uint32_t number, uint32_t value)
    {
        if (number >= 8) return void(dpc[number - 8] = value);
        transfer(machine.write_dma(number, value)); // which has no rows if the write starts no DMA
    }

    // All of the console as SAVED bytes: the machine's savestate, dpc, rdram; the same bytes for each Unit. A buffer that you
    // keep makes it as fast as a memcpy.
    void save(uint8_t *to) const
    {
        machine.save_state(to, STATE);
        to_bytes(to + STATE, dpc, 8);
        to_bytes(to + STATE + sizeof dpc, &rdram[0], SIZE / sizeof(Unit));
    }
    [[nodiscard]] brsp::machine::bytes save() const
    {
        brsp::machine::bytes out(SAVED);
        save(out.data());
        return out;
    }

    // Sets all of the console from such bytes. Throws for others, and then nothing is changed.
    void restore(const uint8_t *from, size_t length)
    {
        machine.load_state(from, length == SAVED ? STATE : (std::min)(length, STATE - 1)); // which are too few
        from_bytes(dpc, from + STATE, 8);
        from_bytes(&rdram[0], from + STATE + sizeof dpc, SIZE / sizeof(Unit));
    }
    void restore(const brsp::machine::bytes &from) { restore(from.data(), from.size()); }

private:
    static constexpr uint32_t PAST_END = 1 << 24;
    static constexpr Unit ZEROS[4096 / sizeof(Unit)] = {};
    void put(uint32_t bank, uint32_t sp, const uint8_t *at, uint32_t n) { machine.load(bank, sp, at, n); }
    void put(uint32_t bank, uint32_t sp, const uint32_t *at, uint32_t n) { machine.load_words(bank, sp, at, n / 4); }
    void get(uint32_t bank, uint32_t sp, uint8_t *at, uint32_t n) { machine.memory(bank, sp, at, n); }
    void get(uint32_t bank, uint32_t sp, uint32_t *at, uint32_t n) { machine.memory_words(bank, sp, at, n / 4); }

    // Moves the bytes of a DMA, in runs that wrap in neither memory. RDRAM reads 0 after its end, and drops writes.
    void transfer(const brsp_dma &dma)
    {
        uint32_t sp = dma.address, at = dma.rdram, n;
        for (uint32_t row = 0; row < dma.rows; row++, at += dma.skip)
            for (uint32_t left = dma.length; left; left -= n, sp = (sp + n) % 4096, at += n) {
                at %= PAST_END;
                n = (std::min)({ left, 4096 - sp, (at < SIZE ? SIZE : PAST_END) - at });
                if (!dma.to_rdram) put(dma.bank, sp, at < SIZE ? &rdram[at / sizeof(Unit)] : ZEROS, n);
                else if (at < SIZE) get(dma.bank, sp, &rdram[at / sizeof(Unit)], n);
            }
    }

    // Numbers as bytes, the high byte of each first, and back
    static void to_bytes(uint8_t *to, const uint8_t *from, size_t count) { std::memcpy(to, from, count); }
    static void to_bytes(uint8_t *to, const uint32_t *from, size_t count)
    {
        for (size_t i = 0; i < count; i++, to += 4) {
            const uint8_t bytes[] = { uint8_t(from[i] >> 24), uint8_t(from[i] >> 16), uint8_t(from[i] >> 8), uint8_t(from[i]) };
            std::memcpy(to, bytes, 4); // as one store, which four stores aren't for gcc at -O3
        }
    }
    static void from_bytes(uint8_t *to, const uint8_t *from, size_t count) { std::memcpy(to, from, count); }
    static void from_bytes(uint32_t *to, const uint8_t *from, size_t count)
    {
        for (size_t i = 0; i < count; i++, from += 4)
            to[i] = uint32_t(from[0]) << 24 | uint32_t(from[1]) << 16 | uint32_t(from[2]) << 8 | from[3];
    }
};
} // namespace BRSP_NAMES
