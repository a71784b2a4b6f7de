// The calls of tests/library/refusals.tsv, which is the standard input, by brsp.hpp: a line for each with the status and the sentence.
// lib/library/refusals.py says what a call does.
#include "brsp.hpp"
#include <functional>
#include <iostream>
#include <map>
#include <sstream>

using bytes = brsp::bytes;
using numbers = std::vector<uint32_t>;

// A machine and a session, of which a line makes calls.
struct sides {
    brsp::machine m{ bytes(64), 4 };
    brsp::session s{ bytes(64) };

    void set(uint32_t field, uint32_t value)
    {
        brsp_state state = m.get();
        if (field == BRSP_FIELD_ZERO) state.words[0] = value;
        if (field == BRSP_FIELD_LOADED) state.divider.loaded = uint16_t(value);
        if (field == BRSP_FIELD_PC) state.pc = uint16_t(value);
        if (field == BRSP_FIELD_NPC) state.npc = uint16_t(value);
        if (field == BRSP_FIELD_INTERRUPT) state.interrupt = value;
        if (field >= BRSP_FIELD_SP) state.sp[field - BRSP_FIELD_SP] = value;
        m.set(state);
    }
    void set_sp(uint32_t interrupt)
    {
        brsp_sp_words words = m.sp();
        words.interrupt = interrupt;
        m.set_sp(words);
    }
    void load_state(const numbers &n)
    {
        bytes saved = m.save_state();
        saved.resize(9216);
        saved[n[0]] = uint8_t(n[1]);
        saved.resize(n[2]);
        m.load_state(saved);
    }
};

#define CALL(name, ...) { #name, [](sides &it, const numbers &n) { static_cast<void>(it), static_cast<void>(n), static_cast<void>(__VA_ARGS__); } }
static const std::map<std::string, std::function<void(sides &, const numbers &)>> calls = {
    CALL(Machine, brsp::machine(bytes(n[0]), n[1])), CALL(Session, brsp::session(bytes(n[0]))), CALL(set, it.set(n[0], n[1])),
    CALL(set_sp, it.set_sp(n[0])), CALL(load_state, it.load_state(n)), CALL(save_state, it.m.save_state()), CALL(set_pc, it.m.set_pc(n[0])),
    CALL(start_task, it.m.start_task(n[0])), CALL(run, it.m.run(n[0])), CALL(run_until_move, it.m.run_until_move(n[0], n[1], n[2])),
    CALL(event, it.m.event(n[0], n[1], n[2])), CALL(trace, it.m.trace(n[0])), CALL(back, it.m.back(n[0])), CALL(pass_move, it.m.pass_move(n[0])),
    CALL(pass_dma, it.m.pass_dma()), CALL(add_break, it.m.add_break(n[0])), CALL(drop_break, it.m.drop_break(n[0])),
    CALL(add_watch, it.m.add_watch(n[0], n[1])), CALL(drop_watch, it.m.drop_watch(n[0])), CALL(reg, it.m.reg(n[0])), CALL(vreg, it.m.vreg(n[0])),
    CALL(set_reg, it.m.set_reg(n[0], n[1])), CALL(memory, it.m.memory(n[0], n[1], n[2])), CALL(memory_words, it.m.memory_words(n[0], n[1], n[2])),
    CALL(load, it.m.load(n[0], n[1], bytes(n[2]))), CALL(load_words, it.m.load_words(n[0], n[1], brsp::words(n[2]))),
    CALL(listing, it.m.listing(n[0], n[1])), CALL(text, brsp::text(n[0], n[1])), CALL(assemble, brsp::assemble("nop", n[0])),
    CALL(explain_text, brsp::explain_text("nop", n[0])), CALL(first_difference, brsp::first_difference(it.m, it.m, n[0], n[1])),
    CALL(feed, it.s.feed("step\n")), CALL(end, it.s.end()), CALL(free, brsp::machine(std::move(it.m))),
};

// Makes the calls of a line, which all but the last one take.
static void line(const std::string &text)
{
    sides it;
    it.m.load_words(BRSP_IMEM, 0, { 0x40010000 }); // mfc0 $1, $c0
    try {
        std::istringstream all(text);
        for (std::string call; std::getline(all, call, ';');) {
            std::istringstream words(call);
            std::string name;
            numbers n;
            words >> name;
            for (uint32_t number; words >> number;) n.push_back(number);
            calls.at(name)(it, n);
        }
        std::cout << "OK\t\n";
    } catch (const brsp::rsp_error &error) {
        std::cout << brsp_status_name(error.status) << "\t" << error.what() << "\n";
    }
}

int main()
{
    for (std::string text; std::getline(std::cin, text);) line(text);
}
