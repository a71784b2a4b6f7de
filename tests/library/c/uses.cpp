// Uses each function of brsp.hpp and console.hpp once: test_header.py sees whether a compiler warns. Each header is included twice, and `min`
// and `max` are macros, as in Microsoft's windows.h. The standard headers come first, because gcc's take no such macros.
#include <algorithm>
#include <optional>
#include <stdexcept>
#include <string>
#include <vector>
#define min(a, b) ((a) < (b) ? (a) : (b))
#define max(a, b) ((a) > (b) ? (a) : (b))
#include "console.hpp"
#include "console.hpp"
#include "brsp.hpp"

static void runs(brsp::machine &m)
{
    brsp_changes changes;
    m.set_pc(0);
    m.start_task(0);
    m.add_break(m.run(1).pc);
    m.drop_break(m.run_until_move(1, 1, 1).stop.pc);
    m.drop_watch(uint32_t(m.add_watch(0, 1)));
    m.back(m.step() + m.step_changes(changes) + m.event(1).status + m.trace(1).stop.steps);
    m.write(m.pass_move() + m.pass_dma(), uint32_t(m.history()) + m.write_dma(0, 0).rows);
}

static size_t parts(brsp::machine &m)
{
    m.set_reg(m.reg(1), m.regs().words[1]);
    m.set_vreg(1, m.vreg(2));
    m.set_sp(m.sp());
    m.load(BRSP_DMEM, m.read(7), m.memory(BRSP_DMEM, 0, m.image_length()));
    m.load_words(BRSP_DMEM, m.peek(0), m.memory_words(BRSP_IMEM, 0, 4));
    const brsp::bytes bytes(8);
    const brsp::words words(2);
    uint8_t bytes_to[8];
    uint32_t words_to[2];
    m.load(BRSP_DMEM, 0, bytes.data(), 8);
    m.load_words(BRSP_DMEM, 0, words.data(), 2);
    m.memory(BRSP_DMEM, 0, bytes_to, 8);
    m.memory_words(BRSP_DMEM, 0, words_to, 2);
    return m.listing(0, 4).size() + m.acc().low[0] + m.flags().extra + m.divider().input + !m.handle();
}

static size_t states(brsp::machine &m)
{
    brsp::machine other = m.copy();
    const brsp_state state = m.get();
    other = std::move(m);
    other.set(state);
    other.load_state(other.save_state());
    uint8_t saved[9040];
    other.load_state(saved, other.save_state(saved, sizeof saved));
    size_t length = brsp::to_string(state).size() + brsp::state_fault(state) + brsp::version();
    for (const brsp_part &part : brsp::difference(state, other.get())) length += brsp::to_string(part).size();
    if (const auto found = brsp::first_difference(m, other)) length += brsp::to_string(*found).size();
    return length;
}

static size_t texts()
{
    brsp::session session;
    const std::string replies = session.feed("regs\n") + session.end();
    const size_t words = brsp::assemble("x: nop").size() + brsp::labels("x: nop").size() + brsp::explain("j").number;
    const std::string lines = brsp::explain_text("j") + brsp::explain_reply("j\n", replies) + brsp::text(0);
    return words + lines.size() + session.memory(BRSP_RDRAM, 0, 8).size();
}

template <class Unit> static size_t console()
{
    Console<Unit> it;
    it.write(2, it.run(1) + it.read(0) + it.interrupt());
    brsp::bytes saved = it.save();
    it.restore(saved);
    it.save(saved.data());
    it.restore(saved.data(), saved.size());
    return saved.size();
}

int main()
{
    brsp::machine m;
    runs(m);
    return parts(m) + states(m) + texts() + console<uint8_t>() + console<uint32_t>() > 0 ? 0 : 1;
}
