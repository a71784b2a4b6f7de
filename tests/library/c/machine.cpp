// brsp.hpp: the classes brsp::machine and brsp::session, and the functions beside them. The last line is `N passed, M failed`.
#include "brsp.hpp"
#include <cstdio>
#include <cstring>
#include <type_traits>

using brsp::bytes;
using brsp::machine;
using brsp::words;
static int passed, failed;

static void see(const char *what, bool is_right)
{
    passed += is_right;
    failed += !is_right;
    if (!is_right) std::printf("FAIL %s\n", what);
}

// Whether a call is refused by this status, and with this message.
template <class Call> static void refuses(uint32_t status, const std::string &message, Call call)
{
    try {
        call();
    } catch (const brsp::rsp_error &fault) {
        const bool is_right = fault.status == status && fault.what() == message;
        if (!is_right) std::printf("%u: %s\n", static_cast<unsigned>(fault.status), fault.what());
        return see(message.c_str(), is_right);
    }
    see(message.c_str(), false);
}

static machine made(const std::string &text, uint32_t depth = 0)
{
    machine m(bytes(64), depth);
    m.load_words(BRSP_IMEM, 0, brsp::assemble(text));
    return m;
}

static void test_run()
{
    machine m = made("ori $2, $0, 0x1234\nsw $2, 8($0)\nmfc0 $3, $c8\nbreak\n", 100);
    see("a step", m.step() == BRSP_OK && m.reg(2) == 0x1234);
    brsp_move at = m.run_until_move(100, 1 << 8, 0);
    see("a move", at.stop.reason == BRSP_AT_MOVE && at.stop.steps == 1 && at.number == 8 && !at.writes);
    see("passed over", m.pass_move(0x5678) == BRSP_OK && m.reg(3) == 0x5678);
    brsp_stop stop = m.run(100);
    see("the halt", stop.reason == BRSP_AT_HALT && stop.steps == 1 && stop.pc == 16 && m.step() == BRSP_HALTED);
    see("DMEM", m.memory(BRSP_DMEM, 8, 4) == bytes({ 0, 0, 0x12, 0x34 }) && m.memory_words(BRSP_DMEM, 8, 1) == words({ 0x1234 }));
    see("the history", m.history() == 1);
    m.back(1);
    see("back", m.get().pc == 12 && m.step() == BRSP_OK);
    m.write(4, 5);
    see("SP registers", m.peek(4) == 0 && m.read(7) == 0 && m.read(7) == 1 && m.peek(7) == 1);
}

static void test_events()
{
    machine m = made("mtc0 $0, $c8\nori $1, $0, 0x1007\nmtc0 $1, $c2\nbreak\n");
    brsp_reached event = m.event(100, 0, 1 << 8);
    see("an event", event.at.stop.reason == BRSP_AT_MOVE && event.at.stop.steps == 0 && event.at.number == 8 && event.at.writes && event.dma.rows == 0);
    event = m.event(100, 1 << 8);
    see("a DMA", event.at.stop.reason == BRSP_AT_DMA && event.at.stop.steps == 2 && event.dma.length == 8 && event.dma.rows == 2 && !event.dma.to_rdram);
    m.load(BRSP_DMEM, 0, { 1, 2 });
    see("it is passed over", m.pass_dma() == BRSP_OK && m.peek(0) == 16 && m.memory(BRSP_DMEM, 0, 2) == bytes({ 1, 2 }) && m.get().pc == 12);
    refuses(BRSP_OTHER_WORD, "pass_dma: the word at pc starts no DMA", [&] { m.pass_dma(); });
    refuses(BRSP_OTHER_WORD, "pass_move: the word at pc is no MFC0 or MTC0", [&] { m.pass_move(); });
    refuses(BRSP_OUT_OF_RANGE, "event: steps is 0, not 1 to 1000000", [&] { m.event(0); });
    refuses(BRSP_OUT_OF_RANGE, "event: writes is 131072, not 0 to 131071", [&] { m.event(1, 0, 131072); });
    event = m.event(100);
    see("the halt", event.at.stop.reason == BRSP_AT_HALT && event.status == 3 && m.step() == BRSP_HALTED && m.pass_dma() == BRSP_HALTED);
    const brsp_dma dma = m.write_dma(3, 0x1007);
    see("the CPU's DMA", dma.address == 16 && dma.length == 8 && dma.rows == 2 && dma.to_rdram && m.peek(0) == 32 && m.write_dma(0, 8).rows == 0 && m.peek(0) == 8);
}

static void test_states()
{
    machine m = made("break\n");
    brsp_state state = m.get();
    state.words[5] = 77;
    state.vectors[3][7] = 0xabcd;
    m.set(state);
    m.set_pc(8);
    m.load(BRSP_RDRAM, 0, bytes(64, 9));
    see("registers", m.reg(5) == 77 && m.vreg(3).lanes[7] == 0xabcd && m.get().pc == 8);
    see("RDRAM", m.memory(BRSP_RDRAM, 0, 64) == bytes(64, 9) && m.image_length() == 64);
    machine copy = m.copy();
    copy.load(BRSP_DMEM, 0, { 1, 2 });
    see("a copy is another machine", copy.reg(5) == 77 && m.memory(BRSP_DMEM, 0, 2) == bytes(2));
    m.set_reg(31, 5);
    m.set_vreg(2, brsp_lanes{ { 1, 2, 3, 4, 5, 6, 7, 8 } });
    see("set registers", m.regs().words[31] == 5 && m.regs().pc == 8 && m.vreg(2).lanes[7] == 8);
    const std::vector<brsp_part> parts = brsp::difference(m.get(), copy.get());
    see("a difference", parts.size() == 9 && brsp::to_string(parts[0]) == "$31 is 00000005 here and 00000000 in the other");
    state.flags = { 1, 2, 4, 8, 16 };
    const std::string text = brsp::to_string(state), end = "\nvco 0201 vcc 0804 vce 10 in 0000 out 0000 loaded 0";
    see("a state as text", text.substr(0, 35) == "pc 000 npc 004\nr00 00000000 0000000" && text.find("\nr04 00000000 0000004d ") != text.npos);
    see("its accumulators", text.find("\na0 000000000000\na1 ") != text.npos && text.find("\na7 000000000000\nvco ") != text.npos);
    see("its end", text.size() > end.size() && text.substr(text.size() - end.size()) == end);
    refuses(BRSP_OUT_OF_RANGE, "set_reg: register 0 holds 0, and not 9", [&] { m.set_reg(0, 9); });
    refuses(BRSP_OUT_OF_RANGE, "set_vreg: number is 32, not 0 to 31", [&] { m.set_vreg(32, brsp_lanes{}); });
    refuses(BRSP_TASK_SIZE, "start_task: the size of the boot code, the word at offset 12 of the structure at 0, isn't 1 to 4096", [&] { m.load(BRSP_RDRAM, 0, bytes(64)); m.start_task(0); });
    refuses(BRSP_OUT_OF_RANGE, "set_pc: pc is 2, not a multiple of 4 below 4096", [&] { m.set_pc(2); });
    state.sp[4] = 0x8000;
    see("a field", brsp::state_fault(state) == BRSP_FIELD_SP + 4);
    refuses(BRSP_OUT_OF_RANGE, "set: sp[4] is 0x8000, which SP_STATUS can't hold", [&] { m.set(state); });
    state.pc = 3;
    refuses(BRSP_OUT_OF_RANGE, "set: pc is 3, not a multiple of 4 below 4096", [&] { m.set(state); });
}

// Memories and savestates in buffers of the caller.
static void test_buffers()
{
    machine m = made("break\n");
    const uint8_t given[] = { 1, 2, 3, 4, 5, 6, 7, 8 };
    const uint32_t words_given[] = { 0x01020304, 0x05060708 };
    uint8_t taken[8] = {}, saved[9040];
    uint32_t words_taken[2] = {};
    m.load(BRSP_DMEM, 4088, given, 8);
    m.load_words(BRSP_RDRAM, 56, words_given, 2);
    m.memory(BRSP_RDRAM, 56, taken, 8);
    m.memory_words(BRSP_DMEM, 4088, words_taken, 2);
    see("buffers", !std::memcmp(taken, given, 8) && !std::memcmp(words_taken, words_given, 8));
    see("a savestate", m.save_state(saved, 9040) == 9040 && bytes(saved, saved + 9040) == m.save_state());
    m.run(1);
    m.load_state(saved, 9040);
    see("it is loaded", m.get().pc == 0 && m.peek(4) == 0);
    refuses(BRSP_NO_ROOM, "save_state: the savestate has 9040 bytes, and the buffer 9039", [&] { m.save_state(taken, 9039); });
    refuses(BRSP_OUT_OF_RANGE, "load: the bytes from 4089 on pass the end of DMEM", [&] { m.load(BRSP_DMEM, 4089, given, 8); });
    refuses(BRSP_OUT_OF_RANGE, "memory: 8 bytes from 60 on pass the end of RDRAM", [&] { m.memory(BRSP_RDRAM, 60, taken, 8); });
    refuses(BRSP_OUT_OF_RANGE, "memory_words: count is 4294967296, not 0 to 4294967295", [&] { m.memory_words(BRSP_DMEM, 0, words_taken, size_t(1) << 32); });
    refuses(BRSP_OUT_OF_RANGE, "load_state: there are 9039 bytes, not 8976 and those of the image", [&] { m.load_state(saved, 9039); });
}

// Readers of a const machine; none of them changes it.
static void test_parts()
{
    machine made_one = made("lqv $v1[0], 0($0)\nvadd $v2, $v1, $v1\nsqv $v2[0], 16($0)\nbreak\n", 10);
    made_one.load(BRSP_DMEM, 0, { 0, 1 });
    brsp_changes changes{};
    see("step_changes", made_one.step_changes(changes) == BRSP_OK && changes.traced.vector == 1 && changes.traced.lanes[0] == 1 && changes.pc == 4);
    brsp::traced_run run = made_one.trace(100);
    see("a trace", run.stop.reason == BRSP_AT_HALT && run.entries.size() == 3 && run.entries[0].vector == 2 && run.entries[1].stored && run.entries[1].address == 16);
    const machine &m = made_one;
    see("acc and flags", m.acc().low[0] == 2 && m.flags().carry == 0 && m.divider().loaded == 0);
    brsp_sp_words sp = m.sp();
    see("sp", sp.words[4] == 3 && sp.interrupt == 0);
    sp.words[0] = 8;
    made_one.set_sp(sp);
    see("set_sp", m.peek(0) == 8);
    sp.interrupt = 2;
    refuses(BRSP_OUT_OF_RANGE, "set_sp: a word can't be read from its SP register, or interrupt isn't 0 or 1", [&] { made_one.set_sp(sp); });
    const std::vector<brsp_line> lines = m.listing(0, 2);
    see("a listing", lines.size() == 2 && std::string(lines[1].text) == "vadd $v2, $v1, $v1");
    refuses(BRSP_OUT_OF_RANGE, "listing: 2 words from 4092 on pass the end of IMEM", [&] { static_cast<void>(m.listing(4092, 2)); });
    refuses(BRSP_OUT_OF_RANGE, "trace: steps is 1000001, not 1 to 1000000", [&] { static_cast<void>(made_one.trace(1000001)); });
    static_assert(!std::is_copy_constructible_v<machine> && !std::is_copy_assignable_v<machine>);
    static_assert(std::is_nothrow_move_constructible_v<machine> && std::is_nothrow_move_assignable_v<machine>);
}

static void test_stops()
{
    machine m = made("addiu $1, $1, 1\nsw $1, 8($0)\nj 0\nnop\n");
    m.add_break(8);
    see("a break", m.run(9).reason == BRSP_AT_BREAK);
    refuses(BRSP_BREAK_TWICE, "add_break: 8 has a breakpoint", [&] { m.add_break(8); });
    m.drop_break(8);
    refuses(BRSP_NO_BREAK, "drop_break: 8 has no breakpoint", [&] { m.drop_break(8); });
    see("a watch", m.add_watch(8, 4) == 0 && m.run(9).reason == BRSP_AT_WATCH);
    refuses(BRSP_OUT_OF_RANGE, "add_watch: 8 bytes from 4092 on pass the end of DMEM", [&] { m.add_watch(4092, 8); });
    m.drop_watch(0);
    refuses(BRSP_NO_WATCH, "drop_watch: no watch has the number 0", [&] { m.drop_watch(0); });
    refuses(BRSP_SHORT_HISTORY, "back: the history holds fewer states than 1", [&] { m.back(1); });
}

static void test_moves()
{
    std::vector<machine> all;
    for (uint32_t n = 0; n < 20; n++) all.push_back(made("addiu $1, $0, " + std::to_string(n) + "\nbreak\n"));
    uint32_t sum = 0;
    for (machine &m : all) m.run(10), sum += m.reg(1);
    see("machines in a vector", sum == 190);
    machine first = std::move(all[19]);
    see("a move keeps the machine", first.reg(1) == 19 && brsp_step(all[19].handle()) == BRSP_NO_MACHINE);
    refuses(BRSP_NO_MACHINE, "run: the machine is gone: it was moved from", [&] { all[19].run(1); });
    refuses(BRSP_NO_MACHINE, "step: the machine is gone: it was moved from", [&] { all[19].step(); });
    first = std::move(all[3]);
    all[19] = std::move(first);
    machine &same = all[19];
    all[19] = std::move(same);
    see("an assignment", all[19].reg(1) == 3 && first.handle()->at == nullptr && all[3].handle()->at == nullptr);
}

static void test_refusals()
{
    machine m = made("break\n");
    bytes none;
    refuses(BRSP_OUT_OF_RANGE, "Machine: image has 0 bytes, not a multiple of 8 from 64 to 8388608", [&] { machine no(none); });
    refuses(BRSP_OUT_OF_RANGE, "Machine: image has 65 bytes, not a multiple of 8 from 64 to 8388608", [] { machine no(bytes(65)); });
    refuses(BRSP_OUT_OF_RANGE, "Machine: depth is 4097, not 0 to 4096", [] { machine no(bytes(64), 4097); });
    m.load(BRSP_DMEM, 0, none);
    m.load_words(BRSP_DMEM, 4096, {});
    see("nothing", m.memory(BRSP_DMEM, 4096, 0).empty() && m.memory_words(BRSP_DMEM, 0, 0).empty());
    refuses(BRSP_OUT_OF_RANGE, "memory: 4096 bytes from 1 on pass the end of DMEM", [&] { static_cast<void>(m.memory(BRSP_DMEM, 1, 4096)); });
    refuses(BRSP_OUT_OF_RANGE, "memory: length is 18446744073709551615, not 0 to 4294967295", [&] { static_cast<void>(m.memory(BRSP_RDRAM, 0, SIZE_MAX)); });
    refuses(BRSP_OUT_OF_RANGE, "load_words: the words from 4093 on pass the end of IMEM", [&] { m.load_words(BRSP_IMEM, 4093, words(1)); });
    refuses(BRSP_OUT_OF_RANGE, "load: bank is 3, not DMEM, IMEM or RDRAM", [&] { m.load(3, 0, none); });
}

static void test_texts()
{
    refuses(BRSP_NO_MEANING, "assemble: fault 11 UnknownName line 2: foo", [] { static_cast<void>(brsp::assemble("nop\n foo\t\nnop\n")); });
    refuses(BRSP_NO_MEANING, "assemble: fault 33 NotText", [] { static_cast<void>(brsp::assemble("\xff")); });
    refuses(BRSP_NO_MEANING, "assemble: fault 10 BadLine line 1: \\x1b\\x7f\\xc3\\xa9", [] { static_cast<void>(brsp::assemble("\x1b\x7f\xc3\xa9")); });
    refuses(BRSP_NO_MEANING, "assemble: fault 12 BadOperand line 1: lw $1, $2; operand 2 may be a number or a label, -32768 to 65535, and a scalar register in parentheses", [] { static_cast<void>(brsp::assemble("lw $1, $2\n")); });
    refuses(BRSP_NO_MEANING, "assemble: fault 13 OutOfRange line 2: lqv $v1[0], 0x460($0); operand 2 may be -1024 to 1008, a multiple of 16", [] { static_cast<void>(brsp::labels("nop\nlqv $v1[0], 0x460($0)\n")); });
    refuses(BRSP_NO_MEANING, "assemble: fault 15 LabelMissing line 1: j nowhere; operand 1 may be the label of a line, or 0 to 4092, a multiple of 4", [] { static_cast<void>(brsp::assemble("j nowhere\n")); });
    refuses(BRSP_OUT_OF_RANGE, "assemble: origin is 2, not a multiple of 4 up to 4096", [] { static_cast<void>(brsp::assemble("nop", 2)); });
    see("no text", brsp::assemble("").empty() && brsp::assemble("nop", 4092) == words(1));
    try {
        static_cast<void>(brsp::assemble("nop\nnop\nlui $1, 65536\n"));
    } catch (const brsp::assembly_error &fault) {
        see("a fault's parts", fault.status == BRSP_NO_MEANING && fault.fault == BRSP_FAULT_OUT_OF_RANGE && fault.line == 3 && fault.operand.number == 2);
    }
    see("explain", brsp::explain("lui $1").number == 2 && brsp::explain("nop").number == 0);
    refuses(BRSP_NO_MEANING, "explain_text: the text isn't UTF-8", [] { static_cast<void>(brsp::explain_text("\xff")); });
    refuses(BRSP_OUT_OF_RANGE, "explain_text: origin is 2, not a multiple of 4 up to 4096", [] { static_cast<void>(brsp::explain_text("nop", 2)); });
    const std::vector<brsp_label> labels = brsp::labels("nop\nx: nop\ny:", 8);
    see("labels", labels.size() == 2 && labels[0].address == 12 && std::string(labels[1].name) == "y" && labels[1].address == 16);
    see("text", brsp::text(0x4a631050) == "vadd $v1, $v2, $v3[1q]");
    refuses(BRSP_OUT_OF_RANGE, "text: address is 4096, not a multiple of 4 below 4096", [] { static_cast<void>(brsp::text(0, 4096)); });
    see("the version", brsp::version() == BRSP_VERSION);
}

static void test_sessions()
{
    brsp::session session(bytes(64));
    see("replies", session.feed("load rdram 0 0102\nst").empty() == false && session.feed("ep\nasm 0\nnop\nend\nstep") == "step Done pc 004\nok 1 words\n");
    see("the end", session.end() == "step Done pc 008\n" && session.memory(BRSP_RDRAM, 0, 2) == bytes({ 1, 2 }));
    refuses(BRSP_ENDED, "feed: the script has ended", [&] { static_cast<void>(session.feed("x")); });
    refuses(BRSP_OUT_OF_RANGE, "Session: image has 7 bytes, not a multiple of 8 from 64 to 8388608", [] { brsp::session no(bytes(7)); });
    const brsp::session other = std::move(session);
    refuses(BRSP_NO_MACHINE, "end: the session is gone: it was moved from", [&] { static_cast<void>(session.end()); });
}

// An emulator whose SRA shifts zeros in, or that throws. It gives more bytes than it is asked for.
struct emulator {
    machine m{ bytes(64) };
    uint32_t throws = 0;
    void run(uint32_t steps)
    {
        if (throws) throw std::string(throws++ > 1 ? "lost again" : "lost");
        while (steps--) {
            brsp_state before = m.get();
            const uint32_t word = m.memory_words(BRSP_IMEM, before.pc, 1)[0], rt = word >> 16 & 31, rd = word >> 11 & 31;
            m.step();
            if (word >> 26 == 0 && (word & 63) == 3) m.set_reg(rd, before.words[rt] >> (word >> 6 & 31));
        }
    }
    brsp_state get() const { return m.get(); }
    void set(const brsp_state &state) { m.set(state); }
    bytes memory(uint32_t bank, uint32_t address, size_t length) const
    {
        bytes out = m.memory(bank, address, length);
        out.resize(length + 100000);
        return out;
    }
    void load(uint32_t bank, uint32_t address, const bytes &data) { m.load(bank, address, data); }
};

// One that changes a byte of a memory in the step at an address.
struct spoiler : emulator {
    uint32_t pc, bank, address;
    spoiler(uint32_t at, uint32_t of, uint32_t byte) : pc(at), bank(of), address(byte) { m = machine(bytes(72)); }
    void run(uint32_t steps)
    {
        while (steps--) {
            const bool is_here = m.get().pc == pc;
            m.step();
            if (is_here) m.load(bank, address, { 0xee });
        }
    }
};

static void test_compare()
{
    const std::string text = "lui $1, 0x8000\nsra $2, $1, 4\nbreak\n";
    machine m = made(text), same(bytes(64));
    see("no difference", !brsp::first_difference(m, same) && m.step() == BRSP_HALTED);
    m = made(text);
    emulator other;
    const auto found = brsp::first_difference(m, other);
    see("a difference", found && found->step == 2 && found->parts.size() == 1);
    see("as text", found && brsp::to_string(*found) == "step 2, 004: sra $2, $1, 4\n  $2 is f8000000 on the machine and 08000000 in the emulator");
    refuses(BRSP_OUT_OF_RANGE, "first_difference: every is 0, not 1 to 1000000", [&] { static_cast<void>(brsp::first_difference(m, same, 0)); });
    other.throws = 1;
    m = made(text);
    try {
        static_cast<void>(brsp::first_difference(m, other));
        see("what an emulator throws", false);
    } catch (const std::string &thrown) {
        see("what an emulator throws", thrown == "lost");
    }
}

// An emulator that throws at one of its calls, and otherwise agrees.
struct thrower : emulator {
    int left;
    explicit thrower(int calls) : left(calls) {}
    void count()
    {
        if (!left--) throw std::string("thrown");
    }
    void run(uint32_t steps) { count(), m.run(steps); }
    brsp_state get() { return count(), m.get(); }
    void set(const brsp_state &state) { count(), m.set(state); }
    bytes memory(uint32_t bank, uint32_t address, size_t length) { return count(), m.memory(bank, address, length); }
    void load(uint32_t bank, uint32_t address, const bytes &data) { count(), m.load(bank, address, data); }
};

// An emulator that gives no bytes of DMEM after its first answer.
struct silent : emulator {
    int answers = 0;
    bytes memory(uint32_t bank, uint32_t address, size_t length)
    {
        return bank == BRSP_DMEM && answers++ ? bytes() : m.memory(bank, address, length);
    }
};

// What an emulator throws comes out, whichever call it is, and the machine goes on.
static void test_throwing()
{
    int thrown = 0;
    for (int calls = 0; calls < 100; calls++) {
        machine m = made("ori $1, $0, 7\nmtc0 $1, $c3\nnop\nbreak\n");
        thrower other(calls);
        try {
            const bool differs = brsp::first_difference(m, other, 2).has_value();
            see("no difference", !differs && m.step() == BRSP_HALTED);
        } catch (const std::string &) {
            thrown++;
            machine same(bytes(64));
            see("the machine goes on", !brsp::first_difference(m, same) && m.step() == BRSP_HALTED);
        }
    }
    see("each call throws", thrown > 20 && thrown < 100);
    machine m = made("ori $1, $0, 7\nsw $1, 0($0)\nbreak\n");
    silent other;
    m.load(BRSP_DMEM, 16, { 1 });
    const auto found = brsp::first_difference(m, other);
    see("no bytes are zeros", found && found->step == 1 && std::string(found->parts[0].name) == "DMEM 010");
}

// The guilty step amid others of its stretch, each of which changes parts that the step before it didn't; and all that differs after it.
static void test_guilty_step()
{
    const auto finds = [](const std::string &text, const spoiler &given, uint32_t step, const std::string &part, uint32_t status) {
        machine m(bytes(72));
        m.load_words(BRSP_IMEM, 0, brsp::assemble(text));
        m.load(BRSP_DMEM, 0, bytes(16, 0x85));
        m.write(4, status);
        spoiler other(given.pc, given.bank, given.address);
        const auto found = brsp::first_difference(m, other);
        see(part.c_str(), found && found->step == step && found->parts.size() == 1 && brsp::to_string(found->parts[0]) == part);
    };
    const std::string zeros = "00000000000000000000000000000000", text = "ltv $v8[0], 0($0)\nvch $v1, $v8, $v9\nsw $0, 0xffe($0)\nsra $2, $1, 4\nbreak\n";
    finds(text, { 12, BRSP_IMEM, 0x800 }, 4, "IMEM 800 is " + zeros + " here and ee" + zeros.substr(2) + " in the other", 0);
    finds(text, { 12, BRSP_DMEM, 0x80f }, 4, "DMEM 800 is " + zeros + " here and " + zeros.substr(2) + "ee in the other", 0);
    finds("nop\n", { 0, BRSP_DMEM, 0x80f }, 1, "DMEM 800 is " + zeros + " here and " + zeros.substr(2) + "ee in the other", 1 << 6);
    const std::string last = "RDRAM 040 is " + zeros + " here and 000000000000000000000000000000ee in the other";
    finds("ori $1, $0, 64\nmtc0 $1, $c0\nmtc0 $1, $c1\nmtc0 $0, $c3\nbreak\n", { 12, BRSP_RDRAM, 71 }, 4, last, 0);
    machine m = made(text), same(bytes(64));
    see("a limit", !brsp::first_difference(m, same, 64, 3) && m.get().pc == 12);
}

int main()
{
    test_run();
    test_events();
    test_states();
    test_buffers();
    test_parts();
    test_stops();
    test_moves();
    test_refusals();
    test_texts();
    test_sessions();
    test_compare();
    test_throwing();
    test_guilty_step();
    std::printf("%d passed, %d failed\n", passed, failed);
    return failed != 0;
}
