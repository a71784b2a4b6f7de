/* brsp.hpp: all calls of brsp.h for C++17: the classes brsp::machine and brsp::session, and functions for
 * texts and states. A class frees what it holds, and can be moved; only copy() copies a machine. brsp.h says
 * what each call does, and what you may pass to it. No two calls at a time use a machine, const ones either.
 *
 * A refused call throws brsp::rsp_error, and has changed nothing. To do something else, define
 * BRSP_REFUSE(error) above the #include: it gets the error, and must not return. Without exceptions
 * (-fno-exceptions) and without BRSP_REFUSE the message is written to stderr, and the program aborts. Files
 * of different kinds may be in one program, because the compiler gives the names here another prefix in
 * each kind; so a function can't take a brsp::machine from a file of another kind. All files that define
 * BRSP_REFUSE define the same. */
#ifndef BRSP_HPP
#define BRSP_HPP

#if defined(_MSVC_LANG) ? _MSVC_LANG < 201703L : __cplusplus < 201703L
#error "brsp.hpp needs C++17 or later: compile with -std=c++17 (MSVC: /std:c++17)"
#endif

#if defined(__GNUC__)
#pragma GCC diagnostic push
#pragma GCC diagnostic ignored "-Wold-style-cast"
#pragma GCC diagnostic ignored "-Wzero-as-null-pointer-constant"
#endif
#include "brsp_compare.h" /* and brsp_helpers.h */
#if defined(__GNUC__)
#pragma GCC diagnostic pop
#endif
#include <algorithm> /* (std::min) has parentheses because windows.h of Microsoft makes min a macro */
#include <cstddef>
#include <cstdio>
#include <cstdlib>
#include <cstring>
#include <initializer_list>
#include <optional>
#include <stdexcept>
#include <string>
#include <string_view>
#include <utility>
#include <vector>

#if defined(BRSP_REFUSE) && defined(__cpp_exceptions)
#define BRSP_NAMES_IN(version) brsp_v##version##_refuse
#elif defined(BRSP_REFUSE)
#define BRSP_NAMES_IN(version) brsp_v##version##_refuse_without_exceptions
#elif defined(__cpp_exceptions)
#define BRSP_NAMES_IN(version) brsp_v##version##_throw
#define BRSP_REFUSE(error) throw error
#else
#define BRSP_NAMES_IN(version) brsp_v##version##_abort
#define BRSP_REFUSE(error) (std::fprintf(stderr, "%s\n", (error).what()), std::abort())
#endif
/* The namespace of what differs between files of different kinds, and between versions of the interface. */
#define BRSP_NAMES_OF(version) BRSP_NAMES_IN(version)
#define BRSP_NAMES BRSP_NAMES_OF(BRSP_VERSION)

namespace brsp {
inline namespace BRSP_NAMES {

using bytes = std::vector<uint8_t>;
using words = std::vector<uint32_t>;

/* What a refused call throws. what() names the call, the argument and its range. If the library has another
 * version than these headers, the first use is refused with the status 100, which no call returns. */
struct rsp_error : std::runtime_error {
    rsp_error(uint32_t why, const std::string &what) : std::runtime_error(what), status(why) {}
    uint32_t status;
};

/* The same for a text that has a fault: a brsp_fault, in a line, from 1, or 0 if the text isn't UTF-8. If an
 * operand is at fault, `operand` says which one and what it may be, as what() does; otherwise its number is
 * 0. */
struct assembly_error : rsp_error {
    assembly_error(const std::string &what, const brsp_assembled &of, const brsp_operand &found)
        : rsp_error(BRSP_NO_MEANING, what), fault(of.fault), line(of.line), operand(found)
    {
    }
    uint32_t fault;
    size_t line;
    brsp_operand operand;
};

/* What calls use to say why they refuse. */
namespace detail {

/* A call that is refused: its name, the numbers that it was given, and what the handle is of. */
struct call {
    const char *name;
    std::initializer_list<uint64_t> given = {};
    const char *owner = "machine";
};

/* The texts as one. It is used where a `+` would have a temporary after a literal, because gcc 12 warns of
 * that without cause (-Wrestrict, at -O3 from C++20 on). */
inline std::string joined(std::initializer_list<std::string_view> texts)
{
    std::string out;
    for (const std::string_view it : texts) out += it;
    return out;
}

/* A text of brsp_helpers.h. `write` is given where to write it, and how much fits there. */
template <class Write> std::string text_of(Write write)
{
    std::string out(write(nullptr, size_t{ 0 }), ' ');
    write(out.data(), out.size() + 1);
    return out;
}

/* Why a call is refused. */
inline std::string refusal(uint32_t status, const call &of)
{
    std::string numbers;
    if (status == BRSP_NO_MACHINE)
        return joined({ of.name, ": the ", of.owner, " is gone: it was moved from" });
    for (const uint64_t it : of.given) numbers += std::to_string(it) + " ";
    return text_of([&](char *to, size_t n) {
        return brsp_refusal_text(status, of.name, numbers.c_str(), to, n);
    });
}

template <class Error> [[noreturn]] inline void refuse(const Error &error)
{
    BRSP_REFUSE(error);
    std::abort(); /* BRSP_REFUSE has returned */
}

[[noreturn]] inline void refuse(uint32_t status, const call &of)
{
    refuse(rsp_error(status, refusal(status, of)));
}

inline void done(uint32_t status, const call &of)
{
    if (status != BRSP_OK) refuse(status, of);
}

/* Refuses a library of another version. A function that can be a program's first use calls this before all
 * else, because its call could be missing in that library, or mean something else. */
inline void check_version()
{
    const uint32_t found = brsp_version();
    if (found == BRSP_VERSION) return;
    const std::string its = std::to_string(found), mine = std::to_string(BRSP_VERSION);
    refuse(rsp_error(100, joined({ "the library has version ", its, " of the interface, and the headers, of rsp ",
                                   BRSP_RELEASE, ", have version ", mine })));
}

/* How a step ended: BRSP_OK, BRSP_HALTED or BRSP_RESERVED. */
inline uint32_t ended(uint32_t status, const char *name)
{
    if (status != BRSP_HALTED && status != BRSP_RESERVED) done(status, { name });
    return status;
}

/* The first element of a buffer, which is never null. */
template <class Data> inline auto at(Data &data) noexcept -> decltype(data.data())
{
    static typename Data::value_type none;
    return data.empty() ? &none : data.data();
}

inline const uint8_t *at(std::string_view text) noexcept
{
    return reinterpret_cast<const uint8_t *>(text.empty() ? "" : text.data());
}

/* What a call says in a buffer. The call is made again if the buffer is too small for it. */
template <class Make> std::string said(const call &of, Make make)
{
    check_version();
    bytes out(1024);
    size_t length = 0;
    uint32_t status = make(out.data(), out.size(), &length);
    if (status == BRSP_NO_ROOM) {
        out.resize(length);
        status = make(out.data(), out.size(), &length);
    }
    done(status, of);
    return { out.begin(), out.begin() + static_cast<std::ptrdiff_t>(length) };
}

/* Reads n bytes or words of a memory by `read`. */
template <class Unit, class Read>
void read_memory(const char *owner, uint32_t bank, uint32_t address, size_t n, Read read)
{
    const call of = { sizeof(Unit) == 1 ? "memory" : "memory_words", { bank, address, n }, owner };
    if (n > 8388608) refuse(BRSP_OUT_OF_RANGE, of); /* no memory is longer */
    done(read(), of);
}

/* Bytes or words of a memory, which `read` fills. */
template <class Data, class Read>
Data memory(const char *owner, uint32_t bank, uint32_t address, size_t n, Read read)
{
    Data out;
    read_memory<typename Data::value_type>(owner, bank, address, n, [&] {
        out.resize(n);
        return read(at(out));
    });
    return out;
}

/* A line without whitespace at both ends, and with all bytes but printable ones as \x and two digits. */
inline std::string printable(std::string_view text, size_t line)
{
    std::string out;
    char hex[5];
    for (; line > 1; line--) text.remove_prefix((std::min)(text.find('\n'), text.size() - 1) + 1);
    text = text.substr(0, text.find('\n'));
    const size_t first = text.find_first_not_of(" \t\r"), last = text.find_last_not_of(" \t\r");
    if (first == std::string_view::npos) return out;
    for (const char it : text.substr(first, last + 1 - first)) {
        const bool is_plain = it == '\t' || (it >= ' ' && it <= '~');
        std::snprintf(hex, sizeof hex, is_plain ? "%c" : "\\x%02x", static_cast<unsigned char>(it));
        out += hex;
    }
    return out;
}

[[noreturn]] inline void refuse_text(std::string_view text, uint32_t origin, const brsp_assembled &about)
{
    brsp_operand found{};
    if (brsp_explain(origin, at(text), text.size(), &found) != BRSP_OK) found = {};
    const std::string fault = std::to_string(about.fault) + " " + brsp_fault_name(about.fault);
    std::string what = "assemble: fault " + fault;
    if (about.line) what += " line " + std::to_string(about.line) + ": " + printable(text, about.line);
    const std::string more = text_of([&](char *to, size_t n) {
        return brsp_operand_text(&found, about.fault, to, n);
    });
    if (!more.empty()) what += "; " + more;
    refuse(assembly_error(what, about, found));
}

/* A handle that is freed, and moved. */
template <class Handle, void (*release)(Handle *)> class owner {
public:
    owner() { check_version(); } /* here, so that nothing is freed if it is refused */
    owner(owner &&from) noexcept : it(std::exchange(from.it, Handle BRSP_NONE)) {}
    owner &operator=(owner &&from) noexcept
    {
        if (this != &from) {
            release(&it);
            it = std::exchange(from.it, Handle BRSP_NONE);
        }
        return *this;
    }
    ~owner() { release(&it); }
    /* The handle, for calls of brsp.h. It holds nothing after a move. */
    [[nodiscard]] Handle *handle() const noexcept { return &it; }

protected:
    mutable Handle it = BRSP_NONE;
};

} // namespace detail

/* ---- Texts ---- */

/* The words of a text. The first is for the address `origin`. Throws assembly_error. */
[[nodiscard]] inline words assemble(std::string_view text, uint32_t origin = 0)
{
    detail::check_version();
    words out(1024);
    brsp_assembled about{};
    const uint32_t status =
        brsp_assemble(origin, detail::at(text), text.size(), out.data(), out.size(), &about);
    if (status == BRSP_NO_MEANING) detail::refuse_text(text, origin, about);
    detail::done(status, { "assemble", { origin } });
    out.resize(about.count);
    return out;
}

/* The labels of a text with their addresses, in the order of their lines. Throws as assemble does. */
[[nodiscard]] inline std::vector<brsp_label> labels(std::string_view text, uint32_t origin = 0)
{
    static_cast<void>(assemble(text, origin));
    size_t count = 1;
    for (const char it : text) count += it == '\n';
    std::vector<brsp_label> out(count);
    detail::done(brsp_labels(origin, detail::at(text), text.size(), out.data(), out.size(), &count),
                 { "labels" });
    out.resize(count);
    return out;
}

/* The operand for which assemble refuses a text; its number is 0 if none is at fault. */
[[nodiscard]] inline brsp_operand explain(std::string_view text, uint32_t origin = 0)
{
    detail::check_version();
    brsp_operand out{};
    detail::done(brsp_explain(origin, detail::at(text), text.size(), &out),
                 { "explain", { origin } });
    return out;
}

/* What is wrong with a text, in the lines of `rsp asm --explain`; empty if the text has no fault. */
[[nodiscard]] inline std::string explain_text(std::string_view text, uint32_t origin = 0)
{
    return detail::said({ "explain_text", { origin } }, [&](auto... to) {
        return brsp_explain_text(origin, detail::at(text), text.size(), to...);
    });
}

/* What is wrong with lines of a script to which a session replied, in the lines of `rsp run --explain`: with a
 * line with a command, or with a block from its `asm` on. The script has `before` lines before them. It is
 * empty if the reply is no fault. */
[[nodiscard]] inline std::string explain_reply(std::string_view lines, std::string_view reply,
                                               size_t before = 0)
{
    return detail::said({ "explain_reply" }, [&](auto... to) {
        return brsp_explain_reply(before, detail::at(lines), lines.size(), detail::at(reply), reply.size(),
                                  to...);
    });
}

/* The disassembly of a word for an address of IMEM. */
[[nodiscard]] inline std::string text(uint32_t word, uint32_t address = 0)
{
    detail::check_version();
    brsp_line out{};
    detail::done(brsp_text(word, address, &out), { "text", { word, address } });
    return { out.text, out.len };
}

/* ---- States ---- */

/* The first brsp_field for which machine::set refuses a state, or BRSP_FIELD_NONE if it takes the state. */
[[nodiscard]] inline uint32_t state_fault(const brsp_state &state)
{
    detail::check_version();
    uint32_t out = BRSP_FIELD_NONE;
    detail::done(brsp_state_fault(&state, &out), { "state_fault" });
    return out;
}

/* The registers in which two states differ. */
[[nodiscard]] inline std::vector<brsp_part> difference(const brsp_state &here, const brsp_state &there)
{
    std::vector<brsp_part> out(BRSP_PARTS);
    out.resize(brsp_structure_parts(BRSP_OF_STATE, &here, &there, out.data(), out.size()));
    return out;
}

/* The sentence `$3 is fffffff0 HERE and 3ffffff0 THERE`. */
[[nodiscard]] inline std::string to_string(const brsp_part &part, const std::string &here = "here",
                                           const std::string &there = "in the other")
{
    return detail::text_of([&](char *to, size_t n) {
        return brsp_part_text(&part, here.c_str(), there.c_str(), to, n);
    });
}

/* The lines of `regs`, `vregs`, `acc` and `flags` of a script. */
[[nodiscard]] inline std::string to_string(const brsp_state &s)
{
    const auto text = [](uint32_t kind, const void *it) {
        return detail::text_of([&](char *to, size_t n) { return brsp_structure_text(kind, it, to, n); });
    };
    std::string out = text(BRSP_OF_STATE, &s);
    return out.insert(out.rfind('\n') + 1, text(BRSP_OF_ACCUMULATORS, &s.accumulators) + "\n");
}

/* ---- Machines ---- */

/* A run with an entry for each step that it made. */
struct traced_run {
    brsp_stop stop;
    std::vector<brsp_traced> entries;
};

class machine : public detail::owner<brsp_machine, brsp_free> {
public:
    using bytes = brsp::bytes;
    using words = brsp::words;

    /* With a copy of an image of RDRAM, and a history of `depth` states. */
    explicit machine(const bytes &image = bytes(64), uint32_t depth = 0)
    {
        detail::done(brsp_new(&it, detail::at(image), image.size(), depth),
                     { "Machine", { image.size(), depth } });
    }
    [[nodiscard]] machine copy() const
    {
        machine made{ nothing{} };
        detail::done(brsp_copy(&made.it, &it), { "copy" });
        return made;
    }

    /* Whole states, by tools/shapes */
    [[nodiscard]] brsp_state get() const
    {
        brsp_state out{};
        detail::done(brsp_get(&it, &out), { "get" });
        return out;
    }

    /* A refusal of set() names the field. */
    void set(const brsp_state &state)
    {
        const uint32_t status = brsp_set(&it, &state);
        if (status == BRSP_OUT_OF_RANGE)
            detail::refuse(rsp_error(status, "set: " + refusal(state)));
        detail::done(status, { "set" });
    }

    /* Memories, by tools/shapes */
    [[nodiscard]] size_t image_length() const
    {
        size_t out{};
        detail::done(brsp_image_length(&it, &out), { "image_length" });
        return out;
    }

    /* Memories */
    void load(uint32_t bank, uint32_t address, const uint8_t *data, size_t length)
    {
        detail::done(brsp_load(&it, bank, address, data, length), { "load", { bank, address } });
    }
    void load(uint32_t bank, uint32_t address, const bytes &data)
    {
        load(bank, address, detail::at(data), data.size());
    }
    void load_words(uint32_t bank, uint32_t address, const uint32_t *data, size_t n)
    {
        detail::done(brsp_load_words(&it, bank, address, data, n), { "load_words", { bank, address } });
    }
    void load_words(uint32_t bank, uint32_t address, const words &data)
    {
        load_words(bank, address, detail::at(data), data.size());
    }
    [[nodiscard]] bytes memory(uint32_t bank, uint32_t address, size_t length) const
    {
        return detail::memory<bytes>("machine", bank, address, length, [&](uint8_t *to) {
            return brsp_memory(&it, bank, address, to, length);
        });
    }
    void memory(uint32_t bank, uint32_t address, uint8_t *to, size_t length) const
    {
        detail::read_memory<uint8_t>("machine", bank, address, length,
                                     [&] { return brsp_memory(&it, bank, address, to, length); });
    }
    [[nodiscard]] words memory_words(uint32_t bank, uint32_t address, size_t n) const
    {
        return detail::memory<words>("machine", bank, address, n, [&](uint32_t *to) {
            return brsp_memory_words(&it, bank, address, to, n);
        });
    }
    void memory_words(uint32_t bank, uint32_t address, uint32_t *to, size_t n) const
    {
        detail::read_memory<uint32_t>("machine", bank, address, n,
                                      [&] { return brsp_memory_words(&it, bank, address, to, n); });
    }

    /* Savestates, as brsp_helpers.h has them. Into a buffer, save_state returns how many bytes it wrote. */
    size_t save_state(uint8_t *to, size_t capacity) const
    {
        size_t length = 0;
        const uint32_t status = brsp_save_state(&it, to, capacity, &length);
        if (status == BRSP_NO_ROOM)
            detail::refuse(rsp_error(status, "save_state: the savestate has " + std::to_string(length) +
                                                 " bytes, and the buffer " + std::to_string(capacity)));
        detail::done(status, { "save_state" });
        return length;
    }
    [[nodiscard]] bytes save_state() const
    {
        size_t image = 0;
        brsp_image_length(&it, &image);
        bytes out(BRSP_SAVESTATE_BYTES + image);
        save_state(out.data(), out.size());
        return out;
    }
    void load_state(const uint8_t *data, size_t length)
    {
        const uint32_t status = brsp_load_state(&it, data, length);
        if (status == BRSP_OUT_OF_RANGE) {
            const size_t image = image_length();
            detail::refuse(rsp_error(status, "load_state: " + detail::text_of([&](char *to, size_t n) {
                return brsp_savestate_refusal_text(data, length, image, to, n);
            })));
        }
        detail::done(status, { "load_state" });
    }
    void load_state(const bytes &data) { load_state(detail::at(data), data.size()); }

    /* Where the machine continues, by tools/shapes */
    void start_task(uint32_t address)
    {
        detail::done(brsp_start_task(&it, address), { "start_task", { address } });
    }
    void set_pc(uint32_t pc) { detail::done(brsp_set_pc(&it, pc), { "set_pc", { pc } }); }

    /* Steps. step() returns BRSP_OK, BRSP_HALTED or BRSP_RESERVED. */
    uint32_t step() { return detail::ended(brsp_step(&it), "step"); }
    uint32_t step_changes(brsp_changes &out)
    {
        return detail::ended(brsp_step_changes(&it, &out), "step_changes");
    }
    brsp_reached event(uint32_t steps, uint32_t reads = 0, uint32_t writes = 0)
    {
        brsp_reached out;
        detail::done(brsp_event(&it, steps, reads, writes, &out),
                     { "event", { steps, reads, writes } });
        return out;
    }
    [[nodiscard]] traced_run trace(uint32_t steps)
    {
        const detail::call call{ "trace", { steps } };
        if (steps > 1000000) detail::refuse(BRSP_OUT_OF_RANGE, call);
        traced_run out{ {}, std::vector<brsp_traced>(steps) };
        detail::done(brsp_trace(&it, detail::at(out.entries), steps, &out.stop), call);
        out.entries.resize(out.stop.steps);
        return out;
    }
    /* Both return BRSP_OK, or BRSP_HALTED if the machine is halted. */
    uint32_t pass_move(uint32_t value = 0)
    {
        return detail::ended(brsp_pass_move(&it, value), "pass_move");
    }
    uint32_t pass_dma()
    {
        return detail::ended(brsp_pass_dma(&it), "pass_dma");
    }

    /* Steps, by tools/shapes */
    brsp_stop run(uint32_t steps)
    {
        brsp_stop out{};
        detail::done(brsp_run(&it, steps, &out), { "run", { steps } });
        return out;
    }
    brsp_move run_until_move(uint32_t steps, uint32_t reads, uint32_t writes)
    {
        brsp_move out{};
        detail::done(brsp_run_until_move(&it, steps, reads, writes, &out),
                     { "run_until_move", { steps, reads, writes } });
        return out;
    }
    void back(uint32_t states) { detail::done(brsp_back(&it, states), { "back", { states } }); }
    [[nodiscard]] size_t history() const
    {
        size_t out{};
        detail::done(brsp_history(&it, &out), { "history" });
        return out;
    }

    /* Breakpoints, by tools/shapes */
    void add_break(uint32_t address)
    {
        detail::done(brsp_add_break(&it, address), { "add_break", { address } });
    }
    void drop_break(uint32_t address)
    {
        detail::done(brsp_drop_break(&it, address), { "drop_break", { address } });
    }
    size_t add_watch(uint32_t address, uint32_t length)
    {
        size_t out{};
        detail::done(brsp_add_watch(&it, address, length, &out), { "add_watch", { address, length } });
        return out;
    }
    void drop_watch(uint32_t number)
    {
        detail::done(brsp_drop_watch(&it, number), { "drop_watch", { number } });
    }

    /* Parts of the state, by tools/shapes */
    [[nodiscard]] uint32_t reg(uint32_t number) const
    {
        uint32_t out{};
        detail::done(brsp_reg(&it, number, &out), { "reg", { number } });
        return out;
    }
    [[nodiscard]] brsp_scalars regs() const
    {
        brsp_scalars out{};
        detail::done(brsp_regs(&it, &out), { "regs" });
        return out;
    }
    [[nodiscard]] brsp_lanes vreg(uint32_t number) const
    {
        brsp_lanes out{};
        detail::done(brsp_vreg(&it, number, &out), { "vreg", { number } });
        return out;
    }
    [[nodiscard]] brsp_accumulators acc() const
    {
        brsp_accumulators out{};
        detail::done(brsp_acc(&it, &out), { "acc" });
        return out;
    }
    [[nodiscard]] brsp_flag_bits flags() const
    {
        brsp_flag_bits out{};
        detail::done(brsp_flags(&it, &out), { "flags" });
        return out;
    }
    [[nodiscard]] brsp_divide_state divider() const
    {
        brsp_divide_state out{};
        detail::done(brsp_divider(&it, &out), { "divider" });
        return out;
    }

    /* One register of the whole state */
    void set_reg(uint32_t number, uint32_t value)
    {
        if (number > 31 || (!number && value))
            detail::refuse(BRSP_OUT_OF_RANGE, { "set_reg", { number, value } });
        brsp_state state = get();
        state.words[number] = value;
        set(state);
    }
    void set_vreg(uint32_t number, const brsp_lanes &value)
    {
        if (number > 31) detail::refuse(BRSP_OUT_OF_RANGE, { "set_vreg", { number } });
        brsp_state state = get();
        std::memcpy(state.vectors[number], value.lanes, sizeof value.lanes);
        set(state);
    }

    /* SP registers, by tools/shapes */
    uint32_t read(uint32_t number)
    {
        uint32_t out{};
        detail::done(brsp_read(&it, number, &out), { "read", { number } });
        return out;
    }
    [[nodiscard]] uint32_t peek(uint32_t number) const
    {
        uint32_t out{};
        detail::done(brsp_peek(&it, number, &out), { "peek", { number } });
        return out;
    }
    void write(uint32_t number, uint32_t value)
    {
        detail::done(brsp_write(&it, number, value), { "write", { number, value } });
    }
    [[nodiscard]] brsp_sp_words sp() const
    {
        brsp_sp_words out{};
        detail::done(brsp_sp(&it, &out), { "sp" });
        return out;
    }
    void set_sp(const brsp_sp_words &given) { detail::done(brsp_set_sp(&it, &given), { "set_sp" }); }

    /* The DMA whose bytes the caller moves. It has no rows if the write starts none. */
    [[nodiscard]] brsp_dma write_dma(uint32_t number, uint32_t value)
    {
        brsp_dma out;
        detail::done(brsp_write_dma(&it, number, value, &out), { "write_dma", { number, value } });
        return out;
    }

    /* Words of IMEM with their disassembly */
    [[nodiscard]] std::vector<brsp_line> listing(uint32_t address, size_t n) const
    {
        const detail::call call{ "listing", { address, n } };
        if (n > 1024) detail::refuse(BRSP_OUT_OF_RANGE, call);
        std::vector<brsp_line> out(n);
        detail::done(brsp_listing(&it, address, detail::at(out), n), call);
        return out;
    }

private:
    struct nothing {};
    explicit machine(nothing) {}

    /* Why set() refuses a state. */
    static std::string refusal(const brsp_state &s)
    {
        return detail::text_of([&](char *to, size_t n) { return brsp_state_refusal_text(&s, to, n); });
    }
};

/* ---- Scripts ---- */

/* Answers a script, on a machine of its own with a copy of an image of RDRAM. */
class session : public detail::owner<brsp_session, brsp_session_free> {
public:
    explicit session(const bytes &image = bytes(1 << 22))
    {
        detail::done(brsp_session_new(&it, detail::at(image), image.size()),
                     { "Session", { image.size() } });
    }
    /* The replies to the lines that end in these bytes of the script. What follows the last LF waits. */
    [[nodiscard]] std::string feed(std::string_view script)
    {
        std::string replies;
        while (!script.empty()) {
            size_t used = 0, written = 0;
            const uint32_t status = brsp_session_take(&it, detail::at(script), script.size(), &used, reply(),
                                                      BRSP_REPLIES, &written);
            detail::done(status, { "feed", {}, "session" });
            replies.append(buffer.begin(), buffer.begin() + static_cast<std::ptrdiff_t>(written));
            script.remove_prefix(used);
        }
        return replies;
    }
    /* Ends the script: the reply to a last line without LF, and the fault of an open `asm` block. */
    [[nodiscard]] std::string end()
    {
        size_t written = 0;
        detail::done(brsp_session_end(&it, reply(), BRSP_REPLIES, &written), { "end", {}, "session" });
        return { buffer.begin(), buffer.begin() + static_cast<std::ptrdiff_t>(written) };
    }
    [[nodiscard]] bytes memory(uint32_t bank, uint32_t address, size_t length) const
    {
        return detail::memory<bytes>("session", bank, address, length, [&](uint8_t *to) {
            return brsp_session_memory(&it, bank, address, to, length);
        });
    }

private:
    uint8_t *reply()
    {
        buffer.resize(BRSP_REPLIES);
        return buffer.data();
    }
    bytes buffer;
};

/* ---- Comparing an emulator with a machine ---- */

/* A step after which they differ, as brsp_difference. */
struct step_difference {
    uint32_t step, steps;
    brsp_line line;
    brsp_state before;
    std::vector<brsp_part> parts;
};

/* A line for the step, and one for each part: `$3 is fffffff0 on the machine and 3ffffff0 in the
 * emulator`. */
[[nodiscard]] inline std::string to_string(const step_difference &it)
{
    brsp_difference found{};
    found.step = it.step;
    found.steps = it.steps;
    found.line = it.line;
    found.parts = const_cast<brsp_part *>(it.parts.data()); /* which are only read */
    found.count = it.parts.size();
    return detail::text_of([&](char *to, size_t n) { return brsp_difference_text(&found, to, n); });
}

namespace detail {

/* Does what a search asks an emulator for. The bytes of the request are at `to`. */
template <class Emulator> void answer(Emulator &emulator, const brsp_request &request, uint8_t *to)
{
    brsp_state state{};
    switch (request.kind) {
    case BRSP_REQUEST_RUN: emulator.run(request.steps); break;
    case BRSP_REQUEST_SET:
        std::memcpy(&state, to, sizeof state);
        emulator.set(state);
        break;
    case BRSP_REQUEST_GET:
        state = emulator.get();
        std::memcpy(to, &state, sizeof state);
        break;
    case BRSP_REQUEST_LOAD: emulator.load(request.bank, request.address, bytes(to, to + request.len)); break;
    default:
        const bytes found = emulator.memory(request.bank, request.address, request.len);
        std::memset(to, 0, request.len); /* if there are fewer */
        if (!found.empty()) std::memcpy(to, found.data(), (std::min)(found.size(), request.len));
    }
}

} // namespace detail

/* The first step after which an emulator differs from the machine, as brsp_first_difference; nothing if
 * there is none. The emulator has run(steps), get(), set(state), memory(bank, address, length) and
 * load(bank, address, bytes), with the types of the class machine, so a second machine can be the
 * emulator. */
template <class Emulator>
[[nodiscard]] std::optional<step_difference> first_difference(machine &m, Emulator &emulator,
                                                              uint32_t every = 64, uint32_t limit = 1000000)
{
    const detail::call of{ "first_difference", { every, limit } };
    size_t image = 0;
    detail::done(brsp_image_length(m.handle(), &image), of);
    bytes search(brsp_search_bytes(image));
    detail::done(brsp_search_begin(m.handle(), every, limit, search.data(), search.size()), of);
    for (brsp_request request{};;) {
        detail::done(brsp_search_next(m.handle(), search.data(), &request), of);
        if (request.kind == BRSP_REQUEST_OVER) break;
        detail::answer(emulator, request, search.data() + request.at);
    }
    brsp_difference found;
    brsp_search_difference(search.data(), &found);
    if (!found.count) return {};
    std::vector<brsp_part> parts(found.count);
    brsp_search_parts(search.data(), parts.data());
    return step_difference{ found.step, found.steps, found.line, found.before, parts };
}

/* The version of the library's interface, which should be BRSP_VERSION. */
[[nodiscard]] inline uint32_t version() noexcept { return brsp_version(); }

} // namespace BRSP_NAMES
} // namespace brsp

#endif
