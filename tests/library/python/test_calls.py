"""Calls of the module rsp, within their ranges and outside them.

They fail if a call does something else than docs/EMBEDDING.md says, or isn't refused with the right status.
"""

import operator
import pickle
import signal
import sys
from contextlib import ExitStack, suppress
from inspect import signature
from pathlib import Path
from typing import Any, Callable, Dict, Iterator, Set, Tuple, Union
from unittest import mock

import pytest

import rsp
from lib.library.module import ENV, assert_raises, assert_refused, loaded
from lib.library.refusals import ranges
from lib.processes import succeeds
from rsp import Reason, RspError, State, Status

OUT = Status.OUT_OF_RANGE
ANY: Any = rsp  # for calls that types forbid
TRACED = "ori $1, $0, 0x8001\nsw $1, 0x1044($0)\nmtc2 $1, $v1[2]\nvaddc $v2, $v1, $v1\nbreak\n"
EVENTS = """start: ori $1, $0, 0x1f80
mtc0 $1, $c0
ori $2, $0, 0x200
mtc0 $2, $c1
lui $3, 0x0180
ori $3, $3, 0x1007
mfc0 $4, $c6
transfer: mtc0 $3, $c3
end: break
"""

# The arguments of calls of a machine that aren't all 1: numbers come first.
GIVEN: Dict[str, Tuple[Any, ...]] = {
    "set": (State(),), "load": (0, 0, b"abcd"), "load_words": (0, 0, [1]), "memory": (0, 0, 4),
    "memory_words": (0, 0, 1), "start_task": (0,), "set_pc": (8,), "run_until_move": (1, 0, 0),
    "event": (1, 0, 0), "add_break": (4,), "drop_break": (4,), "add_watch": (0, 1), "set_reg": (1, 0),
    "set_vreg": (1, range(8)), "write": (4, 2), "write_dma": (4, 2), "set_sp": (rsp.SpWords(),),
    "listing": (0, 1),
}  # fmt: skip
OF_A_SESSION: Dict[str, Tuple[Any, ...]] = {"feed": ("step\n",), "end": (), "close": ()}
# Those that are made of other calls.
NO_CALL = {"iter_trace", "memory_array", "save_state", "load_state", "run_to_halt"}


def methods_of(kind: type) -> Set[str]:
    """The public methods of a class."""
    return {name for name in dir(kind) if callable(getattr(kind, name)) and not name.startswith("_")}


def usual(name: str) -> Tuple[int, ...]:
    """The arguments of a method of a machine that takes numbers alone."""
    return (1,) * (len(signature(getattr(rsp.Machine, name)).parameters) - 1)


# Each call of a machine, with arguments.
CALLS = {name: GIVEN.get(name, usual(name)) for name in sorted(methods_of(rsp.Machine) - NO_CALL)}
# Calls that aren't a machine's, or give no result at once, by their numbers.
FUNCTIONS: Dict[str, Callable[..., object]] = {
    "Machine": lambda depth: rsp.Machine(bytes(64), depth),
    "iter_trace": lambda limit: [*loaded("break").iter_trace(limit)],
    "run_to_halt": lambda limit: halted().run_to_halt(limit),
    "assemble": lambda origin: rsp.assemble("", origin),
    "text": rsp.text,
    "explain_text": lambda origin: rsp.explain_text("", origin),
    "explain_reply": lambda before: rsp.explain_reply("", b"", before),
    "first_difference": lambda *numbers: rsp.first_difference(loaded("break"), loaded("break"), *numbers),
}


def halted() -> rsp.Machine:
    machine = rsp.Machine()
    machine.write(4, 2)
    return machine


def test_calls_at_work() -> None:
    """While another call is at work, each call is refused, and the library isn't reached."""
    assert methods_of(rsp.Session) == {*OF_A_SESSION, "iter_feed"}
    machine, session = loaded("nop\nbreak\n", 4), rsp.Session(bytes(64))
    before, dmem = machine.get(), machine.memory(rsp.DMEM, 0, 4096)
    with machine._lock, session._lock, ExitStack() as without_library:
        for module in ANY.compare, ANY.machine, ANY.owner, ANY.session:
            without = mock.patch.multiple(module, lib=mock.DEFAULT, quick=mock.DEFAULT)
            without_library.enter_context(without)
        for owner, calls in (machine, CALLS), (session, OF_A_SESSION):
            busy = f"another call is using the {owner._owner}"
            for name, given in calls.items():
                assert_raises(RspError, f"{name}: {busy}", getattr(owner, name), *given)
        assert_raises(RspError, f"feed: {busy}", list, session.iter_feed("step\n"))
        assert_raises(RspError, f"rdram: {busy}", lambda: session.rdram)
        assert_raises(RspError, "image_length: another call", lambda: machine.image_length)
        assert_refused(Status.NO_MACHINE, machine.step)
    assert machine.get() == before and machine.memory(rsp.DMEM, 0, 4096) == dmem
    assert machine.step() is Status.OK and session.feed("step\n") == b"step Done pc 004\n"


class Closes:
    """A number that closes a machine when it is asked for."""

    def __init__(self, number: int, machine: rsp.Machine) -> None:
        self.number, self.machine = number, machine

    def __index__(self) -> int:
        self.machine.close()
        return self.number


@pytest.mark.parametrize("name", [name for name in CALLS if name != "close"])
def test_closed_machine(name: str) -> None:
    """A call is refused on a machine that is closed, also if its own argument closes it."""
    with loaded("mfc0 $1, $c0\nbreak\n", 4) as machine:
        assert machine.regs().npc == 4
    assert_refused(Status.NO_MACHINE, getattr(machine, name), *CALLS[name])
    machine = loaded("mfc0 $1, $c0\nbreak\n", 4)
    given = [Closes(value, machine) if isinstance(value, int) else value for value in CALLS[name]]
    if name in ("load_words", "set_vreg"):
        given = [*CALLS[name][:-1], [*[1] * 7, Closes(1, machine)]]
    if given != [*CALLS[name]]:
        assert_refused(Status.NO_MACHINE, getattr(machine, name), *given)


def call_with(name: str, numbers: Any) -> None:
    """Makes a call of a machine, or of the module, with these numbers."""
    if name in FUNCTIONS:
        FUNCTIONS[name](*numbers)
    else:
        getattr(loaded("mfc0 $1, $c0\nbreak\n", 4), name)(*numbers, *CALLS[name][len(numbers) :])


# The integers that calls take, by their names: what they may be, also in words.
ARGUMENTS: Dict[str, Dict[str, Tuple[range, str]]] = {}
for _call, _name, _allowed, _text in ranges():
    if _name != "image":
        ARGUMENTS.setdefault(_call, {})[_name] = _allowed, _text


@pytest.mark.parametrize("name", sorted({*ARGUMENTS} - {"missing", "labels", "explain"}))
def test_ranges(name: str) -> None:
    """A number is refused just outside its range, by a message that names it, and not at the range's ends,
    except that an address or a length below 2**32 may be outside a memory."""
    valid = CALLS.get(name, (0, 0) if name == "text" else (1, 1))[: len(ARGUMENTS[name])]
    for n, (argument, (allowed, text)) in enumerate(ARGUMENTS[name].items()):

        def call(value: object) -> None:
            call_with(name, [*valid[:n], value, *valid[n + 1 :]])

        least, most = allowed[0], allowed[-1]
        for value in (least - 1, most + 1, most + allowed.step, -1, 1 << 32, (1 << 64) + 1):
            with pytest.raises(RspError) as caught:
                call(value)
            assert caught.value.status is OUT
            assert str(caught.value) == f"{name}: {argument} is {value}, not {text}"
        for value in (least, most):
            try:
                call(value)
            except RspError as refused:
                assert refused.status is not OUT or allowed == range(1 << 32)
        for wrong in ("5", 2.0, None, [7]):
            kind = f"{name}: {argument} is of type {type(wrong).__name__}, not an integer"
            assert_raises(TypeError, kind, call, wrong)


def released() -> memoryview:
    """A view of bytes that are gone."""
    view = memoryview(bytes(4))
    view.release()
    return view


def fail() -> Iterator[int]:
    """An iterable that raises an error."""
    yield 1 // 0


# The status or the type of the error, a part of its message, and the call.
Refusal = Tuple[Union[Status, type], str, Callable[[Any], object]]
REFUSALS: Tuple[Refusal, ...] = (
    (TypeError, "set: state is of type dict", lambda it: it.set({})),
    (TypeError, "state_fault: state is of type dict", lambda it: ANY.state_fault({})),
    (TypeError, "set_sp: given is of type State", lambda it: it.set_sp(State(pc=4098))),
    (TypeError, "load: data is of type list", lambda it: it.load(rsp.DMEM, 0, [1, 2])),
    (TypeError, "load: data is of type int", lambda it: it.load(rsp.DMEM, 0, 5)),
    (ValueError, "released memoryview", lambda it: it.load(rsp.DMEM, 0, released())),
    (ZeroDivisionError, "", lambda it: it.load_words(rsp.DMEM, 0, fail())),
    (ZeroDivisionError, "", lambda it: it.set_vreg(3, fail())),
    (TypeError, "load_words: words is of type bytes", lambda it: it.load_words(rsp.DMEM, 0, b"ab")),
    (TypeError, "load_words: words is of type int", lambda it: it.load_words(rsp.DMEM, 0, 5)),
    (TypeError, "words[1] is of type str, not an int", lambda it: it.load_words(rsp.DMEM, 0, [1, "a"])),
    (OUT, "words[1] is -1, not 0 to 4294967295", lambda it: it.load_words(rsp.DMEM, 0, [0, -1])),
    (OUT, "words[2] is 4294967296", lambda it: it.load_words(rsp.DMEM, 0, iter([1, 2, 1 << 32]))),
    (OUT, "from 0 on pass the end of DMEM", lambda it: it.load_words(rsp.DMEM, 0, [0] * 1025)),
    (ValueError, "vectors[3] has 7 items, not 8", lambda it: it.set_vreg(3, [0] * 7)),
    (ValueError, "lane 2 is 65536", lambda it: it.set_vreg(3, [0, 0, 65536, 0, 0, 0, 0, 0])),
    (TypeError, "Machine: image is of type str", lambda it: ANY.Machine("image")),
    (OUT, "image has 0 bytes", lambda it: rsp.Machine(b"")),
    (OUT, "image has 8388616 bytes", lambda it: rsp.Machine(bytes(8388616))),
    (TypeError, "text is of type bytes", lambda it: ANY.assemble(b"nop")),
    (TypeError, "explain_text: text is of type bytes", lambda it: ANY.explain_text(b"nop")),
    (rsp.AssemblyError, "fault 11 UnknownName line 2: foo $1", lambda it: rsp.assemble("nop\n foo $1")),
    (AttributeError, "rsp has no names", lambda it: ANY.names),
    (RuntimeError, "this machine is made already", lambda it: it.__init__(bytes(4096), 60)),
    (RuntimeError, "this session is made already", lambda it: ANY.Session().__init__()),
    (TypeError, "Timeline: machine is of type bytes, not rsp.Machine", lambda it: ANY.Timeline(b"")),
    (TypeError, "'str' object cannot be interpreted as an int", lambda it: ANY.Timeline(it, "1")),
    (TypeError, "wrote: register is of type int, not str", lambda it: ANY.Timeline(it).wrote(5)),
    (TypeError, "machine is of type int, not rsp.Machine", lambda it: ANY.first_difference(5, it)),
    (TypeError, "emulator is of type dict, without run()", lambda it: ANY.first_difference(it, {})),
)


@pytest.mark.parametrize("case", REFUSALS, ids=operator.itemgetter(1))
def test_refusal(case: Refusal) -> None:
    """A refused call has the right error, and changes nothing."""
    machine, (kind, message, call) = rsp.Machine(), case
    assert_raises(RspError if isinstance(kind, Status) else kind, message, call, machine)
    if isinstance(kind, Status):
        assert_refused(kind, call, machine)
    assert machine.get() == State() and machine.memory(rsp.DMEM, 0, 4096) == bytes(4096)


def test_handle_is_empty_meanwhile() -> None:
    """A short call that has passed the test just before a long one began finds no machine."""
    machine = loaded("nop\nbreak\n")
    assert machine._call_alone("run", lambda at: rsp.native.quick.brsp_step(machine._at)) == Status.NO_MACHINE
    assert machine._call_alone("run", lambda at: rsp.native.lib.brsp_step(at)) == Status.OK
    assert_raises(ZeroDivisionError, "", machine._call_alone, "run", lambda at: 1 // 0)
    assert machine.regs().pc == 4, "the machine is back"


RACE = """
import sys, threading
import rsp
sys.setswitchinterval(1e-5)
machine, session = rsp.Machine(bytes(4096), 64), rsp.Session(bytes(64))
messages = []
def steps():
    for _ in range(5000):
        try:
            machine.step(), machine.run(100), session.feed("run 100\\n")
        except rsp.RspError as fault:
            if str(fault) not in messages:
                messages.append(str(fault))
threads = [threading.Thread(target=steps) for _ in range(3)]
[it.start() for it in threads]
[it.join() for it in threads]
machine.step(), session.feed("step\\n")
kinds = {it.split(": ")[1].rpartition(" ")[0] for it in messages}
assert kinds <= {"another call is using the"}, messages
print("done")
"""


@pytest.mark.parametrize("turn", range(5))
def test_three_threads(turn: int) -> None:
    """Three threads that call one machine and one session at once: no signal ends the process, and no machine
    is lost."""
    assert succeeds(sys.executable, "-c", RACE, env=ENV) == "done\n"


def test_interrupt() -> None:
    """A signal whose handler raises leaves no machine in use, wherever it comes."""
    came = []

    def interrupt(*_: object) -> None:
        came.append(True)
        raise KeyboardInterrupt

    def run() -> None:  # from a loop inside `with`, Python 3.13 lets some escape
        while not came:
            machine.run(5)

    machine, before = loaded("loop: j loop\nnop\n", 4), signal.signal(signal.SIGVTALRM, interrupt)
    try:
        for turn in range(50):
            came.clear()
            with suppress(KeyboardInterrupt):  # Python drops one that is raised while it frees an object
                signal.setitimer(signal.ITIMER_VIRTUAL, 1e-4 + turn * 1e-6)
                run()
            assert machine.step() is Status.OK
    finally:
        signal.setitimer(signal.ITIMER_VIRTUAL, 0)
        signal.signal(signal.SIGVTALRM, before)


def test_bit_of_status_writes() -> None:
    assert rsp.STATUS_WRITES == 1 << 16


def test_trace() -> None:
    """What entries look like: values.txt has what they hold."""
    _, (first, _, moved, last, _) = loaded(TRACED, 4).trace(8)
    lanes = "0000 0002 0000 0000 0000 0000 0000 0000"
    assert str(last) == f"00c 4a010894 $v2 {lanes} vco 0002 vcc 0000 vce 00"
    assert str(first) == "000 34018001 $1 00008001 vco 0000 vcc 0000 vce 00"
    assert not moved.diff(moved) and "vco" in [part.name for part in last.diff(moved)]


def test_trace_one_by_one() -> None:
    with loaded("loop: j loop\naddiu $1, $1, 1\n") as machine:
        entries = list(machine.iter_trace(3000))
        last = entries[-1]
        assert (len(entries), last.pc, last.value, machine.reg(1)) == (3000, 4, 1500, 1500)
    with loaded("nop\nbreak\n") as machine:
        assert [entry.pc for entry in machine.iter_trace()] == [0, 4]
        assert [*machine.iter_trace()] == []


def test_sp_registers() -> None:
    machine = rsp.Machine()
    words = machine.sp()
    assert list(words.words) == [machine.peek(n) for n in range(16)] and words.interrupt == 0
    for number, word in {0: 0x1FF8, 4: 0x50E2, 7: 1, 15: 5}.items():
        words.words[number] = word
    words.interrupt = 1
    machine.set_sp(words)
    assert machine.sp() == words and (machine.peek(4), machine.get().interrupt) == (0x50E2, 1)


def test_state() -> None:
    machine = rsp.Machine()
    state = machine.get()
    state.words[31], state.vectors[31][7], state.accumulators.high[7], state.sp[15] = 1, 2, 3, 4
    state.divider.loaded = state.interrupt = 1
    state.flags.extra = 0x80
    machine.set(state)
    parts = (machine.reg(31), machine.vreg(31)[7], machine.acc().high[7], machine.peek(15))
    assert parts == (1, 2, 3, 4)
    assert (machine.divider().loaded, machine.flags().extra, machine.read(31)) == (1, 0x80, 4)
    assert rsp.state_fault(state) is None
    state.npc, state.sp[3] = 4094, 1
    assert rsp.state_fault(state) == "npc"
    state.npc = 4
    assert rsp.state_fault(state) == "sp[3]"


def test_labels() -> None:
    words = rsp.assemble(EVENTS, 0x100)
    assert words.labels == {"start": 0x100, "transfer": 0x11C, "end": 0x120}
    assert [*words.labels] == ["start", "transfer", "end"] and rsp.assemble("nop").labels == {}


def test_symbols() -> None:
    """The labels of a block for DMEM are numbers in operands, and nowhere else; a fault shows the text."""
    data = rsp.assemble("in: .word 1, 2\nlw: .word 0\nv:", 0x40)
    text = """v2: lw $1, lw($0) # lw
vadd $v1, $v1, $v1[v]; in
 lw $2, in+4($1)
ori $3, $0, v - 0x2
bne $1, $0, v2
.word in, v"""
    numbers = ("lw($0)", "72($0)"), ("in+4", "68"), ("v - 0x2", "74"), ("in, v", "64, 76")
    expected = text
    for symbol, number in numbers:
        expected = expected.replace(symbol, number)
    words = rsp.assemble(text, symbols=data.labels)
    assert words == rsp.assemble(expected) and words.labels == {"v2": 0} and words.lines == [*range(1, 7), 6]
    with pytest.raises(rsp.AssemblyError, match="OutOfRange line 2: lw .1, far") as caught:
        rsp.assemble("nop\nlw $1, far($0)", symbols={"far": 1 << 20})
    assert caught.value.source == "lw $1, far($0)"
    assert_raises(ValueError, "the symbol in is a label", rsp.assemble, " in: nop", 0, data.labels)


def test_run_to_halt() -> None:
    """It fails at anything but a halt, and says where."""
    machine = loaded("loop: addiu $1, $1, 1\nbne $1, $2, loop\nnop\nbreak\n")
    machine.set_reg(2, 1000000)
    assert machine.run_to_halt() == (Reason.HALT, 3000001, 16, None)
    assert machine.run_to_halt(0) == (Reason.HALT, 0, 16, None)
    machine = loaded("nop\nj 0x000\nnop\n.word 0xffffffff\n")
    with pytest.raises(rsp.NotHalted, match="^LIMIT after 1000002 steps, before 000 00000000 nop$") as caught:
        machine.run_to_halt(1000002)
    assert pickle.loads(pickle.dumps(caught.value)).stop == (Reason.LIMIT, 1000002, 0, None)
    machine.set_pc(12)
    with pytest.raises(rsp.NotHalted, match="^RESERVED after 0 steps, before 00c ffffffff"):
        machine.run_to_halt()


def test_explanations(explained: Path) -> None:
    for n, *row in (it.split("\t") for it in explained.read_text().splitlines()):
        given, reply, said = map(bytes.fromhex, row)
        found = rsp.explain_reply(given, reply, int(n)) if reply else rsp.explain_text(given.decode(), int(n))
        assert found == said.decode()


def test_texts() -> None:
    assert rsp.assemble("nop\nbreak\n") == [0, 13]
    assert rsp.assemble("") == []
    assert rsp.text(0x4A631050, 4) == "vadd $v1, $v2, $v3[1q]"
    machine = loaded("nop\nbreak\n")
    assert machine.listing(0, 2) == [(0, 0, "nop"), (4, 13, "break")]
    assert str(machine.listing(4, 1)[0]) == "004 0000000d break"


# Lines that are refused, with their faults, and which of their operands may be what.
OFFSET = "a number or a label, -32768 to 65535, and a scalar register in parentheses"
EXPLAINED = {
    "lqv $v1[0], 0x460($0)": ("13 OutOfRange", 2, "-1024 to 1008, a multiple of 16"),
    "j nowhere": ("15 LabelMissing", 1, "the label of a line, or 0 to 4092, a multiple of 4"),
    "lw $1, $2": ("12 BadOperand", 2, OFFSET),
    "vrcp $v1, $v2[0]": ("12 BadOperand", 1, "a vector register, $v0 to $v31, with a lane, [0] to [7]"),
    "nop $1": ("12 BadOperand", 1, "nothing"),
}


@pytest.mark.parametrize("line", EXPLAINED)
def test_refused_line(line: str) -> None:
    fault, number, allowed = EXPLAINED[line]
    with pytest.raises(rsp.AssemblyError) as caught:
        rsp.assemble(f"nop\n{line}\n")
    error, explanation = caught.value, f"operand {number} may be {allowed}"
    assert str(error) == f"assemble: fault {fault} line 2: {line}; {explanation}"
    assert (error.allowed, error.line, error.fault) == (explanation, 2, int(fault[:2]))
    assert error.status is Status.NO_MEANING


def test_refused_line_of_a_stranger() -> None:
    """The message has nothing that a terminal would obey; `source` is the line as it is."""
    line = "foo\t\x1b]0;title\x07\x9b31m\x7f\u202e\u2028 \xfc\\"
    with pytest.raises(rsp.AssemblyError) as caught:
        rsp.assemble(f"nop\n{line}\n")
    escaped = "foo\t\\x1b]0;title\\x07\\x9b31m\\x7f\\u202e\\u2028 \xfc\\"
    assert str(caught.value) == f"assemble: fault 10 BadLine line 2: {escaped}"
    assert caught.value.source == line
