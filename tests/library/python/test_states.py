"""States in Python: checked fields, `==`, differences, their form as text, buffers and numpy's arrays.

They fail if a form differs from the replies to scripts, or a wrong value is taken.
"""

import array
import copy
import ctypes
import gc
import operator
import pickle
import struct
import sys
from pathlib import Path
from typing import Any, Callable, List, Tuple
from unittest import mock

import pytest

import rsp
from lib import TOP
from lib.library import LOCKSTEP, shapes
from lib.library.module import assert_raises, loaded
from rsp import RspError, State
from rsp.script import ASKED, machine_of

Refusal = Tuple[type, str, Callable[[Any], object]]  # the error, what its message has, and the call
setitem = operator.setitem
ANY: Any = rsp  # for calls that types forbid


class Mine(State):
    """A state with a method of its own."""

    def total(self) -> int:
        return sum(self.words)


FIELDS: Tuple[Refusal, ...] = (
    (ValueError, "pc is 70000, not 0 to 65535", lambda it: setattr(it, "pc", 70000)),
    (ValueError, "interrupt is -1", lambda it: setattr(it, "interrupt", -1)),
    (AttributeError, "rsp.State has no field cp; its fields are words", lambda it: setattr(it, "cp", 0)),
    (AttributeError, ", pc, npc, ", lambda it: setattr(it, "cp", 0)),
    (AttributeError, "rsp.State has no field scalars; its fields are words, vec", lambda it: it.scalars),
    (AttributeError, "rsp.Flags has no field vcd; its fields are carry, ", lambda it: it.flags.vcd),
    (AttributeError, "Mine has no field note; its fields are words, ", lambda it: setattr(Mine(), "note", 0)),
    (TypeError, "pc is of type str", lambda it: setattr(it, "pc", "4")),
    (ValueError, "words has 31 items, not 32", lambda it: setattr(it, "words", [0] * 31)),
    (TypeError, "words is of type str", lambda it: setattr(it, "words", "0" * 32)),
    (TypeError, "flags is of type int, not rsp.Flags", lambda it: setattr(it, "flags", 1)),
    (ValueError, "words[1] is -64", lambda it: setitem(it.words, 1, -64)),
    (ValueError, "words[2] is 4294967296", lambda it: setitem(it.words, slice(0, 3), [1, 2, 1 << 32])),
    (IndexError, "words[32]", lambda it: setitem(it.words, 32, 1)),
    (TypeError, "index is of type str", lambda it: setitem(it.words, "a", 1)),
    (ValueError, "lane 2 is 65536", lambda it: setitem(it.vectors[3], 2, 65536)),
    (ValueError, "vectors[3] has 7 items, not 8", lambda it: setitem(it.vectors, 3, [0] * 7)),
    (AttributeError, "counter", lambda it: State(counter=1)),
    (TypeError, "unhashable", hash),
    (TypeError, "takes each of input, output, loaded at most once", lambda it: rsp.Divider(1, 2, 3, 4)),
    (TypeError, "rsp.Divider takes each of input, ", lambda it: rsp.Divider(1, input=2)),
)


@pytest.mark.parametrize("case", FIELDS, ids=lambda it: it[1])
def test_refused_field(case: Refusal) -> None:
    state = State()
    assert_raises(*case, state)
    assert state == State(), "a refused field changes nothing"


def test_fields() -> None:
    state = State()
    assert state == rsp.Machine().get()
    state.words, state.vectors[3], state.words[-1] = range(32), [1, 2, 3, 4, 5, 6, 7, 8], 9
    state.vectors[4:6] = [[4] * 8, (5,) * 8]
    assert state.words == [*range(31), 9]
    assert (state.vectors[3][2:4], state.vectors[5]) == ([3, 4], [5] * 8)
    assert repr(state.vectors[3]) == "[1, 2, 3, 4, 5, 6, 7, 8]"
    assert repr(rsp.Divider(output=7)) == "Divider(input=0, output=7, loaded=0)"
    built = State(pc=8, words=[0, 5] + [0] * 30, flags=rsp.Flags(clip=3))
    parts = (built.pc, built.npc, built.words[1], built.flags.clip, built.sp[2])
    assert parts == (8, 12, 5, 3, 0xFF8)
    assert rsp.Flags(1, 2, 3, clip=4) == rsp.Flags(carry=1, differ=2, compare=3, clip=4)
    assert State([0] * 32) == State()
    machine = rsp.Machine()
    machine.set(built)
    assert machine.get() == built
    assert repr(built) == "<rsp.State: pc 008, npc 00c>"


def test_equality() -> None:
    one, other = State(), State()
    assert one == other and not one != other and one != 3
    gap, zero = bytearray(one), ANY.State.zero.offset
    gap[zero] = 0xA5
    assert State.from_buffer_copy(gap) == one, "the byte `zero` doesn't count"
    machine = rsp.Machine()
    machine.set(State.from_buffer_copy(gap))
    assert bytearray(machine.get()) == bytearray(one), "the byte `zero` is 0 in a machine's state"
    for n in {*range(len(gap))} - {zero}:
        raw = bytearray(one)
        raw[n] ^= 1
        changed = State.from_buffer_copy(raw)
        assert changed != one and len(one.diff(changed)) == 1, f"byte {n} counts"


def test_copies() -> None:
    one = State()
    for made in (copy.copy(one), copy.deepcopy(one), pickle.loads(pickle.dumps(one))):
        assert made == one and isinstance(made.words, type(one.words))
        made.pc = 16
        assert one.pc == 0 and made != one


def test_subclass() -> None:
    """One of State has its fields, and is taken where a state is."""
    one = Mine(pc=8, words=[0, 5] + [0] * 30)
    assert (one.pc, one.npc, one.total(), repr(one)) == (8, 12, 5, "<Mine: pc 008, npc 00c>")
    machine = rsp.Machine()
    machine.set(one)
    assert machine.get() == one and one == machine.get() and not machine.get().diff(one)
    assert Mine.from_buffer_copy(machine.get()) == one and one != State()
    assert [it.name for it in State().diff(one)] == ["pc", "npc", "$1"]
    more: Any = type("More", (State,), {"_fields_": [("count", ctypes.c_uint32)]})(pc=4, count=7)
    assert (more.count, more.npc) == (7, 8) and more != State(pc=4)
    assert_raises(TypeError, "diff: other is of type Flags, not Mine", State.diff, one, rsp.Flags())


def test_differences() -> None:
    one, other = State(), State(pc=4, npc=4)
    one.words[3], other.words[3] = 0xFFFFFFF0, 0x3FFFFFF0
    one.vectors[2][5], one.accumulators.high[7], one.flags.differ = 1, 2, 0x80
    one.sp[7] = one.divider.loaded = 1
    found = one.diff(other)
    names = ["pc", "$3", "$v2 lane 5", "accumulator 7", "vco", "loaded", "SP_SEMAPHORE"]
    assert [it.name for it in found] == names
    values = (found[1].value, found[1].other, found[3].value, found[4].value)
    assert values == (0xFFFFFFF0, 0x3FFFFFF0, 2 << 32, 0x8000)
    lines = found.told("on the machine", "in the emulator").splitlines()
    assert lines[1] == LOCKSTEP.splitlines()[1].strip()
    row = "<th>$3</th><td><code>fffffff0</code></td><td><code>3ffffff0</code></td>"
    assert row in found._repr_html_()
    none = one.diff(copy.copy(one))
    assert (not none, str(none), repr(none)) == (True, "no difference", "<rsp.Difference: none>")
    assert_raises(TypeError, "other is of type Scalars, not rsp.State", one.diff, rsp.Scalars())


@pytest.mark.parametrize("path", sorted(TOP.glob("examples/*.rsp")), ids=lambda path: path.stem)
def test_text_is_that_of_scripts(path: Path) -> None:
    """The machine that a script leaves is printed as `regs`, `vregs`, `acc` and `flags` reply."""
    session = rsp.Session(bytes(1 << 16))
    session.feed(path.read_text())
    lines = session.feed(ASKED).decode().splitlines()[-67:-17]
    state = machine_of(session.feed(ASKED), session.rdram).get()
    regs, flags = str(state).splitlines()[:41], str(state).splitlines()[41:]
    assert [*regs, *str(state.accumulators).splitlines(), *flags] == lines
    scalars = rsp.Scalars(words=state.words, pc=state.pc, npc=state.npc)
    assert str(scalars).splitlines() == regs[:9] and len(lines) == 9 + 32 + 8 + 1


def test_table_of_a_notebook() -> None:
    table = State(pc=12)._repr_html_()
    assert table.startswith("<table><tr><th>pc</th><td><code>00c</code></td>")
    assert table.count("<tr>") == 9 + 32 + 1


def test_text_of_a_machine() -> None:
    """A machine shows its pc and its next instruction; a stop has addresses as in scripts."""
    machine = rsp.Machine(bytes(64))
    machine.load_words(rsp.IMEM, 0, rsp.assemble("ori $2, $0, 1\nbreak\nnop"))
    assert repr(machine) == "<rsp.Machine: pc 000, running, next ori $2, $0, 0x0001>"
    assert repr(machine.run(9)) == "Stop(reason=Reason.HALT, steps=2, pc=0x008, watch=None)"
    assert repr(machine) == "<rsp.Machine: pc 008, halted, next nop>"
    machine.close()
    assert repr(machine) == "<rsp.Machine: NO_MACHINE>"


def test_values_of_several_fields() -> None:
    """Accumulators of 48 bits, flags as the words that a trace has, and the text of an entry of a trace."""
    machine, state = rsp.Machine(bytes(64)), State()
    state.accumulators.high[1], state.accumulators.middle[1], state.accumulators.low[7] = 0xFFFF, 2, 3
    state.flags.carry, state.flags.differ, state.flags.clip, state.flags.extra = 1, 2, 4, 8
    machine.set(state)
    assert list(machine.acc()) == [0, 0xFFFF00020000, 0, 0, 0, 0, 0, 3]
    (entry,) = machine.trace(1)[1]
    flags = machine.flags()
    assert (flags.vco, flags.vcc, flags.vce) == (entry.vco, entry.vcc, entry.vce) == (0x201, 0x400, 8)
    assert entry.text == "nop"


def test_lines_of_words() -> None:
    text = "# two words\n_: .word 1, 2\n\nloop: j loop # _\nnop"
    assert rsp.assemble(text, 4).lines == [2, 2, 4, 5]
    assert rsp.assemble("").lines == []


def test_copied_and_closed_machine() -> None:
    machine = loaded("nop\nbreak")
    machine.step()
    for made in (copy.copy(machine), copy.deepcopy(machine)):
        assert made.get() == machine.get() and made.run(9) == (rsp.Reason.HALT, 1, 8, None)
        made.close()
    assert machine.regs().pc == 4
    assert_raises(TypeError, "a machine can't be pickled", pickle.dumps, machine)
    machine.close()
    assert_raises(RspError, "copy: the machine is closed", copy.copy, machine)


def test_pickled_errors() -> None:
    explained = rsp.AssemblyError(2, 12, "jr", "operand 1 may be ..")
    for error in (RspError(rsp.Status.NO_BREAK, "words"), rsp.AssemblyError(2, 11, "foo"), explained):
        again = pickle.loads(pickle.dumps(error))
        assert (type(again), str(again)) == (type(error), str(error))
        assert again.status is error.status


def test_failed_starts() -> None:
    """A machine that wasn't made is freed in silence."""
    unraisable: List[object] = []
    with mock.patch("sys.unraisablehook", unraisable.append):
        for words in (("x",), (65,), (bytes(64), None), (1, 2, 3), (bytes(65),)):
            with pytest.raises((TypeError, RspError)):
                ANY.Machine(*words)
        gc.collect()
    assert not unraisable


def test_buffers() -> None:
    machine = rsp.Machine()
    words = array.array("I", [1, 2])
    high_first = struct.pack(">2I", *words)
    if sys.byteorder == "little":
        for wrong in words, memoryview(words), (ctypes.c_uint16 * 3)():
            assert_raises(TypeError, "load: data has the low byte of each", machine.load, rsp.DMEM, 0, wrong)
        words.byteswap()
    datas: Tuple[Any, ...] = (words.tobytes(), memoryview(words).cast("B"), bytearray(words.tobytes()))
    for data in datas:
        machine.load(rsp.DMEM, 0, bytes(16))
        machine.load(rsp.DMEM, 0, data)
        assert machine.memory(rsp.DMEM, 0, 12) == high_first + bytes(4), type(data)
    machine.load(rsp.DMEM, 0, memoryview(bytes(range(24)))[::2])
    assert machine.memory(rsp.DMEM, 0, 13) == bytes([*range(0, 24, 2), 0]), "every second byte"
    image: Any = array.array("B", range(128))
    assert rsp.Machine(image).memory(rsp.RDRAM, 0, 128) == image.tobytes()


@mock.patch.dict("sys.modules", numpy=None)
def test_without_numpy() -> None:
    assert not hasattr(rsp, "STATE")
    assert_raises(ImportError, "memory_array needs numpy", rsp.Machine().memory_array, rsp.DMEM, 0, 8)


@pytest.mark.needs("python:numpy")
def test_states_as_arrays() -> None:
    import numpy

    size, fields = shapes.layout(State)
    assert rsp.STATE.itemsize == size
    assert [(name, at, kind.itemsize) for name, (kind, at) in rsp.STATE.fields.items()] == fields
    state: Any = State(pc=8)
    state.vectors[3][2] = 77
    row = numpy.frombuffer(state, rsp.STATE)[0]
    vectors = row["vectors"]
    assert (row["pc"], vectors[3][2], vectors.shape) == (8, 77, (32, 8))
    assert State.from_buffer_copy(row.tobytes()) == state
    state.words = numpy.arange(32, dtype=numpy.uint32)
    state.vectors[1] = numpy.full(8, 5, numpy.uint16)
    assert (state.words[31], list(state.vectors[1])) == (31, [5] * 8)


@pytest.mark.needs("python:numpy")
def test_memories_as_arrays() -> None:
    import numpy

    machine: Any = rsp.Machine()
    machine.load_words(rsp.DMEM, 0, numpy.array([0x01020304, 0x05060708], numpy.uint32))
    words = machine.memory_array(rsp.DMEM, 0, 8, ">u4")
    assert words.tolist() == [0x01020304, 0x05060708]
    words[0] = 9
    assert machine.memory(rsp.DMEM, 0, 4) == bytes((1, 2, 3, 4)), "an array is a copy"
    machine.load(rsp.DMEM, 0, words)
    assert machine.memory(rsp.DMEM, 0, 8) == bytes((0, 0, 0, 9, 5, 6, 7, 8))
    assert machine.memory_array(rsp.DMEM, 4, 4).tolist() == [5, 6, 7, 8]
    assert machine.run(numpy.int64(3)).steps == 3
    assert_raises(ValueError, "multiple", machine.memory_array, rsp.DMEM, 0, 6, ">u4")
    points = machine.memory_array(rsp.DMEM, 0, 8, [("x", ">i2"), ("y", ">i2")])
    assert (points["x"].tolist(), points["y"].tolist()) == ([0, 0x506], [9, 0x708])
    machine.load(rsp.DMEM, 0, points)
    kinds: Any = "<i2", [("x", "<i2"), ("y", ">i2")], [("b", "u1"), ("y", ">i2"), ("f", "<f4")], "<c8"
    for low_first in kinds:
        data = numpy.zeros(3, low_first)
        assert_raises(TypeError, "the low byte of each", machine.load, rsp.DMEM, 0, data)
    machine.load(rsp.DMEM, 0, numpy.zeros(3, [("h", "S3"), ("y", ">i2"), ("?", "?")]))
    assert machine.memory(rsp.DMEM, 0, 8) == bytes(8)
