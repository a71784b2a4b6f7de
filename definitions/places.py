"""Names of the values of a state, as test vectors, assembly text and the definitions have them."""

import re
from typing import Any, Callable, Dict, Iterable, NamedTuple, Optional, Tuple, Union

from .arrays import Array
from .compiler import Compiler
from .states import DEFAULT, SIZES, BadInput
from .traced import Found, found

# The other names of scalar registers after `$`: $a0 is one, and a0 without `$` is the accumulator of lane 0.
SCALARS = "zero at r2 r3 a0 a1 a2 a3 t0 t1 t2 t3 t4 t5 t6 t7 s0 s1 s2 s3 s4 s5 s6 s7 t8 t9 k0 k1 gp sp s8 ra"
ALIASES = {**{f"${name}": f"r{n}" for n, name in enumerate(SCALARS.split())}, "$fp": "r30"}
# The lists of flags: which key of vectors has their bits, and from which bit on.
FLAGS = {
    "carry": ("vco", 0),
    "differ": ("vco", 8),
    "compare": ("vcc", 0),
    "clip": ("vcc", 8),
    "extra": ("vce", 0),
}
FORM = re.compile(r"(?P<name>[a-z]+)(?P<number>\d*)(?:[.\[](?P<index>[0-9a-fx]+)\]?)?")
HOW = {
    "v": "v has a number from 0 to 31 and a lane from 0 to 7, as v9.1",
    "a": "an accumulator is a0 to a7, or acc.0 to acc.7",
    "flag": "a flag has a lane from 0 to 7, as carry.0",
    "bit": "vco and vcc have bits 0 to 15, vce has bits 0 to 7, as vco.3",
    "r": "a scalar register is r0 to r31, or by its other name $s1",
    "c": "an SP register is c0 to c15",
    "memory": "a byte of a memory has an address in hexadecimal, as dmem.010",
}
KNOWN = "v9.1, acc.2, carry.0, vco.3, r4, $s1, c4, pc, npc, in, out, loaded, interrupt, dmem.010"
SP_FIELDS = {0: ("memory",), 1: ("dram",), 2: ("skip",), 3: ("skip",), 5: (), 6: (), 7: ("semaphore",)}
STATUS = ("halted", "broke", "single_step", "intbreak", "signals")
FIELDS = {"in": "input", "out": "output", "loaded": "loaded"}


class Place(NamedTuple):
    """A value of a state."""

    name: str
    digits: int  # hexadecimal digits of its value
    path: Tuple[Union[str, int], ...]  # the fields and indices that lead to it in a state
    fields: Tuple[str, ...] = ()  # of an SP register: the fields of `sp` that its word has


def number(text: Optional[str], below: int, how: str, base: int = 10) -> int:
    """A number below a limit, or the refusal."""
    try:
        value = int(text or "", base)
    except ValueError:
        value = below
    if value >= below:
        raise BadInput(HOW[how])
    return value


def place_of(text: str) -> Place:
    """The value with this name."""
    word = text.strip().lower()
    found = FORM.fullmatch(ALIASES.get(word, word.lstrip("$")))
    if found is None:
        raise BadInput(f"{text[:40]!r} is no value of a state, such as {KNOWN}")
    name, digits, index = found.group("name", "number", "index")
    makers: Dict[str, Callable[[str, Optional[str]], Place]] = {
        "v": vector_lane, "a": accumulator, "acc": accumulator, "r": scalar, "c": sp_register,
    }  # fmt: skip
    if name in makers:
        return makers[name](digits, index)
    if digits:
        raise BadInput(f"{text[:40]!r} is no value of a state, such as {KNOWN}")
    if name in FLAGS:
        lane = number(index, 8, "flag")
        return Place(f"{name}.{lane}", 1, ("flags", name, lane))
    if name in ("vco", "vcc", "vce"):
        return flag_bit(name, index)
    if name in SIZES:
        address = number(index, 1 << 24, "memory", 16)
        return Place(f"{name}.{address:03x}", 2, (name, address))
    if index is None and name in ("pc", "npc"):
        return Place(name, 3, (name,))
    if index is None and name in FIELDS:
        return Place(name, len(DEFAULT[name]), ("divider", FIELDS[name]))
    if index is None and name == "interrupt":
        return Place(name, 1, ("sp", name))
    raise BadInput(f"{text[:40]!r} is no value of a state, such as {KNOWN}")


def vector_lane(digits: str, index: Optional[str]) -> Place:
    """A lane of a vector register."""
    register, lane = number(digits, 32, "v"), number(index, 8, "v")
    return Place(f"v{register}.{lane}", 4, ("vectors", register, lane))


def accumulator(digits: str, index: Optional[str]) -> Place:
    """The accumulator of a lane."""
    lane = number(digits if index is None else index, 8, "a")
    return Place(f"a{lane}", 12, ("accumulators", lane))


def scalar(digits: str, index: Optional[str]) -> Place:
    """A scalar register."""
    register = number(digits, 32, "r") if index is None else number("", 32, "r")
    return Place(f"r{register}", 8, ("registers", register))


def sp_register(digits: str, index: Optional[str]) -> Place:
    """An SP register, as it is read."""
    register = number(digits, 16, "c") if index is None else number("", 16, "c")
    return Place(f"c{register}", 8, ("sp",), SP_FIELDS.get(register, STATUS if register == 4 else ("dpc",)))


def flag_bit(name: str, index: Optional[str]) -> Place:
    """A bit of VCO, VCC or VCE."""
    bit = number(index, 8 if name == "vce" else 16, "bit")
    field = next(field for field, (key, first) in FLAGS.items() if key == name and first == bit - bit % 8)
    return Place(f"{field}.{bit % 8}", 1, ("flags", field, bit % 8))


class Memory:
    """A memory before a step: its bytes by their names, and those that are written."""

    def __init__(self, name: str, data: Any) -> None:
        self.name, self.data = name, data
        self.changed: Dict[int, Any] = {}

    def __len__(self) -> int:
        return len(self.data)

    def __getitem__(self, at: Any) -> Any:
        if isinstance(at, slice):
            return [self[i] for i in range(*at.indices(len(self.data)))]
        if at in self.changed:
            return self.changed[at]
        return found(self.data[at], None, f"{self.name}.{at:03x}")

    def __setitem__(self, at: int, value: Any) -> None:
        self.changed[at] = value


def named(compiler: Compiler, state: Any) -> Any:
    """A state whose numbers have their names."""

    def numbers(name: str, values: Iterable[Any]) -> Tuple[Found, ...]:
        return tuple(found(x, None, f"{name}{i}", x.__class__ is bool) for i, x in enumerate(values))

    def record(old: Any, names: Dict[str, str]) -> Any:
        values = {field: getattr(old, field) for field in old.__slots__}
        for field, x in values.items():
            name = names.get(field, field)
            values[field] = (
                numbers(f"{name}.", x) if isinstance(x, tuple) else found(x, None, name, x.__class__ is bool)
            )
        return compiler.record(**values)

    return compiler.record(
        pc=found(state.pc, None, "pc"),
        npc=found(state.npc, None, "npc"),
        registers=numbers("r", state.registers),
        vectors=tuple(numbers(f"v{n}.", lanes) for n, lanes in enumerate(state.vectors)),
        accumulators=numbers("a", state.accumulators),
        flags=record(state.flags, {}),
        divider=record(state.divider, {"input": "in", "output": "out"}),
        sp=record(state.sp, {"memory": "c0", "dram": "c1", "dpc": "c8 + "}),
        **{bank: Array(Memory(bank, getattr(state, bank).newest())) for bank in SIZES},
    )
