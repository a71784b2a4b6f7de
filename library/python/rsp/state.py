"""Registers as plain structures. A field is checked as it is set, `==` compares bytes, and `print` shows what
the session shows."""

from ctypes import Structure, byref
from typing import TYPE_CHECKING, Any, ClassVar, Dict, Iterator, List, Optional, Type, TypeVar

from . import helpers
from .fields import taken
from .helpers import Difference

if TYPE_CHECKING:  # the types of fields as a type checker sees them, and as ctypes does
    from .typed import U8, U16, U32, Lanes, Sp, SpItems, StoredBytes, Vectors, Words
else:
    from ctypes import c_uint8 as U8
    from ctypes import c_uint16 as U16
    from ctypes import c_uint32 as U32

    from .fields import Lanes, Sp, SpItems, StoredBytes, Vectors, Words

_P = TypeVar("_P", bound="Plain")


class Plain(Structure):
    """A structure of numbers: built from values in order or by keywords, checked as it is set, equal to
    another if all numbers are."""

    _kinds: ClassVar[Dict[str, Any]] = {}
    _structure: ClassVar[int]  # a brsp_structure of brsp_helpers.h

    def __init_subclass__(cls, **words: Any) -> None:
        super().__init_subclass__(**words)
        cls._add_kinds(dict(cls.__dict__.get("_fields_", ())))

    @classmethod
    def _add_kinds(cls, kinds: Dict[str, Any]) -> None:
        """Notes the types of the class's own fields, except the one that fills a gap."""
        cls._kinds = {**cls._kinds, **{name: kind for name, kind in kinds.items() if name != "zero"}}

    @classmethod
    def _title(cls) -> str:
        """The name in messages."""
        return f"rsp.{cls.__name__}" if cls.__module__ == __name__ else cls.__name__

    @classmethod
    def _unknown(cls, name: str) -> AttributeError:
        return AttributeError(f"{cls._title()} has no field {name}; its fields are {', '.join(cls._kinds)}")

    def _is_alike(self, other: object) -> bool:
        """Whether the other one has the same fields: it may be of a subclass."""
        return type(other) is type(self) or isinstance(other, Plain) and other._kinds == self._kinds

    def __init__(self, *values: Any, **fields: Any) -> None:
        super().__init__()
        for name, value in [*zip(self._kinds, values), *fields.items()]:
            setattr(self, name, value)
        if len(values) > len(self._kinds) or fields.keys() & [*self._kinds][: len(values)]:
            raise TypeError(f"{self._title()} takes each of {', '.join(self._kinds)} at most once")

    if not TYPE_CHECKING:

        def __getattr__(self, name: str) -> Any:
            raise self._unknown(name)

    def __setattr__(self, name: str, value: Any) -> None:
        kind = self._kinds.get(name)
        if kind is None:
            raise self._unknown(name)
        super().__setattr__(name, taken(name, kind, value))

    def __eq__(self, other: object) -> bool:
        if not self._is_alike(other):
            return NotImplemented
        both: List[Any] = [self, other]
        if bytes(both[0]) == bytes(both[1]):
            return True
        # The byte `zero` of a state has no meaning, so states whose bytes differ may be equal still.
        return all(getattr(self, name) == getattr(other, name) for name in self._kinds)

    __hash__ = None  # type: ignore[assignment]

    def __repr__(self) -> str:
        fields = ", ".join(f"{name}={getattr(self, name)!r}" for name in self._kinds)
        return f"{type(self).__name__}({fields})"

    def __str__(self) -> str:
        return helpers.text("brsp_structure_text", self._structure, byref(self))

    def _repr_html_(self) -> str:
        return helpers.table(line.split() for line in str(self).splitlines())

    def diff(self: _P, other: _P) -> Difference:
        """The parts in which they differ, each with its name and both values."""
        if not self._is_alike(other):
            raise TypeError(f"diff: other is of type {type(other).__name__}, not {self._title()}")
        return Difference(helpers.structure_parts(self._structure, self, other))


def structure(cls: Type[_P]) -> Type[_P]:
    """Makes the annotations of a class the fields of the structure, in their order."""
    cls._fields_ = [*cls.__annotations__.items()]
    cls._add_kinds(cls.__annotations__)
    return cls


class _Counters(Plain):
    """A structure with a pc and an npc, which its `repr` shows."""

    def __repr__(self) -> str:
        return f"<{self._title()}: pc {self.pc:03x}, npc {self.npc:03x}>"


@structure
class Scalars(_Counters):
    """The scalar registers `words`, 32 numbers below 2**32, and the addresses pc and npc, multiples of 4
    below 4096."""

    words: Words
    pc: U16
    npc: U16
    _structure = 1


@structure
class Accumulators(Plain):
    """Bits 47 to 32, 31 to 16 and 15 to 0 of the eight accumulators: eight numbers below 65536 each."""

    high: Lanes
    middle: Lanes
    low: Lanes
    _structure = 2

    def __iter__(self) -> Iterator[int]:
        """The eight accumulators as numbers of 48 bits, lane 0 first."""
        parts = zip(self.high, self.middle, self.low)
        return (high << 32 | middle << 16 | low for high, middle, low in parts)


@structure
class Flags(Plain):
    """Flags, numbers below 256, bit i for lane i. VCO is `carry` in bits 0 to 7 and `differ` (not-equal) in 8
    to 15, VCC `compare` and `clip`, VCE `extra`."""

    carry: U8
    differ: U8
    compare: U8
    clip: U8
    extra: U8
    _structure = 3

    @property
    def vco(self) -> int:
        """VCO as one number, as in a trace."""
        return self.differ << 8 | self.carry

    @property
    def vcc(self) -> int:
        """VCC as one number, as in a trace."""
        return self.clip << 8 | self.compare

    @property
    def vce(self) -> int:
        """VCE, which is `extra`."""
        return self.extra


@structure
class Divider(Plain):
    """What divide instructions leave for the next one: `input` (DIV_IN) and `output` (DIV_OUT), below 65536,
    and `loaded`, 1 if DIV_IN is loaded, otherwise 0."""

    input: U16
    output: U16
    loaded: U16
    _structure = 4


@structure
class SpWords(Plain):
    """`words`, the sixteen SP registers as `peek` gives them, and `interrupt`, 1 if the interrupt flag is
    set, otherwise 0."""

    words: SpItems
    interrupt: U32
    _structure = 5


@structure
class Traced(Plain):
    """An entry of a trace: the `word` at `pc` that a step executed, and what it wrote.

    `scalar` is the number of the scalar register that it wrote, 0 if none, and `value` what that register
    holds after the step. `vector` is the number of the vector register that it wrote (for LTV the first of
    the group), 32 if none, and `lanes` what that register holds. `vco`, `vcc` and `vce` are the flags after
    the step. For a store `stored` is 1, and `address` its address in DMEM. Fields without a meaning are 0.
    """

    word: U32
    value: U32
    pc: U16
    address: U16
    vco: U16
    vcc: U16
    vce: U8
    scalar: U8
    vector: U8
    stored: U8
    lanes: Lanes
    _structure = 6

    @property
    def text(self) -> str:
        """The disassembly of the word."""
        from .texts import text  # here, because that module needs this one

        return text(self.word, self.pc)


@structure
class Changes(Plain):
    """What a step changed: its entry in a trace, `traced`; and after the step pc, npc, the `divider` and the
    `accumulators`.

    For a store `quadword` is the address of the quadword that contains the store's address, and `bytes` has
    that quadword and the next one, modulo 4096; for any other step both are 0. Some changes aren't here: the
    other seven registers of the group that an LTV writes; SP registers that MFC0, MTC0, BREAK and single step
    change; and memories that a DMA changes.
    """

    traced: Traced
    pc: U16
    npc: U16
    divider: Divider
    quadword: U16
    accumulators: Accumulators
    bytes: StoredBytes
    _structure = 7


@structure
class State(_Counters):
    """All registers. `State()` is the state of a new machine, and keywords set fields in it; if npc isn't
    given, it is 4 after pc.

    `words` are the 32 scalar registers, below 2**32, the first of them 0. `vectors[n][lane]` are the 32
    vector registers of eight lanes below 65536, lane 0 first. `sp` are the sixteen SP registers as `peek`
    gives them. `pc` and `npc` are multiples of 4 below 4096, and `interrupt` is 0 or 1. A field that is an
    array takes a list. `print` shows the lines of `regs`, `vregs` and `flags` in scripts.
    """

    words: Words
    vectors: Vectors
    accumulators: Accumulators
    flags: Flags
    zero: U8
    divider: Divider
    pc: U16
    npc: U16
    sp: Sp
    interrupt: U32
    _structure = 0

    def __init__(self, *values: Any, **fields: Any) -> None:
        super().__init__(*values, **fields)
        given = {*[*self._kinds][: len(values)], *fields}
        if "sp" not in given:
            self.sp[2] = self.sp[3] = 0xFF8
        if "npc" not in given:
            self.npc = (self.pc + 4) % 4096


def unset(kind: Type[_P]) -> _P:
    """A structure for a call to fill."""
    return kind.__new__(kind)


def state_fault(state: State) -> Optional[str]:
    """The first field for which `Machine.set` refuses a state, or None if it takes the state."""
    if not isinstance(state, State):
        raise TypeError(f"state_fault: state is of type {type(state).__name__}, not rsp.State")
    return state_refusal(state).partition(" ")[0] or None


def state_refusal(state: State) -> str:
    """Why `Machine.set` refuses a state, which begins with the field; empty if it takes the state."""
    return helpers.text("brsp_state_refusal_text", byref(state))
