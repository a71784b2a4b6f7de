"""Compares the formulas with the definitions on test vectors: the values of a case are put into the formulas.

Of the state before a step is unknown what a formula can be made of: the registers, vector registers,
accumulators, flags, divider and DMEM, except registers that hold an address or the value of an MTC0.
"""

from typing import Any, Callable, Dict, Iterator, List, Mapping, NamedTuple, Set, Tuple

import z3

from ..arrays import Array
from ..compiler import Compiler
from ..modules import Library
from ..states import Machine, before
from .effect import FLAGS, LANES, ONE, ZERO, Definitions
from .numbers import Number, Truth, condition, signed, unsigned
from .products import multiplied
from .vectors import Vector, concat

# The groups of instructions with a base register, and the one with a register that may start a DMA.
ADDRESSED = ("Load", "Store", "VectorLoad", "VectorStore")
MOVE_SP = "MoveSp"


class Wrong(Exception):
    """Where the formulas differ from the definitions."""


class Inputs:
    """The symbols of a state before, with their values in a case."""

    def __init__(self) -> None:
        self.symbols: Dict[str, Any] = {}
        self.values: Dict[str, int] = {}
        self.given: Dict[int, int] = {}  # the same by the identities of the unknown numbers and truth values

    def given_as(self, name: str, value: int, make: Callable[[], Any]) -> Any:
        """What is unknown under a name, which has this value in the case."""
        if name not in self.symbols:
            self.symbols[name] = make()
        found = self.symbols[name]
        self.values[name] = self.given[id(found)] = value
        return found

    def unsigned(self, name: str, value: int, width: int) -> Any:
        """An unknown number from 0 on."""
        return self.given_as(name, value, lambda: unsigned(z3.BitVec(name, width)))

    def signed(self, name: str, value: int, width: int) -> Any:
        """An unknown signed number."""
        return self.given_as(name, value, lambda: signed(z3.BitVec(name, width)))

    def truth(self, name: str, value: bool) -> Any:
        """An unknown truth value."""
        return self.given_as(name, value, lambda: Truth(z3.BitVec(name, 1) == 1))

    def put(self, z: Vector) -> int:
        """What a formula gives for the case."""
        z = multiplied(z)
        pairs = [(it, z3.BitVecVal(self.values[str(it)], it.size())) for it in symbols_of(z)]
        return int(z3.simplify(z3.substitute(z, *pairs)).as_long())


class Pending(NamedTuple):
    """A formula whose value is compared."""

    field: str
    formula: Any
    expected: int

    def vector(self) -> Vector:
        """The formula as a bit vector."""
        return vector_of(self.formula)

    def check(self, found: int) -> None:
        """Compares the value of the vector."""
        if isinstance(self.formula, Number):
            found -= found >> (self.formula.z.size() - 1) << self.formula.z.size()
            low, high = self.formula.low, self.formula.high
            if not low <= found <= high:
                raise Wrong(f"{self.field}: {found} isn't from {low} to {high}")
        if found != self.expected:
            raise Wrong(f"{self.field}: the formula gives {found}, the definitions {self.expected}")


def vector_of(x: Any) -> Vector:
    """A number or a truth value as a bit vector."""
    return x.z if isinstance(x, Number) else z3.If(condition(x), ONE, ZERO)


def symbols_of(z: Any) -> List[Vector]:
    """The symbols of a formula."""
    todo: List[Any] = [z]
    seen: Set[int] = set()
    found: List[Vector] = []
    while todo:
        node = todo.pop()
        if node.get_id() in seen:
            continue
        seen.add(node.get_id())
        if z3.is_const(node) and node.decl().kind() == z3.Z3_OP_UNINTERPRETED:
            found.append(node)
        todo += node.children()
    return found


class Agreement:
    """Compares cases of test vectors."""

    def __init__(self, root: str) -> None:
        self.unknown = Definitions(root)
        self.known = Machine(Compiler(Library(root)))
        self.inst_of = self.unknown.compiler.get("Rattle.rsp_decode.specs.Table.Words", "inst_of")
        self.inputs = Inputs()

    def addresses(self, word: int) -> Tuple[int, ...]:
        """The registers of a word that have to be known."""
        found = self.inst_of(word)
        group = type(found._0).__name__ if hasattr(found, "_0") else ""
        group = group.rpartition("__")[2]
        if group in ADDRESSED:
            return (found._0._1.base,)
        return (found._0._1,) if group == MOVE_SP else ()

    def state(self, keys: Mapping[str, str], memories: Mapping[str, bytes], word: int) -> Any:
        """The state before a case with unknown values."""
        state, inputs = self.unknown.machine.state(keys, memories), self.inputs
        state = state._copy()
        known = self.addresses(word)
        state.registers = tuple(
            x if n == 0 or n in known else inputs.unsigned(f"x{n}", x, 32)
            for n, x in enumerate(state.registers)
        )
        state.vectors = tuple(
            tuple(inputs.unsigned(f"v{n}_{lane}", x, 16) for lane, x in enumerate(lanes))
            for n, lanes in enumerate(state.vectors)
        )
        state.accumulators = tuple(
            inputs.signed(f"acc{lane}", x, 48) for lane, x in enumerate(state.accumulators)
        )
        state.flags = state.flags._copy()
        for name in FLAGS:
            bits = getattr(state.flags, name)
            setattr(state.flags, name, tuple(inputs.truth(f"{name}{lane}", bits[lane]) for lane in LANES))
        d = state.divider
        state.divider = self.unknown.compiler.record(
            input=inputs.unsigned("div_in", d.input, 16),
            output=inputs.unsigned("div_out", d.output, 16),
            loaded=inputs.truth("loaded", d.loaded),
        )
        dmem = enumerate(memories["dmem"])
        state.dmem = Array([inputs.unsigned(f"dmem{address}", byte, 8) for address, byte in dmem])
        return state

    def compare(self, case: Mapping[str, Any]) -> None:
        """Compares the state after a case with what the definitions give."""
        keys, memories = before(case)
        known = self.known.step_of(self.known.state(keys, memories))[1]
        state = self.state(keys, memories, int(case["word"], 16))
        found = self.unknown.step_of(state)[1]
        pending = [
            it
            for name in known.__slots__
            for it in self.same(name, getattr(found, name), getattr(known, name))
        ]
        if pending:
            self.check(pending)

    def check(self, pending: List[Pending]) -> None:
        """Compares the values of formulas, which are computed together because they have much in common."""
        vectors = [it.vector() for it in pending]
        value = self.inputs.put(concat(*vectors))
        for it, z in zip(reversed(pending), reversed(vectors)):
            it.check(value % (1 << z.size()))
            value >>= z.size()

    def same(self, field: str, found: Any, known: Any) -> Iterator[Pending]:
        """Compares what is known, and gives the formulas."""
        if isinstance(known, (tuple, Array)):
            found, known = (it.newest() if isinstance(it, Array) else it for it in (found, known))
            for at, (x, y) in enumerate(zip(found, known)) if not same_bytes(found, known) else ():
                if x is not y and self.inputs.given.get(id(x)) != y:
                    yield from self.same(f"{field}[{at}]", x, y)
        elif hasattr(known, "__slots__"):
            for name in known.__slots__:
                yield from self.same(f"{field}.{name}", getattr(found, name), getattr(known, name))
        elif isinstance(found, (Number, Truth)):
            yield Pending(field, found, int(known))
        elif found != known:
            raise Wrong(f"{field}: the formulas give {found}, the definitions {known}")


def same_bytes(a: Any, b: Any) -> bool:
    """Whether two memories have the same bytes, all of which are known."""
    return type(a) is type(b) is bytearray and a == b
