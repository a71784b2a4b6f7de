"""What a computing instruction changes, as formulas over the state before it: `step_of` on unknown operands.

A field is a lane `v3_0`, a third of an accumulator `high0`, `middle0`, `low0`, a flag of eight lanes
(`carry`, `differ`, `compare`, `clip`, `extra`), or `div_in`, `div_out`, `loaded`: those of a brsp_state, with
their widths.
"""

import os
from typing import Any, Callable, Dict, Iterator, List, Tuple

import z3

from ..compiler import Compiler
from ..modules import Library
from ..states import STEP, Machine
from .compiler import UnknownCompiler
from .numbers import Truth, at, condition, signed, truth, unsigned
from .vectors import Vector, bits, concat

HERE = os.path.dirname(os.path.dirname(os.path.dirname(os.path.abspath(__file__))))
WORDS = "Rattle.rsp_decode.specs.Table.Words"
FLAGS = ("carry", "differ", "compare", "clip", "extra")
PLANES = (("high", 32), ("middle", 16), ("low", 0))
LANES = range(8)
COMPUTES = 0x25  # bits 31 to 25 of the word of a computing instruction
ONE, ZERO = z3.BitVecVal(1, 1), z3.BitVecVal(0, 1)

Get = Callable[[str], Vector]
Effect = Dict[str, Vector]


def widths() -> Iterator[Tuple[str, int]]:
    """The fields that a computing instruction reads or writes, with how many bits each has."""
    yield from ((f"v{n}_{lane}", 16) for n in range(32) for lane in LANES)
    yield from ((f"{plane}{lane}", 16) for plane, _ in PLANES for lane in LANES)
    yield from ((name, 8) for name in FLAGS)
    yield from ((name, 16) for name in ("div_in", "div_out", "loaded"))


WIDTHS = dict(widths())


class Definitions:
    """The definitions of a repository, compiled for unknown operands."""

    def __init__(self, root: str = HERE) -> None:
        self.compiler: Compiler = UnknownCompiler(Library(root))
        self.machine = Machine(self.compiler)
        self.step_of = self.compiler.get(STEP, "step_of")
        rows = self.compiler.get(WORDS, "rows")()
        self.rows = {bytes(row.name).decode(): row for row in rows}
        self.computing = [name for name, row in self.rows.items() if row.value >> 25 == COMPUTES]

    def word_of(self, name: str, vd: int, vs: int, vt: int, element: int) -> int:
        """The word of a computing instruction. A divide has the lane of vd in place of vs."""
        return int(self.rows[name].value) | element << 21 | vt << 16 | vs << 11 | vd << 6

    def state(self, get: Get, word: int) -> Any:
        """A state with these fields, which isn't halted, with the word at pc. All other fields are 0."""
        n: Dict[str, Any] = dict.fromkeys(
            ("pc", "vco", "vcc", "vce", "div_in", "div_out", "div_loaded", "interrupt"), 0
        )
        n.update(npc=4, r=(0,) * 32, v=((0,) * 8,) * 32, acc=(0,) * 8, sp=(0,) * 16)
        memories = {"dmem": bytes(4), "imem": word.to_bytes(4, "big"), "rdram": bytes(8)}
        made = self.machine.state_of(n, memories)
        made.vectors = tuple(tuple(unsigned(get(f"v{n}_{lane}")) for lane in LANES) for n in range(32))
        made.accumulators = tuple(signed(accumulator(get, lane)) for lane in LANES)
        made.flags = made.flags._copy()
        for name in FLAGS:
            setattr(made.flags, name, tuple(truth(simple(bits(get(name), lane, 1) == 1)) for lane in LANES))
        made.divider = self.compiler.record(
            input=unsigned(get("div_in")),
            output=unsigned(get("div_out")),
            loaded=truth(simple(get("loaded") != 0)),
        )
        return made

    def effect(self, name: str, vd: int, vs: int, vt: int, element: int, get: Get) -> Effect:
        """What the instruction changes."""
        before = self.state(get, self.word_of(name, vd, vs, vt, element))
        after = self.step_of(before)[1]
        old, new = fields(before), fields(after)
        return {name: vector(name, value) for name, value in new.items() if differs(value, old[name])}


def simple(z: Any) -> Any:
    """A condition, as true or false if Z3 sees at once that it is."""
    found = z3.simplify(z)
    return found if z3.is_true(found) or z3.is_false(found) else z


def accumulator(get: Get, lane: int) -> Vector:
    """The 48 bits of an accumulator."""
    return z3.simplify(concat(*(get(f"{plane}{lane}") for plane, _ in PLANES)))


def fields(state: Any) -> Dict[str, Any]:
    """The fields of a state as the definitions have them; an accumulator is `acc0`, a flag has all lanes."""
    found = {f"v{n}_{lane}": state.vectors[n][lane] for n in range(32) for lane in LANES}
    found.update((f"acc{lane}", state.accumulators[lane]) for lane in LANES)
    found.update((name, getattr(state.flags, name)) for name in FLAGS)
    divider = state.divider
    found.update(div_in=divider.input, div_out=divider.output, loaded=divider.loaded)
    return found


def differs(new: Any, old: Any) -> bool:
    """Whether a field isn't the same for all operands by its form."""
    if isinstance(new, tuple):
        return any(map(differs, new, old))
    if new is old:
        return False
    if hasattr(new, "z") and hasattr(old, "z"):
        return not new.z.eq(old.z)
    return hasattr(new, "z") or hasattr(old, "z") or bool(new != old)


def vector(field: str, value: Any) -> Vector:
    """A field as a bit vector."""
    if isinstance(value, (Truth, bool)):
        return z3.If(condition(value), z3.BitVecVal(1, 16), z3.BitVecVal(0, 16))
    if isinstance(value, tuple):
        return concat(*(z3.If(condition(it), ONE, ZERO) for it in reversed(value)))
    return at(value, 48 if field.startswith("acc") else 16)


def planes(effect: Effect, get: Get) -> Effect:
    """The accumulators as their thirds, of which those that stay the same are left out."""
    found = dict(effect)
    for lane in LANES:
        if f"acc{lane}" in effect:
            thirds = {f"{plane}{lane}": bits(effect[f"acc{lane}"], low, 16) for plane, low in PLANES}
            found.update((field, z) for field, z in thirds.items() if not z.eq(get(field)))
    return found


ONCE: List[Definitions] = []


def use(root: str) -> None:
    """Takes the definitions of another repository from now on."""
    ONCE[:] = [Definitions(root)]


def definitions() -> Definitions:
    """The definitions of this repository, or those that `use` took."""
    if not ONCE:
        use(HERE)
    return ONCE[0]


def effect_of(name: str, vd: int, vs: int, vt: int, element: int, get: Get) -> Effect:
    """What a computing instruction changes: a bit vector for each field that it may change, and `acc0` to
    `acc7`, of 48 bits, for accumulators. `get` gives the fields before it as bit vectors. A divide has the
    lane of vd in place of vs."""
    return planes(definitions().effect(name, vd, vs, vt, element, get), get)


def symbol(name: str) -> Vector:
    """A field as a symbol with its name: a `get` by which all of the state before is unknown."""
    return z3.BitVec(name, WIDTHS[name])
