"""The fields of a brsp_state, as brsp.h lays it out, with a symbol for each."""

from typing import Any, Dict, List, Mapping, Tuple

import z3

from .executor.values import Byte, Value, joined, split

SIZE = 772
PLANES = ("high", "middle", "low")
FLAGS = ("carry", "differ", "compare", "clip", "extra")
DIVIDER = ("div_in", "div_out", "loaded")


def fields() -> Dict[str, Tuple[int, int]]:
    """The offset and the bytes of each field."""
    sizes = {f"x{n}": 4 for n in range(32)}
    sizes.update({f"v{n}_{lane}": 2 for n in range(32) for lane in range(8)})
    sizes.update({f"{plane}{lane}": 2 for plane in PLANES for lane in range(8)})
    sizes.update(dict.fromkeys((*FLAGS, "zero"), 1))
    sizes.update(dict.fromkeys((*DIVIDER, "pc", "npc"), 2))
    sizes.update({f"sp{n}": 4 for n in range(16)}, interrupt=4)
    found, at = {}, 0
    for name, size in sizes.items():
        found[name] = at, size
        at += size
    assert at == SIZE
    return found


FIELDS = fields()
# The bits that a symbol stands for, from which one on and how many, in fields that don't take all numbers.
# Of SP_STATUS, sp4, it is `halted`.
SHAPES = {"loaded": (0, 1), "interrupt": (0, 1), "pc": (2, 10), "npc": (2, 10), "sp4": (0, 1)}
# What is always a number: register 0, the byte without a meaning, and SP registers that few numbers fit.
CONSTANT: Dict[str, Value] = {"x0": 0, "zero": 0}
CONSTANT.update({f"sp{n}": 0xFF8 if n in (2, 3) else 0 for n in (0, 1, 2, 3, 5, 6, 7)})
# A machine that continues at 0, and isn't halted.
START: Dict[str, Value] = {**CONSTANT, "pc": 0, "npc": 4, "sp4": 0}


def shape(name: str) -> Tuple[int, int]:
    return SHAPES.get(name, (0, 8 * FIELDS[name][1]))


def symbol(name: str) -> Any:
    """The symbol of a field, as it lies in a state."""
    low, width = shape(name)
    found = z3.BitVec(name, width)
    found = z3.Concat(found, z3.BitVecVal(0, low)) if low else found
    above = 8 * FIELDS[name][1] - low - width
    return z3.ZeroExt(above, found) if above else found


def symbols(fixed: Mapping[str, Value]) -> List[Byte]:
    """The bytes of a state of symbols, except for some fields."""
    found: List[Byte] = []
    for name, (_, size) in FIELDS.items():
        found += split(fixed[name] if name in fixed else symbol(name), size)
    return found


def field(state: List[Byte], name: str) -> Value:
    """A field of a state."""
    at, size = FIELDS[name]
    return joined(state[at : at + size])
