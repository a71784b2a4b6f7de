"""Registers whose numbers are unknown, so that one proof is for all 32,768 choices of vd, vs and vt.

A load from an unknown address is a choice among 32 registers. Once Z3 has proved that it is the address of
register vs, say, eight fresh symbols stand for the lanes of vs, so that Z3 meets the choice in no product.
"""

from typing import Any, List, Optional

import z3

from definitions.unknown.solver import Proved, Solver

from .executor.values import Byte, Value, same
from .states import symbol

LANES = range(8)
COUNT = 32


def is_register(values: List[Byte], number: int) -> bool:
    """Whether some bytes are the lanes of a register before the step."""
    lanes = [(symbol(f"v{number}_{lane}"), k) for lane in LANES for k in (0, 1)]
    return all(map(same, values, lanes))


class Registers:
    """vd, vs and vt. `odd` fixes the lowest bit of vs, on which VRNDP and VRNDN depend."""

    def __init__(self, solver: Solver, template: int, odd: Optional[int]) -> None:
        self.solver, self.template, self.odd = solver, template, odd
        vs = z3.BitVec("vs", 5) if odd is None else z3.Concat(z3.BitVec("vs", 4), z3.BitVecVal(odd, 1))
        self.numbers = {"vs": vs, "vt": z3.BitVec("vt", 5), "vd": z3.BitVec("vd", 5)}
        self.lanes = {name: [z3.BitVec(f"{name}_{lane}", 16) for lane in LANES] for name in self.numbers}

    def word(self) -> Any:
        """The word of the instruction, with unknown registers in place of those of its template."""
        parts = [z3.BitVecVal(self.template >> 21, 11), *(self.numbers[it] for it in ("vt", "vs", "vd"))]
        return z3.Concat(*parts, z3.BitVecVal(self.template & 63, 6))

    def loaded(self, at: Value, found: List[int], parts: List[List[Byte]]) -> Optional[List[Byte]]:
        """What an unknown address gives: the symbols of a register, if it is that register's address."""
        if len(parts) != COUNT or not all(is_register(values, n) for n, values in enumerate(parts)):
            return None
        for name, number in self.numbers.items():
            address = z3.Concat(z3.BitVecVal(0, 64 - 9), number, z3.BitVecVal(0, 4)) + found[0]
            condition = z3.simplify(at == address)
            if isinstance(self.solver.holds(condition, (), f"whether a load is of {name}"), Proved):
                return [(lane, k) for lane in self.lanes[name] for k in (0, 1)]
        return None
