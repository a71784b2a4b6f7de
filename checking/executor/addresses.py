"""Which numbers an unknown address can be, by Z3."""

from typing import Dict, List, Tuple

import z3

from ..errors import Stuck, Wrong
from .values import Truth, Value

MOST = 8192  # bytes between the least and the greatest address
SECONDS = 600


class Solved:
    """Asks Z3 about one path, and remembers addresses."""

    def __init__(self) -> None:
        self.found: Dict[Tuple[int, int, int], Tuple[Value, List[int]]] = {}

    def is_possible(self, *conditions: Truth) -> bool:
        """Whether all conditions can hold. An unknown answer is none."""
        solver = z3.SolverFor("QF_BV")
        solver.set("timeout", 1000 * SECONDS)
        solver.add(*conditions)
        answer = solver.check()
        if answer == z3.unknown:
            raise Stuck(f"Z3 doesn't answer within {SECONDS} s whether a branch or an address is possible")
        return bool(answer == z3.sat)


def addresses_of(solved: Solved, path: List[Truth], at: Value, count: int, is_aligned: bool) -> List[int]:
    """Numbers, `count` apart, among which an address always is."""
    key = at.get_id(), count, len(path)
    if key not in solved.found:
        solved.found[key] = at, between_ends(solved, path, at, count)
    found = solved.found[key][1]
    if is_aligned and found[0] % count:
        raise Wrong(
            f"an address of {count} bytes, such as {found[0]:x}, isn't aligned, as the instruction asks"
        )
    return found


def between_ends(solved: Solved, path: List[Truth], at: Value, count: int) -> List[int]:
    """The numbers from the least to the greatest address. That all are so many bytes apart is proved."""
    solver = z3.SolverFor("QF_BV")
    solver.add(*path)
    if solver.check() != z3.sat:
        raise Stuck("Z3 finds nothing for which this path is taken")
    one = solver.model().eval(at, model_completion=True).as_long()
    low, high = (furthest(solved, path, at, one, is_up) for is_up in (False, True))
    if solved.is_possible(*path, z3.URem(at - low, z3.BitVecVal(count, 64)) != 0):
        raise Stuck(f"an unknown address isn't {low:x} and a multiple of {count}")
    return [*range(low, high + 1, count)]


def furthest(solved: Solved, path: List[Truth], at: Value, one: int, is_up: bool) -> int:
    """The greatest or the least address, by bisection from one that is possible."""

    def can_pass(distance: int) -> bool:
        return solved.is_possible(*path, z3.UGT(at, one + distance) if is_up else z3.ULT(at, one - distance))

    near, far = 0, MOST  # it can be `near` away, and is never more than `far` away
    if can_pass(far):
        raise Stuck(f"an unknown address can be more than {MOST} bytes from {one:x}")
    while near < far:
        middle = (near + far) // 2
        near, far = (middle + 1, far) if can_pass(middle) else (near, middle)
    return one + (near if is_up else -near)
