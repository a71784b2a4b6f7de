"""The words that are proved: each computing instruction, with unknown or with known registers."""

from typing import Any, Dict, Iterator, Sequence

from definitions.unknown.effect import definitions, effect_of
from definitions.unknown.solver import Solver

from .proving import Case
from .registers import Registers
from .states import symbol

ELEMENTS = range(16)
# vd, vs and vt: all different, and each way in which they are the same.
PATTERNS = ((3, 1, 2), (1, 1, 2), (2, 1, 2), (3, 1, 1), (1, 1, 1))
DIVIDES = ("vrcp", "vrcpl", "vrcph", "vmov", "vrsq", "vrsql", "vrsqh")  # their field vs is a lane's number
ROUNDS = ("vrndp", "vrndn")  # these depend on the lowest bit of vs


def unknown_registers(solver: Solver, name: str, element: int) -> Iterator[Case]:
    """An instruction with all registers. In its formulas 3, 1 (or 4, which is even) and 2 stand for them."""
    for odd in (0, 1) if name in ROUNDS else (None,):
        registers = Registers(solver, definitions().word_of(name, 0, 0, 0, element), odd)
        vs = 4 if odd == 0 else 1
        names = {f"v{vs}": "vs", "v2": "vt"}

        def get(field: str, lanes: Dict[str, Any] = registers.lanes, names: Dict[str, str] = names) -> Any:
            register, _, lane = field.partition("_")
            return lanes[names[register]][int(lane)] if register in names else symbol(field)

        parity = "" if odd is None else ", vs odd" if odd else ", vs even"
        effect = effect_of(name, 3, vs, 2, element, get)
        yield Case(name, f"{name} e={element}, all registers{parity}", registers.word(), effect, registers)


def known_registers(name: str, element: int, pattern: Sequence[int]) -> Case:
    """An instruction with some registers."""
    vd, vs, vt = pattern
    word = definitions().word_of(name, vd, vs, vt, element)
    effect = effect_of(name, vd, vs, vt, element, symbol)
    return Case(name, f"{name} e={element}, vd={vd} vs={vs} vt={vt}", word, effect, None)


def cases(solver: Solver, name: str, element: int, patterns: Sequence[Sequence[int]]) -> Iterator[Case]:
    """An instruction with an element: a divide with some registers, another with all."""
    if name in DIVIDES:
        yield from (known_registers(name, element, pattern) for pattern in patterns)
    else:
        yield from unknown_registers(solver, name, element)
