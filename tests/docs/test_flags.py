"""The table of flags of docs/INSTRUCTIONS.md. It fails if an instruction uses a flag otherwise."""

from pathlib import Path
from random import Random
from typing import Dict, List, Sequence, Tuple

from lib.lanes import CLEAR, FLAGS, Case, Flags, Look, accumulators_of, after, case
from lib.pages import tables
from rsp_conformance.table import ROWS

Uses = Dict[str, Tuple[str, ...]]
NAMES = [name for name, row in ROWS.items() if row.form in ("vector", "lane", "nothing")]
STATES = 12


def random_state(chance: Random) -> Tuple[List[int], List[int], Flags]:
    """Operands of which many are equal, opposite or complements of each other, and flags."""
    a = [chance.choice((0, 1, 5, 32767, 32768, 65535, chance.randrange(65536))) for _ in range(8)]
    b = [chance.choice((lane, -lane, ~lane, 1, 32768, chance.randrange(65536))) & 0xFFFF for lane in a]
    flags = {name: f"{chance.randrange(16 ** len(none)):0{len(none)}x}" for name, none in CLEAR.items()}
    return a, b, flags


def flipped(registers: Flags, flag: str) -> Flags:
    """The flags with one of them turned over in all lanes."""
    register, shift = FLAGS[flag]
    value = int(registers[register], 16) ^ 255 << shift
    return {**registers, register: f"{value:0{len(registers[register])}x}"}


def value_of(look: Look, flag: str) -> int:
    """A flag of all lanes."""
    register, shift = FLAGS[flag]
    return int(look[register], 16) >> shift & 255


def uses(flag: str, ran: Sequence[Tuple[Case, Look]]) -> Tuple[str, ...]:
    """What an instruction does with a flag, by the looks after each state and after the state with each flag
    turned over."""
    many, turned = 1 + len(FLAGS), 1 + [*FLAGS].index(flag)
    names = [name for name in FLAGS if name != flag]
    others = [
        [look["v3"], accumulators_of(look), *(value_of(look, name) for name in names)] for _, look in ran
    ]
    is_read = any(others[i] != others[i + turned] for i in range(0, len(ran), many))
    left = [value_of(look, flag) for _, look in ran]
    if left == [value_of(state, flag) for (_, _, state), _ in ran]:
        return ("reads",) * is_read
    return ("reads",) * is_read + ("writes" if any(left) else "clears",)


def test_table_of_flags(program: Path) -> None:
    """An instruction that isn't there keeps all flags, and reads none."""
    listed: Dict[str, Uses] = {}
    for names, *cells in tables("docs/INSTRUCTIONS.md", "### Flags"):
        if len(cells) == len(FLAGS):
            row = {flag: tuple(filter(None, cell.split(", "))) for flag, cell in zip(FLAGS, cells)}
            listed.update({name: row for name in names.lower().split(", ")})
    chance = Random(1)
    states = [random_state(chance) for _ in range(STATES)]
    turned = [(a, b, flags) for a, b, f in states for flags in (f, *(flipped(f, flag) for flag in FLAGS))]
    cases = {name: [case(name, a, b, flags=flags) for a, b, flags in turned] for name in NAMES}
    looks = iter(after(str(program), [entry for of_name in cases.values() for entry in of_name]))
    for name, of_name in cases.items():
        ran = [(entry, next(looks)) for entry in of_name]
        actual = {flag: uses(flag, ran) for flag in FLAGS}
        assert listed.get(name, dict.fromkeys(FLAGS, ())) == actual, name
