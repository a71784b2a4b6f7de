"""Cases of computing instructions by their lanes, accumulators and flags, run on the program."""

from typing import Any, Dict, Iterable, List, Sequence, Tuple

from rsp_conformance import bench
from rsp_conformance.table import ROWS, word_of

Look = Dict[str, Any]
Flags = Dict[str, str]
Lanes = Sequence[int]
Case = Tuple[Any, int, Look]

# The flags by their names on the pages, each with its register, and the bit of lane 0 there.
FLAGS = {"carry": ("vco", 0), "not-equal": ("vco", 8), "compare": ("vcc", 0), "clip": ("vcc", 8),
         "extra": ("vce", 0)}  # fmt: skip
CLEAR = {"vco": "0000", "vcc": "0000", "vce": "00"}
ZEROS = [0] * 8


def case(
    name: str, a: Lanes = ZEROS, b: Lanes = ZEROS, accs: Lanes = ZEROS, flags: Flags = CLEAR, **fields: int
) -> Case:
    """An instruction `$v3, $v1, $v2`, or with other fields, on these lanes, accumulators and flags."""
    word = word_of(ROWS[name], {"e": 0, "vt": 2, "vs": 1, "vd": 3, "de": 0, **fields})
    vectors = {
        f"v{n}": "".join(f"{lane % 65536:04x}" for lane in lanes) for n, lanes in enumerate((a, b, ZEROS), 1)
    }
    values = {f"a{lane}": f"{acc % 2**48:012x}" for lane, acc in enumerate(accs)}
    return ROWS[name], word, {**bench.DEFAULT, **flags, **vectors, **values}


def flag_registers(names: Iterable[str]) -> Flags:
    """The registers with these flags set in all lanes, and the others clear."""
    values = dict.fromkeys(CLEAR, 0)
    for register, shift in (FLAGS[name] for name in names):
        values[register] |= 255 << shift
    return {register: f"{value:0{len(CLEAR[register])}x}" for register, value in values.items()}


def after(program: str, cases: Sequence[Case]) -> List[Look]:
    """The states after these instructions."""
    return [observation["after"] for observation in bench.observe(program, cases)]


def accumulators_of(look: Look) -> List[int]:
    return [(int(look[f"a{lane}"], 16) ^ 1 << 47) - (1 << 47) for lane in range(8)]
