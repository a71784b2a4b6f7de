"""The tests of each instruction: how many positions each has, and what they try.

A position is a batch of 1,024 lanes, of 128 numbers that are divided or of 4,096 words, or it is one case.
The worker takes the positions of a test in an order that spreads operands, so that late ones come early.
"""

import itertools
from typing import Dict, Iterable, Iterator, List, NamedTuple, Sequence, Tuple

from rsp_conformance.campaign.operands_read import FLAGS, READ_FLAGS
from rsp_conformance.table import ROWS, Row


class Test(NamedTuple):
    """A test of an instruction, or of all words."""

    instruction: str
    label: str  # its line in the table; all tests with the same label and instruction are counted together
    kind: str  # what the worker calls it; with value, bits and setting this says what a position is
    value: int
    bits: int
    setting: str
    positions: int
    edges: int  # the first positions, which --edges runs, and each run before all others
    cases: int  # of a position
    what: str


WORDS = "words"  # in place of an instruction
LANES, NUMBERS, MANY = 1024, 128, 4096
PAIRS, FIRST = 1 << 22, 1 << 13  # positions of all pairs, and of the pairs of edges
CASE_EDGES = 1 << 16  # the first cases of each lattice
# The seconds that a position takes on the library, for the time to go until there is a measured one.
SECONDS = {"edges": 7e-6, "pairs": 7e-6, "uppers": 9e-6, "divides": 5e-6, "divide edges": 5e-6, "words": 6e-4}
SECONDS["cases"] = 1.2e-6

# The lattices of each form of instructions that second.c computes: how many bits each has, and what it tries.
REGISTERS = {"vectors": (19, "each element with each vt, vs and vd")}
SOURCES = {"sources": (20, "each number in each lane, with DIV_IN loaded and not")}
BRANCHES = {"offsets": (20, "each offset in 16 ways: taken or not, pc, npc")}
JUMPS = {"targets": (18, "each low half of the field or register in 4 ways: pc, npc, registers")}
ACCESSES = {"displacements": (18, "each offset from 4 bases")}
ELEMENTS = {"addresses": (19, "each address with each element in 8 ways: base, offset, register")}
IMMEDIATES = {"immediates": (20, "each immediate with 16 numbers")}
MOVES = {"moves": (18, "each element with each pair of registers, 16 values")}
CONTROLS = {"controls": (18, "each 16 bits for each control register")}
SP = {"SP registers": (18, "each SP register, 16,384 values")}
LATTICES: Dict[str, Dict[str, Tuple[int, str]]] = {
    "shift": {"amounts": (18, "each amount with each pair of registers, 8 numbers")},
    "three": {
        "numbers": (18, "512 x 512 numbers"),
        "registers": (15, "each three registers"),
    },
    "immediate": IMMEDIATES,
    "upper": IMMEDIATES,
    "load": ACCESSES,
    "store": ACCESSES,
    "branch one": BRANCHES,
    "branch two": BRANCHES,
    "jump": JUMPS,
    "jump register": JUMPS,
    "link register": JUMPS,
    "break": {"halts": (11, "each pc")},
    "from sp": SP,
    "to sp": {
        **SP,
        "transfers": (18, "DMAs: each length with 4 counts, skips and addresses, both directions"),
    },
    "from vector": MOVES,
    "to vector": MOVES,
    "from control": CONTROLS,
    "to control": CONTROLS,
    "vector": REGISTERS,
    "lane": {**REGISTERS, **SOURCES},
    "nothing": REGISTERS,
    "vector load": ELEMENTS,
    "vector store": ELEMENTS,
}
PARTS = {"sources": (20, "each number in each part of an accumulator")}  # of VSAR

# VCL reads all five flags, but its rule looks at few of them at a time: carry and not-equal choose its
# branch. Without both it compares, and reads no other flag. Carry alone reads extra, not-equal alone clip,
# and both read compare. So seven settings are all that it can tell apart; what it keeps is any value.
VCL = ("00???", "10??0", "10??1", "01?0?", "01?1?", "110??", "111??")
ODD_AND_EVEN = ("?????e", "?????o")
ADDS = ("vmacf", "vmacu", "vmad", "vrnd")  # the beginnings of those that add a product or a lane


def settings_of(name: str) -> Sequence[str]:
    """The settings of flags, and of vs, for each of which all pairs are run."""
    if name in ("vrndp", "vrndn"):
        return ODD_AND_EVEN
    if name == "vcl":
        return [f"{setting}e" for setting in VCL]
    letters = ("01" if flag in READ_FLAGS.get(name, ()) else "?" for flag in FLAGS)
    return ["".join((*flags, "e")) for flags in itertools.product(*letters)]


def flags_said(name: str) -> str:
    read = [FLAGS[flag] for flag in READ_FLAGS.get(name, ())]
    if name == "vcl":
        return ", with the flags in each way that matters (7)"
    return f", with each {' and '.join(read)}" if read else ""


def lanes_of(name: str, row: Row, turns: int) -> Iterator[Test]:
    """The tests of a computing instruction that has a rule for one lane."""
    sums = "; a sum of accumulator and product is sampled" if name.startswith(ADDS) else ""
    edges = f"1,024 x 1,024 edges{flags_said(name)}, in each lane"
    all_of = "each b; accumulators are sampled" if name.startswith("vrnd") else f"each pair{flags_said(name)}"
    for setting in settings_of(name):
        both = name, row.value, 22, setting
        if name != "vmacq":  # it reads no operand
            yield test_of("edges", "edges", *both, FIRST, FIRST, LANES, f"{edges}{sums}")
            positions = turns * (PAIRS >> 6 if name.startswith("vrnd") else PAIRS)
            turned = ", in each lane" if turns > 1 else ""
            yield test_of("pairs", "pairs", *both, positions, 0, LANES, f"{all_of}{turned}{sums}")
        if name.startswith(ADDS) or name == "vmacq":
            uppers = "each number in bits 47 to 16 of the accumulator, with one in the low bits"
            positions = PAIRS * turns
            yield test_of("accumulators", "uppers", *both, positions, 1 << 10, LANES, f"{uppers}{sums}")


def test_of(
    label: str, kind: str, name: str, value: int, bits: int, setting: str, *rest: "int | str"
) -> Test:
    return Test(name, label, kind, value, bits, setting, *rest)  # type: ignore[arg-type]


def lattices_of(name: str, row: Row) -> Iterator[Test]:
    """The tests of an instruction by single cases."""
    for setting, (bits, what) in {**LATTICES[row.form], **(PARTS if name == "vsar" else {})}.items():
        count = 1 << bits
        yield Test(name, setting, "cases", row.value, bits, setting, count, min(count, CASE_EDGES), 1, what)


def divides_of(name: str, row: Row) -> Iterator[Test]:
    edges, numbers = 1 << 18, 1 << 25
    high = "512 edges for DIV_IN, with each number for the lane"
    yield Test(name, "edges", "divide edges", row.value, 18, "-", edges, edges, NUMBERS, high)
    each = "each number of 32 bits: DIV_IN and the lane"
    yield Test(name, "numbers", "divides", row.value, 25, "-", numbers, 0, NUMBERS, each)


def tests_of(names: Iterable[str], turns: int) -> List[Test]:
    """The tests of these instructions, and of WORDS."""
    found: List[Test] = []
    for name in names:
        if name == WORDS:
            all_words, first = "each word of 32 bits: whether it is reserved", 1 << 11
            found.append(Test(name, "words", "words", 0, 20, "-", 1 << 20, first, MANY, all_words))
            continue
        row = ROWS[name]
        found += lattices_of(name, row)
        if row.form == "vector" and name != "vsar":
            found += lanes_of(name, row, turns)
        if name in ("vrcpl", "vrsql"):
            found += divides_of(name, row)
    return found
