"""The lists of instructions against the instruction table, as `rsp dis` of the program shows it.

It fails if docs/data/instructions.tsv, docs/INSTRUCTIONS.md, rsp_conformance.table or every-row.script lacks
an instruction, or selects it by other bits than the program.
"""

import re
from pathlib import Path
from typing import Dict, Iterator

import pytest

from lib.same_items import assert_same_items
from lib.pages import data, names_of, page, tables
from rsp_conformance import hexadecimal, table
from rsp_conformance.vectors import VECTORS

# What selects an instruction, in the words of docs/data: the bits that all such instructions share, the
# lowest bit of the values, and the values.
SELECTORS = {
    "SPECIAL (opcode 0x00), function": (0, 0, range(64)),
    "REGIMM (opcode 0x01), rt": (1 << 26, 16, range(32)),
    "COP0 (opcode 0x10), rs": (0x10 << 26, 21, range(32)),
    "COP2 (opcode 0x12), rs": (0x12 << 26, 21, range(16)),
    "COP2 (opcode 0x12), function": (0x12 << 26 | 1 << 25, 0, range(64)),
    "LWC2 (opcode 0x32), operation": (0x32 << 26, 11, range(32)),
    "SWC2 (opcode 0x3a), operation": (0x3A << 26, 11, range(32)),
    "opcode": (0, 26, [code for code in range(64) if code not in (0x00, 0x01, 0x10, 0x12, 0x32, 0x3A)]),
}
COMPUTING, LOADS, STORES = list(SELECTORS)[4:7]
WORDS = {
    first | value << low: f"{by} {value:#04x}"
    for by, (first, low, values) in SELECTORS.items()
    for value in values
}
PAGE = "docs/INSTRUCTIONS.md"
Rows = Dict[str, str]
pytestmark = pytest.mark.xdist_group("instruction lists")


@pytest.fixture(scope="module")
def rows(program: Path) -> Rows:
    """Each selector that isn't reserved, with its instruction before it."""
    names = zip(WORDS.values(), names_of(program, list(WORDS)))
    return {by: f"{name} {by}" for by, name in names if name}


def in_instructions() -> Iterator[str]:
    """The page: what selects scalar and computing instructions, and vector loads and stores."""
    long_names = {by.split(" (")[0] + by.partition(")")[2]: by for by in SELECTORS}
    for name, value in re.findall(r"\b(V[A-Z]+) (0x\w\w)\b", page(PAGE)):
        yield f"{name} {COMPUTING} {value}"
    for names, by, *cells in tables(PAGE):
        for letter, value in re.findall(r"\b([A-Z]) (0x\w\w), \d", names):
            for kind, text in ((LOADS, by), (STORES, cells[0])):
                if text != "reserved":
                    yield f"{kind[0]}{letter}V {kind} {value}"
        by, _, values = by.partition(" 0x")
        if by in long_names and values:
            listed = names.split(", "), f"0x{values}".split(", ")
            assert len(listed[0]) == len(listed[1]), f"{PAGE}: {names} by {values}"
            yield from (f"{name} {long_names[by]} {value}" for name, value in zip(*listed))


def test_data(rows: Rows) -> None:
    listed = [f"{line['Instruction']} {line['Selected by']}" for line in data("instructions")]
    assert_same_items(listed, rows.values())


def test_page(rows: Rows) -> None:
    assert_same_items(in_instructions(), rows.values())


def test_anchors() -> None:
    """The page has one for each instruction, right before its name, or before the heading with its name."""
    text = page(PAGE)
    anchors = re.findall(r'<a id="(\w+)"></a>(?=(\w*))', text)
    names = [line["Instruction"].lower() for line in data("instructions")]
    assert_same_items((anchor for anchor, _ in anchors), names)
    (before, heading), *others = re.findall(r"(?m)^((?:<.*></a>)+)\n\n#+ (.*)", text)
    listed = re.findall(r'"(\w+)"', before)
    assert_same_items(listed, heading.lower().split(", "))
    assert not others and [anchor for anchor, name in anchors if anchor != name.lower()] == listed


def test_choices() -> None:
    """The line of an instruction has the mark if a test vector of it shows a choice."""
    lines, names = page(PAGE).splitlines(), [line["Instruction"] for line in data("instructions")]
    marked = {it for it in names for line in lines if f'<a id="{it.lower()}">' in line and "(choice" in line}
    shown = {it for it in names if '"choice"' in (VECTORS / f"steps/{it}.jsonl").read_text()}
    assert shown and not shown - marked


def test_reserved_functions(rows: Rows) -> None:
    """The sentence of the page on functions that are reserved."""
    (sentence,) = re.findall(r"The functions ([^.]+) are reserved\.", " ".join(page(PAGE).split()))
    ranges = re.findall(r"0x(\w\w)(?: to 0x(\w\w))?", sentence)
    listed = [code for first, last in ranges for code in range(int(first, 16), int(last or first, 16) + 1)]
    assert_same_items(listed, [code for code in range(64) if f"{COMPUTING} {code:#04x}" not in rows])


def test_table(rows: Rows) -> None:
    listed = [f"{row.name.upper()} {WORDS.get(row.value)}" for row in table.ROWS.values()]
    assert_same_items(listed, rows.values())


def test_bits_of_the_table(program: Path) -> None:
    """Another bit that selects makes another instruction, an ignored one a word that isn't canonical."""
    bits, rows = [1 << n for n in range(32)], table.ROWS.values()
    tries = [(row, bit) for row in rows for bit in bits if (row.mask | table.ignored_bits(row)) & bit]
    found = [*zip(tries, names_of(program, [row.value ^ bit for row, bit in tries]))]
    selected = [(row.name, bit) for (row, bit), name in found if row.mask & bit and name == row.name.upper()]
    named = [(row.name, bit) for (row, bit), name in found if not row.mask & bit and name]
    assert found and not selected and not named


def test_constants_for_hdl(program: Path, folder: Path) -> None:
    """A constant of rsp_forms.svh has the bits that select an instruction, and masks its operands."""
    hexadecimal.write_instructions(folder)
    found = re.findall(r"RSP_(\w+) = 64'h(\w{8})_(\w{8});", (folder / "rsp_forms.svh").read_text())
    words = {line["Instruction"]: int(line["Word"].split()[0], 16) for line in data("instructions")}
    fixed = {name: int(bits, 16) for name, bits, _ in found}
    masks = {name: int(mask, 16) for name, _, mask in found}
    assert_same_items(fixed, words)
    assert [name for name, word in words.items() if word & ~masks[name] != fixed[name]] == []
    shown = {name: mask & (0xFFFF03FF if name[0] == "B" else mask) for name, mask in masks.items()}  # in IMEM
    bits = [0, *(1 << n for n in range(32))]
    tries = [(name, word | bit) for name, word in fixed.items() for bit in bits if bit & ~shown[name] == 0]
    named = names_of(program, [word for _, word in tries])
    assert [it for it, name in zip(tries, named) if it[0] != name] == []


def test_every_row() -> None:
    """The script that has the example of each instruction."""
    script = page("tests/program/scripts/blocks/every-row.script")
    (block,) = re.findall(r"(?ms)^asm 0\n(.*?)^end$", script)
    assert_same_items(block.splitlines(), [line["Example"] for line in data("instructions")])
