"""The rules that docs/INSTRUCTIONS.md has as Python, against the program on random values, and its examples.

VCH, VCL, VCR, VMULQ, VMACQ, the entries of the divide tables and the answers of the long divides are those of
the page's functions, and the program does with the examples in its tables what they say.
"""

import re
from pathlib import Path
from random import Random
from typing import Any, Dict, Iterator, List

import pytest

from lib.fixed_point import pack_halves, random_half, to_signed
from lib.lanes import CLEAR, FLAGS, Case, accumulators_of, after, case, flag_registers
from lib.pages import blocks, page, tables
from rsp_conformance import bench
from rsp_conformance.table import ROWS, word_of

PAGE = "docs/INSTRUCTIONS.md"
ROUNDS = 40  # of eight lanes
FIELDS = {"e": 0, "vt": 2, "vs": 1, "vd": 3, "de": 0}
Look = Dict[str, Any]


def page_rules() -> Dict[str, Any]:
    """The functions of the page's blocks."""
    names: Dict[str, Any] = {}
    for block in blocks(PAGE):
        if block.startswith(("def ", "from math ")):
            exec(block, names)
    return names


def lane(look: Look, register: str, at: int) -> int:
    return int(look[register][4 * at : 4 * at + 4], 16)


def flags_of(look: Look, at: int) -> List[bool]:
    """The flags of a lane, in the order of the page's rules."""
    return [bool(int(look[register], 16) >> shift + at & 1) for register, shift in FLAGS.values()]


def clip_cases(name: str) -> Iterator[Case]:
    """Operands of which many are equal, opposite or near that, and flags."""
    random = Random(name)
    for _ in range(ROUNDS):
        a = [random_half(random) for _ in range(8)]
        b = [random.choice((it, -it, ~it, it + 1, 1 - it, random_half(random))) for it in a]
        flags = {it: f"{random.getrandbits(4 * len(CLEAR[it])):0{len(CLEAR[it])}x}" for it in CLEAR}
        yield case(name, a, b, flags=flags)


def divided(x: int) -> Look:
    """The state in which a long divide takes x, 32 bits: DIV_IN and lane 0 of $v2."""
    high = f"{x >> 16 & 0xFFFF:04x}"
    loaded = {"in": high, "loaded": "1", "divided": f"{high}0000"}
    return {**bench.DEFAULT, **loaded, "v2": pack_halves([x] + [0] * 7).hex()}


@pytest.mark.parametrize("name", ["vch", "vcl", "vcr"])
def test_clip(name: str, program: Path) -> None:
    rule = page_rules()[name]
    for look in bench.observe(str(program), [*clip_cases(name)]):
        before, after = look["before"], look["after"]
        for at in range(8):
            a, b = lane(before, "v1", at), lane(before, "v2", at)
            operands = (a, b, *flags_of(before, at)) if name == "vcl" else (to_signed(a), to_signed(b))
            result, *flags = rule(*operands)
            assert (lane(after, "v3", at), flags_of(after, at)) == (result % 65536, flags), f"of {operands}"


@pytest.mark.parametrize("name", ["vmulq", "vmacq"])
def test_mpeg(name: str, program: Path) -> None:
    rule, random = page_rules()[name], Random(name)
    for _ in range(ROUNDS):
        a, b = ([random_half(random) for _ in range(8)] for _ in range(2))
        middles = [random.choice((random_half(random), random.randrange(-70, 70))) for _ in range(8)]
        highs = [random.choice((0, -1, it >> 15, random_half(random))) for it in middles]
        pairs = zip(highs, middles)
        accs = [(a % 65536 << 32) + (b % 65536 << 16) + random.getrandbits(16) for a, b in pairs]
        (look,) = after(str(program), [case(name, a, b, accs)])
        for at, acc in enumerate(accumulators_of(look)):
            operands = (to_signed(a[at]), to_signed(b[at])) if name == "vmulq" else (to_signed(accs[at], 48),)
            expected, result = rule(*operands)
            found = (acc % 2**48, lane(look, "v3", at))
            assert found == (expected % 2**48, result % 65536), f"of {operands}"


@pytest.mark.parametrize("name", ["vrcpl", "vrsql"])
def test_divide(name: str, program: Path) -> None:
    row, answer, random = ROWS[name], page_rules()["answer"], Random(name)
    sizes = [random.getrandbits(random.randrange(1, 33)) for _ in range(300)]
    numbers = [to_signed(it, 32) for it in (*sizes, 0, 1, -1, -32768, -32769, 2**31 - 1, -(2**31))]
    cases = [(row, word_of(row, FIELDS), divided(it)) for it in numbers]
    for x, look in zip(numbers, bench.observe(str(program), cases)):
        left = int(look["after"]["out"], 16) << 16 | lane(look["after"], "v3", 0)
        assert left == answer(x, name == "vrsql"), f"of {x}"


@pytest.mark.parametrize("name, constant", [("reciprocal", "RECIPROCALS"), ("root", "ROOTS")])
def test_divide_tables(name: str, constant: str) -> None:
    """The files of docs/data have the entries of the page's formula, which are those of the proved table."""
    entry, source = page_rules()[f"{name}_entry"], page("crates/rsp_divide/src/tables.rt")
    proved = re.findall(r"0x(\w{4})", source.partition(f" {constant}:")[2].partition("];")[0])
    assert proved == [f"{entry(index):04x}" for index in range(512)]
    assert page(f"docs/data/{name}.hex").splitlines() == proved


# The examples of the page, each in all lanes.


def number(cell: str) -> int:
    """A number of an example; `any` is one that doesn't matter."""
    return 0x1234 if cell == "any" else int(cell, 16)


@pytest.mark.parametrize("heading", ("## Multiplies", "## MPEG coefficients"))
def test_multiplies_of_page(heading: str, program: Path) -> None:
    """`then` goes on with the accumulator of the line above."""
    left, seen = "any", 0
    for text, *before, a, b, acc, result in (it for it in tables(PAGE, heading) if len(it) > 4):
        (name,) = re.findall(r"V[A-Z]+", text)
        assert len(before) == (heading != "## Multiplies")
        accs = [number(before[0] if before else left)] * 8
        one = case(name.lower(), [number(a)] * 8, [number(b)] * 8, accs, vs=int("even" not in text))
        (look,) = after(str(program), [one])
        assert ("then" in text) == (name in ("VMADH", "VMADL"))
        assert [f"{it % 2**48:012x}" for it in accumulators_of(look)] == [acc] * 8, text
        assert look["v3"] == result * 8, text
        left, seen = acc, seen + 1
    assert seen > 6


def test_clips_of_page(program: Path) -> None:
    rows = [*tables(PAGE, "### VCH, VCL, VCR")]
    for name, a, b, before, result, left in rows:
        flags, expected = (flag_registers(filter(None, cell.split(", "))) for cell in (before, left))
        one = case(name.lower(), [int(a)] * 8, [int(b)] * 8, flags=flags)
        (look,) = after(str(program), [one])
        assert look["v3"] == f"{int(result) % 65536:04x}" * 8, name
        assert {it: look[it] for it in CLEAR} == expected, name
    assert {"VADDC", "VCH", "VCL", "VCR"} == {it[0] for it in rows}


def test_divides_of_page(program: Path) -> None:
    rows = [it for it in tables(PAGE, "## Divide instructions") if len(it) == 6]
    for name, x, answer in (it[i : i + 3] for it in rows for i in (0, 3)):
        (look,) = after(str(program), [case(name.lower(), b=[int(x)] * 8)])
        assert look["out"] + look["v3"][:4] == answer, (name, x)
    assert len(rows) > 3
