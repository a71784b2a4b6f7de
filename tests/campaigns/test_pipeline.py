"""Hazards of a pipeline (pipeline.c): programs that run without a pause find them, and no others do."""

import re
from pathlib import Path

import pytest

import rsp
from lib.campaigns import SOURCES, counts_of, programs_in, output_of
from rsp_conformance.campaign.build import built
from rsp_conformance.table import ROWS

pytestmark = [pytest.mark.needs("cc", "python:numpy"), pytest.mark.usefixtures("library")]
# Two lines of a disassembly: a word, and the next, which reads what it writes.
PAIRS = [r"lqv (\$v\d+)\[.*\nv.*, \1[\[\n]", r"vaddc .*\nvadd ",
         r"vmadh .*\nvmadh ", r"lw (\$\d+),.*\nsw \1,"]  # fmt: skip


def pipelined(planted: int, *flags: str) -> str:
    """The core with a hazard; with 0 without one."""
    return built("pipeline", [f"-DPLANTED={planted}", *flags], SOURCES / "pipeline.c")


@pytest.mark.parametrize("planted", [0, 1, 2])
def test_hazard(planted: int, folder: Path) -> None:
    """It is cut down to its instructions, the first of which is of another kind in each program."""
    output = output_of(folder, pipelined(planted), "--cases", 0, "--programs", 100)
    assert (counts_of(folder)["program"][1] > 0) == bool(planted), output
    assert re.search(r"Dependences that programs met: (.* [1-9]\d*[,.]){12}\n", output), output
    listings = [program["listing"] for program in programs_in(folder)]
    assert bool(listings) == bool(planted) and all(len(listing) <= 3 for listing in listings), listings
    assert planted != 2 or re.search(r"\d, \w+ .*, which shows at vmrg ", output), output


def test_dependences() -> None:
    """Each of these pairs is met, without a step between them, by 20 of 150 programs of all instructions."""
    from rsp_conformance.campaign.compare import Sides
    from rsp_conformance.campaign.random_programs import MEMORIES, program_of

    sides, counts = Sides(built("library"), bytes(MEMORIES)), [0] * len(PAIRS)
    for number in range(150):
        sides.begin(program_of([name for name in ROWS if name != "break"], "1", number)[0])
        text = "".join(f"{rsp.text(entry.word)}\n" for entry in sides.machine.iter_trace(1000))
        counts = [count + bool(re.search(pair, text)) for count, pair in zip(counts, PAIRS)]
    assert min(counts) >= 20, counts


@pytest.mark.parametrize("planted", [1, 2])
def test_hazard_with_pauses(planted: int, folder: Path) -> None:
    output_of(folder, pipelined(planted, "-DPAUSES"), "--cases", 0, "--programs", 100)
    assert counts_of(folder) == {"program": (100, 0, 0)}


def test_wrong_count(folder: Path) -> None:
    """It is a fault of the core."""
    output = output_of(folder, pipelined(0, "-DCOUNT=7"), "--cases", 0, "--programs", 1)
    assert re.search(r"PROGRAM-g4-1-000000: of \d+ steps it returned that 7 are done", output), output
    assert counts_of(folder) == {"program": (1, 1, 1)}
