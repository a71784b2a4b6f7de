"""The command in JavaScript of examples/js: an emulator of few instructions, one with a planted fault."""

import shlex
from pathlib import Path
from typing import Tuple

import pytest

from lib import TOP
from lib.campaigns import campaign, counts_of, results_of, output_of
from lib.packages import is_here

if is_here("python:numpy"):
    from rsp_conformance.campaign.generator import cases_of

pytestmark = [pytest.mark.needs("cc", "node", "python:numpy"), pytest.mark.usefixtures("library")]

COMMAND = shlex.join(["node", str(TOP / "examples/js/cases.mjs")])
CASES = 100


def wrong_shifts() -> int:
    """In how many of the first cases of SRA zeros that are shifted in show."""
    cases = cases_of("sra", "1", 0, CASES)[0]
    words = ((int(case["word"]), case["state"]["words"]) for case in cases)
    return sum(bool(word >> 6 & 31 and word >> 11 & 31 and r[word >> 16 & 31] >> 31) for word, r in words)


def test_cases(folder: Path) -> None:
    """LUI and SW agree, SRA differs where a sign is shifted in, and VADD isn't there."""
    output = output_of(folder, COMMAND, "--instructions", "lui,sw,sra,vadd", "--cases", CASES)
    counts = counts_of(folder)
    assert counts.pop("sra") == (CASES, wrong_shifts(), 0), output
    assert counts == dict.fromkeys(("lui", "sw", "vadd"), (CASES, 0, 0)), output
    assert f"reserved: VADD ({CASES} of {CASES} cases)" in output


def program_of(folder: Path, names: str) -> Tuple[str, int]:
    """What a program of some instructions says, and whether it differs."""
    output = output_of(
        folder, COMMAND, "--instructions", names, "--cases", 0, "--programs", 1, "--steps", 300
    )
    return output, results_of(folder)["program-0-1.json"]["differ"]


def test_programs(folder: Path) -> None:
    """A program of what agrees, and one that differs, cut down to its SRA."""
    assert program_of(folder / "agrees", "lui,sw")[1] == 0
    output, differ = program_of(folder / "differs", "lui,sw,sra")
    assert differ == 1 and "PROGRAM-g4-1-000000: step " in output
    output = campaign(COMMAND, "--case", "PROGRAM-g4-1-000000", folder / "differs").stdout
    assert "PROGRAM-g4-1-000000 is cut down to 1 step from address " in output and ": sra $" in output
