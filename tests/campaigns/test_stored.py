"""Test vectors in a campaign (--stored): each kind of adapter runs their cases and programs."""

import re
import shlex
from pathlib import Path

import pytest

from lib import TOP
from lib.campaigns import EMULATOR, campaign, core_with, counts_of, output_of
from rsp_conformance.campaign.build import built
from rsp_conformance.vectors import VECTORS, entries_in, manifest_in

pytestmark = [pytest.mark.needs("cc", "python:numpy"), pytest.mark.usefixtures("library")]

NAMES = ("MTC0", "MFC0", "VADD", "LTV", "JAL", "SQV")
STORED = ("--stored", VECTORS, "--instructions", ",".join(NAMES).lower())
COUNTS = {name.lower(): (len(entries_in(VECTORS, name)), 0, 0) for name in NAMES}
PROGRAMS = sum(len(manifest_in(VECTORS, name)["programs"]) for name in NAMES)


@pytest.mark.parametrize(
    "emulator", ["", "python:emulator:Machine", EMULATOR], ids=["object", "python", "command"]
)
def test_library_agrees(emulator: str, folder: Path) -> None:
    """Each adapter is given all cases, also those whose DMA is past a campaign's RDRAM, and all programs."""
    output = output_of(folder, emulator or built("library"), *STORED)
    assert counts_of(folder) == {**COUNTS, "program": (PROGRAMS, 0, 0)}, output
    assert " not shown" not in output.splitlines()[-1]


@pytest.mark.parametrize("bug, name", [(2, "MTC0-051"), (104, "MTC0-021"), (19, "MFC0-007"), (6, "BEQ-021")])
def test_planted_fault(bug: int, name: str, folder: Path) -> None:
    """DMAs past the end of RDRAM and past 2^24, in cases; a semaphore and a branch in a slot, in programs."""
    words = (core_with(bug, folder), "--stored", VECTORS, "--instructions", "mtc0,mfc0,beq")
    output_of(folder / "out", *words)
    text = "".join(path.read_text() for path in (folder / "out").glob("*-*.json"))
    assert f"{name} (" in text


def test_known(folder: Path) -> None:
    """A list of known differences holds for vectors, too."""
    words = (core_with(104, folder), "--stored", VECTORS, "--instructions", "mtc0", "--here")
    assert campaign(*words, "--write-known", folder / "known.tsv", folder / "1").returncode == 0
    assert campaign(*words, "--known", folder / "known.tsv", folder / "2").returncode == 0


def test_adapter_without_programs(folder: Path) -> None:
    """It is given the cases that need no memory, and what it wasn't given is counted."""
    output = output_of(folder, f"hex:{EMULATOR} hex", *STORED)
    assert counts_of(folder) == {**COUNTS, "program": (PROGRAMS, 0, 0)}
    assert re.search(rf"(?m)^SQV +0 +{COUNTS['sqv'][0]} +0", output), output
    assert re.search(rf"(?m)^PROGRAM +0 +{PROGRAMS} +0", output), output


# An emulator that crashes at a word.
CRASHES = """import os
from campaigns.emulator import Machine
class Mine(Machine):
    def run(self, steps):
        if self.memory(1, self.get().pc, 4).hex() == "WORD":
            os.abort()
        return super().run(steps)
"""


@pytest.mark.parametrize("name, word", [("VADD-007", ""), ("VADD-1", "VADD-1.imem")])
def test_fault(name: str, word: str, folder: Path) -> None:
    """A case, or a program, at which an adapter crashes is named, and the others are run."""
    first = (
        (VECTORS / f"programs/{word}").read_bytes()[:4].hex()
        if word
        else entries_in(VECTORS, "VADD")[7]["word"]
    )
    (folder / "mine.py").write_text(CRASHES.replace("WORD", first))
    words = ("python:mine:Mine", "--stored", VECTORS, "--instructions", "vadd", "--here", "out")
    ended = campaign(*words, cwd=folder)
    assert ended.returncode == 1 and f"{name}: ended by SIGABRT" in ended.stdout, ended.stdout + ended.stderr
    assert counts_of(folder / "out")["vadd"][0] == COUNTS["vadd"][0]


def test_instruction_that_is_missing(folder: Path) -> None:
    node = shlex.join(["node", str(TOP / "examples/js/cases.mjs")])  # a path that may have a blank
    output = output_of(folder, node, "--stored", VECTORS, "--instructions", "vadd,sra")
    assert f"VADD ({COUNTS['vadd'][0]} of {COUNTS['vadd'][0]} cases)" in output
