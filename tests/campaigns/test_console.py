"""Campaigns of console:cen64: with a stand-in for cen64 that has planted faults, and with cen64 itself.

It fails if the monitor's image isn't that of its source, if a fault isn't named as what it is, if a crash or
a hang costs more than its case, or if cen64 differs otherwise than conformance/others/cen64.tsv says.
"""

import json
import shlex
from pathlib import Path
from typing import Iterator, Optional

import pytest

import programs
from lib import TOP
from lib.campaigns import campaign, counts_of, output_of
from lib.packages import is_here
from lib.pages import sentences
from lib.processes import run
from rsp_conformance.campaign import CampaignFault
from rsp_conformance.campaign.hashes import SOURCES as CAMPAIGN
from rsp_conformance.campaign.known import is_known, known_in
from rsp_conformance.campaign.protocol import UNSHOWN
from rsp_conformance.table import ROWS
from rsp_conformance.vectors import VECTORS

if is_here("python:numpy"):
    import numpy as np
    from rsp_conformance.campaign.compare import Sides, kinds_of
    from rsp_conformance.campaign.console import program_path
    from rsp_conformance.campaign.console_programs import Rsp
    from rsp_conformance.campaign.generator import END, cases_of, memories_of

pytestmark = [pytest.mark.needs("cc", "python:numpy"), pytest.mark.usefixtures("library")]


@pytest.mark.needs("mips-linux-gnu-gcc")
def test_image(folder: Path) -> None:
    """The image in the repository is the one that its source makes."""
    run(CAMPAIGN / "console/make", folder / "monitor.bin", check=True)
    assert (folder / "monitor.bin").read_bytes() == (CAMPAIGN / "console/monitor.bin").read_bytes()


@pytest.fixture
def stand_in(folder: Path, monkeypatch: pytest.MonkeyPatch) -> None:
    """A cen64 that is console.py."""
    python = shlex.join([str(TOP / "tools/python"), "campaigns.console"])
    (folder / "cen64").write_text(f'#!/bin/sh\nunset LD_PRELOAD\nexec {python} "$@"\n')
    (folder / "cen64").chmod(0o755)
    monkeypatch.setenv("PATH", str(folder), prepend=":")


def planted(name: str, count: int) -> int:
    """How many cases of an instruction the stand-in crashes or hangs at."""
    return int((cases_of(name, "1", 0, count)[0]["word"] >> 16 & 31 == 3).sum())


@pytest.mark.usefixtures("stand_in")
def test_faults_of_a_stand_in(folder: Path) -> None:
    output = output_of(
        folder / "out", "console:cen64", "--instructions", "xor,or,nor,and,sw,j", "--cases", 40
    )
    crashes, hangs = planted("nor", 40), planted("and", 40)
    assert 0 < crashes < 5 and 0 < hangs < 5
    faults = {"nor": (40, crashes, crashes), "and": (40, hangs, hangs)}
    counts = {"xor": (40, 40, 0), "or": (40, 0, 0), "sw": (40, 40, 0), "j": (40, 40, 0), **faults}
    assert counts_of(folder / "out") == counts, output
    lines = {line.split()[0]: line for line in output.splitlines()[1:]}
    assert "cen64 ended with status 3" in lines["NOR"] and "came to no BREAK" in lines["AND"]
    assert "$31: expected" in lines["XOR"] and "DMEM" in lines["SW"]
    expected, got = (int(it[:3], 16) for it in lines["J"].partition(": npc: expected ")[2].split(", got "))
    assert got == (expected + 16) % 4096


def test_no_cen64(folder: Path, monkeypatch: pytest.MonkeyPatch) -> None:
    ended = campaign("console:x", folder / "out")
    assert ended.returncode == 2 and "no console is called 'x'" in ended.stderr, ended.stderr
    monkeypatch.setenv("PATH", str(folder))
    with pytest.raises(CampaignFault, match="there is no cen64: apt-get install cen64"):
        program_path("cen64")


@pytest.mark.needs("cen64")
@pytest.mark.parametrize("name", ROWS)
def test_cen64(name: str) -> None:
    """In ten cases of each instruction cen64 differs in what is known, and in nothing else."""
    known = known_in(TOP / "conformance/others/cen64.tsv")
    cases, choices = cases_of(name, "1", 0, 10)
    expected, ends = np.zeros(10, END), np.zeros(10, END)
    sides = Sides("console:cen64", memories_of(name, "1").tobytes())
    differ = sides.run(cases, expected, ends) & (ends["status"] != UNSHOWN)
    kinds = kinds_of(
        expected[differ], ends[differ], {choice: holds[differ] for choice, holds in choices.items()}
    )
    assert not [kind for kind in kinds if not is_known(kind, name, known)]


@pytest.mark.needs("cen64")
def test_stored_programs() -> None:
    """As many stored programs pass on cen64 as OTHERS says. The others are of instructions on which it
    differs, or move SP registers: those of BREAK and MFC0.
    """
    found = {path: [*failed_in(path)] for path in sorted(VECTORS.glob("programs/*.json"))}
    passed = sum(it is None for them in found.values() for it in them)
    every = sum(map(len, found.values()))
    assert f"{passed} of the {every} stored programs" in sentences("conformance/OTHERS.md")
    known = {who for who, _ in known_in(TOP / "conformance/others/cen64.tsv")}
    assert {path.stem for path, them in found.items() if any(them)} <= known | {"BREAK", "MFC0"}


def failed_in(manifest: Path) -> Iterator[Optional[str]]:
    """The first difference of each program of a manifest."""
    for program in json.loads(manifest.read_text())["programs"]:
        yield next(programs.check(Rsp(), program, manifest.parent), None)


@pytest.mark.needs("cen64")
def test_programs(folder: Path) -> None:
    """Programs agree on instructions on which cen64 agrees, and LWU, which does nothing there, is named."""
    words = ("console:cen64", "--cases", 0, "--programs", 20)
    output_of(folder / "agrees", *words, "--instructions", "vmadh,vmudn,vch,vrcpl,sqv,ldv,lb,sb,addu,beq,j")
    assert counts_of(folder / "agrees") == {"program": (20, 0, 0)}
    output = output_of(folder / "differs", *words, "--instructions", "lwu,addu,vadd,ori", "--steps", 60)
    assert counts_of(folder / "differs") == {"program": (20, 20, 0)}
    assert "step" in output and ", lwu $" in output
