"""The library agrees with itself as each kind of emulator; and folders with results of an earlier run."""

import glob
import signal
import time
from functools import partial
from pathlib import Path

import pytest

from lib import TOP
from lib.campaigns import EMULATOR, FEW, agreed, campaign, counts_of, output_of, results_of
from rsp_conformance.campaign.build import built

pytestmark = [pytest.mark.needs("cc", "python:numpy"), pytest.mark.usefixtures("library")]

KINDS = {
    "object": ("", FEW, 1500),
    "python": ("python:emulator:Machine", "add,vadd,mtc0", 60),
    "command": (EMULATOR, "beq,sqv,mtc0", 40),
}


@pytest.mark.parametrize("kind", KINDS)
def test_library_agrees_with_itself(kind: str, folder: Path) -> None:
    """A second run runs no task again."""
    emulator, names, cases = KINDS[kind]
    words = (emulator or built("library"), "--instructions", names, "--cases", cases, "--programs", 3)
    output = output_of(folder / "out", *words)
    assert counts_of(folder / "out") == agreed(names, cases, program=(3, 0, 0)), output
    assert (folder / "out/table.txt").read_text() == output
    assert "<table>" in (folder / "out/table.html").read_text()
    before = {path: path.stat().st_mtime_ns for path in folder.glob("out/*-*.json")}
    output_of(folder / "out", *words)
    assert {path: path.stat().st_mtime_ns for path in folder.glob("out/*-*.json")} == before


# A module of an emulator that knows how often it was started, and the process of its campaign.
STARTED = """import os, time
from campaigns.emulator import WrongShift as Mine
with open(f"{os.path.basename(os.getcwd())}.starts", "ab", 0) as file:
    file.write(b"x")
    start = file.tell()
campaign = int(open(f"/proc/{os.getppid()}/stat").read().rpartition(")")[2].split()[1])
"""
STOP_IN_TASKS = "if start == 4: os.kill(campaign, {})\nif start in (3, 4): time.sleep(999)\n"
# The signal, and the status and the errors of the campaign.
STOPS = {
    "killed": (9, -9, ""),
    "Ctrl-C": (2, 130, "campaign: stopped; started again, it continues\n"),
}


@pytest.mark.parametrize("stop", STOPS)
def test_results_after_a_stop(stop: str, folder: Path) -> None:
    """A campaign that was stopped leaves no process. It continues, and has the results of one process."""
    number, *expected = STOPS[stop]
    starts = folder / f"{folder.name}.starts"
    (folder / "mine.py").write_text(STARTED + STOP_IN_TASKS.format(number))
    words = ("python:mine:Mine", "--instructions", "add,beq,sqv,sra,vadd", "--cases", 40, "--workers", 2)
    heeds = partial(signal.signal, signal.SIGINT, signal.SIG_DFL)
    ended = campaign(*words, "out", cwd=folder, preexec_fn=heeds)
    assert [ended.returncode, ended.stderr, starts.stat().st_size] == [*expected, 4]
    while glob.glob(f"/proc/[0-9]*/cwd/{starts.name}"):
        time.sleep(0.1)
    for out in (["out"], ["--here", "whole"]):
        assert campaign(*words, *out, cwd=folder).returncode == 1
    results, whole = results_of(folder / "out"), results_of(folder / "whole")
    assert results == whole and results["sra-0-40.json"]["differ"]


OTHER = {
    ("--seed", "2"): "its seed is 1",
    ("--cases", "41"): "its cases are 40",
    ("--instructions", "beq,bne"): "its instructions are beq",
    ("--files", __file__): "the emulator's files have changed since, or --files names others",
}


def core_in(folder: Path, name: str) -> None:
    """An emulator whose module mine.py imports a class of this name."""
    (folder / "mine.py").write_text("from core import Mine\n")
    (folder / "core.py").write_text(f"from campaigns.emulator import {name} as Mine\n")


MINE = ("python:mine:Mine", "--instructions", "add", "--cases", 20, "--here")


def test_results_of_an_earlier_run(folder: Path) -> None:
    """They count although a file has changed that nobody has named, and the output names the others."""
    core_in(folder, "Machine")
    first = campaign(*MINE, "out", cwd=folder).stdout
    core_in(folder, "Forgets")
    again = campaign(*MINE, "out", cwd=folder).stdout
    expected = (
        "Not run again: 1 of 1 task, because these files of the emulator haven't changed since an earlier "
    )
    expected += f"run: {folder}/mine.py. If it has others, name them by --files.\n"
    assert "20 cases and 0 programs: 0 differ" in first and again == first + expected


@pytest.mark.parametrize("named", ["core.py", "../more"])
def test_file_that_has_changed(named: str, folder: Path) -> None:
    """The emulator is another one if a file has changed that --files names, or that is in a named folder."""
    (folder / "more/below/__pycache__").mkdir(parents=True)
    (folder / "work").mkdir()
    core_in(folder / "work", "Machine")
    words = (*MINE, "--files", named, "out")
    assert campaign(*words, cwd=folder / "work").returncode == 0
    (folder / "more/below/__pycache__/file").write_text("of no emulator")
    assert "Not run again: 1 of 1 task" in campaign(*words, cwd=folder / "work").stdout
    core_in(folder / "work", "Forgets")
    (folder / "more/below/file").write_text("of the emulator")
    ended = campaign(*words, cwd=folder / "work")
    assert ended.returncode == 2 and "the emulator's files have changed since" in ended.stderr


def test_folder_of_another_campaign(folder: Path) -> None:
    """It is refused with the difference and with what to do. The task of a result that isn't whole is run
    again.
    """
    words = (built("library"), "--instructions", "beq", "--cases", 40)
    output_of(folder, *words)
    for other, why in OTHER.items():
        ended = campaign(*words, *other, "--here", folder)
        how = "take another folder for OUT, or delete this one"
        expected = f"campaign: {folder} holds another campaign: {why}; {how}\n"
        assert (ended.returncode, ended.stderr) == (2, expected)
    whole = results_of(folder)
    (folder / "beq-0-40.json").write_text("{")
    output_of(folder, *words)
    assert results_of(folder) == whole


def test_definitions(folder: Path) -> None:
    """The definitions are an emulator of a campaign, in cases and in programs, and nothing differs."""
    few = ("--instructions", "VADD,SB,MTC0", "--cases", 500, "--programs", 2, "--steps", 100, "--workers", 1)
    ended = campaign("tools/define cases", folder / "out", *few, "--here", cwd=TOP)
    assert (
        ended.returncode == 0 and "1500 cases and 2 programs: 0 differ, 0 of them by faults" in ended.stdout
    )
