"""What a campaign prints: names of words, operands, instructions that an emulator lacks, and its progress."""

import argparse
import os
import pty
import re
import subprocess
from concurrent.futures import Future
from pathlib import Path
from typing import Any, List

import pytest

import rsp
from lib.campaigns import agreed, campaign, counts_of, faulty, output_of, results_of
from lib.packages import is_here
from lib.pages import block_with
from lib.processes import run, succeeds
from rsp_conformance import WITHOUT_LIBRARY
from rsp_conformance.campaign import workers
from rsp_conformance.campaign.protocol import BATCH, SHOWN, Result
from rsp_conformance.campaign.report import text_table
from rsp_conformance.campaign.supervise import nothing
from rsp_conformance.table import ROWS, ignored_bits, row_of

if is_here("python:numpy"):
    import numpy as np
    from rsp_conformance.campaign.compare import kinds_of, named
    from rsp_conformance.campaign.generator import END, cases_of, memories_of
    from rsp_conformance.campaign.operands_read import in_brief
    from rsp_conformance.campaign.batches import Cases, check_cases

pytestmark = [pytest.mark.needs("cc", "python:numpy"), pytest.mark.usefixtures("library")]

CASES = 60  # of SB
IGNORED = r"\.word 0x[0-9a-f]{8} \(SRA, with bits that are ignored\)"


@pytest.mark.parametrize(
    "word, text",
    [
        (0x00326A03, ".word 0x00326a03 (SRA, with bits that are ignored)"),
        (0x00126A03, "sra $13, $18, 8"),
        (0x4C000000, ".word 0x4c000000"),
        (0x1000FFFE, ".word 0x1000fffe (BEQ)"),
    ],
)
def test_name_of_a_word(word: int, text: str) -> None:
    assert named(word, 0) == text


@pytest.mark.needs("git")
@pytest.mark.parametrize("command, status", [("campaign mine.so out --here", 2), ("library", 1)])
def test_vectors_alone(command: str, status: int, folder: Path) -> None:
    """What the README packs has no library. The message says where it is."""
    pack = block_with("conformance/README.md", "git archive").replace("-o ~/vectors.tar.gz", "").strip()
    succeeds("sh", "-c", f"{pack} | tar -x -C '{folder}'")
    ended = run("sh", "-c", f"conformance/{command}", cwd=folder)
    assert ended.returncode == status and ended.stdout.startswith(f"{command.split()[0]}: {WITHOUT_LIBRARY}")


@pytest.mark.parametrize("name", ROWS)
def test_instruction_of_a_word(name: str) -> None:
    row = ROWS[name]
    assert row_of(row.value) == row and row_of(row.value | ignored_bits(row)) == row


def test_difference_of_a_word_with_ignored_bits(folder: Path) -> None:
    """In cases and in programs, also in one that is cut down, and shown again."""
    words = ("python:emulator:WrongShift", "--instructions", "sra")
    output = output_of(folder, *words, "--cases", 200, "--programs", 1)
    assert re.search(rf"SRA-g2-1-\d+ \({IGNORED} at \w+; ", output), output
    assert re.search(rf"PROGRAM-g4-1-000000: step \d+, {IGNORED}: \$\d+: expected", output), output
    assert results_of(folder)["program-0-1.json"]["kinds"]["SRA"][0] == 1
    output = campaign(*words, "--case", "PROGRAM-g4-1-000000", folder).stdout
    pattern = rf"PROGRAM-g4-1-000000 is cut down to 1 step from address \w+:\n\w+: {IGNORED}\n"
    assert re.search(pattern, output), output


def test_operands_of_flags() -> None:
    """They are those of the lowest lane whose bit differs, and the bit counts as one of its register."""
    state = rsp.State(vectors=[[16 * register + lane for lane in range(8)] for register in range(32)])
    (word,) = rsp.assemble("vch $v3, $v1, $v2[2h]\n")
    assert in_brief("vch", word, state, "vcc: expected 0a00, got 0000") == "; lane 1, a 0011, b 0022"
    ends = np.zeros(2, END)
    ends[1]["state"]["flags"]["clip"] = 10
    assert kinds_of(ends[:1], ends[1:], {}) == {"VCC": (1, 0)}


def test_instruction_that_is_not_there(folder: Path) -> None:
    """It is counted apart, and named first. If only some cases are reserved, they differ."""
    emulator = "python:emulator:Without"
    output = output_of(folder, emulator, "--instructions", "add,vadd,sra", "--cases", 60)
    why = "because the emulator answers that the word is reserved"
    first = f"Not there, {why}: VADD (60 of 60 cases). Programs leave them out by --without."
    assert output.startswith(f"{first}\n") and first in (folder / "table.html").read_text()
    counts = counts_of(folder)
    assert (counts["add"], counts["vadd"]) == ((60, 0, 0), (60, 0, 0)) and 9 < counts["sra"][1] < 51
    last = f"120 cases and 0 programs: {counts['sra'][1]} differ, 0 of them by faults, 60 not there; "
    assert f"\n{last}" in output
    assert re.search(r"(?m)^SRA .*: status: expected 0, got 105", output), output
    assert re.search(r"(?m)^VADD +0 +0 +0 +0 +0$", output), output
    output = campaign(emulator, "--case", "VADD-g2-1-000003..000009").stdout
    assert output == "7 done, 0 differ, 0 not shown, 7 not there\n"
    case, counts_line = campaign(emulator, "--case", "VADD-g2-1-000003").stdout.splitlines()
    form = rf"VADD-g2-1-000003 \(vadd .* at \w+\): not there, {why} \(status 105\)"
    assert re.fullmatch(form, case) and counts_line == "1 done, 0 differ, 0 not shown, 1 not there", case


def result_of(name: str, **more: object) -> Result:
    """The result of twenty cases of an instruction."""
    return {**nothing(), "instruction": name, "count": 20, "size": 20, **more}


def test_instructions_that_are_not_there() -> None:
    """Those with the same count of missing cases are named together."""
    missing = {"lb": 20, "lh": 20, "vadd": 20, "sra": 7, "add": 0}
    lines = text_table([result_of(name, missing=count) for name, count in missing.items()], {}).splitlines()
    assert "reserved: LB,LH,VADD (20 of 20 cases each), SRA (7 of 20 cases). " in lines[0]
    assert lines[-1].startswith("33 cases and 0 programs: 0 differ, 0 of them by faults, 67 not there; ")


@pytest.mark.parametrize("first", ["ADD-g2-1-000000: boom", "ADD-g2-1-000000: $5: expected"])
def test_fault_that_is_given_up(first: str) -> None:
    """The table says once why the emulator failed, whether or not its first difference is a fault."""
    kinds, faults = {"pc": [1, first], "fault": [8, "ADD-g2-1-000001: boom"]}, [[1, 1, "boom"]] * 8
    result = result_of("add", kinds=kinds, faults=faults, **{"given up": "boom"})
    (_, line, _) = text_table([result], {}).splitlines()
    assert line.count("boom") == 1 and "(given up after 9 faults" in line


def test_without(folder: Path) -> None:
    """Instructions are left out of cases and of programs."""
    words = ("python:emulator:Machine", "--instructions", "add,sub,vadd", "--without", "VADD,sub")
    output = output_of(folder, *words, "--cases", 20, "--programs", 1)
    assert counts_of(folder) == agreed("add", 20, program=(1, 0, 0)), output
    assert results_of(folder)["campaign.json"]["instructions"] == ["add"]


def odd_stores() -> int:
    """The number of the first cases of SB that store a register with an odd number."""
    return int((cases_of("sb", "1", 0, CASES)[0]["word"] >> 16 & 1).sum())


@pytest.mark.parametrize("kind", ["object", "python"])
def test_bytes_that_differ(kind: str, folder: Path) -> None:
    """They are shown with their address, in the table as by --case. Later cases have unchanged memories."""
    emulator = faulty(5) if kind == "object" else "python:emulator:WrongStore"
    output = output_of(folder, emulator, "--instructions", "sb", "--cases", CASES)
    assert counts_of(folder) == {"sb": (CASES, odd_stores(), 0)}
    found = re.search(r"(?m)(SB-g2-1-\d+) .*: (DMEM 000: expected [0-9a-f]{32}, got [0-9a-f]{32})$", output)
    assert found and "bytes of memories" not in output, output
    assert f"\n  {found[2]}\n" in campaign(emulator, "--case", found[1]).stdout


def test_differences_that_are_shown() -> None:
    """Of a task as many as of a batch, because to show one takes longer than to run a thousand cases."""
    cases = Cases(faulty(5), "sb", "1", memories_of("sb", "1"))
    batches = check_cases(cases, 0, 2 * BATCH, np.zeros(BATCH, END))
    assert [len(batch.get("shown", [])) for batch in batches] == [0, SHOWN, 0]


def test_tasks_that_wait(monkeypatch: pytest.MonkeyPatch) -> None:
    """AHEAD at most, and each that ends is replaced by one, because a task that waits takes memory."""
    started: List[Any] = []

    def start(*call: Any) -> "Future[Result]":
        started.append(call)
        ended: "Future[Result]" = Future()
        ended.set_result({})
        return ended

    monkeypatch.setattr(workers, "AHEAD", 2)
    monkeypatch.setattr(workers.Threads, "start", start)
    args = argparse.Namespace(emulator="", seed="1", scheduler="", workers=1)
    found = workers.results(args, [("add", 0, 1)] * 5, {})
    assert [len(started) for _ in found] == [2, 3, 4, 5, 5]


def test_progress(folder: Path) -> None:
    """On a terminal a line says how far a campaign is. In a file there is none in the first minute."""
    words = ("python:emulator:Machine", "--instructions", "add", "--cases", 40, "--size", 20, "--here")
    assert campaign(*words, folder / "file").stderr == ""
    terminal, end = pty.openpty()
    assert campaign(*words, folder / "terminal", stderr=end, stdout=subprocess.DEVNULL).returncode == 0
    os.close(end)
    output = os.read(terminal, 65536).decode()
    os.close(terminal)
    line = r"\r{} of 2 tasks, \d+ cases/s, 0 differ, \d+ s left "
    assert re.fullmatch(line.format(1) + line.format(2) + r"\r\n", output), output
