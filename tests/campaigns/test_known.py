"""A campaign's status, and the lists of differences that are known (--known, --write-known).

It fails if a campaign ends with 0 though something differs that nobody expects, or names as new what is
known.
"""

import re
from pathlib import Path

import pytest

from lib.campaigns import campaign, core_with, faulty
from rsp_conformance.campaign.known import HEAD, is_known

pytestmark = [pytest.mark.needs("cc", "python:numpy"), pytest.mark.usefixtures("library")]


def table(*lines: str) -> str:
    return "".join(line.replace(" | ", "\t") + "\n" for line in (HEAD, *lines))


def test_core_with_a_planted_fault(folder: Path) -> None:
    """VMACF clamps too early (bug 24): the status is 1 until all that differs is known, also of a case."""
    words = (
        core_with(24, folder),
        "--instructions",
        "vmacf,vadd",
        "--cases",
        20000,
        "--here",
        folder / "out",
    )
    ended, known = campaign(*words), folder / "known"
    case = re.search(r"(?m)^VMACF .*  (VMACF-g2-1-\d+) .*: expected", ended.stdout)
    assert case and ended.returncode == 1, ended.stdout
    assert campaign(*words, "--write-known", known).returncode == 0
    head, *lines = known.read_text().splitlines()
    assert head == HEAD and lines, lines
    assert all(re.fullmatch(r"VMACF\t[a-z ]+\tto be given; VMACF-g2-1-\d+", line) for line in lines)
    ended = campaign(*words, "--known", known)
    differ = re.search(r" (\d+) differ, .*, (\d+) known; ", ended.stdout)
    assert differ and ended.returncode == 0 and differ[1] == differ[2] != "0", ended.stdout
    for more, status in (((), 1), (("--known", known), 0)):
        assert campaign(words[0], "--case", case[1], *more).returncode == status

    known.write_text(
        table("* | c8 | an RDP", "VADD | choice: MPEG row | no such thing", "VOR | pc | it isn't run")
    )
    ended = campaign(*words, "--known", known)
    gone = "Known, and doesn't occur: *, c8.\nKnown, and doesn't occur: VADD, choice: MPEG row.\n"
    assert ended.returncode == 1 and ended.stdout.startswith(gone) and "VOR" not in ended.stdout
    assert re.search(r"(?m)^VMACF .*  VMACF-g2-1-", ended.stdout), ended.stdout
    known_before = known.read_text()
    refused = campaign(*words, "--write-known", known)
    assert refused.returncode == 2 and "is there already: name it by --known, too" in refused.stderr
    assert known.read_text() == known_before
    assert campaign(*words, "--known", known, "--write-known", known).returncode == 0
    assert "VOR\tpc\tit isn't run\n" in known.read_text() and "c8" not in known.read_text()


def test_missing_instruction(folder: Path) -> None:
    """It is a difference. What the table shows first of an instruction says if all that differs is known."""
    words = ("python:emulator:Without", "--instructions", "add,vadd,sra", "--cases", 60, "--here")
    known = ("--known", folder / "known", folder / "out")
    (folder / "known").write_text(table("SRA | status | half of its words"))
    ended = campaign(*words, *known)
    assert ended.returncode == 1 and re.search(
        r"(?m)^SRA .*  known: SRA-g2-1-\d+", ended.stdout
    ), ended.stdout
    (folder / "known").write_text(table("VADD | not there | it isn't written"))
    ended = campaign(*words, *known)
    assert ended.returncode == 1 and re.search(r"(?m)^SRA .*  SRA-g2-1-\d+", ended.stdout), ended.stdout
    with open(folder / "known", "a") as lines:
        lines.write("SRA\tstatus\thalf of its words\n")
    assert campaign(*words, *known).returncode == 0


def test_programs(folder: Path) -> None:
    """A program is known by the instruction at which it differs."""
    words = (faulty(2), "--cases", 0, "--programs", 60, "--seed", "3", "--here", folder / "out")
    (folder / "known").write_text(table("PROGRAM | VXOR | after LQV"))
    statuses = [campaign(*words, *more).returncode for more in ((), ("--known", folder / "known"))]
    assert statuses == [1, 0]


@pytest.mark.parametrize(
    "kind, lines, expected",
    [
        ("VCO; pc", ["VADD | VCO | x"], False),
        ("VCO; pc", ["VADD | VCO | x", "* | pc | x"], True),
        ("VCO; pc", ["VOR | VCO | x", "* | pc | x"], False),
        (
            "pc; choice: link modulo 4096; choice: branch in a delay slot",
            ["* | choice: link modulo 4096 | x"],
            True,
        ),
        ("pc; choice: link modulo 4096", ["VADD | choice: branch in a delay slot | x"], False),
        ("pc; choice: link modulo 4096", ["VADD | pc | x"], True),
        ("fault", ["VADD | pc | x"], False),
    ],
)
def test_kinds(kind: str, lines: "list[str]", expected: bool) -> None:
    known = {tuple(line.split(" | ")[:2]): "x" for line in lines}
    assert is_known(kind, "vadd", known) == expected  # type: ignore[arg-type]


WRONG = {
    "": "line 1: ''",
    "VADD\tpc\treason\n": "line 1: 'VADD\\tpc\\treason'",
    table("VADD | pc"): "line 2: 'VADD\\tpc'",
    table("VADD | pc | "): "line 2: 'VADD\\tpc\\t'",
    table("VADD | pc | a", "VADDX | pc | a"): "line 3: 'VADDX\\tpc\\ta'",
    table("VADD | c16 | \x1b]0;a\x07"): "line 2: 'VADD\\tc16\\t\\x1b]0;a\\x07'",
    table("PROGRAM | pc | a"): "line 2: 'PROGRAM\\tpc\\ta'",
}


@pytest.mark.parametrize("text", WRONG)
def test_files_that_are_no_list(text: str, folder: Path) -> None:
    (folder / "known").write_text(text)
    ended = campaign(faulty(1), folder / "out", "--known", folder / "known")
    sentence = f"campaign: argument --known: {folder}/known, {WRONG[text]} isn't instruction, differs, reason"
    assert ended.returncode == 2 and ended.stderr == f"{sentence} of a difference\n", ended.stderr
    assert not (folder / "out").exists()
