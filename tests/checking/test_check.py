"""The command ./check: proofs about the library's machine code, planted faults, and what it refuses.

A test fails if a proof does, if a planted fault is proved or refused for another reason, or if what can't be
checked counts as passed.
"""

import json
import os
import platform
import random
import subprocess
from pathlib import Path
from typing import Any, List

import pytest

from checking import LACKS
from checking import __main__ as command
from checking.elf import BadLibrary, Elf
from checking.report import FAILED, PASSED, Outcome, timed
from lib import TOP

if LACKS and os.environ.get("CI") != "true":
    pytest.skip("; ".join(LACKS), allow_module_level=True)

from checking.cases import DIVIDES, ELEMENTS, PATTERNS  # noqa: E402
from checking.errors import Stuck  # noqa: E402
from checking.executor.addresses import Solved  # noqa: E402
from checking.library import Library  # noqa: E402
from checking.parts import Machine, check_plant, check_trials  # noqa: E402
from checking.planted import PLANTS, Plant  # noqa: E402
from checking.workers import SECONDS, Job, begin, work  # noqa: E402
from definitions.unknown.effect import definitions  # noqa: E402
from definitions.unknown.solver import Solver, Unanswered  # noqa: E402

COMMIT = subprocess.run(["git", "rev-parse", "HEAD"], cwd=TOP, capture_output=True, text=True).stdout.strip()
pytestmark = [
    pytest.mark.skipif(platform.machine() != "x86_64", reason="the processor isn't x86-64"),
    pytest.mark.xdist_group("checking"),
    pytest.mark.timeout(900),
]
AARCH64 = 183


@pytest.fixture(scope="module")
def machine(library: Path) -> Machine:
    return Machine(str(library / "libbrsp.so"), Solver(SECONDS))


def test_drawn(machine: Machine) -> None:
    """One instruction whole, six with an element, a divide with an element and some registers; then what
    these proofs executed is tried on the processor."""
    draw = random.Random(COMMIT)
    names = [name for name in definitions().computing if name not in DIVIDES]
    whole, *others = draw.sample(names, 7)
    for element in ELEMENTS:
        machine.check(whole, element, PATTERNS)
    for name in others:
        machine.check(name, draw.choice(ELEMENTS), PATTERNS)
    machine.check(draw.choice(DIVIDES), draw.choice(ELEMENTS), [draw.choice(PATTERNS)])
    assert "forms of" in check_trials(machine.forms.found, COMMIT)[0]


def test_states(machine: Machine) -> None:
    """An instruction from all other states: pc and npc unknown, halted, single step, histories."""
    assert "halted" in machine.check_states("vadd")


def test_copies(machine: Machine) -> None:
    """All copies of the loop that calls on a machine reach, and two steps in one call."""
    draw = random.Random(COMMIT)
    assert machine.copies().count() == [
        "6 of 10 copies of the loop are executed; the others are those of sessions"
    ]
    machine.copies().prove(draw.choice([name for name in definitions().computing if name not in DIVIDES]))
    machine.check_pair(draw)


@pytest.mark.parametrize("plant", PLANTS, ids=lambda plant: plant.title)
def test_planted(machine: Machine, plant: Plant, folder: Path) -> None:
    outcome = timed(plant.title, lambda: check_plant(machine, plant, str(folder)))
    assert outcome.result == PASSED, outcome.notes


def test_operands(machine: Machine, folder: Path) -> None:
    """What is said of psubsw in place of paddsw: operands, and what the library and the definitions give."""
    plant = PLANTS[0]
    *_, replay = check_plant(machine, plant, str(folder))
    assert replay.startswith("word 4b2208d0 with v1_0 = ") and replay.endswith(" by the definitions")


def test_no_answer(machine: Machine, monkeypatch: pytest.MonkeyPatch) -> None:
    """If Z3 doesn't answer, nothing is proved, and the condition's file is named."""
    monkeypatch.setattr(machine, "solver", Solver())
    monkeypatch.setattr(machine.solver, "holds", lambda *it: Unanswered("Z3 gives no answer", "here.smt2"))
    outcome = timed("vadd", lambda: machine.check("vadd", 0, PATTERNS))
    assert outcome.result == FAILED and outcome.notes[0].endswith(
        "Z3 gives no answer; the condition is in here.smt2"
    )


def test_unknown_is_no_answer(monkeypatch: pytest.MonkeyPatch) -> None:
    import z3

    monkeypatch.setattr(z3.Solver, "check", lambda *it: z3.unknown)
    with pytest.raises(Stuck, match="doesn't answer"):
        Solved().is_possible(z3.Bool("x"))


def test_conditions(machine: Machine, folder: Path) -> None:
    """--smt2 writes what is asked."""
    solver = Solver(folder=str(folder))
    written = Machine(machine.path, solver)
    written.check("vmrg", 0, PATTERNS)
    texts = [path.read_text() for path in folder.glob("*.smt2")]
    assert len(texts) > 20 and all(text.startswith("(set-logic QF_BV)\n") for text in texts)


# The command's words, and libraries that can't be checked


def run(monkeypatch: pytest.MonkeyPatch, *words: str) -> int:
    """Runs the command without the part about the definitions."""
    for part in ("check_vectors", "check_scripts"):
        monkeypatch.setattr(command, part, lambda *it: [])
    return command.main(words)


def test_other_processor(monkeypatch: pytest.MonkeyPatch, capsys: Any) -> None:
    monkeypatch.setattr(platform, "machine", lambda: "aarch64")
    assert run(monkeypatch, "--json") == 3
    out, errors = capsys.readouterr()
    found = json.loads(out)
    assert (found["passed"], found["failed"], found["skipped"]) == (2, 0, 1)
    assert "the processor is aarch64, and only x86-64 is known" in errors
    assert errors.endswith("2 passed, 0 failed, 1 skipped\nThe machine code wasn't checked.\n")


def test_without_modules(monkeypatch: pytest.MonkeyPatch, capsys: Any) -> None:
    monkeypatch.setattr(command, "LACKS", ["there is no module z3 of Python"])
    assert run(monkeypatch) == 3 and "skipped: the machine code" in capsys.readouterr().out


@pytest.mark.parametrize(
    "words, said", ((["vfoo"], "no computing instruction 'vfoo'"), (["--fast"], "--fast"))
)
def test_wrong_words(words: List[str], said: str, capsys: Any) -> None:
    with pytest.raises(SystemExit) as ended:
        command.main(words)
    error = capsys.readouterr().err
    assert ended.value.code == 2 and said in error and error.count("\n") == 1


def other_machine(data: bytearray) -> None:
    data[18:20] = AARCH64.to_bytes(2, "little")


def other_name(data: bytearray) -> None:
    at = data.index(b"\0brsp_step\0")
    data[at + 1 : at + 10] = b"brsp_leap"


def no_headers(data: bytearray) -> None:
    data[32:40] = bytes([255] * 8)


@pytest.mark.parametrize(
    "change, said",
    (
        (other_machine, "it is no shared object for x86-64"),
        (other_name, "it doesn't export brsp_step"),
        (no_headers, "its headers can't be read"),
        (lambda data: data.clear(), "it is no ELF file of 64 bits"),
    ),
)
def test_bad_library(library: Path, folder: Path, change: Any, said: str) -> None:
    data = bytearray((library / "libbrsp.so").read_bytes())
    change(data)
    (folder / "bad.so").write_bytes(data)
    with pytest.raises(BadLibrary, match=said):
        Library(str(folder / "bad.so"))


def test_unknown_instruction(machine: Machine, folder: Path) -> None:
    """A library that begins otherwise: the instruction is named, and nothing is proved."""
    data = bytearray(machine.library.elf.data)
    at = machine.library.elf.exports["brsp_new"]
    segment = next(it for it in machine.library.elf.headers if it[0] == 1 and it[3] <= at < it[3] + it[5])
    data[segment[2] + at - segment[3] : segment[2] + at - segment[3] + 2] = b"\x0f\x0b"
    (folder / "other.so").write_bytes(data)
    begin(str(folder / "other.so"), None, 0)
    outcome = work(Job("element", "vadd")).outcome
    said = "brsp_new: there is no semantics of this mnemonic (at"
    assert outcome.result == FAILED and outcome.notes[0].startswith(said) and "ud2" in outcome.notes[0]


def test_missing_library(monkeypatch: pytest.MonkeyPatch, folder: Path, capsys: Any) -> None:
    assert run(monkeypatch, "--library", str(folder / "none.so"), "vadd") == 1
    assert "  it can't be read (No such file or directory)\n2 passed, 1 failed\n" in capsys.readouterr().out


def test_segments(library: Path) -> None:
    """What is read of the file is what readelf shows."""
    path = library / "libbrsp.so"
    text = subprocess.run(["readelf", "-lW", path], capture_output=True, text=True, check=True).stdout
    rows = [line.split() for line in text.splitlines() if line.split()[:1] == ["LOAD"]]
    found = Elf(path.read_bytes()).segments
    assert [(int(row[2], 16), int(row[5], 16)) for row in rows] == [(it.start, len(it.data)) for it in found]


def test_outcome() -> None:
    """A part that raises another error ends the command; one that is wrong counts as failed."""
    assert timed("x", lambda: ["a"])[:3] == Outcome("x", PASSED, ["a"], 0.0)[:3]
