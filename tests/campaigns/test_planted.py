"""Which planted faults of a second core are found by cases, by programs and by vectors.

conformance/second/second.c is a core that was written from the pages alone, and bugs.tsv beside it lists the
faults that can be planted in it. Each test builds the core with one of them (0 is the core without a fault),
and searches for it in

  cases     65,536 cases of each instruction that the list names: those of the others can't differ
  programs  100 random programs of 1,000 steps, of all instructions
  vectors   the small set of all instructions, `steps` and `programs`, those of the list first

MISSED lists the faults that one of these doesn't find. No fault is missed by all three.
"""

import ctypes
import re
from pathlib import Path
from typing import Any, Dict, Iterator, List, Set, Tuple

import pytest

import rsp
from lib.campaigns import core_with
from rsp_conformance import HERE as CONFORMANCE, bench, generate, library_states, states
from rsp_conformance.campaign.supervise import check
from rsp_conformance.cases import ENTRIES
from rsp_conformance.steps import Entry
from rsp_conformance.table import ROWS, Row
from rsp_conformance.vectors import VECTORS, entries_in, manifest_in

pytestmark = [pytest.mark.needs("cc", "python:numpy"), pytest.mark.usefixtures("library")]

CORE = CONFORMANCE / "second/second.c"
CASES = 65536
PROGRAM_RANGES = ((0, 4), (5, 19), (20, 99))  # until one of them has a difference
OPTIONS = {"instructions": [*ROWS], "steps": 1000, "limit": 20, "files": [], "stored": "", "whole": False}
DMEM, IMEM, RDRAM = 0, 4096, 8192


def table(name: str) -> Dict[int, List[str]]:
    """The rows of a table beside the core by their bugs."""
    rows = [line.split("\t") for line in (CORE.parent / name).read_text().splitlines()[1:]]
    return {int(row[0]): row[1:] for row in rows}


BUGS = {0: [*ROWS], **{bug: names.split(",") for bug, (_, names, _) in table("bugs.tsv").items()}}
MISSED: Dict[str, Set[int]] = {
    "cases": set(),
    "programs": {11, 24, 33, 64, 104},
    "vectors": {14, 25, 61, 97, 98},
}


class Core(ctypes.Structure):
    """The struct `core` of second.c. The vectors' bytes of RDRAM are below its length."""

    _fields_ = [("state", rsp.State), ("memory", ctypes.c_uint8 * RDRAM), ("rdram_length", ctypes.c_uint32),
                ("next", ctypes.c_uint32), ("rdram", ctypes.c_uint8 * (1 << 17))]  # fmt: skip


def checked(core: Path, name: str, first: int, count: int) -> Dict[str, Any]:
    """The result of a campaign's task: of cases of an instruction, or of programs."""
    result = check(str(core), name, "1", first, count, OPTIONS)
    assert "given up" not in result, result
    return result


def in_cases(core: Path, names: List[str]) -> str:
    """The first case that differs, of the first instruction that has one."""
    for name in names:
        if (result := checked(core, name, 0, CASES))["differ"]:
            return str(result["shown"][0].split()[0])
    return "no"


def in_programs(core: Path) -> str:
    """The first program that differs."""
    for first, last in PROGRAM_RANGES:
        if (result := checked(core, "program", first, last - first + 1))["differ"]:
            return str(result["shown"][0].split(":")[0])
    return "no"


def put(core: Core, texts: states.Texts) -> None:
    """Puts the bytes of a case of `steps` into the memories."""
    for bank, start in (("dmem", DMEM), ("imem", IMEM), ("rdram", 0)):
        for address, text in texts.get(bank, {}).items():
            memory = core.rdram if bank == "rdram" else core.memory
            at = start + int(address, 16)
            memory[at : at + len(text) // 2] = bytes.fromhex(text)


def core_of(case: Entry, *parts: str) -> Core:
    """The core in the state before a case, or after it, from these parts of the case."""
    core = Core(rdram_length=1 << 17)
    named = {key: text for part in parts for key, text in case[part].items()}
    core.state = library_states.state_of(states.numbers_of({**bench.DEFAULT, **named}))
    put(core, {"imem": {case["before"].get("pc", "000"): case["word"]}})
    for part in parts:
        put(core, case[part])
    return core


def vectors_of(name: str, lib: ctypes.CDLL, folder: Path = VECTORS) -> Iterator[Tuple[str, bool]]:
    """Each case and each program of an instruction, and whether the core leaves the expected state."""
    for case in entries_in(folder, name):
        core, after = core_of(case, "before"), core_of(case, "before", "after")
        lib.core_step(ctypes.byref(core))
        same = bytes(core.memory) == bytes(after.memory) and bytes(core.rdram) == bytes(after.rdram)
        yield case["name"], same and core.state == after.state
    for path in sorted((folder / "programs").glob(f"{name}-*.imem")):
        core = Core(rdram_length=1 << 17)
        core.state.npc = 4
        core.state.sp = [0xFF8 if n in (2, 3) else 0 for n in range(16)]
        core.memory[:] = path.with_suffix(".dmem").read_bytes() + path.read_bytes()
        lib.core_until_halt(ctypes.byref(core), 100000)
        yield path.stem, bytes(core.memory)[:IMEM] == path.with_suffix(".after").read_bytes()


def in_vectors(path: Path, names: List[str]) -> str:
    """The first vector in which the core differs. Those of the bug's instructions are tried first."""
    lib = ctypes.CDLL(str(path))
    found = (vector for name in dict.fromkeys([*names, *ROWS]) for vector in vectors_of(name.upper(), lib))
    return next((vector for vector, is_same in found if not is_same), "no")


def test_tables_have_the_bugs_of_the_core() -> None:
    inside = {0, *map(int, re.findall(r"BUG\((\d+)\b", CORE.read_text())), 83}  # BUG(82 + !is_load)
    assert inside == BUGS.keys()
    assert {name for names in BUGS.values() for name in names} <= ROWS.keys()


def generated(program: Path, folder: Path, numbers: range, *names: str) -> None:
    """Makes new vectors of these instructions."""

    def write(row: Row) -> None:
        generate.write_row(str(program), row, "1", numbers, folder, ())

    assert not [*generate.generate([ROWS[name.lower()] for name in names], write, folder)]


@pytest.mark.parametrize("cases", (0, 24), ids=("small set", "new cases"))
def test_core_agrees_in_vectors(cases: int, program: Path, folder: Path) -> None:
    """A core that was written from the pages alone passes the vectors, and new ones, steps and programs."""
    if cases:
        generated(program, folder, range(cases), *ROWS)
    lib, of = ctypes.CDLL(str(core_with(0, folder))), folder if cases else VECTORS
    found = [vector for name in ROWS for vector in vectors_of(name.upper(), lib, of)]
    assert len(found) > 2000 and [vector for vector, is_same in found if not is_same] == []


@pytest.mark.parametrize("name", ("LTV", "LQV"))
def test_programs_load_what_steps_load(name: str, program: Path, folder: Path) -> None:
    """A case loads in a program what it loads in `steps`: no case spoils another one's bytes."""
    generated(program, folder, range(60), name)
    steps, count = {case["name"]: case for case in entries_in(folder, name)}, 0
    for entry in manifest_in(folder, name)["programs"]:
        left = (folder / f"programs/{entry['name']}.after").read_bytes()
        for it in entry["cases"]:
            case, at = steps[it["name"]], int(it["at"], 16)
            for number, key in enumerate(key for key in case["before"] if key[0] == "v"):
                loaded = left[at + 16 * number :][:16].hex()
                assert loaded == {**case["before"], **case["after"]}[key], (it["name"], key)
                count += 1
    assert count >= 60


@pytest.mark.parametrize("bug", (95, 96))
def test_lanes_written_one_after_the_other(bug: int, folder: Path) -> None:
    """It is found by cases and by programs of each instruction that can show it."""
    lib = ctypes.CDLL(str(core_with(bug, folder)))
    for name in BUGS[bug]:
        found = [vector for vector, is_same in vectors_of(name.upper(), lib) if not is_same]
        assert {bool(re.search(r"-\d{3}$", vector)) for vector in found} == {True, False}, (name, found)


@pytest.mark.parametrize("bug", (2, 19, 64, *range(99, 105)))
def test_sp_registers(bug: int, folder: Path) -> None:
    """Faults in the semaphore, a DMA's fields, rows and ends, and single step are found by vectors."""
    lib = ctypes.CDLL(str(core_with(bug, folder)))
    vectors = (vector for name in ("MTC0", "MFC0") for vector in vectors_of(name, lib))
    assert any(not is_same for _, is_same in vectors)


@pytest.mark.parametrize("bug, name, entry", [(97, "VRCP", 300), (98, "VRSQ", 301)])
def test_wrong_entry(bug: int, name: str, entry: int, program: Path, folder: Path) -> None:
    """The vectors of `--entries` find a wrong entry of a divide table."""
    generated(program, folder, ENTRIES, name)
    lib = ctypes.CDLL(str(core_with(bug, folder)))
    case, program_name = [vector for vector, is_same in vectors_of(name, lib, folder) if not is_same]
    assert case == f"{name}-entry-{entry}" and program_name.startswith(f"{name}-")


LONG = pytest.mark.outside("all of them take twenty minutes of processor")


@pytest.mark.timeout(900)
@pytest.mark.parametrize("bug", [pytest.param(bug, marks=() if bug == 36 else LONG) for bug in BUGS])
def test_bug(bug: int, folder: Path) -> None:
    """In the gate is 36, VADD that keeps the not-equal flags."""
    core, names = core_with(bug, folder), BUGS[bug]
    found = {"cases": in_cases(core, names), "programs": in_programs(core)}
    found["vectors"] = in_vectors(core, names)
    expected = {way: bug != 0 and bug not in missed for way, missed in MISSED.items()}
    assert {way: first != "no" for way, first in found.items()} == expected, found
