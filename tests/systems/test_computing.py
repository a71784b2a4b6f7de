"""What the library computes on each system: all test vectors, and ten million steps of random programs of all
instructions, DMA, undo, traces and watches among them, in lockstep with Linux on x86-64.

A library with a wrong table has to be found by both.
"""

import ctypes
import re
import shutil
import struct
from functools import lru_cache
from itertools import zip_longest
from typing import Any, Callable, Dict, List, Tuple

import pytest

import rsp
from lib import TESTS, TOP
from lib.systems.browser import Chromium
from lib.systems.target_params import COMPILED, MACOS, RUNNERS, on
from lib.systems.node import Node
from lib.systems.runners import Runner
from rsp_conformance import bench, complaints, library_states, steps
from rsp_conformance.seeded_random import Random
from rsp_conformance.corrupt import spoilt_entries
from rsp_conformance.run import Shown
from rsp_conformance.states import numbers_of, texts_of
from rsp_conformance.vectors import VECTORS, entries_in, names_in

pytestmark = pytest.mark.timeout(3600)
DATA = TESTS / "systems"
BANKS = {"dmem": 0, "imem": 1, "rdram": 2}
LENGTH = bench.WINDOW + bench.WINDOW_LENGTH
STATE = ctypes.sizeof(rsp.State)
RESULT = 8 + STATE + 2 * 4096 + bench.WINDOW_LENGTH
SEEDS = range(1, 11)
STEPS = 1000000  # of each seed
FEW = 20000  # steps of each seed that have to find the planted constant
# The table of VRCP, as an assembly has it, and its beginning in docs/data.
TABLE = re.compile(r'(?m)^(\t\.asciz\t")((?:\\377){2})(\\000\\377\\001.*)"$')
ENTRIES = bytes.fromhex("".join((TOP / "docs/data/reciprocal.hex").read_text().split()))
Entry = Dict[str, Any]
Lines = Callable[..., List[str]]


# The cases of conformance/library, in one run of vectors.c or vectors.js.


def encoded(entry: Entry) -> bytes:
    """A case as vectors.c reads it."""
    _, word, before = steps.observed_of(entry)
    pieces = [
        (BANKS[bank], int(at, 16), bytes.fromhex(text))
        for bank in BANKS
        for at, text in before.get(bank, {}).items()
    ]
    state = library_states.state_of(numbers_of(before))
    head = bytes(state) + struct.pack("<3I", LENGTH, word, len(pieces))
    return head + b"".join(struct.pack("<3I", bank, at, len(data)) + data for bank, at, data in pieces)


def complaints_of(entry: Entry, result: bytes) -> List[str]:
    """How the result that vectors.c wrote differs from a case's."""
    was_set, status = struct.unpack_from("<2I", result)
    if not was_set:
        return [f"{entry['name']}: the state that was set isn't the one that is there"]
    if status != rsp.Status.OK:
        return [f"{entry['name']} ({entry['text']}): {rsp.Status(status).name}"]
    found: Entry = texts_of(library_states.numbers_of(rsp.State.from_buffer_copy(result, 8)))
    at = 8 + STATE
    for bank, length in (("dmem", 4096), ("imem", 4096), ("rdram", bench.WINDOW_LENGTH)):
        found[bank] = [result[at : at + length].hex()]
        at += length
    return complaints.of_case(entry, Shown(found))


def results(runner: Runner, library: Any = None) -> List[Tuple[Entry, bytes]]:
    """Each case with the result of the library, or of another one."""
    entries = [it for name in names_in(VECTORS, []) for it in entries_in(VECTORS, name)]
    (runner.at / "cases").write_bytes(b"".join(map(encoded, entries)))
    if isinstance(runner, (Chromium, Node)):
        found = runner.test("vectors.js", "/at/cases", library=library or "/library")
    else:
        ended = runner.run(runner.compile(DATA / "vectors.c", library=library), "cases", "results")
        assert ended.returncode == 0, ended.stdout
        found = (runner.at / "results").read_bytes()
    assert len(found) == RESULT * len(entries)
    return [(it, found[n * RESULT : (n + 1) * RESULT]) for n, it in enumerate(entries)]


@on(*RUNNERS)
def test_vectors(runner: Runner) -> None:
    """Spoilt copies of one case of each instruction have to be noticed."""
    found = results(runner)
    assert [text for entry, result in found for text in complaints_of(entry, result)] == []
    by_name = {entry["name"]: result for entry, result in found}
    unnoticed = []
    for name in names_in(VECTORS, []):
        random = Random("spoilt", name)
        entry = random.pick(entries_in(VECTORS, name))
        for spoilt in spoilt_entries(entry, random):
            differences = complaints_of(spoilt, by_name[entry["name"]])
            if not differences or not all(it.startswith(f"{entry['name']} (") for it in differences):
                unnoticed.append((entry["name"], differences))
    assert unnoticed == []


# Random programs, with a line for each thousand steps, and a last one of the instructions that were traced.


def program_of(runner: Runner, library: Any = None) -> Lines:
    """The lines of a seed on a system."""
    made = runner.compile(DATA / "digests.c", library=library)
    return lru_cache(None)(lambda seed, steps: runner.run(made, seed, steps).stdout.splitlines())


@pytest.fixture(scope="session")
def expected(native: Runner) -> Lines:
    return program_of(native)


@pytest.fixture(scope="session")
def result(runner: Runner) -> Lines:
    return program_of(runner)


@on()
@pytest.mark.parametrize("seed", SEEDS)
def test_random_programs(seed: int, result: Lines, expected: Lines) -> None:
    differ = [it for it in zip_longest(result(seed, STEPS), expected(seed, STEPS)) if it[0] != it[1]]
    assert differ[:1] == []
    assert len(expected(seed, STEPS)) == STEPS // 1000 + 1


@pytest.mark.xdist_group("linux-aarch64")
def test_all_instructions_are_traced(expected: Lines) -> None:
    table = (TOP / "docs/data/instructions.tsv").read_text().splitlines()[1:]
    traced = {name for seed in SEEDS for name in expected(seed, STEPS)[-1].split()}
    assert {it.split("\t")[0].lower() for it in table} - traced == set()


# A library whose table for VRCP begins with its second entry.


def is_found(runner: Runner, library: object) -> bool:
    """Whether the vectors find a library."""
    return any(complaints_of(*it) for it in results(runner, library))


@on(*COMPILED, *MACOS)
def test_planted_table(runner: Runner, expected: Lines) -> None:
    """Vectors and random programs find it."""
    planted = runner.at / "planted.s"
    text, count = TABLE.subn(r'\1\3\2"', runner.assembly("lib").read_text())
    assert count == 1
    planted.write_text(text)
    library = runner.library_of(planted)
    assert is_found(runner, library)
    result = program_of(runner, library)
    assert any(result(seed, FEW)[:-1] != expected(seed, FEW)[:-1] for seed in SEEDS)


@on("wasm", "wasm-node")
def test_planted_table_in_wasm(runner: Runner) -> None:
    """Vectors find it."""
    at, table = runner.at / "planted", struct.pack("<512H", *struct.unpack(">512H", ENTRIES))
    shutil.copytree(runner.folder, at)
    data = (at / "rsp.wasm").read_bytes()
    assert data.count(table) == 1
    (at / "rsp.wasm").write_bytes(data.replace(table, table[2:] + table[:2]))
    assert is_found(runner, "/at/planted")
