"""The fuzz targets: without a fuzzer in the gate, and with it for a minute each outside the gate.

Without a fuzzer each target takes its seeds, and inputs that once crashed it (fuzz/crashes): it fails if what
must hold of such an input doesn't, if the sanitizers of gcc find something, or if no target makes a call that
brsp.h has. With the fuzzer it fails if fuzz/build doesn't make the targets, if one finds an input for which
something doesn't hold, or if one doesn't find a planted fault: three of each, in the calls of the library
(faults.c) or in the sources in C. `-m "not outside"` leaves the fuzzer out.
"""

import os
import re
import shutil
from pathlib import Path
from typing import Dict, List, NamedTuple

import pytest

from lib import TESTS, TOP
from lib.processes import Ended, run, succeeds
from lib.sanitizers import WITHOUT_LEAKS, sanitizers
from rsp_tools.fuzz.run import TABLE, try_inputs, with_count
from rsp_tools.fuzz.seeds import SEEDS, dictionary
from rsp_tools.fuzz.targets import TARGETS, compiler, link
from rsp_tools.systems import header

FUZZ, FAULTS = TOP / "fuzz", TESTS / "fuzz/faults.c"
RUNTIME = "/usr/lib/llvm-*/lib/clang/*/lib/linux/libclang_rt.fuzzer-x86_64.a"
SECONDS = 60
pytestmark = pytest.mark.needs("cc")


class Edit(NamedTuple):
    """A text that is in a source once, and the text in its place."""

    source: str
    old: str
    new: str


MEMORIES, RUNNER = "plugin/memories.c", "conformance/runner.c"
SEARCH, SAVESTATE = "library/c/helpers/search.c", "library/c/helpers/savestate.c"
WRITER = "library/c/helpers/writer.h"
# The faults of each target: numbers of faults.c, or edits of the sources in C.
FAULTS_OF: Dict[str, List[int]] = {"calls": [1, 2, 3], "scripts": [4, 5, 6], "texts": [7, 8, 9]}
EDITS_OF: Dict[str, List[Edit]] = {
    "plugin": [
        Edit(MEMORIES, "address + len > size ? size - address : len;", "len;"),
        Edit(MEMORIES, "count * len <= 4 * MEMORY_WORDS", "count * len <= 8 * MEMORY_WORDS"),
        Edit(MEMORIES, "return (span){ first, end - first };", "return (span){ first, end - first - 1 };"),
    ],
    "runner": [
        Edit(RUNNER, "p.bank > 3 || ", ""),
        Edit(RUNNER, " || p.length > length_of(p.bank) - p.address", ""),
        Edit(RUNNER, " || h.size > (size_t)(file->end - file->at)", ""),
    ],
    "helpers": [
        Edit(WRITER, "w->length < w->capacity ? w->length", "w->length <= w->capacity ? w->length"),
        Edit(
            SEARCH, "return (size_t)((to < s->image ? to : s->image) - from);", "return (size_t)(to - from);"
        ),
        Edit(SAVESTATE, "if (length < AT_LENGTH) return BRSP_SAVESTATE_LENGTH;", ""),
    ],
}


def options_of(fault: int) -> List[str]:
    """The options that link a fault of the library into a target."""
    wrapped = dict.fromkeys(re.findall(r"__real_(brsp_\w+)", FAULTS.read_text()))
    return [f"-DFAULT={fault}", str(FAULTS), *(f"-Wl,--wrap={call}" for call in wrapped)]


def copy_edited(edit: Edit, top: Path) -> None:
    """Copies the sources of the targets to a folder, and edits one of them."""
    for name in ("fuzz", "plugin", "library/c"):
        shutil.copytree(TOP / name, top / name)
    (top / RUNNER).parent.mkdir()
    shutil.copyfile(TOP / RUNNER, top / RUNNER)
    text = (top / edit.source).read_text()
    (top / edit.source).write_text(text.replace(edit.old, edit.new))


def files_of(name: str, folder: Path) -> List[Path]:
    """The seeds of a target as files, and what once crashed it."""
    seeds = folder / "seeds"
    seeds.mkdir()
    for number, seed in enumerate(SEEDS[name]()):
        (seeds / f"{number:03}").write_bytes(seed)
    return [*sorted((FUZZ / "crashes" / name).glob("*")), *sorted(seeds.iterdir())]


def replay(name: str, library: Path, folder: Path, files: List[Path], *more: str) -> "Ended[str]":
    """Runs a target on files, without a fuzzer."""
    parts = (FUZZ / "replay.c", f"-I{library}", library / "libbrsp.a")
    link(name, folder / name, ["cc", "-O1", *sanitizers()], *more, *parts)
    return run(folder / name, *files, env=WITHOUT_LEAKS)


@pytest.mark.parametrize("name", TARGETS)
def test_seeds_and_crashes(name: str, library: Path, folder: Path) -> None:
    files = files_of(name, folder)
    ended = replay(name, library, folder, files)
    assert ended.returncode == 0, ended.stdout[-3000:]
    assert ended.stdout == "".join(f"{path}\n" for path in files) and len(files) > 5


def test_replay_of_fault(library: Path, folder: Path) -> None:
    """What doesn't hold ends a target: here an operand that isn't explained."""
    ended = replay("texts", library, folder, files_of("texts", folder), *options_of(8))
    assert ended.returncode and "this doesn't hold" in ended.stdout


@pytest.mark.parametrize("arguments, status", [("--help", 0), ("--what", 2), ("a b", 2)])
def test_arguments(arguments: str, status: int, folder: Path) -> None:
    ended = run(FUZZ / "build", *arguments.split(), cwd=folder)
    assert (ended.returncode, ended.stdout[:28]) == (status, "usage: fuzz/build [-h] [OUT]")


def test_each_call_is_made() -> None:
    names = ("calls", "scripts", "texts", "helpers")
    made = "".join((FUZZ / f"{name}.c").read_text() for name in names)
    macros = {f"brsp_{name}" for name in re.findall(r"^(?:LOOK|LOOK_AT|CHANGE)\((\w+)", made, re.M)}
    named = {*re.findall(r"\bbrsp_\w+", made + (FUZZ / "fuzz.h").read_text()), *macros}
    assert {*header.calls()} - named - {"brsp_memory_parts"} == set()  # which a difference is made of


@pytest.mark.parametrize("name", EDITS_OF)
def test_edits(name: str) -> None:
    """The text of each planted fault is in its source once."""
    assert [(TOP / edit.source).read_text().count(edit.old) for edit in EDITS_OF[name]] == [1, 1, 1]


def test_dictionary() -> None:
    """Each line is a word that libFuzzer reads."""
    lines = dictionary().splitlines()
    assert [line for line in lines if not re.fullmatch(r'"(?:[^"\\]|\\x[0-9a-f]{2})+"', line)] == []
    assert len({*lines}) == len(lines) > 120 and {'"vmadh"', '"unwatch"', '"rdram"'} <= {*lines}


@pytest.mark.needs("clang", RUNTIME)
def test_build_without_the_kit(library: Path, folder: Path) -> None:
    """The targets are linked with libbrsp.a, and take their seeds and some inputs more."""
    ended = run(FUZZ / "build", folder, env={**os.environ, "PATH": "/usr/bin:/bin"})
    assert ended.returncode == 0 and "the library is libbrsp.a" in ended.stdout, ended.stdout
    for name in TARGETS:
        succeeds(folder / name, "-runs=500", folder / f"{name}_seed_corpus", env=WITHOUT_LEAKS, cwd=folder)


@pytest.mark.parametrize("status, fault", ((0, ""), (77, "stat::number_of_executed_units: 12\n")))
def test_inputs_are_counted(status: int, fault: str, folder: Path) -> None:
    """Those of a target, also up to one that ends it."""
    text = "#!/bin/sh\necho stat::number_of_executed_units: 12 >&2\nexit"
    (folder / "texts").write_text(f"{text} {status}\n")
    (folder / "texts").chmod(0o755)
    assert try_inputs("texts", folder, 1) == (12, fault)


@pytest.mark.parametrize("name", TARGETS)
def test_count_is_added(name: str) -> None:
    """The line of the target has the sum, and all other lines are as before."""
    old, new = TABLE.read_text(), with_count(TABLE.read_text(), name, 5)
    changed = [pair for pair in zip(old.splitlines(), new.splitlines()) if pair[0] != pair[1]]
    ((before, after),) = (tuple(line.split("\t") for line in pair) for pair in changed)
    assert after == [*before[:2], str(int(before[2]) + 5), *before[3:]]
    assert new.count("\n") == old.count("\n") and f"`fuzz/run {name}`" in before


@pytest.fixture(scope="module")
def targets(library: Path, tmp_path_factory: pytest.TempPathFactory) -> Path:
    """The targets as fuzz/build makes them."""
    out = tmp_path_factory.mktemp("fuzz")
    succeeds(FUZZ / "build", out, timeout=900)
    return out


def fuzz(targets: Path, name: str, program: Path, folder: Path) -> "Ended[str]":
    """Runs a target for a minute at most, or until it finds something."""
    found, words = folder / "corpus", targets / f"{name}.dict"
    found.mkdir()
    options = ["-timeout=30", f"-max_total_time={SECONDS}", "-print_final_stats=1", "-rss_limit_mb=4096"]
    options += [f"-dict={words}"] if words.exists() else []
    corpora = (found, targets / f"{name}_seed_corpus")
    return run(program, *options, *corpora, cwd=folder, env=WITHOUT_LEAKS, timeout=SECONDS + 240)


class TestWithFuzzer:
    pytestmark = [
        pytest.mark.outside("the fuzzer takes a minute for each target and planted fault"),
        pytest.mark.needs("clang", "rt", RUNTIME),
        pytest.mark.xdist_group("fuzz"),
        pytest.mark.timeout(1200),
    ]

    @pytest.mark.parametrize("name", TARGETS)
    def test_nothing_is_found(self, name: str, targets: Path, folder: Path) -> None:
        ended = fuzz(targets, name, targets / name, folder)
        runs = re.search(r"stat::number_of_executed_units: *(\d+)", ended.stdout)
        covered = re.findall(r"cov: (\d+) ft: (\d+) corp: (\d+)", ended.stdout)
        assert ended.returncode == 0 and runs and covered, ended.stdout[-4000:]
        edges, features, inputs = covered[-1]
        print(f"{name}: {runs[1]} runs, {edges} edges, {features} features, a corpus of {inputs} inputs")

    @pytest.mark.parametrize("number", range(3))
    @pytest.mark.parametrize("name", TARGETS)
    def test_planted_fault(self, name: str, number: int, targets: Path, folder: Path) -> None:
        more: List[str] = [*map(str, targets.glob("*.o")), "-fsanitize=fuzzer"]
        top = TOP
        if name in EDITS_OF:
            top = folder / "top"
            copy_edited(EDITS_OF[name][number], top)
        else:
            more = [*options_of(FAULTS_OF[name][number]), *more]
        link(name, folder / name, compiler(), f"-I{TOP}/library/c", *more, top=top)
        ended = fuzz(targets, name, folder / name, folder)
        signs = "this doesn't hold|ERROR: AddressSanitizer|runtime error"
        assert ended.returncode and re.search(signs, ended.stdout), ended.stdout[-4000:]
