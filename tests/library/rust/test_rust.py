"""The crate of library/rust over the library: its tests, documentation and examples.

They fail if a test fails, or cargo warns of anything.
"""

import os
import re
import shutil
import sys
import tempfile
from pathlib import Path
from typing import Any, Callable, Iterator

import pytest

from lib import TESTS, TOP
from lib.library import FIRST_DIFFERENCE, LOCKSTEP
from lib.library.programs import other_version
from lib.library.savestates import IMAGE, STEPS, TEXT
from lib.packages import need
from lib.processes import Ended, run

CRATE = TOP / "library/rust"
EXAMPLES = {"lockstep": LOCKSTEP, "first_difference": FIRST_DIFFERENCE}
RUN = ("run", "--offline", "-q", "--example")
Cargo = Callable[..., "Ended[str]"]
in_crate = pytest.mark.xdist_group("crate of Rust")


@pytest.fixture(scope="session")
def cargo(library: Path) -> Iterator[Cargo]:
    """Runs cargo in a copy of the crate, with words and with variables of the environment."""
    need("cargo")
    with tempfile.TemporaryDirectory() as folder:
        at = Path(folder, "rust")
        shutil.copytree(CRATE, at, ignore=shutil.ignore_patterns("target", "Cargo.lock"))
        given = {"RSP_LIB_DIR": library, "CARGO_TARGET_DIR": f"{folder}/target"}
        where: Any = {**os.environ, **given, "RSP_SCRIPTS": TESTS / "program/scripts"}
        where["RSP_WRONG_USES"] = TESTS / "library/wrong_uses.tsv"
        where["RSP_REFUSALS"] = TESTS / "library/refusals.tsv"
        yield lambda *words, **more: run("cargo", *words, cwd=at, env={**where, **more})


@in_crate
def test_cargo_test(cargo: Cargo) -> None:
    ran = cargo("test", "--offline", "-q")
    counts = [int(it) for it in re.findall(r"test result: ok\. (\d+) passed; 0 failed", ran.stdout)]
    assert ran.returncode == 0 and sum(counts) >= 21 and "warning" not in ran.stdout, ran.stdout


@in_crate
def test_savestates(cargo: Cargo, folder: Path) -> None:
    """The bytes of a savestate are those of Python."""
    import rsp

    machine = rsp.Machine(IMAGE, 5)
    machine.load_words(rsp.IMEM, 0, rsp.assemble(TEXT))
    machine.run(STEPS)
    (folder / "text").write_text(TEXT)
    (folder / "saved").write_bytes(machine.save_state())
    ran = cargo("test", "--offline", "-q", "--test", "savestates", RSP_SAVESTATE=folder)
    assert ran.returncode == 0 and "3 passed" in ran.stdout, ran.stdout


@in_crate
def test_explanations(cargo: Cargo, explained: Path) -> None:
    ran = cargo("test", "--offline", "-q", "--test", "explanations", RSP_EXPLAINED=explained)
    assert ran.returncode == 0 and "2 passed" in ran.stdout, ran.stdout


@in_crate
def test_cargo_doc(cargo: Cargo) -> None:
    ran = cargo("doc", "--offline", "-q", "--no-deps", RUSTDOCFLAGS="-D warnings")
    assert (ran.returncode, ran.stdout) == (0, "")


@in_crate
@pytest.mark.needs("cc", "python:numpy")
def test_campaign(cargo: Cargo, folder: Path, monkeypatch: pytest.MonkeyPatch) -> None:
    """The example of a campaign's emulator: what agrees, a planted fault, an instruction that it lacks."""
    from lib.campaigns import counts_of, output_of

    monkeypatch.setenv("PATH", f"{Path(sys.executable).parent}:{os.environ['PATH']}")  # the Python with numpy
    made = cargo("build", "--offline", "-q", "--example", "cases", CARGO_TARGET_DIR=folder / "target")
    assert (made.returncode, made.stdout) == (0, "")
    emulator = folder / "target/debug/examples/libcases.so"
    output = output_of(folder / "out", emulator, "--instructions", "lui,sw,sra,vadd", "--cases", 300)
    counts = counts_of(folder / "out")
    assert [counts[it] for it in ("lui", "sw")] == [(300, 0, 0)] * 2, output
    assert 50 < counts["sra"][1] < 300, "where the sign is set"
    assert re.search(r"(?m)^Not there, .*VADD \(300 of 300 cases\)|^VADD +300 +0 +300 ", output), output


def test_examples() -> None:
    assert {it.stem for it in (CRATE / "examples").glob("*.rs")} == {*EXAMPLES, "cases"}


@in_crate
@pytest.mark.parametrize("name", EXAMPLES)
def test_example(name: str, cargo: Cargo) -> None:
    ran = cargo(*RUN, name)
    assert (ran.returncode, ran.stdout) == (0, EXAMPLES[name])


@in_crate
@pytest.mark.needs("cc", "ar")
def test_library_of_another_version(cargo: Cargo, folder: Path) -> None:
    ran = cargo(*RUN, "lockstep", RSP_LIB_DIR=other_version(folder))
    assert ran.returncode == 1 and "the interface of the library has version 2, not 1" in ran.stdout


@in_crate
@pytest.mark.needs("cc", "ar")
def test_older_library(cargo: Cargo, folder: Path) -> None:
    """A library that lacks a call is named before it is linked."""
    ran = cargo("build", "--offline", RSP_LIB_DIR=other_version(folder, without="brsp_image_length"))
    assert ran.returncode and "is older than this crate: it lacks brsp_image_length" in ran.stdout
