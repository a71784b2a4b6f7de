"""The programs in C over the library, and its allocator for WebAssembly, under the sanitizers of gcc.

They fail if the sanitizer of addresses or that of undefined behaviour finds something, or memory that nobody
freed, or if a program says something else than without them. tests/plugin does the same with the plugin, and
tests/library/c/test_runner.py with the runner of vectors.
"""

from pathlib import Path
from typing import Tuple

import pytest

from lib import TESTS, TOP
from lib.library import LOCKSTEP
from lib.library.programs import HELPERS, HERE, assert_passes, built
from lib.library.refusals import assert_refused, given
from lib.processes import compiled, succeeds
from lib.program import run_program
from lib.sanitizers import sanitizers
from lib.script_cases import all_cases
from rsp_tools.systems import places

pytestmark = [pytest.mark.needs("cc"), pytest.mark.usefixtures("library")]


@pytest.fixture
def words() -> Tuple[str, ...]:
    if not sanitizers():
        pytest.skip("the sanitizers of gcc don't run here")
    return sanitizers()


@pytest.mark.parametrize("name", ("calls", "helpers", "owner", "savestates", "threads"))
def test_program(name: str, words: Tuple[str, ...], folder: Path) -> None:
    assert_passes(built(folder, HERE / f"{name}.c", "-pthread", *words, *HELPERS))


def test_refusals(words: Tuple[str, ...], folder: Path) -> None:
    assert_refused("C", succeeds(built(folder, HERE / "refusals.c", *words, *HELPERS), input=given("C")))


def test_lockstep(words: Tuple[str, ...], folder: Path) -> None:
    assert succeeds(built(folder, TOP / "examples/c/lockstep.c", *words)) == LOCKSTEP


def test_scripts(words: Tuple[str, ...], folder: Path) -> None:
    """All stored scripts, seven bytes a call."""
    session, image = built(folder, HERE / "script.c", *words), folder / "image"
    for script in all_cases():
        image.write_bytes(script.image() or bytes(4194304))
        assert run_program(session, [7, image, "/dev/null"], script.script) == script.expected, script


def test_allocator(words: Tuple[str, ...], folder: Path) -> None:
    names = ("-Dmalloc=heap_malloc", "-Drealloc=heap_realloc", "-Dfree=heap_free", "-ffreestanding")
    part = compiled(folder / "part.o", *words, *names, "-c", places.RUNTIME / "allocator.c")
    assert_passes(compiled(folder / "allocator", *words, TESTS / "systems/allocator.c", part))
