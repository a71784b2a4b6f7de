"""The library's calls on each system: each in its range and out of it, each allocation failing, the stack
that a call uses, threads, and the lockstep of examples."""

from typing import Any

import pytest

from lib import TESTS
from lib.cmake import EXAMPLE
from lib.library import LOCKSTEP
from lib.systems.target_params import COMPILED, on

SOURCES = TESTS / "library/c"
COUNTED = "-Wl,--wrap=malloc,--wrap=realloc,--wrap=free"


@on()
@pytest.mark.parametrize("name", ("calls", "owner"))
def test_calls(runner: Any, name: str) -> None:
    for kind, library in runner.libraries().items():
        made = runner.compile(SOURCES / f"{name}.c", name=f"{name}-{kind}", library=library)
        runner.passes(made)


@on()
def test_lockstep(runner: Any) -> None:
    for kind, library in runner.libraries().items():
        made = runner.compile(EXAMPLE, name=f"lockstep-{kind}", library=library)
        assert runner.run(made).stdout == LOCKSTEP, kind


@on(*COMPILED, "wasm")
def test_failing_allocations(runner: Any) -> None:
    words = ("-Dmain=all_calls", "-DQUIET", "-c")
    part = runner.compile(SOURCES / "calls.c", *words, name="all_calls.o", library=[])
    runner.passes(runner.compile(SOURCES / "no_memory.c", COUNTED, str(part)))


@on(*COMPILED)
@pytest.mark.parametrize("name", ("stack", "threads"))
def test_limits(runner: Any, name: str) -> None:
    runner.passes(runner.compile(SOURCES / f"{name}.c", *runner.threads))


@on("wasm")
def test_memory_is_given_back(runner: Any) -> None:
    runner.passes(runner.compile(SOURCES / "balance.c", COUNTED))
