"""The programs for other systems, by the tests of the program of Linux on x86-64, except what a system
can't have (tests/program/conftest.py)."""

import sys
from pathlib import Path
from typing import Any

import pytest

from lib import TESTS
from lib.processes import run
from lib.systems.target_params import COMPILED, MACOS, on

FILES = [TESTS / f"program/test_{it}.py" for it in ("scripts", "bad_input", "saves", "texts")]
SECONDS = 7000
pytestmark = pytest.mark.timeout(SECONDS + 200)


def check_by_tests(program: Path, system: str, which: str) -> None:
    """The tests that pytest's -k chooses pass on a program for a system."""
    words = (f"--program={program}", f"--left-out={system}", f"--timeout={SECONDS}", "-q", "-k", which)
    ended = run(sys.executable, "-B", "-m", "pytest", *words, *FILES, timeout=SECONDS)
    assert ended.returncode == 0, ended.stdout[-8000:]


@on(*COMPILED, *MACOS)
def test_tests_of_the_proved_program(runner: Any, folder: Path) -> None:
    check_by_tests(runner.started(folder), runner.target.name, "not test_mount" if runner.ending else "")


@on("windows-x86_64")
def test_mounts(runner: Any, folder: Path) -> None:
    """A server of wine that runs already is outside the mount, so each run waits until there is none."""
    program, alone = runner.started(folder), """ sh -c 'wineserver -w && exec wine "$@"' sh """
    program.write_text(program.read_text().replace(" wine ", alone))
    runner.release()
    check_by_tests(program, runner.target.name, "test_mount")
