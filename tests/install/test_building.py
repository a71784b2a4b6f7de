"""./rsp and library/c/build of changed crates, in a repository of small ones, by a real `rt` and by kits that
fail or wait. What counts as changed is for test_compiled.py.

It fails if they prove too much or too little: when they are stopped in each phase and started again, have
nothing to do, are where they can't build, or a source is edited in the meantime.
"""

import os
import re
import signal
import tempfile
from concurrent.futures import ThreadPoolExecutor
from functools import partial
from pathlib import Path
from typing import Iterator, NamedTuple

import pytest

from lib.install.toy_repository import C, RSP, Result, ToyRepository
from lib.user import AS_NOBODY

pytestmark = [pytest.mark.needs("rt"), pytest.mark.timeout(900)]
# Those of one group are run by one process, which proves the small crates once.
of_program, of_library = pytest.mark.xdist_group("toy-program"), pytest.mark.xdist_group("toy-library")
MIDDLE, MAIN = "crates/rsp_middle/src/lib.rt", "crates/rsp_main/src/main.rt"
SIDE, DECODE = "crates/rsp_side/src/lib.rt", "crates/rsp_decode/src/lib.rt"
BOTH = [
    pytest.param("program", RSP, MIDDLE, marks=of_program),
    pytest.param("library", C, DECODE, marks=of_library),
]
NOTHING = Result(0, "", [])


class Phase(NamedTuple):
    """A run that ends while it is about a crate, by a fault in it or by a signal, after it proved others."""

    crate: str
    before: set[str]
    sent: int = 0


TERM, CTRL_C = signal.SIGTERM, signal.SIGINT
# Each goes on where the one before it has ended.
PHASES = {
    "fails at first": Phase("rsp_decode", set()),
    "stopped by Ctrl-C": Phase("rsp_above", {"rsp_decode"}, CTRL_C),
    "stopped": Phase("rsp_middle", {"rsp_above"}, TERM),
    "fails in the program": Phase("rsp_main", {"rsp_middle"}),
    "stopped in the program": Phase("rsp_main", set(), TERM),
}


def faulty(source: bytes) -> bytes:
    """With an index that is out of bounds, so that it can't be proved."""
    return re.sub(rb"(from\(|    )(0|rsp_\w+::answer\(\))(?=\)?\n)", rb"\1[\2; 1][1]", source)


def send_signal(number: int, process: int) -> None:
    """Sends a signal to a run; Ctrl-C reaches all processes of its group."""
    (os.killpg if number == CTRL_C else os.kill)(process, number)


@pytest.fixture(scope="session")
def program_repository() -> Iterator[ToyRepository]:
    """The repository with its program built, and the runs that have led there."""
    with tempfile.TemporaryDirectory() as folder:
        repository = ToyRepository(Path(folder))
        for name, phase in PHASES.items():
            send = partial(send_signal, phase.sent)
            if phase.sent:
                result = repository.run_and_act(f"{phase.crate} begins", send, held=phase.crate)
            else:
                file = "main.rt" if phase.crate == "rsp_main" else "lib.rt"
                with repository.changed(f"crates/{phase.crate}/src/{file}", faulty):
                    result = repository.run(RSP)
            repository.results[name] = result
        assert repository.run(RSP).status == 0
        yield repository


@pytest.fixture(scope="session")
def library_repository() -> Iterator[ToyRepository]:
    with tempfile.TemporaryDirectory() as folder:
        repository = ToyRepository(Path(folder))
        result = repository.run(C)
        assert result.status == 0 and result.proved == {"rsp_decode", "rsp_c"}
        assert (repository.root / "library/c/libbrsp.so").is_file()
        yield repository


@pytest.fixture
def repository(request: pytest.FixtureRequest, what: str) -> ToyRepository:
    """That of the program or of the library."""
    built: ToyRepository = request.getfixturevalue(f"{what}_repository")
    return built


def assert_builds_again(repository: ToyRepository, command: str) -> None:
    result = repository.run(command, "broken")
    assert result.status == 1 and "isn't" in result.output


@pytest.mark.parametrize("command", [RSP, C])
def test_in_a_read_only_checkout(folder: Path, command: str) -> None:
    repository = ToyRepository(folder)
    for path in repository.root / "crates", *(repository.root / "crates").iterdir():
        path.chmod(0o555)
    result = repository.run([*AS_NOBODY, *command.split()])
    assert result.status == 1 and re.fullmatch(r".*Permission denied.*\n", result.output)


@of_program
@pytest.mark.parametrize("name", PHASES)
def test_ended_in_a_phase(program_repository: ToyRepository, name: str) -> None:
    """What is left is proved up to the crate, and nothing that an earlier run has proved."""
    phase, result = PHASES[name], program_repository.results[name]
    assert phase.crate in result.begun - result.proved and phase.before <= result.proved and not result.left
    if phase.sent:
        assert result.status == 128 + phase.sent and result.last.startswith("rsp: stopped")
    else:
        assert result.status == 1 and f"{phase.crate} isn't proved" in result.output
        assert "logic=not-proved" in result.output


@of_program
def test_proves_nothing_twice(program_repository: ToyRepository) -> None:
    proved = [crate for name in PHASES for crate in program_repository.results[name].proved]
    assert len(proved) == len({*proved})


def edited(text: bytes) -> bytes:
    return text + b"\n// a comment\n"


@pytest.mark.parametrize("what, command, name", BOTH)
def test_has_nothing_to_do(repository: ToyRepository, command: str, name: str) -> None:
    """The sums of the files say so, without Python and whatever their times; but not after an edit."""
    for kit in "broken", "no python":
        assert repository.run(command, kit) == NOTHING
    with repository.changed(name, edited):
        assert_builds_again(repository, command)
    assert repository.run(command, "broken") == NOTHING


@of_program
def test_edits_while_it_proves(program_repository: ToyRepository, folder: Path) -> None:
    """One source is edited, and an edit of another is taken back."""
    repository = program_repository.copied(folder)
    repository.edit(MIDDLE, "rsp_above::answer()", "rsp_above::answer() & 1")

    def edit(_: int) -> None:
        with repository.changed(SIDE, edited):
            pass
        repository.go.touch()

    result = repository.run_and_act("rsp_middle begins", edit, held="rsp_middle")
    assert result.status == 1 and "rsp_side was edited in the meantime" in result.last
    assert_builds_again(repository, RSP)
    assert repository.run(RSP).status == 0
    assert repository.run(RSP, "broken") == NOTHING


@of_library
def test_another_kit(library_repository: ToyRepository, folder: Path) -> None:
    """One of another logic is refused, and one of another version proves all."""
    repository = library_repository.copied(folder)
    with repository.changed(DECODE, faulty):
        assert "rsp_decode isn't proved, for the reason above" in repository.run(C, "other version").last
    repository.edit(DECODE, "0", "1")
    result = repository.run(C, "other logic")
    assert result.status == 1 and "the kit here is `rattle-kit-0 logic 0`" in result.last
    result = repository.run(C, "other version")
    assert result.status == 0 and result.proved == {"rsp_decode", "rsp_c"}
    assert repository.run(C, "broken") == NOTHING


@of_program
def test_two_at_once(program_repository: ToyRepository, folder: Path) -> None:
    """One proves each crate, and the other one waits for it."""
    repository = program_repository.copied(folder)
    repository.edit(MIDDLE, "rsp_above::answer()", "rsp_above::answer() & 7")
    with ThreadPoolExecutor(2) as pool:
        one, other = pool.map(repository.run, [RSP, RSP])
    assert one.status == other.status == 0
    assert ["rsp_middle" in result.proved for result in (one, other)].count(True) == 1
    assert repository.run(RSP, "broken") == NOTHING
