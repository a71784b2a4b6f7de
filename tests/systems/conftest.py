"""What the tests of other systems share: what C compilers make of compiled/ for each of them."""

from pathlib import Path
from typing import Iterator, List

import pytest

from lib.outside import mark_outside
from lib.packages import need
from lib.systems.runners import Runner, target_of
from lib.systems.target_params import RUNNERS
from rsp_tools.systems import folders
from rsp_tools.targets import NATIVE, TARGETS, Target

WHY = "it takes minutes, and wants cross compilers, emulators and a browser"
# What the gate runs, in some 20 seconds of processor: the calls of posix_windows.c one by one, rsp.exe, and
# what needs no other system.
IN_GATE = """
test_calls[windows-x86_64] test_what_differs
test_calls_of_linux test_another_clang test_targets test_all_instructions_are_traced
""".split()


def pytest_collection_modifyitems(items: List[pytest.Item]) -> None:
    mark_outside(items, Path(__file__).parent, IN_GATE, WHY)


def folder_of(target: Target, at: Path) -> Path:
    """The folder of a system, which is made once."""
    need("compiled", *target.programs)
    folder = at / "systems" / target.name
    if not folder.exists():
        folders.make(target.name, folder)
    return folder


@pytest.fixture
def made(request: pytest.FixtureRequest, at: Path) -> Path:
    """The folder of a system."""
    return folder_of(TARGETS[request.param], at)


@pytest.fixture(scope="session")
def runner(request: pytest.FixtureRequest, at: Path) -> Iterator[Runner]:
    """What compiles and runs programs for a system."""
    name = request.param
    folder = folder_of(target_of(name), at)
    (at / name).mkdir(exist_ok=True)
    runner = RUNNERS[name](name, folder, at / name)
    yield runner
    runner.stop()


@pytest.fixture(scope="session")
def native(library: Path, at: Path) -> Runner:
    """What runs programs here, over the library of the clone."""
    folder = at / "native"
    folder.mkdir()
    (folder / "lib").symlink_to(library)
    return Runner(NATIVE.name, folder, folder)
