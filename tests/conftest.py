"""What all tests share: the program and the library under test, a folder, and what a machine may lack.

`tests/all` runs all of them on all processors, `tests/all tests/docs` or `tests/all -k saves` a few: its
arguments are pytest's. `--program PATH` tests another program. `pytest --markers` and `pytest --fixtures` say
more.
"""

import os
import tempfile
from pathlib import Path
from typing import Any, Callable, Iterator, List, NoReturn

import pytest

pytest.register_assert_rewrite("lib")  # before its first import

from lib import TOP  # noqa: E402
from lib.packages import is_here, need, without  # noqa: E402
from lib.program import Result, run_program  # noqa: E402
from rsp_tools import build  # noqa: E402

LIBRARY = TOP / "library/c"
NOTHING = "nothing to test: "
# What the tests start has to do without the paths of whoever starts them.
os.environ.pop("PYTHONPATH", None)
os.environ.pop("PYTHONSAFEPATH", None)


def pytest_addoption(parser: pytest.Parser) -> None:
    parser.addoption("--program", type=os.path.abspath, help="the program under test (the built one)")
    parser.addoption("--plugin", type=os.path.abspath, help="the plugin under test (one that is built)")


@pytest.hookimpl(optionalhook=True)
def pytest_xdist_auto_num_workers() -> int:
    """`-n auto` is a worker for each processor that this process may use."""
    return len(os.sched_getaffinity(0))


@pytest.hookimpl(trylast=True)
def pytest_collection_modifyitems(items: List[pytest.Item]) -> None:
    """Tests that have more than the usual time begin first, so that no long one ends alone."""

    def limit(item: pytest.Item) -> int:
        return max([300, *(mark.args[0] for mark in item.iter_markers("timeout") if mark.args)])

    items.sort(key=limit, reverse=True)
    skip_unproved(items if "RSP_UNPROVED" in os.environ else [])


def skip_unproved(items: List[pytest.Item]) -> None:
    """Skips what `tests/all --unproved` can't test, by the beginnings of names in tests/unproved.tsv."""
    rows = [line.split("\t") for line in (TOP / "tests/unproved.tsv").read_text().splitlines()[1:]]
    for item in items:
        for reason in (why for name, why in rows if item.nodeid.startswith(name)):
            item.add_marker(pytest.mark.skip(reason=f"unproved: {reason}"))


def pytest_report_header() -> List[str]:
    """A hint to whoever has changed a crate, and tests what the kit made of it."""
    return [] if is_here("compiled") else [without("compiled")]


def pytest_runtest_setup(item: pytest.Item) -> None:
    need(*(tool for mark in item.iter_markers("needs") for tool in mark.args))


def stop(request: pytest.FixtureRequest, why: str) -> NoReturn:
    """Fails a test that lacks what all others need too, and begins no other."""
    request.session.shouldfail = why
    pytest.fail(f"{NOTHING}{why}", pytrace=False)


@pytest.hookimpl(optionalhook=True)
def pytest_xdist_node_collection_finished(node: Any) -> None:
    """Ends all workers of xdist by the first such failure, because they can't end one another."""
    session = node.config.pluginmanager.get_plugin("dsession")

    class First:
        def pytest_runtest_logreport(self, report: pytest.TestReport) -> None:
            if report.failed and str(report.longrepr).startswith(NOTHING):
                session.shouldstop = str(report.longrepr)

    if not node.config.pluginmanager.has_plugin("first"):
        node.config.pluginmanager.register(First(), "first")


@pytest.fixture(scope="session")
def program(request: pytest.FixtureRequest) -> Path:
    """The program: the built one, if it is built of the sources as they are, or that of --program."""
    named = request.config.getoption("--program")
    path = Path(named) if named else build.program()
    if not path:
        stop(request, "there is no program of the sources as they are: type `./rsp run </dev/null`")
    if not os.access(path, os.X_OK):
        stop(request, f"there is no program {path}")
    return path


@pytest.fixture(scope="session")
def library(request: pytest.FixtureRequest) -> Path:
    """The folder of the C library, built of the sources as they are."""
    if build.folder("rsp_c") != LIBRARY:
        stop(request, f"{LIBRARY} has no library of the sources as they are: type `library/c/build`")
    return LIBRARY


@pytest.fixture(scope="session")
def at() -> Iterator[Path]:
    """A folder for what tests share, that other users may read."""
    with tempfile.TemporaryDirectory() as name:
        Path(name).chmod(0o755)
        yield Path(name)


@pytest.fixture
def folder() -> Iterator[Path]:
    """A folder that other users may read, and that is gone afterwards (tmp_path is neither)."""
    with tempfile.TemporaryDirectory() as name:
        Path(name).chmod(0o755)
        yield Path(name)


@pytest.fixture
def rsp(program: Path, folder: Path) -> Callable[..., Result]:
    """Runs the program with some arguments in the test's folder."""
    return lambda *words, script=b"", **how: run_program(program, words, script, **{"cwd": folder, **how})
