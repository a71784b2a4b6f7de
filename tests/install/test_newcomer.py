"""What a newcomer does first, in a clone of HEAD in a folder `a b/rsp`: the two commands that build and
test, then the blocks of all pages.

It fails if one doesn't end well there, or leaves the work tree of the clone changed. The newcomer has only
the system's programs, an empty HOME and no kit. If root starts this, he is the user nobody.
"""

import re
import tempfile
from pathlib import Path
from typing import Callable, Iterator

import pytest

from lib import TOP
from lib.install.needed_packages import typed_blocks
from lib.page_blocks import Block, blocks_in, check_typed
from lib.pages import page
from lib.processes import succeeds
from lib.user import User, prints

pytestmark = pytest.mark.xdist_group("newcomer")
# These tests read neither names nor paths nor git, so in a clone they do the same; or they are those below.
ELSEWHERE = """
tests/install/test_newcomer.py tests/mathematics tests/program/test_vectors.py tests/program/test_bad_input.py
tests/program/test_failing_allocations.py tests/docs/test_flags.py
""".split()
LEFT = f"-k 'not valgrind' {' '.join(f'--ignore={path}' for path in ELSEWHERE)}"


@pytest.fixture(scope="session")
def stranger() -> Iterator[User]:
    with tempfile.TemporaryDirectory(prefix="rsp-newcomer-") as name:
        base = Path(name)
        base.chmod(0o755)
        succeeds("git", "clone", "-q", TOP, base / "a b/rsp")
        user = User(base / "a b/rsp", base / "home", base)
        assert user.types("! command -v rt").returncode == 0
        yield user


@pytest.mark.outside("it takes a quarter of an hour; ./release runs it")
@pytest.mark.timeout(3700)
def test_two_commands(stranger: User, record_property: Callable[[str, object], None]) -> None:
    """CONTRIBUTING's block as it is, except that tests which would do the same anywhere are left out. The
    report of this test has those that were skipped, for ./release."""
    (block,) = [it for it in blocks_in("CONTRIBUTING.md") if "\ntests/all" in it.text]
    assert [path for path in ELSEWHERE if not (TOP / path).exists()] == []
    ended = stranger.types(f'export PYTEST_ADDOPTS="{LEFT}"\n{block.text}')
    assert ended.returncode == 0, f"{ended.stdout[-5000:]}{ended.stderr[-1000:]}"
    assert ended.stdout.startswith(page("examples/first.out"))
    for skipped in re.findall(r"(?m)^SKIPPED \[\d+\] (.*)$", ended.stdout):
        record_property("left out", skipped)


@pytest.fixture(scope="module")
def installed(stranger: User) -> User:
    """The same, after the installation into PREFIX of the pages."""
    prints(stranger, "cmake -S . -B ~/out -DCMAKE_INSTALL_LIBDIR=lib && cmake --build ~/out")
    prints(stranger, "cmake --install ~/out --prefix ~/prefix")
    return stranger


@pytest.mark.timeout(900)  # a block of CONTRIBUTING builds all crates
@pytest.mark.parametrize("block", typed_blocks(), ids=str)
def test_block(installed: User, block: Block) -> None:
    """Each block of a page that is marked as run. `rsp` is that of the clone."""
    check_typed(installed, block, f'export PATH="{installed.at}:$PATH"')


def test_work_tree_is_clean_afterwards(stranger: User) -> None:
    """Files at the top are those that the blocks write."""
    ended = stranger.types("git status --porcelain")
    changed = [line for line in ended.stdout.splitlines() if not re.fullmatch(r"\?\? [^/]*", line)]
    assert (ended.returncode, changed) == (0, [])
