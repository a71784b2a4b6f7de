"""What `tests/outside` runs and writes: fails if it leaves out a folder whose tests the gate leaves out, or
writes another result than pytest's last line says."""

import re
import shlex

import pytest

from lib import TESTS
from lib.outside import counts_of
from rsp_tools.page_tables import data

MARKS = re.compile(r"\bmark\.outside\(|\bmark_outside\(")


def test_folders() -> None:
    marked = (path for path in TESTS.glob("*/**/*.py") if MARKS.search(path.read_text()))
    folders = {path.relative_to(TESTS).parts[0] for path in marked} - {"lib"}
    assert {shlex.split(it["Tests"])[0] for it in data("last_runs")} == {f"tests/{it}" for it in folders}


@pytest.mark.parametrize(
    "said, numbers",
    (
        ("3 passed, 40 deselected in 1.20s", ["3", "0", "0"]),
        ("2 failed, 10 passed, 1 skipped, 3 errors in 62.00s (0:01:02)", ["10", "5", "1"]),
        ("1 passed, 1 error in 2.00s", ["1", "1", "0"]),
        ("no tests ran in 0.01s", ["0", "0", "0"]),
    ),
)
def test_counts(said: str, numbers: list[str]) -> None:
    assert [*counts_of(said).values()] == numbers
