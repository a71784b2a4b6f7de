"""Host instructions of a step, counted by callgrind, within 3 percent of the tables in docs/data.

A change of one line can cost each step some 60 host instructions, because the compiler then keeps the loop's
state in memory. No other test notices that.
"""

from pathlib import Path

import pytest

from lib.pages import data, page
from measure.speed import COLUMNS, LOOPS, STOPS, compile_caller, figure, single_of, steps_of, write_tables
from rsp_tools import page_tables

STEPS = (10_240, 20_480)
CODES = dict(zip(LOOPS, COLUMNS["speed"][1:]))
# A long run in all loops, and the calls of a short slice in one.
HELD = {
    next(iter(STOPS)): [*LOOPS],
    "`brsp_run`, all steps in one call": [*LOOPS],
    **dict.fromkeys(("`brsp_step`", "`brsp_run` of one step", "`brsp_event` of one step"), ["mixed"]),
}
STORE = "SW, while other bytes are watched"
pytestmark = [
    pytest.mark.xdist_group("speed"),
    pytest.mark.needs("valgrind", "cc"),
    pytest.mark.usefixtures("program", "library"),
]


@pytest.fixture(scope="module")
def caller(tmp_path_factory: pytest.TempPathFactory) -> Path:
    return compile_caller(tmp_path_factory.mktemp("speed"))


def cell(table: str, title: str, column: str) -> float:
    """A figure of a table."""
    (row,) = [row for row in data(table) if row[COLUMNS[table][0]] == title]
    return float(row[column].replace(",", ""))


@pytest.mark.parametrize("title, names", HELD.items(), ids=HELD)
def test_steps(title: str, names: list[str], caller: Path) -> None:
    figures = {name: figure(steps_of(caller, title)(name), *STEPS) for name in names}
    assert figures == pytest.approx({name: cell("speed", title, CODES[name]) for name in names}, rel=0.03)


def test_store_under_a_watch(caller: Path) -> None:
    found = figure(single_of(caller, STORE), *STEPS)
    assert found == pytest.approx(cell("speed_single", STORE, "Host instructions"), rel=0.03)


def test_write(folder: Path, monkeypatch: pytest.MonkeyPatch) -> None:
    """--write writes the rows into the tables as they are, with their commit at the end."""
    rows = {name: [[*row.values()][:-1] for row in data(name)] for name in COLUMNS}
    monkeypatch.setattr(page_tables, "DATA", folder)
    monkeypatch.setattr(page_tables, "write", lambda: None)
    write_tables(rows)
    for name in COLUMNS:
        lines = [(folder / f"{name}.tsv").read_text(), page(f"docs/data/{name}.tsv")]
        before, after = ([line.rpartition("\t")[0] for line in text.splitlines()] for text in lines)
        assert before == after
