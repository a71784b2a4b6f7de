"""Runs the tests that the gate leaves out, and writes when they last ran, on which commit, and the result.

`tests/outside` runs all parts, which takes hours; `tests/outside WORD..` runs those that contain one of the
WORDs. A part is a line of docs/data/last_runs.tsv, which begins with what `tests/all` gets to run it. When a
part has ended, the rest of its line is written anew, and so is the table in docs/SYSTEMS.md.

It fails if a test does. It begins nothing if the work tree differs from its commit, because then no commit
names what would run.
"""

import argparse
import datetime
import re
import shlex
import subprocess
import sys
from pathlib import Path
from typing import Any, Collection, Dict, List

from lib import TOP
from rsp_tools import page_tables
from rsp_tools.packaging.repository import output_of

RUNS = "docs/data/last_runs.tsv"
COUNTS = {"Passed": r"(\d+) passed", "Failed": r"(\d+) (?:failed|error)", "Skipped": r"(\d+) skipped"}
Run = Dict[str, str]


def mark_outside(
    items: List[Any], below: Path, in_gate: Collection[str], why: str, fixture: str = ""
) -> None:
    """Marks tests below a folder, all or those with a fixture, as `outside`, except those for the gate."""
    import pytest  # here, because the command works without it

    inside = (it for it in items if str(it.path).startswith(f"{below}/"))  # parents take a second
    for item in (it for it in inside if fixture in ["", *it.fixturenames]):
        if not {item.name, item.originalname} & {*in_gate}:
            item.add_marker(pytest.mark.outside(why))
        if not item.get_closest_marker("timeout"):
            item.add_marker(pytest.mark.timeout(1800))


def counts_of(said: str) -> Run:
    """The numbers of tests in the last line of pytest."""
    return {name: str(sum(map(int, re.findall(form, said)))) for name, form in COUNTS.items()}


def run(part: str) -> Run:
    """Runs the tests of a part, and returns its line. Ends the command if there is no count."""
    day, commit = str(datetime.date.today()), output_of("git", "rev-parse", "--short=8", "HEAD")
    words, said = ["tests/all", "-q", *shlex.split(part)], ""
    with subprocess.Popen(words, cwd=TOP, stdout=subprocess.PIPE, text=True) as tests:
        for said in tests.stdout or ():
            print(said, end="", flush=True)
    counts = counts_of(said)
    if tests.returncode not in (0, 1) or (counts["Failed"] == "0") != (tests.returncode == 0):
        sys.exit(f"tests/outside: tests/all {part} ended with status {tests.returncode}: {said.strip()}")
    return {"Tests": part, "Day": day, "Commit": commit, **counts}


def write(lines: List[Run]) -> None:
    """Writes all parts, and the table of them."""
    rows = ([*lines[0]], *(it.values() for it in lines))
    (TOP / RUNS).write_text("".join("\t".join(row) + "\n" for row in rows))
    page_tables.write()


def main() -> int:
    form = argparse.RawDescriptionHelpFormatter
    parser = argparse.ArgumentParser("tests/outside", description=__doc__, formatter_class=form)
    parser.add_argument("words", metavar="WORD", nargs="*", help="in the part's words; all parts without one")
    words, lines = parser.parse_args().words, page_tables.data("last_runs")
    chosen = [n for n, it in enumerate(lines) if not words or any(word in it["Tests"] for word in words)]
    if not chosen:
        sys.exit(f"tests/outside: no line of {RUNS} contains {' or '.join(words)}")
    written = (f":!{it}" for it in (RUNS, page_tables.SYSTEMS))
    if changed := output_of("git", "status", "--porcelain", "--", ".", *written):
        sys.exit(f"tests/outside: the work tree differs from its commit:\n{changed}")
    for number in chosen:
        lines[number] = run(lines[number]["Tests"])
        write(lines)
    return int(any(lines[number]["Failed"] != "0" for number in chosen))


if __name__ == "__main__":
    sys.exit(main())
