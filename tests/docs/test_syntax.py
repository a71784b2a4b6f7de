"""Lines in the syntax of other assemblers: those of docs/data/syntax.tsv, docs/ASSEMBLY.md and
docs/FROM_LIBDRAGON.md.

It fails if the program takes what is said to be refused, refuses what is said to be taken, or makes another
word of a line that means something else. What `--explain` says is in tests/program/explanations.tsv.
"""

import re
from pathlib import Path
from typing import Dict, List

import pytest

from lib.pages import data, page, replies, tables
from lib.processes import run

PAGE, HEADING = "docs/ASSEMBLY.md", "## Coming from another assembler"
OF_LIBDRAGON = [*tables("docs/FROM_LIBDRAGON.md", "## What differs in the text")]


@pytest.mark.parametrize("line", data("syntax"), ids=lambda line: line["Line"])
def test_line(line: Dict[str, str], program: Path) -> None:
    """A line has its reply and its word. The page shows the lines that mean something else."""
    printed = replies(program, f"asm 0\nx: {line['Line']}\nend\ndis 0 1\n")
    assert printed.startswith(line["Answer"])
    if line["Word"] != "-":
        assert f"\n000 {line['Word']} " in printed
        assert f"`{line['Line']}`" in page(PAGE).partition(HEADING)[2]


def test_page(program: Path) -> None:
    """What the page says to write is assembled."""
    cells = [cells[-1] for cells in tables(PAGE, HEADING)]
    lines = [line for cell in cells for line in re.findall(r"`([.\w]+ \S[^`]*)`", cell)]
    printed = replies(program, "".join(f"asm 0\n{line}\nend\n" for line in lines))
    assert len(lines) >= 5 and printed == "ok 1 words\n" * len(lines)


@pytest.mark.parametrize("row", OF_LIBDRAGON, ids=str)
def test_line_of_libdragon(row: List[str], program: Path) -> None:
    """A line is refused. What the page says to write is assembled, and has what `--explain` shows."""
    theirs, ours = (re.findall("`(.*?)`", cell)[0] for cell in row)
    printed = run(program, "run", "--explain", input=f"asm 0\n{theirs}\nend\n").stdout
    shown = re.findall(r"(?m)^  (?:try: (.*)|help: (\$\S+) if .*|help: write the address .*)$", printed)
    assert printed.startswith("fault 1") and shown
    assert not [part for parts in shown for part in parts if part not in ours]
    assert replies(program, f"asm 0\n{ours}\nend\n") == "ok 1 words\n"
