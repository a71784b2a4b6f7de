"""Commands of pages of which a mark above a block can't say enough.

It fails if the cookbook's loop over scripts doesn't end at the first wrong one, or if the command of
READING.md misses the rule of an instruction.
"""

import re
from pathlib import Path

import pytest

from lib.pages import block_with, page
from lib.processes import run

COOKBOOK = "docs/COOKBOOK.md"
RULE = r"^crates/rsp_(scalar|multiply|compare|divide|loadstore)/"


@pytest.mark.parametrize(
    "script, expected, printed",
    (
        ("step", "step Done pc 004", ""),
        ("step", "step Done pc 008", "> step Done pc 004"),
        ("foo", "fault 30 BadCommand", "rsp: faults in replies: 1, the first in line 1: fault 30 BadCommand"),
    ),
    ids=("as expected", "another reply", "a fault"),
)
def test_scripts_in_ci(script: str, expected: str, printed: str, program: Path, folder: Path) -> None:
    """The loop over scripts passes those that are answered as expected, and ends at another one."""
    checks = folder / "checks"
    checks.mkdir()
    for name in "fir.rsp", "fir.out", "vch.rsp", "vch.out":
        (checks / name).write_text(page(f"examples/{name}"))
    (checks / "last.rsp").write_text(f"{script}\n")
    (checks / "last.out").write_text(f"{expected}\n")
    loop = block_with(COOKBOOK, "for script in checks")
    ended = run("sh", "-c", f'rsp() {{ "{program}" "$@"; }}\n{loop}', cwd=folder)
    names = [f"checks/{name}.rsp" for name in ("fir", "last", "vch")]
    lines = ended.stdout.splitlines()
    assert lines[:2] == names[:2], "each script is named before it runs"
    assert (ended.returncode, lines[2:][-1:]) == ((1, [printed]) if printed else (0, names[2:]))


@pytest.mark.parametrize("name", "lqv sll vmulf vrcp vand lw sqv vadd mtc0".split())
def test_grep(name: str) -> None:
    """The command finds an instruction's rule, and of MTC0 its row."""
    command = block_with("docs/READING.md", "grep -rwi")
    printed = run("sh", "-c", command.replace("lqv", name)).stdout
    assert re.search(RULE if name != "mtc0" else r"\bmove_sp_selector To\b", printed, re.M)
