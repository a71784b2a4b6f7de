"""The calls, structs, numbers and methods that `tools/shapes` writes for each language are the library's.

They fail if a file is stale, or if the command doesn't name it in a copy with another struct, call or number.
"""

import re
import shutil
from pathlib import Path
from typing import Dict, Tuple

import pytest

from lib import TOP
from lib.processes import run, succeeds
from rsp_tools.shapes import files, stale
from rsp_tools.shapes.header import DMAS, HELPERS
from rsp_tools.shapes.methods import HEADER, REFUSALS

# The files that declare what there is. The others are made of the calls alone.
DECLARE = ("library/js/shapes.js", "library/python/rsp/shapes.py", "library/rust/src/raw.rs")
READ = ("rsp_c", "rsp_debug", "rsp_regs", "rsp_asm")
# What a file has, and has in its place in the copy.
CHANGED = {
    "crates/rsp_c/src/c_structs.rt": ("pub steps: u32", "pub moved: u32"),
    "crates/rsp_c/src/sp.rt": ("brsp_peek(", "brsp_shown("),
    HEADER: ("brsp_peek(", "brsp_shown("),
    REFUSALS: ('{ "peek", ', '{ "shown", '),
    "crates/rsp_c/src/to_c.rt": ("AT_STATUS: u32 = 8", "AT_STATUS: u32 = 9"),
    HELPERS: ("brsp_part_text(", "brsp_part_sentence("),
}


def test_written() -> None:
    assert [*stale()] == [], "type tools/shapes, which writes them anew"


def copy_with(folder: Path, changes: Dict[str, Tuple[str, str]]) -> None:
    """Copies what the command reads and writes, with these changes."""
    for name in ("tools", *(f"crates/{crate}/{part}" for crate in READ for part in ("src", "specs"))):
        shutil.copytree(TOP / name, folder / name)
    for name in (HEADER, HELPERS, DMAS, REFUSALS, *files()):
        (folder / name).parent.mkdir(parents=True, exist_ok=True)
        shutil.copy(TOP / name, folder / name)
    for name, (old, new) in changes.items():
        path = folder / name
        text = path.read_text()
        assert text.count(old) == 1
        path.write_text(text.replace(old, new))


def test_command(folder: Path) -> None:
    """It names each stale file with the command that writes it, writes it, and then finds nothing."""
    copy_with(folder, CHANGED)
    same = {f"library/rust/src/{name}.rs" for name in ("shapes", "status")}  # have nothing of what changes
    names = sorted({*files()} - same)
    sentence = "isn't what the library exports: type tools/shapes, which writes it anew"
    checked = run(folder / "tools/shapes", "--check")
    assert checked.returncode == 1
    assert sorted(checked.stdout.splitlines()) == [f"{name} {sentence}" for name in names]
    written = succeeds(folder / "tools/shapes").splitlines()
    assert sorted(written) == [f"wrote {name}" for name in names]
    texts = {name: (folder / name).read_text() for name in names}
    for name, text in texts.items():
        assert re.search(r"\b(brsp_)?shown\b", text) and "brsp_peek" not in text, name
    for text in (texts[name] for name in DECLARE):
        assert "brsp_part_sentence" in text and "moved" in text and "brsp_part_text" not in text
        assert re.search(r"\bSTATUS(: u32)?( =|:) 9\b", text)
    assert succeeds(folder / "tools/shapes", "--check") == ""


@pytest.mark.parametrize(
    "name, change, sentence",
    (
        (REFUSALS, ('{ "peek", ', '{ "peeks", '), f"{REFUSALS} has no names for the numbers of brsp_peek: n"),
        (
            "library/c/brsp.hpp",
            ("Steps, by tools/", "Steps of "),
            "library/c/brsp.hpp has 0 headings `Steps, by tools/shapes`, not one",
        ),
    ),
    ids=("name", "heading"),
)
def test_nothing_written(folder: Path, name: str, change: Tuple[str, str], sentence: str) -> None:
    """A regular call without names of its numbers is refused, and so is a file that has no heading for it."""
    copy_with(folder, {name: change})
    result = run(folder / "tools/shapes")
    assert (result.returncode, result.stdout) == (1, f"tools/shapes: {sentence}\n")
