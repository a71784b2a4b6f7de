"""Reserved words in a campaign (--reserved). CAMPAIGN.md runs the second core, which agrees."""

from pathlib import Path

import pytest

from lib import TOP
from lib.campaigns import HEADERS, campaign, counts_of, output_of
from lib.packages import is_here
from lib.pages import block_with
from lib.processes import compiled
from rsp_conformance.campaign.protocol import ALL_WORDS
from rsp_conformance.table import ROWS, row_of

if is_here("python:numpy"):
    import numpy as np
    from rsp_conformance.campaign.reserved_words import words_of

pytestmark = [pytest.mark.needs("cc", "python:numpy"), pytest.mark.usefixtures("library")]
WORDS = ("--cases", 0, "--reserved")


def test_words() -> None:
    """They are different, and have each value of what selects an instruction."""
    words, masks = words_of(np.arange(ALL_WORDS)), {row.mask for row in ROWS.values()}
    assert len(np.unique(words)) == ALL_WORDS
    for mask in masks:
        assert len(np.unique(words & mask)) == 1 << bin(mask).count("1"), f"{mask:08x}"


def test_emulator_that_takes_all_words(folder: Path) -> None:
    """It differs at each word of which the instruction table has no row."""
    source = folder / "nop.c"
    source.write_text(block_with("docs/CAMPAIGN.md", '#include "cases.h"'))
    emulator = compiled(
        folder / "nop.so", "-O2", "-shared", "-fPIC", f"-I{HEADERS}", f"-I{TOP}/library/c", source
    )
    output = output_of(folder / "out", emulator, *WORDS)
    words = words_of(np.arange(ALL_WORDS))
    known = np.any([words & row.mask == row.value for row in ROWS.values()], 0)
    assert counts_of(folder / "out") == {"reserved": (ALL_WORDS, int((~known).sum()), 0)}, output
    number = int(np.nonzero(~known)[0][0])
    name, word = f"RESERVED-g2-1-{number:06d}", int(words[number])
    assert row_of(word) is None and f"{name} (.word 0x{word:08x} at " in output
    ended = campaign(emulator, "--case", name)
    assert ended.returncode == 1 and ": expected a reserved word, got an instruction\n" in ended.stdout
