"""What the program explains, with which the calls for explanations are compared in each language."""

from pathlib import Path
from typing import Any, Callable

import pytest

LONG = 30 * "vmov $v07.e1, $v08.e3\n"  # needs more bytes than a language first has room for
# Texts with their origins: faults of either pass, or none.
TEXTS = (0, "nop\nfoo $1\nj x\n"), (8, "j nowhere"), (4092, "nop\nnop\n"), (0, "x: nop"), (0, LONG)
# Lines of scripts, after so many others: commands, a byte that isn't UTF-8, and blocks, one of them open.
BLOCKS = b"asm 0x80\nfoo\nj\nend\n", b"asm 0\nnop\n", b"asm 0\n%send\n" % LONG.encode()
LINES = (6, b"mem\n"), (0, b"step"), (1, b"break \xff\n"), *enumerate(BLOCKS, 2)


@pytest.fixture
def explained(rsp: Callable[..., Any], folder: Path) -> Path:
    """A table: an origin with a text and no reply, or a number of lines before lines with their reply; and
    what the program says of them, which names the file of a text. What isn't a number is in hex."""
    table = folder / "explained.tsv"
    with table.open("w") as rows:
        for origin, text in TEXTS:
            (folder / "source").write_text(text)
            said = rsp("asm", "source", "made", "--at", origin, "--explain").errors
            print(
                origin, text.encode().hex(), "", said.replace(b"source:", b"line ").hex(), sep="\t", file=rows
            )
        for before, lines in LINES:
            ran = rsp("run", "--explain", script=b"\n" * before + lines)
            print(before, lines.hex(), ran.output.hex(), ran.errors.hex(), sep="\t", file=rows)
    return table
