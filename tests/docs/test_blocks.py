"""The blocks of all pages, as their marks say (lib.page_blocks).

It fails if a script's replies differ from those beside it, if a text isn't assembled, if a quoted block isn't
in its source, or if a block of the shell has no mark. tests/install types the blocks of the shell in a clone
and in an archive; those that only read the repository are typed here.
"""

import re
from pathlib import Path
from typing import Any

import pytest

from lib import TOP
from lib.page_blocks import KEYS, KINDS, PLACES, Block, all_blocks, blocks_in, split_replies
from lib.pages import matches, page, replies
from lib.processes import succeeds

BLOCKS = [*all_blocks()]


def for_blocks(name: str, is_wanted: Any) -> Any:
    """A test for each block of a kind, of which there must be one."""
    found = [block for block in BLOCKS if is_wanted(block)]
    assert found, f"no page has such a block: {name}"
    return pytest.mark.parametrize("block", found, ids=str)


@pytest.mark.parametrize("block", BLOCKS, ids=str)
def test_mark(block: Block) -> None:
    """A block's kind and mark are known. One of the shell is run or has a reason, whose tests exist."""
    assert block.kind in KINDS and block.option in ("", "continues")[: 1 + (block.kind == "rsp")]
    assert {*block.mark} <= KEYS
    if block.kind == "sh":
        assert ("run" in block.mark) != bool(block.mark.get("not run")), "the mark says neither or both"
        assert block.mark.get("run", "") in PLACES
        assert block.script()
    for path in re.findall(r"\btests/[\w/]+(?:\.py)?", block.mark.get("not run", "")):
        assert (TOP / path).exists()


@for_blocks("rsp", lambda block: block.kind == "rsp")
def test_rsp(block: Block, program: Path) -> None:
    """The program, given the block as it is on the page, replies what the block shows."""
    blocks = blocks_in(block.page)
    session = ""
    if block.option == "continues":
        before = [other for other in blocks[: blocks.index(block)] if other.kind == "rsp"]
        first = max(i for i, other in enumerate(before) if other.option == "")
        session = "".join(other.text for other in before[first:])
    turns = split_replies(block.text)[1]
    lacking = [command for command, reply in turns if not reply]
    assert not lacking, f"these commands have no reply: {lacking}"
    expected = "".join(reply for _, reply in turns)
    printed = replies(program, session + block.text)[len(replies(program, session)) :]
    assert matches(printed.splitlines(), expected.splitlines()), f"rsp replies\n{printed}and not\n{expected}"


def test_example_of_readme() -> None:
    """It is the script that the README's first command runs, and its replies."""
    (block,) = (block for block in blocks_in("README.md") if block.kind == "rsp")
    script, turns = split_replies(block.text)
    assert script == page("examples/first.rsp")
    assert "".join(reply for _, reply in turns) == page("examples/first.out")


@for_blocks("asm", lambda block: block.kind == "asm")
def test_asm(block: Block, program: Path) -> None:
    """The program assembles it, each line to a word."""
    lines = [line for line in block.text.splitlines() if line.partition("#")[0].strip()]
    assert replies(program, f"asm 0\n{block.text}end\n") == f"ok {len(lines)} words\n"


@for_blocks("from", lambda block: "from" in block.mark)
def test_quoted(block: Block) -> None:
    """Its lines follow one another in the file that the mark names, where `..` is any text."""
    name = block.mark["from"]
    lines, quoted = (
        [line.strip() for line in text.strip("\n").splitlines()] for text in (page(name), block.text)
    )
    assert matches(lines, ["..", *quoted, ".."])
    assert not name.startswith("crates/") or f"`{name.partition('crates/')[2]}`" in page(block.page)


@for_blocks("in the repository", lambda block: block.mark.get("run") == "in the repository")
def test_shell(block: Block) -> None:
    block.check_printed(succeeds("bash", "-euc", block.script()))
