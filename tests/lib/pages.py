"""Pages with their blocks and tables, the tables of docs/data, and the program's replies to their texts."""

import re
import subprocess
import tempfile
from pathlib import Path
from typing import Iterable, Iterator, List, Optional, Sequence, Tuple

from rsp_tools.page_tables import ANCHOR, page
from rsp_tools.page_tables import anchor, data  # noqa: F401 (for those who import them from here)

NO_PAGES = ("out", "vectors", "target", "node_modules")  # folders of what is built, and of test vectors


def sentences(name: str) -> str:
    """The text of a page, without the ends of its lines."""
    return " ".join(page(name).split())


def pages_below(root: Path) -> List[Path]:
    """The pages of a folder and of those inside it, except of hidden folders and of what is built."""
    found = [path for path in root.iterdir() if path.name[0] != "." and path.name not in NO_PAGES]
    below = [page for path in found if path.is_dir() and not path.is_symlink() for page in pages_below(path)]
    return sorted([path for path in found if path.suffix == ".md"] + below)


def blocks_of(text: str) -> List[str]:
    """The fenced blocks of a text, without their fences."""
    return re.findall(r"(?ms)^```\w[^\n]*\n(.*?)^```$", text)


def blocks(name: str) -> List[str]:
    """The fenced blocks of a page."""
    return blocks_of(page(name))


def block_with(name: str, start: str, more: int = 0) -> str:
    """The block of a page that begins with a text, or a block `more` blocks after it."""
    found = blocks(name)
    first = next(i for i, block in enumerate(found) if block.lstrip("\n").startswith(start))
    return found[first + more]


def cells_of(line: str) -> List[str]:
    """The cells of a line of a table, without anchors."""
    return [cell.strip() for cell in ANCHOR.sub("", line).strip()[1:-1].split("|")]


def tables(name: str, heading: str = "") -> Iterator[List[str]]:
    """The lines of a page's tables, or of those below a heading, as cells; without the first two of each."""
    text = page(name)
    found = re.search(rf"(?ms)^{re.escape(heading)}$\n(.*?)(?=^#|\Z)", text)
    assert found, f"{name} has no heading `{heading}`"
    for table in re.findall(r"(?m)^\|.*\|\n\|[-|]+\|\n((?:\|.*\|\n)+)", found[1] if heading else text):
        yield from map(cells_of, table.splitlines())


def matches(lines: Sequence[str], expected: Sequence[str]) -> bool:
    """Whether these are the expected lines, of which `..` matches any lines, and within a line any text."""
    forms = (re.escape(line).replace(r"\.\.", ".*") + "\n" for line in expected)
    form = "".join(r"(?:.*\n)*" if form == ".*\n" else form for form in forms)
    return re.fullmatch(form, "".join(f"{line}\n" for line in lines)) is not None


def output_of(program: object, *words: object, script: str = "") -> str:
    """The standard output of the program, which has to succeed."""
    command = [str(program), *map(str, words)]
    pipe = subprocess.PIPE
    return subprocess.run(command, input=script, stdout=pipe, check=True, text=True, timeout=280).stdout


def replies(program: object, script: str) -> str:
    return output_of(program, "run", script=script)


def names_of(program: object, words: Sequence[int]) -> List[Optional[str]]:
    """The instruction that the program names for each of these words, and None for a reserved word.

    They are disassembled in pieces of 512, so that the small branches among them stay in IMEM.
    """
    names: List[Optional[str]] = []
    for first in range(0, len(words), 512):
        with tempfile.NamedTemporaryFile() as file:
            piece = words[first : first + 512]
            Path(file.name).write_bytes(b"".join(word.to_bytes(4, "big") for word in piece))
            found = [text.split()[0] for text in output_of(program, "dis", file.name).splitlines()]
        names += [{"nop": "SLL", ".word": None}.get(name, name.upper()) for name in found]
    return names


def words_of(program: object, named: Iterable[Tuple[str, object]]) -> List[List[str]]:
    """The address, the word and the disassembly of each of these texts; the label `over` is 3 words on.

    A text that is refused has its fault instead, and two empty texts.
    """
    more = "nop\nnop\nover: nop\n"
    commands = [f"asm {at}\n{text}\n{more * ('over' in text)}end\ndis {at} 1\n" for text, at in named]
    lines = iter(replies(program, "".join(commands)).splitlines())
    pairs = zip(lines, lines)
    return [listed.split(" ", 2) if reply.startswith("ok") else [reply, "", ""] for reply, listed in pairs]
