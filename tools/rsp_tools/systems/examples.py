"""The scripts to choose from in the page that answers scripts: the repository's, each with its description
from the pages."""

import re
from pathlib import Path
from typing import Dict, Iterator, List

from . import places
from .toolchain import Refused

COOKBOOK = places.TOP / "docs" / "COOKBOOK.md"
FIRST = places.TOP / "examples" / "first.rsp"
Example = Dict[str, str]
# The scripts of examples/ by groups, in the order in which the page shows them.
GROUPS = {
    "First steps": "words scalar block",
    "Vectors": "vector fir idct transpose perspective clip vch",
    "DMA and tasks": "dma copy task yield",
    "Debugging": "back",
}


def example(group: str, name: str, script: str) -> Example:
    """An entry. A script that isn't ASCII would have other bytes in the page."""
    if not script.isascii() or "\r" in script:
        raise Refused(f"the script {name} isn't ASCII text")
    words = " ".join(name.split())
    return {"group": group, "name": words[0].upper() + words[1:], "script": script}


def first(script: str) -> Example:
    """The first example, named by its first line up to a colon."""
    return example("First steps", script.lstrip("# ").partition(":")[0], script)


def scripts(page: str) -> Iterator[Example]:
    """The scripts of examples/ except the first, with their descriptions from the cookbook's tables."""
    described = dict(re.findall(r"(?m)^\| \[(\w+)\.rsp\]\(\S*\) \| ([^|]*) \|", page))
    texts = {it.stem: it.read_text() for it in sorted(places.TOP.glob("examples/*.rsp")) if it != FIRST}
    if missing := texts.keys() - described.keys():
        raise Refused(f"docs/COOKBOOK.md says nothing of examples/{min(missing)}.rsp")
    if missing := texts.keys() - {*" ".join(GROUPS.values()).split()}:
        raise Refused(f"examples/{min(missing)}.rsp is in no group of examples.py")
    for group, names in GROUPS.items():
        yield from (example(group, f"{described[it]} ({it})", texts[it]) for it in names.split())


def idioms(page: str) -> Iterator[Example]:
    """The cookbook's blocks of text, by the heading or the bold words before each, assembled and listed.

    An anchor may be before the bold words."""
    section = page[page.index("## Idioms") : page.index("## Your microcode in CI")]
    title = ""
    for head, bold, text in re.findall(
        r"(?ms)^### (.*?)$|(?<=\n\n)(?:<a id=\S+></a>)?\*\*(.*?)\*\*|^```asm\n(.*?)^```$", section
    ):
        if text:
            count = sum(bool(line.partition("#")[0].strip()) for line in text.splitlines())
            script = f"# {title}\nasm 0\n{text}end\ndis 0 {count}\n"
            yield example("Idioms of a few lines", title, script)
        else:
            title = " ".join((head or bold).split()).rstrip(".")


def routine(path: Path) -> Example:
    """A routine of microcode, by the first line of its text."""
    head = re.match(r"# (\w+): (.*)\.\n", path.with_suffix(".s").read_text())
    if not head:
        raise Refused(f"the first line of microcode/{path.stem}.s doesn't say what it does")
    return example("Routines of microcode", f"{head[2].partition('. ')[0]} ({head[1]})", path.read_text())


def examples() -> List[Example]:
    """All scripts to choose from."""
    page = COOKBOOK.read_text()
    routines = map(routine, sorted(places.TOP.glob("microcode/*.rsp")))
    return [first(FIRST.read_text()), *scripts(page), *idioms(page), *routines]
