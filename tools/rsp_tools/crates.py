"""The crates, and what each uses, by crates.txt."""

import functools
import re
from pathlib import Path
from typing import List

from rsp_tools import TOP

CRATES = TOP / "crates"
LINES = {
    line.split()[0].rstrip(":"): line
    for line in re.findall(r"(?m)^\w.*:.*", (TOP / "crates.txt").read_text())
}


def uses(name: str) -> List[str]:
    return LINES[name].partition(":")[2].split()


@functools.lru_cache(None)
def with_below(name: str) -> List[str]:
    """The crate and all below it, each after those that it uses; none for a library of the kit."""
    if name not in LINES:
        return []
    return [*dict.fromkeys(below for used in uses(name) for below in with_below(used)), name]


def rlib_folder(name: str) -> Path:
    """The folder of a proved crate's library, with the file `stamp` by which `rt` knows it."""
    return CRATES / name / "out/rlib"
