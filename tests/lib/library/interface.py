"""What a caller of the library is compiled against: symbols, layouts and numbers.

`tools/python lib.library.interface` writes tests/library/c/interface.tsv anew.
"""

import re
from typing import Dict, Iterator, Tuple

from lib import TESTS
from lib.library import shapes
from lib.pages import page

STORED = TESTS / "library/c/interface.tsv"
Interface = Dict[str, str]  # by kind and name


def numbers() -> Iterator[Tuple[str, str]]:
    """The enumerators and macros of the headers that are numbers."""
    text = re.sub(r"(?s)/\*.*?\*/", "", page("library/c/brsp.h") + page("library/c/brsp_helpers.h"))
    yield from re.findall(r"\b(BRSP_\w+) = (\d+)", text)
    yield from re.findall(r"(?m)^#define (BRSP_\w+) (\d+)$", text)


def interface() -> Interface:
    """The interface of both headers and of rsp_c as they are."""
    pairs = ((call.name, *shapes.in_c(call)) for call in shapes.INTERFACE.calls)
    found = {f"symbol {name}": f"{result} ({given})" for name, result, given in pairs}
    for name, (size, fields) in shapes.layouts().items():
        found[f"struct {name}"] = f"{size} bytes"
        found.update({f"field {name}.{it}": f"{width} bytes at {at}" for it, at, width in fields})
    found.update({f"number {name}": value for name, value in numbers()})
    return dict(sorted(found.items()))


def stored() -> Interface:
    """The interface that is stored."""
    return dict(line.split("\t") for line in STORED.read_text().splitlines()[1:])


if __name__ == "__main__":
    STORED.write_text("Name\tIs\n" + "".join(f"{key}\t{value}\n" for key, value in interface().items()))
