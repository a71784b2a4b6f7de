"""Writes the calls, structs and numbers of the library for Rust, JavaScript and Python, and the regular calls
as methods for C++ as well.

It reads those that are proved in crates/rsp_c/src, and the others in headers of library/c. Comments of
Rust's structs are those of the crates, unless comments.tsv has another one for who writes a program. Nobody
who builds the library needs this: its files are committed.
"""

from pathlib import Path
from typing import Dict

from rsp_tools import TOP
from rsp_tools.shapes import c, cpp, crate, header, javascript, python, rust
from rsp_tools.shapes.interface import Interface, joined
from rsp_tools.shapes.methods import regular


def comments() -> Dict[str, str]:
    """The comments in place of those of the crates, by the structs and the fields that they are of."""
    lines = (Path(__file__).parent / "comments.tsv").read_text().splitlines()[1:]
    return dict(line.split("\t") for line in lines)


def library() -> Interface:
    """What the library exports for each language: the proved calls, and the helpers over them."""
    return joined(crate.interface(), header.interface(header.HELPERS))


def native() -> Interface:
    """What it exports outside WebAssembly."""
    return joined(library(), header.interface(header.DMAS))


def files() -> Dict[str, str]:
    """Each file as it is written, by its path in the repository."""
    proved, found, methods = crate.interface(), library(), [*regular()]
    made = [
        rust.files(found, comments(), methods),
        javascript.files(found, methods),
        python.files(native(), methods),
        c.files(proved),
        cpp.files(methods),
    ]
    return {name: text for some in made for name, text in some.items()}


def stale() -> Dict[str, str]:
    """The files that are otherwise, or aren't there, as they have to be."""
    made = files()
    return {
        it: text for it, text in made.items() if not (TOP / it).exists() or (TOP / it).read_text() != text
    }
