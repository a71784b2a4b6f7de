"""What the headers of library/c declare, the version of the project, and templates with both."""

import re
from pathlib import Path
from typing import List, Tuple

from . import places


def found(form: str, path: Path) -> Tuple[str, ...]:
    """The groups of the first match of a form in a file of the repository."""
    match = re.search(form, path.read_text(), re.M)
    if not match:
        raise ValueError(f"{path.relative_to(places.TOP)} has nothing of the form {form}")
    return match.groups()


def declared(path: Path) -> List[str]:
    """The names of the functions that a header declares."""
    return re.findall(r"^(?:uint32_t |size_t |void |const char \*)(brsp_\w+)\(", path.read_text(), re.M)


def helpers() -> List[str]:
    """Those of the helpers."""
    return declared(places.HELPERS) + declared(places.DMAS)


def calls() -> List[str]:
    """All that the library exports."""
    return declared(places.HEADER) + helpers()


def web_calls() -> List[str]:
    """All that it exports in WebAssembly."""
    return declared(places.HEADER) + declared(places.HELPERS)


def interface() -> str:
    """The version of the interface, which is in the name of a shared library."""
    return found(r"^#define BRSP_VERSION (\d+)$", places.HEADER)[0]


def stack() -> int:
    """How many bytes of stack a call needs at most."""
    return int(found(r"^#define BRSP_STACK (\d+)$", places.HEADER)[0])


def dated_version() -> str:
    """The version of the project with its day, or with the word `unreleased`."""
    return (places.TOP / "VERSION").read_text().strip()


def version() -> str:
    """The version of the project."""
    return dated_version().split()[0]


def filled(template: Path, **words: str) -> str:
    """A template, with its words in capitals replaced."""
    number, about = version(), found(r'^description = "(.*)"$', places.PYTHON / "pyproject.toml")[0]
    words.update(VERSION=number, MAJOR=number.split(".")[0], ABOUT=about)
    return re.sub(r"@([A-Z]+)@", lambda it: words[it[1]], template.read_text())
