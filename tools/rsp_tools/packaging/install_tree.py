"""Files that are made, and how they are put into their folder."""

import os
import tempfile
from pathlib import Path
from typing import Callable, Iterable, Iterator, NamedTuple, NoReturn, Tuple

from rsp_tools import TOOLS
from rsp_tools.systems import header

SHARE = TOOLS / "packaging/share"


class File(NamedTuple):
    """A file: its bytes, and whether it can be run."""

    name: str
    data: bytes
    can_run: bool = False


def put_all(folder: Path, files: Iterable[File], fail: Callable[[str], NoReturn]) -> None:
    """Writes all files into a folder beside their places, for which there may be no room, and only then puts
    each in its place."""
    path = folder
    try:
        folder.mkdir(parents=True, exist_ok=True)
        with tempfile.TemporaryDirectory(dir=folder, prefix=".rsp-") as beside:
            for file in (listed := [*files]):
                path = folder / file.name
                Path(beside, file.name).write_bytes(file.data)
            for file in listed:
                path = folder / file.name
                os.replace(Path(beside, file.name), path)
    except OSError as fault:
        fail(f"cannot write {path}: {fault.strerror}")


def file(name: str, path: Path) -> File:
    return File(name, path.read_bytes(), bool(path.stat().st_mode & 0o100))


def version() -> Tuple[str, str]:
    """The version and its day, or `unreleased`."""
    number, day = header.dated_version().split()
    return number, day.strip("()")


def shared() -> Iterator[File]:
    """The files of share/: the man page, and the completions of the program's words in shells."""
    number, day = version()
    for path in sorted(path for path in SHARE.rglob("*") if path.is_file()):
        text = path.read_text().replace("@VERSION@", number).replace("@DAY@", day)
        yield File(str(path.relative_to(SHARE.parent)), text.encode())
