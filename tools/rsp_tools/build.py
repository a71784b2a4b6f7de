"""What is made of the sources as they are, by the marks that tools/built.sh reads."""

import hashlib
import subprocess
from pathlib import Path
from typing import Optional

from rsp_tools import TOP
from rsp_tools.crates import CRATES, with_below

BUILT = ("rsp_main", "rsp_c")  # the program, and the library for C
LINKED = CRATES / "rsp_main/out/rsp"  # the program that cc makes


def line_of(name: str, data: bytes) -> str:
    """The line that sha256sum prints of a file, whose name begins at the top."""
    return f"{hashlib.sha256(data).hexdigest()}  {name}\n"


def said(script: str, *words: str) -> "subprocess.CompletedProcess[str]":
    """How a script of functions of tools/built.sh ended, with what it printed."""
    command = ["sh", "-c", f'. "$1/tools/built.sh" && {script}', "sh", str(TOP), *words]
    return subprocess.run(command, stdout=subprocess.PIPE, text=True)


def is_made(mark: str) -> bool:
    """Whether the files of a mark are there, made of the sources as they are."""
    return said('is_made "$@"', mark).returncode == 0


def folder(crate: str) -> Optional[Path]:
    """Where the files lie that cc makes of a crate; None if they aren't made of the sources as they are."""
    found = said('find_made "$@" && echo "$folder"', crate).stdout
    return Path(found[:-1]) if found else None


def program() -> Optional[Path]:
    """The program of the sources as they are; None if there is none."""
    found = folder("rsp_main")
    return found / "rsp" if found else None


def sources(crate: str) -> str:
    """The names of the crate and of those below, and the sum of all their files, each in a line."""
    names = with_below(crate)
    total = said('tell_sources "$@"', *names).stdout
    return f"{' '.join(names)}\n{total}"


def listed_sources() -> str:
    """compiled/sources: each source of what is in compiled/, and the first digits of its sum."""
    crates = {name for crate in BUILT for name in with_below(crate)}
    return said('tell_list "$@"', *sorted(crates)).stdout
