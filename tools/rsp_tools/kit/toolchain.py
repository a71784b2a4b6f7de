"""The kit that is installed here: its version, its folder, its LLVM, and how its commands are run."""

import functools
import os
import re
import shutil
import signal
import subprocess
from contextlib import suppress
from pathlib import Path
from typing import Callable, List, Sequence, Set

from rsp_tools import TOOLS
from rsp_tools.crates import rlib_folder, uses, with_below
from rsp_tools.systems.toolchain import Refused, Word, call

LOGIC = (TOOLS / "logic").read_text().strip()
NONE = "there is no `rt`, the command of the Rattle kit (compiled/record names its version)"
# The rules on modules were written for what this version of the kit's clang reads and writes.
CLANG = "22.1.8"
RUNNING: Set[int] = set()  # the groups of processes of the commands that are running


@functools.lru_cache(None)
def version() -> str:
    """The version of the kit on this machine; empty if there is none."""
    if not shutil.which("rt"):
        return ""
    return subprocess.run(["rt", "version"], stdout=subprocess.PIPE, text=True).stdout.strip()


@functools.lru_cache(None)
def folder() -> Path:
    """The folder of the kit. Refused if there is none."""
    if not shutil.which("rt"):
        raise Refused(NONE)
    return Path(call("rt", "doc").strip()).parent


@functools.lru_cache(None)
def clang() -> Path:
    """The kit's clang. Refused if it is of another version than the one that is known."""
    path = folder() / "toolchain/bin/clang"
    found = re.findall(r"clang version (\S+)", call("clang", "--version", executable=str(path)))
    if found != [CLANG]:
        raise Refused(f"the kit's clang is {' '.join(found)}, and the rules on modules are for {CLANG}")
    return path


def llvm(tool: str, *words: Word) -> str:
    """Runs a tool of the kit's LLVM. One file holds them all, and does what the name says by which it is
    called."""
    return call(tool, *words, executable=str(clang()))


def over_libraries(verb: str, crate: str) -> List[str]:
    """The kit's words to check or build a crate over the libraries below as they are, without stamps too."""
    rt, ours = folder(), with_below(crate)[:-1]
    words = [f"{rt}/bin/rattle", verb, "--crate-name", crate]
    for name in ["std", *uses(crate)]:
        words += ["--extern", f"{name}={rlib_folder(name) if name in ours else rt / 'rlibs'}/{name}.rlib"]
    for libraries in [rt / "rlibs", *map(rlib_folder, ours)]:
        words += ["-L", f"dependency={libraries}"]
    words += ["--antt-project", f"{rt}/rattle/logic/antt-project.json", "--logic-built", f"{rt}/logic_built"]
    return words


def end_group(group: int) -> None:
    """Ends a command with all that it has begun."""
    with suppress(ProcessLookupError):
        os.killpg(group, signal.SIGKILL)


def end_all() -> None:
    """Ends all commands that are running."""
    for group in [*RUNNING]:
        end_group(group)


def run(words: Sequence[str], at: Path, take: Callable[[str], object]) -> int:
    """Runs a command of the kit in a folder, hands on each line that it prints, and returns its status."""
    with subprocess.Popen(
        words,
        cwd=at,
        stdin=subprocess.DEVNULL,
        stdout=subprocess.PIPE,
        stderr=subprocess.STDOUT,
        text=True,
        errors="replace",
        start_new_session=True,
    ) as process:
        RUNNING.add(process.pid)
        try:
            for line in process.stdout or []:
                take(line)
            return process.wait()
        finally:
            RUNNING.discard(process.pid)
            end_group(process.pid)
