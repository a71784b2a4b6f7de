"""The programs of Debian's packages that make what other systems need."""

import shutil
import subprocess
from pathlib import Path
from typing import Any, Dict, Optional, Union

from rsp_tools.targets import TARGETS

Word = Union[str, Path]

PACKAGES: Dict[str, str] = {
    "cc": "gcc",
    "ar": "binutils",
    "ld": "binutils",
    "objcopy": "binutils",
    "clang": "clang",
    **dict.fromkeys(["ld64.lld", "lld-link"], "lld"),
    **dict.fromkeys([f"llvm-{it}" for it in "ar dlltool lib lipo nm objdump readobj".split()], "llvm"),
    "wasm-opt": "binaryen",
    **dict.fromkeys(["wasm2wat", "wat2wasm", "wasm-validate"], "wabt"),
    **{program: package for target in TARGETS.values() for program, package in target.packages.items()},
}


class Refused(Exception):
    """Why a system can't be made, in a line."""


def found(program: str) -> Optional[str]:
    """The path of a program; None if it isn't there. Debian has some programs of LLVM only beside clang's own
    file, to which that in PATH is a link."""
    beside = Path(shutil.which("clang") or "/none/clang").resolve().parent
    return shutil.which(program) or shutil.which(program, path=str(beside))


def missing(*programs: str) -> str:
    """The packages of Debian whose programs aren't there, with a blank between them."""
    return " ".join(dict.fromkeys(PACKAGES.get(it, it) for it in programs if not found(it)))


def call(
    program: str, *words: Word, executable: str = "", text: str = "", folder: Optional[Path] = None
) -> str:
    """The output of a program for a text, in a folder. Refused, with its last lines, if it fails."""
    executable = executable or found(program) or ""
    if not executable:
        raise Refused(f"there is no {program}: Debian's package {missing(program)} has it")
    command = [program, *map(str, words)]
    how: Dict[str, Any] = {"executable": executable, "cwd": folder, "capture_output": True}
    ended = subprocess.run(command, input=text, text=True, errors="replace", **how)
    if ended.returncode:
        last = "\n".join((ended.stdout + ended.stderr).strip().splitlines()[-20:])
        raise Refused(f"{program} failed with status {ended.returncode}:\n{last}")
    return ended.stdout
