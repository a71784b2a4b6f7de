"""Starts the commands that are tested."""

import subprocess
from pathlib import Path
from typing import Any, Sequence

from lib import TOP

Ended = subprocess.CompletedProcess
# The options of a compiler for a program over the library.
STRICT = ("-O2", "-Wall", "-Wextra", "-Werror", f"-I{TOP}/library/c")


def run(*words: object, **how: Any) -> "Ended[str]":
    """Runs a command at the top of the repository, to its end: text, errors among the output, no input."""
    streams = {"stdout": subprocess.PIPE, "stderr": subprocess.STDOUT}
    how = {"cwd": TOP, "timeout": 280, "text": True, "errors": "replace", **streams, **how}
    if "input" not in how:
        how["stdin"] = subprocess.DEVNULL
    return subprocess.run([str(word) for word in words], **how)


def succeeds(*words: object, **how: Any) -> str:
    """Runs a command, asserts that its status is 0, and returns its output."""
    ended = run(*words, **how)
    command = " ".join(map(str, words))
    assert ended.returncode == 0, f"{command} ended with {ended.returncode}:\n{ended.stdout}"
    return str(ended.stdout)


def compiled(to: Path, *words: object, compiler: str = "cc") -> Path:
    """Compiles a program with these arguments, and returns its path."""
    succeeds(compiler, "-o", to, *words)
    return to


def run_bytes(program: object, words: Sequence[object], script: bytes = b"", **how: Any) -> "Ended[bytes]":
    """Runs a program on bytes, to its end. Its arguments are texts, paths, or bytes."""
    how = {"stdout": subprocess.PIPE, "stderr": subprocess.PIPE, "timeout": 120, **how}
    if "stdin" not in how:
        how["input"] = script
    return subprocess.run([it if isinstance(it, bytes) else str(it) for it in (program, *words)], **how)
