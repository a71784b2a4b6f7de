"""Runs of the program under test."""

from pathlib import Path
from typing import Any, NamedTuple, Optional, Sequence

import pytest

from lib import TOP
from lib.processes import run_bytes


class Result(NamedTuple):
    """How a run ended. A test compares it with `(status, output, errors)`."""

    status: int
    output: bytes
    errors: bytes


def run_program(program: object, words: Sequence[object], script: bytes = b"", **how: Any) -> Result:
    """Runs the program to its end. Its arguments are texts, paths, or bytes."""
    ended = run_bytes(program, words, script, **how)
    return Result(ended.returncode, ended.stdout or b"", ended.stderr or b"")


def content(path: Path) -> Optional[bytes]:
    """The bytes of a file; None if there is none."""
    return path.read_bytes() if path.exists() else None


def need_binary(program: Path) -> None:
    """Fails a test that affects each program that it starts: ./rsp starts others before it is the program."""
    if program == TOP / "rsp":
        pytest.fail("./rsp starts others: name the program that it builds, crates/rsp_main/out/rsp_main")
