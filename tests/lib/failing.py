"""Makes calls of the C library fail in turn: LD_PRELOAD puts those of tests/program/failing before others."""

import os
from pathlib import Path
from typing import Iterator, Sequence, Tuple

from lib import TESTS
from lib.processes import Ended, run, run_bytes


def library(folder: Path, name: str) -> Path:
    """Builds these calls: `allocations`, `writes`, or `synced`, which fail none and tell what is done."""
    built = folder / f"{name}.so"
    words = ("-shared", "-fPIC", "-O1", "-U_FORTIFY_SOURCE", "-o", built)
    run("cc", *words, TESTS / f"program/failing/{name}.c", check=True)
    return built


def runs(
    calls: Path, words: Sequence[object], script: bytes = b"", lasting: bool = False
) -> Iterator[Tuple[bool, "Ended[bytes]"]]:
    """Runs a program with its first call failing, then with its second, up to a run in which none fails.

    Of each: whether a call failed, and the run.
    """
    number, is_failed = 0, True
    while is_failed and number < 1000:
        number += 1
        reading, writing = os.pipe()
        settings = {"FAILING": str(number), "LASTING": str(int(lasting)), "TOLD": str(writing)}
        env = {**os.environ, "LD_PRELOAD": str(calls), **settings}
        ran = run_bytes(words[0], words[1:], script, env=env, pass_fds=(writing,))
        os.close(writing)
        is_failed = bool(os.read(reading, 1))
        os.close(reading)
        yield is_failed, ran
