"""The scripts of the repository with the replies that are stored beside them.

They are in folders by what they show: values (of instructions), blocks, runs, history, registers, faults,
theorems. NAME.script is what `rsp run` reads, NAME.expected what it must print. Beside them may be
  NAME.rdram    the length of an image for --rdram: zeros, or with `count` after it bytes that count up
  NAME.saved    the image that --save writes must be the one that was read
  NAME.stderr   what must be written to standard error (else nothing)
  NAME.status   the expected exit status (else 0)
Of the examples and of microcode/, NAME.rsp must print NAME.out.
"""

import functools
import re
from pathlib import Path
from typing import Iterator, List, Optional, Tuple

from lib import TESTS, TOP
from lib.program import Result, content

SCRIPTS = TESTS / "program/scripts"


class ScriptCase:
    """A script with the files beside it."""

    def __init__(self, path: Path) -> None:
        self.path, self.script = path, path.read_bytes()
        status, expected, out, errors = map(self.beside, ("status", "expected", "out", "stderr"))
        self.expected = Result(int(status or 0), (expected or b"") + (out or b""), errors or b"")
        self.is_saved = self.beside("saved") is not None

    def __str__(self) -> str:
        return f"{self.path.parent.name}/{self.path.stem}"

    def beside(self, suffix: str) -> Optional[bytes]:
        return content(self.path.with_suffix(f".{suffix}"))

    def image(self) -> Optional[bytes]:
        length, *count = (self.beside("rdram") or b"").split() or [b""]
        return bytes(i % 256 if count else 0 for i in range(int(length))) if length else None

    def words(self, folder: Path) -> List[str]:
        """The words of the command in a folder, into which this writes the image."""
        words, image = ["run", *["--save", "saved"] * self.is_saved], self.image()
        if image is not None:
            (folder / "image").write_bytes(image)
            words += ["--rdram", "image"]
        return words


# The number of lines of a reply that isn't a fault, if it isn't 1.
REPLY_LINES = {b"regs": 9, b"vregs": 32, b"acc": 8, b"sp": 17}
OPENING = re.compile(rb"[ \t]*asm[ \t]+(\d{1,10}|0x[0-9A-Fa-f]{1,8})[ \t]*(#.*)?")


def lines_of(words: List[bytes]) -> int:
    """The number of lines of the reply to a command."""
    if words[0] == b"mem":
        return (int(words[3], 0) + 15) // 16
    return int(words[2], 0) if words[0] == b"dis" else REPLY_LINES.get(words[0], 1)


def faults_in(script: bytes, output: bytes) -> Iterator[Tuple[int, bytes]]:
    """The faults among the replies, each after the number of its line in the script, as SCRIPT.md says.

    A fault of a block counts from the line after `asm`.
    """
    replies, block = output.splitlines(), 0
    lines = re.split(rb"\r?\n", script)
    for number, line in enumerate(lines, 1):
        words = line.partition(b"#")[0].split()
        is_text = len(line) <= 256 and not re.search(rb"[^\t -~]", line)
        opening = OPENING.fullmatch(line) if is_text else None
        if block and line.strip(b" \t") != b"end" or is_text and not words:
            continue
        if opening and not block and int(opening[1], 16 if b"x" in opening[1] else 10) in range(0, 4096, 4):
            block = number
            continue
        if replies[0].startswith(b"fault "):
            yield (block + int(replies[0].split()[-1]) if block else number), replies[0]
        replies = replies[1 if block or replies[0].startswith(b"fault ") else lines_of(words) :]
        block = 0
    for reply in replies:
        yield block + int(reply.split()[-1]), reply


@functools.lru_cache(None)
def all_cases() -> List[ScriptCase]:
    paths = [*SCRIPTS.glob("*/*.script"), *TOP.glob("examples/*.rsp"), *TOP.glob("microcode/*.rsp")]
    assert len(paths) > 100
    return [ScriptCase(path) for path in sorted(paths)]
