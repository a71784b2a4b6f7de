"""Seeds of the fuzz targets, and the dictionary of those that read text, made of the repository's files."""

import re
import struct
from itertools import product
from typing import Callable, Dict, Iterator

from rsp_conformance.flat import flat_bytes
from rsp_conformance.vectors import VECTORS, entries_in, names_in
from rsp_tools import TOP
from rsp_tools.page_tables import data

LONGEST = 4096
OPERANDS = "$0 $31 $v0 $v31[7] $v1[e1] $v2[0q] $c15 $vco $vcc $vce ($2) .word"
NUMBERS = "0x -1 4092 65535 4294967295 dmem imem rdram"


def dictionary() -> str:
    """The words of scripts and of assembly text, in libFuzzer's form."""
    commands = [row["Command"].split()[0] for row in data("commands")]
    instructions = [row["Instruction"].lower() for row in data("instructions")]
    words = dict.fromkeys([*commands, *instructions, *f"{OPERANDS} {NUMBERS}".split()])
    return "".join(f'"{word}"\n' for word in [*words, r"\x0a", r"\x0d\x0a", r"\x7f"])


def short_scripts() -> Iterator[str]:
    """The short scripts of the repository."""
    for pattern in "tests/program/scripts/*/*.script", "examples/*.rsp", "microcode/*.rsp":
        for path in sorted(TOP.glob(pattern)):
            text = path.read_text(errors="replace")
            if text.isascii() and len(text) < LONGEST:
                yield text


def short_texts() -> Iterator[str]:
    """Assembly texts: an example of each instruction, lines with and without a fault, blocks of scripts."""
    examples = [f"{row['Example']}\n" for row in data("instructions")]
    yield from ("".join(examples[at : at + 16]) for at in range(0, len(examples), 16))
    yield from (f"{row['Line']}\n" for row in data("syntax"))
    for script in short_scripts():
        yield from re.findall(r"(?ms)^asm \d+\n(.*?)^end$", script)


def calls() -> Iterator[bytes]:
    """Each call three times, on a machine with history and on a session. fuzz/calls.c numbers the calls."""
    made = bytes([0, 0, 4, 9, *bytes(64), 37, 0, 2])
    return (made + bytes([number, 0, 1, 0, 4, 1, 2, 3]) * 3 for number in range(50))


def scripts() -> Iterator[bytes]:
    """The first byte says how a script is cut."""
    return (bytes([number % 7]) + script.encode() for number, script in enumerate(short_scripts()))


def texts() -> Iterator[bytes]:
    """The first bytes are the origin 0, and room for all words, or for one. At the end are words of each
    instruction, each with the address 0."""
    for number, text in enumerate(short_texts()):
        yield b"\0\1" + text.encode()
        if number % 8 == 0:
            yield b"\0\0\1" + text.encode()
    for name in names_in(VECTORS):
        yield b"\0\1" + b"".join(bytes.fromhex(it["word"]) + b"\0" for it in entries_in(VECTORS, name)[:16])


def load_word(register: int, number: int) -> bytes:
    """LUI and ORI, which load a register, in the form of fuzz/plugin.c."""
    return struct.pack(">BHBH", 3 | register << 2, number >> 16, 2 | register << 2, number & 0xFFFF)


def plugin() -> Iterator[bytes]:
    """Tasks in the form of fuzz/plugin.c: a DMA by a length word at an address of RDRAM, then steps."""
    transfers = (
        (0, 0x3F),
        (0x3FFFF8, 0x3F),
        (0xFFFFF8, 0xFFF),
        (0x3FF000, 0x800 << 20 | 3 << 12 | 0x7FF),  # rows with a skip
        (0x1000, 1 << 12 | 0x7FF),  # rows that are one row, the longest
        (0x1000, 1 << 12 | 0xFFF),  # and rows that are too long for that
    )
    for register, (address, length) in product((2, 3), transfers):
        moves = [struct.pack(">BB", 1 | source << 2, to) for source, to in ((1, 1), (2, register))]
        task = load_word(1, address) + moves[0] + load_word(2, length) + moves[1] + struct.pack(">BI", 0, 13)
        yield bytes([0, 0, 0, 0, 0, 7]) + task + bytes([1, 255]) * 8


def runner() -> Iterator[bytes]:
    """A file of a case, and numbers of which fuzz/runner.c makes a file, which are found more often."""
    yield b"\0" + flat_bytes(entries_in(VECTORS, "SW")[:1])
    for count, kind, bank, edge in product(range(1, 4), (0, 1), (0, 1, 2), (0, 19, 27)):  # 0, 4088 and 131064
        yield bytes([1, count, *bytes([kind, bank, edge, 8]) * count])
    yield bytes([1, 0])


def helpers() -> Iterator[bytes]:
    """Searches over a DMA to RDRAM and a loop, with right answers and spoilt ones; then texts."""
    transfer = bytes.fromhex("3401004034020fff40810800408218002108ffff1500fffe0000000d")
    for image, every, spoilt in product(range(4), (1, 13), (0, 240)):
        answers = bytes([0, 0, spoilt, 0, 5, 9]) * 64
        yield bytes([4, image, every, 60, len(transfer) // 4]) + transfer + answers
    for kind, number in product(range(4), range(9)):
        yield bytes([kind, number, 20]) + bytes(range(256)) * 8


GENERATORS = (calls, scripts, texts, plugin, runner, helpers)
SEEDS: Dict[str, Callable[[], Iterator[bytes]]] = {generate.__name__: generate for generate in GENERATORS}
WITH_DICTIONARY = ("scripts", "texts")
