"""conformance/runner.c, which authors of emulators link with theirs: it runs flat vectors, and refuses
malformed files.

It fails if right vectors differ or a changed one doesn't, if the line of a difference names another register
or byte, if a malformed file isn't refused, or if the sanitizers of addresses and of undefined behaviour find
something.
"""

import re
import struct
import subprocess
from pathlib import Path
from typing import Dict, List, Tuple

import pytest

from lib import TOP, devices
from lib.packages import need
from lib.pages import block_with, blocks, page
from lib.processes import Ended, compiled, run, succeeds
from lib.sanitizers import sanitizers

pytestmark = [pytest.mark.needs("cc"), pytest.mark.xdist_group("runner")]
HEAD, STATES = 16 + 32, 2 * 772  # the bytes of a file and of its first case before that case's states; those
PIECE = HEAD + STATES  # where the first piece of the first case begins


@pytest.fixture(scope="module")
def runner(library: Path, tmp_path_factory: pytest.TempPathFactory) -> Path:
    """The runner under the sanitizers, if they run here."""
    at = tmp_path_factory.mktemp("runner")
    source, words = TOP / "conformance/runner.c", ("-std=c99", "-Wall", "-Wextra", "-Werror", f"-I{library}")
    return compiled(at / "runner", *words, *sanitizers(), source, library / "libbrsp.a")


@pytest.fixture(scope="module")
def vectors(program: Path, tmp_path_factory: pytest.TempPathFactory) -> bytes:
    """The flat vectors of SW, which have pieces of DMEM and IMEM: the same of the program and of `steps`."""
    at = tmp_path_factory.mktemp("vectors")
    succeeds("conformance/generate", "--program", program, "--cases", 20, "--flat", at, "SW")
    words = ("--program", "/none", "--flat", "--of", at, at / "again", "SW")
    assert succeeds("conformance/generate", *words) == "1 instructions\n"
    made = (at / "flat/SW.bin").read_bytes()
    assert (at / "again/flat/SW.bin").read_bytes() == made
    return made


def refuses(runner: Path, file: Path, data: bytes) -> None:
    """A file with these bytes is refused in a line that names it."""
    file.write_bytes(data)
    ran = run(runner, file, timeout=60)
    assert ran.returncode == 2 and ran.stdout.startswith(str(file)), (len(data), ran.stdout)
    assert ran.stdout.count("\n") == 1


def with_number(data: bytes, at: int, number: int) -> bytes:
    return data[:at] + struct.pack("<I", number) + data[at + 4 :]


# Where a number of the file is, and what is put there.
NUMBERS: Dict[str, Tuple[int, int]] = {
    "too many cases": (12, 0xFFFFFFFF),
    "one case more": (12, 21),
    "one case less": (12, 19),
    "size 0": (16, 0),
    "size of a head": (16, 32),
    "size past the end": (16, 1 << 24),
    "greatest size": (16, 0xFFFFFFFF),
    "has_choice 2": (16 + 8, 2),
    "too many pieces": (16 + 28, 0xFFFFFFFF),
    "is_after 2": (PIECE, 2),
    "greatest is_after": (PIECE, 0xFFFFFFFF),
    "bank 4": (PIECE + 4, 4),
    "greatest bank": (PIECE + 4, 0xFFFFFFFF),
    "address past the end": (PIECE + 8, 4097),
    "greatest address": (PIECE + 8, 0xFFFFFFFC),
    "length past the end": (PIECE + 12, 4097),
    "greatest length": (PIECE + 12, 0xFFFFFFFF),
}


def test_right(runner: Path, vectors: bytes, folder: Path) -> None:
    (folder / "right.bin").write_bytes(vectors)
    assert succeeds(runner, folder / "right.bin") == "20 passed, 0 failed\n"


# Where a part of a state is, its bytes, what it is called, and its digits.
PARTS = {
    "scalar register": (4 * 7, 4, "$7", 8),
    "lane": (128 + 2 * (8 * 31 + 5), 2, "$v31 lane 5", 4),
    "accumulator": (128 + 512 + 2 * 8 + 2 * 3, 2, "accumulator 3", 12),
    "clip": (128 + 560 + 3, 1, "vcc", 4),
    "DIV_OUT": (128 + 560 + 6 + 2, 2, "out", 4),
    "npc": (128 + 560 + 12 + 2, 2, "npc", 3),
    "SP register": (704 + 4 * 4, 4, "SP_STATUS", 8),
    "interrupt": (768, 4, "interrupt", 1),
}


@pytest.mark.parametrize("at, size, name, digits", PARTS.values(), ids=PARTS)
def test_changed(
    at: int, size: int, name: str, digits: int, runner: Path, vectors: bytes, folder: Path
) -> None:
    """A bit of a register after the first case: it is named, with both values, and a case of a choice is
    marked."""
    to = HEAD + 772 + at
    false = vectors[:to] + bytes([vectors[to] ^ 1]) + vectors[to + 1 :]
    (folder / "changed.bin").write_bytes(false)
    (folder / "choice.bin").write_bytes(with_number(false, 16 + 8, 1))
    ran = run(runner, folder / "changed.bin", folder / "choice.bin")
    form = rf"SW-000 \((sw .*\(.*\))%s\), {re.escape(name)}: expected (\w{{{digits}}}), got (\w{{{digits}}})"
    found = re.fullmatch(
        rf"{form % ''}\n{form % ', choice'}\n38 passed, 2 failed\nfailed: 2 of SW\n", ran.stdout
    )
    assert ran.returncode == 1 and found, ran.stdout
    assert found.groups()[:3] == found.groups()[3:]
    assert int(found[2], 16) ^ int(found[3], 16) in (1, 1 << 8, 1 << 16), ran.stdout


def test_changed_memory(runner: Path, vectors: bytes, folder: Path) -> None:
    """A byte that a case leaves in DMEM or in IMEM: its quadword is named."""
    pieces, at = [], PIECE
    while at < 16 + struct.unpack("<I", vectors[16:20])[0]:
        is_after, bank, address, length = struct.unpack("<IIII", vectors[at : at + 16])
        pieces.append((is_after, bank, address, at + 16))
        at += 16 + length + -length % 4
    assert any(it[0] for it in pieces)
    is_after, bank, address, at = pieces[-1]
    (folder / "changed.bin").write_bytes(vectors[:at] + bytes([vectors[at] ^ 1]) + vectors[at + 1 :])
    ran = run(runner, folder / "changed.bin")
    name = f"{('DMEM', 'IMEM')[bank]} {address // 16 * 16:03x}"
    assert re.match(rf"SW-000 \(sw .*\), {name}: expected \w{{32}}, got \w{{32}}\n", ran.stdout), ran.stdout


def test_line_of_page(runner: Path, program: Path, folder: Path) -> None:
    """The line that the page shows: a case of a choice, with the value that CFC2 doesn't give."""
    (line,) = [it for it in blocks("conformance/README.md") if re.match(r"\w+-\d+ \(.*, choice\), ", it)]
    form = r"(\w+-\d+) .*, (\$\d+): expected (\w+), got (\w+)\n"
    name, register, expected, result = re.findall(form, line)[0]
    succeeds("conformance/generate", "--flat", "--of", TOP / "conformance/vectors", folder, "CFC2")
    data, at = (folder / "flat/CFC2.bin").read_bytes(), 16
    while data[at + 12 :][: len(name)] != name.encode():
        at += struct.unpack("<I", data[at : at + 4])[0]
    to = at + 32 + 772 + 4 * int(register[1:])
    assert struct.unpack("<I", data[to : to + 4])[0] == int(expected, 16)
    (folder / "changed").write_bytes(with_number(data, to, int(result, 16)))
    exchanged = line.replace(expected, "*").replace(result, expected).replace("*", result)
    assert run(runner, folder / "changed").stdout == f"{exchanged}19 passed, 1 failed\nfailed: 1 of CFC2\n"


MINE = block_with("conformance/README.md", '#include "brsp.h"')  # the page's emulator, which executes nothing


def run_linked(source: Path, compiler: str, library: Path, vectors: bytes) -> "Ended[str]":
    """Runs the vectors on an emulator that is linked as the page says."""
    folder = source.parent
    runner = TOP / "conformance/runner.c", TOP / "library/c/helpers/texts.c"
    succeeds("cc", "-O2", "-c", f"-I{library}", *runner, cwd=folder)
    words = ("-O2", f"-I{library}", source.name, "runner.o", "texts.o", "-o", "mine")
    succeeds(compiler, *words, cwd=folder)
    (folder / "SW.bin").write_bytes(vectors)
    return run(folder / "mine", folder / "SW.bin")


@pytest.mark.parametrize("compiler, end", [("cc", "c"), ("c++", "cpp")])
def test_emulator_of_page(compiler: str, end: str, folder: Path, vectors: bytes, library: Path) -> None:
    """The functions that the page names are all that it takes, in C and in C++."""
    need(compiler)
    text = " ".join(page("conformance/README.md").split())
    (sentence,) = re.findall(r"`mine\.c` defines (.*?), with", text)
    names = re.findall(r"`(brsp_\w+)`", sentence)
    assert len(names) == 7 and sorted(names) == sorted(re.findall(r"(?m)^\w+ (brsp_\w+)\(", MINE))
    (folder / f"mine.{end}").write_text(MINE)
    ran = run_linked(folder / f"mine.{end}", compiler, library, vectors)
    assert ran.returncode == 1 and ran.stdout.startswith("SW-000 (sw ")
    assert ran.stdout.endswith("\n0 passed, 20 failed\nfailed: 20 of SW\n")


@pytest.mark.parametrize("words, status", [([], 0), (["--strict"], 1)])
def test_skipped_cases(words: List[str], status: int, folder: Path, vectors: bytes, library: Path) -> None:
    """What the emulator lacks is skipped, and named; with --strict that is a failure."""
    knows_vnop = "if ((memories[1][state.pc + 3] & 63) != 0x37) return BRSP_RESERVED;"
    (folder / "mine.c").write_text(MINE.replace("    state.pc =", f"    {knows_vnop}\n    state.pc ="))
    run_linked(folder / "mine.c", "cc", library, vectors)
    succeeds("conformance/generate", "--flat", "--of", TOP / "conformance/vectors", folder, "VNOP", "ADDU")
    ran = run(folder / "mine", *words, folder / "flat/VNOP.bin", folder / "flat/ADDU.bin")
    lines = "20 passed, 0 failed, 20 skipped\nskipped: 20 of ADDU\n"
    assert (ran.stdout, ran.returncode) == (lines, status)


# Lines of it, and what makes them lose what they get, by what the runner names.
LOSSES = {
    "pc": ("state = *from;", "state.pc ^= 4;"),
    "DMEM 000": ("memcpy(to, memories[bank] + address, len);", "*to ^= 1;"),
    "IMEM ff0": ("memcpy(memories[bank] + address, from, len);", "if (bank == 1) memories[1][4095] ^= 1;"),
}


@pytest.mark.parametrize("name", LOSSES)
def test_lost_state(name: str, folder: Path, vectors: bytes, library: Path) -> None:
    """An emulator that loses what it gets is refused before any step, because all its cases would differ."""
    line, more = LOSSES[name]
    assert MINE.count(line) == 1
    (folder / "mine.c").write_text(MINE.replace(line, f"{line} {more}"))
    ran = run_linked(folder / "mine.c", "cc", library, vectors)
    said = "the machine doesn't keep what brsp_set and brsp_load gave it, before any step"
    assert (ran.returncode, ran.stdout) == (2, f"{said}: {name}\n")


def changed(vectors: bytes, name: bytes) -> bytes:
    """Vectors whose first case has another name, and another register after it."""
    at = HEAD - 20
    return with_number(vectors[:at] + name.ljust(16, b"\0") + vectors[at + 16 :], HEAD + 772 + 28, 0x12345678)


def test_name_with_control_characters(runner: Path, vectors: bytes, folder: Path) -> None:
    """A terminal obeys neither the name of a case nor that of a file."""
    (folder / "right.bin").write_bytes(changed(vectors, b"a\x1b[2J\r\x9b\xc2\x9b"))
    ran = run(runner, folder / "right.bin", folder / "b\x1b[2J\n")
    assert ran.returncode == 2 and ran.stdout.count("\n") == 2, ran.stdout
    assert ran.stdout.startswith(f"{folder}/b\\x1b[2J\\x0a can't be read\n"), ran.stdout
    assert "\na\\x1b[2J\\x0d\\x9b\\xc2\\x9b (sw " in ran.stdout
    (folder / "other").write_bytes(bytes(100))
    ran = run(runner, folder / "other")
    assert (ran.returncode, ran.stdout) == (2, f"{folder}/other has no flat vectors\n")


def test_longest(runner: Path, vectors: bytes, folder: Path) -> None:
    """A right case in a file of 16 MiB, whose other bytes are pieces without a byte, and a false one after
    that."""
    size, most = struct.unpack("<I", vectors[16:20])[0], 1 << 24
    empty, spare = divmod(most - 16 - size, 16)
    # The first of these pieces has the bytes that make no piece: zeros of RDRAM, where zeros are.
    one = vectors[: 16 + size] + struct.pack("<IIII", 0, 2, 0, spare)
    pieces = struct.unpack("<I", vectors[16 + 28 : 16 + 32])[0] + empty
    for at, number in ((12, 1), (16, most - 16), (16 + 28, pieces)):
        one = with_number(one, at, number)
    (folder / "longest").write_bytes(one.ljust(most, b"\0"))
    assert succeeds(runner, folder / "longest") == "1 passed, 0 failed\n"
    refuses(runner, folder / "longer", one.ljust(most, b"\0") + changed(vectors, b"false")[16:])


def test_bytes_after_the_last_piece(runner: Path, vectors: bytes, folder: Path) -> None:
    """They may be an expectation that one piece less left out."""
    size, pieces = (struct.unpack("<I", vectors[at : at + 4])[0] for at in (16, 16 + 28))
    one = with_number(with_number(vectors[: 16 + size], 12, 1), 16, size + 16) + bytes(16)
    refuses(runner, folder / "spare", one)
    refuses(runner, folder / "fewer", with_number(vectors, 16 + 28, pieces - 1))


def test_full_device(runner: Path, vectors: bytes, folder: Path) -> None:
    (folder / "right.bin").write_bytes(vectors)
    with devices.full(folder).open("wb") as output:
        ran = run(runner, folder / "right.bin", stdout=output, stderr=subprocess.PIPE)
    assert (ran.returncode, ran.stderr) == (2, "standard output takes no more\n")


@pytest.mark.parametrize("at, number", NUMBERS.values(), ids=NUMBERS)
def test_malformed(at: int, number: int, runner: Path, vectors: bytes, folder: Path) -> None:
    refuses(runner, folder / "file", with_number(vectors, at, number))


def test_cut_off(runner: Path, vectors: bytes, folder: Path) -> None:
    """Every first part of the file's first case, and the file without its last byte, or with one more."""
    size = struct.unpack("<I", vectors[16:20])[0]
    cuts = [vectors[:length] for length in (*range(0, 16 + size, 37), 15, 16, 17, 47, 48, len(vectors) - 1)]
    for cut in [*cuts, vectors + b"\0", b"RSPCASES", b"x" * 1000]:
        refuses(runner, folder / "file", cut)
