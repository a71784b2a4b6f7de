"""`rsp.checks`, `rsp.lines` and `rsp.counts`, with a table of addr2line, and the same commands of `monitor`.

They fail if a sentence is missing, has another number, or lacks its label and line, or if the status
doesn't fail CI.
"""

import re
import sys
from pathlib import Path

import pytest

import rsp
import rsp.checks
import rsp.lines
import rsp.waits
from lib.library.module import ENV, loaded
from lib.overlay import link
from lib.pages import block_with
from lib.processes import run, succeeds
from rsp.gdb import Stub

# What is wrong in a program, by hand: a count of 1 is two rows, and 260 isn't a multiple of 8.
WRONG = """ori $1, $0, 0x0c3
mtc0 $1, $c0
ori $1, $0, 0x104
mtc0 $1, $c1
lui $1, 0x0040
ori $1, $1, 0x100a
mtc0 $1, $c2
blez $0, 0x024
j 0x024
break
"""
SENTENCES = [
    "004: mtc0 $1, $c0: address 0xc3 isn't a multiple of 8, so a DMA begins at 0xc0",
    "00c: mtc0 $1, $c1: address 0x104 isn't a multiple of 8, so a DMA begins at 0x100",
    "018: mtc0 $1, $c2: length 11 isn't a multiple of 8, so the DMA moves 16 bytes a row",
    "018: mtc0 $1, $c2: skip 4 isn't a multiple of 8, so the DMA skips 0 bytes",
    "020: j 0x024: a branch in the delay slot of the branch at 01c",
]
RIGHT = """ori $1, $0, 0x0c8
mtc0 $1, $c0
mtc0 $0, $c1
ori $1, $0, 0x00f
mtc0 $1, $c3
blez $0, 0x01c
nop
break
"""


def test_checks() -> None:
    """Each sentence once, however often the instruction does it, and as `monitor checks` says it."""
    assert sorted(map(str, rsp.checks.found(loaded(WRONG)))) == SENTENCES
    assert list(rsp.checks.found(loaded(RIGHT))) == []
    loop = loaded(WRONG.replace("break", "nop\nbgez $0, 0\nnop"))
    assert sorted(map(str, rsp.checks.found(loop, 70000))) == SENTENCES
    done, reply = Stub(rsp.Timeline(loaded(WRONG)), lambda: False).monitor.begin("checks")
    *found, looked, _ = reply.splitlines()
    assert done and sorted(found) == SENTENCES and looked.endswith("from here on, to the halt")


ADDR2LINE = """\
0x04001000: start at mine.S:3
0x0400101c: last at mine.S:9
0x04001020: last at mine.S:10 (discriminator 2)
0x04001024: ?? ??:0
"""


def test_command(folder: Path) -> None:
    """The status and the lines of a script, with a table and without, and missing waits too."""
    script, table = folder / "script", folder / "table"
    words = sys.executable, "-m", "rsp.checks", script
    script.write_text(f"asm 0\n{RIGHT}end\nrun 100\n")
    missing = "010: mtc0 $1, $c3"
    ended = run(*words, env=ENV)
    assert ended.returncode == 1 and "line 11: 01c: break: ends before the end of the" in ended.stdout
    assert ended.stdout.count("\n") == 1 and missing not in ended.stdout
    script.write_text("asm 0\nbreak\nend\nrun 100\n")
    assert (run(*words, env=ENV).returncode, run(*words, env=ENV).stdout) == (0, "nothing found\n")
    script.write_text(f"asm 0\n{WRONG}end\nrun 100\n")
    table.write_text(ADDR2LINE)
    ended = run(*words, "--lines", table, env=ENV)
    assert ended.returncode == 1 and f"line 13: {SENTENCES[-1]} (last+4, mine.S:10)\n" in ended.stdout
    table.write_text("\x1b[2J")
    ended = run(*words, "--lines", table, env=ENV)
    assert (
        ended.returncode == 1 and ended.stdout == f"rsp.checks: {table} isn't what addr2line -apfs prints\n"
    )


def test_lines() -> None:
    """A label with its distance, a line, and the message of a run that doesn't halt."""
    lines = rsp.lines.Lines(ADDR2LINE + "0x04001028: \x1b at \x1b:5\n")
    assert [lines.at(it) for it in (0, 0x1C, 0x20, 0x24, 4)] == [
        "start, mine.S:3", "last, mine.S:9", "last+4, mine.S:10", "", "",
    ]  # fmt: skip
    assert lines.at(0x28) == "\\x1b, \\x1b:5"
    with pytest.raises(rsp.NotHalted, match=r"LIMIT after 7 steps, before 01c .* \(last, mine.S:9\)$"):
        with lines.named():
            loaded(WRONG).run_to_halt(7)


@pytest.mark.needs("mips-linux-gnu-gcc")
def test_page(folder: Path) -> None:
    """COOKBOOK's command makes a table of the ELF, which `rsp.counts` takes."""
    link(folder)
    succeeds("sh", "-ec", block_with("docs/COOKBOOK.md", "printf '%x"), cwd=folder)
    bytes_of = "mips-linux-gnu-objcopy", "-O", "binary", "-j", ".text", "build/rsp_mine.elf", "code.bin"
    succeeds(*bytes_of, cwd=folder)
    raw = (folder / "code.bin").read_bytes()
    (folder / "script").write_text(
        f"load imem 0 {raw[:0x18].hex()}\nload imem 0x18 {raw[0x18:].hex()}\nrun 9\n"
    )
    words = sys.executable, "-m", "rsp.counts", "script", "--lines", "mine.lines", "--fail-unexecuted"
    ended = run(*words, cwd=folder, env=ENV)
    assert ended.returncode == 1  # the command at 040 was never called
    executed, _, rest = ended.stdout.partition("never executed:\n")
    assert "\n       1  14.3 %  00c sw $2, 8($0) (_start+12, rsp_mine.S:8)\n" in executed
    assert " 018 addu $2, $4, $5 (add+4, rsp_mine.S:11)\n" in executed
    # Not the words with which the linker pads.
    assert re.findall(r"\((\w+)\+?\d*, rsp_mine.S:\d+\)", rest) == ["command"] * 3
    (folder / "script").write_text(f"load imem 0 {raw[:0x1c].hex()}\nrun 9\n")
    assert run(*words, cwd=folder, env=ENV).returncode == 0


def test_what_a_dma_brings(folder: Path) -> None:
    """`rsp.counts` says that it can't know what a DMA has brought besides what was executed."""
    script, words = folder / "script", (sys.executable, "-m", "rsp.counts", folder / "script")
    begin = "ori $1, $0, 0x1020\nmtc0 $1, $c0\nmtc0 $0, $c1\nori $1, $0, 7\nmtc0 $1, $c2\n"
    script.write_text(f"load rdram 0 0000000d0000000d\nasm 0\n{begin}j 0x020\nnop\nend\nrun 9\n")
    sentence = "not looked at: what a DMA or a task has brought, except what was executed of it\n"
    assert run(*words, env=ENV).stdout.endswith(f"8 steps\n{sentence}")
    script.write_text(f"asm 0\n{begin}j 0x018\nnop\nbreak\nend\nrun 9\n")
    assert sentence not in run(*words, env=ENV).stdout
