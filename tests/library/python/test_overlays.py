"""Overlays in `rsp.gdb`: which of them it reports to GDB as loaded, at which stop, and what it may then set.

They fail if a breakpoint of one overlay stops in another, if a run or a step loses or doubles a step where an
overlay comes or goes, or if a wrong `--overlay` isn't refused by a sentence.
"""

import re
import sys
from pathlib import Path
from typing import List

import pytest

import rsp
from lib import TOP
from lib.library import module
from lib.library.module import loaded
from lib.processes import run, succeeds
from rsp.gdb import Stub
from rsp.gdb_overlays import overlay

STUB = (sys.executable, "-m", "rsp.gdb")
ENV = {**module.ENV, "LC_ALL": "C"}
# Brings 16 bytes to 400 from 100, 200, and 100 again, and at last overwrites the eight bytes at 408.
MAIN = """jal 0x040; ori $4, $0, 0x100; jal 0x400; nop; jal 0x040; ori $4, $0, 0x200; jal 0x400; nop
jal 0x040; ori $4, $0, 0x100; ori $5, $0, 0x1408; mtc0 $5, $c0; ori $6, $0, 7; mtc0 $0, $c1
mtc0 $6, $c2; break
ori $5, $0, 0x1400; mtc0 $5, $c0; mtc0 $4, $c1; ori $6, $0, 15; mtc0 $6, $c2; jr $31; nop"""
# The steps of its DMAs, counted by hand, and which overlay is there then.
DMAS = {6: "one", 21: "two", 36: "one", 43: ""}
FIRST, SECOND = "nop; addiu $9, $9, 1; jr $31; nop", "nop; addiu $9, $9, 2; jr $31; nop"


def code(text: str) -> bytes:
    return b"".join(it.to_bytes(4, "big") for it in rsp.assemble(text.replace("; ", "\n")))


def stub(folder: Path, first: str = FIRST, second: str = SECOND) -> Stub:
    """The stub of MAIN, whose image has the overlays, as GDB finds it when it connects."""
    machine = loaded(MAIN.replace("; ", "\n"))
    overlays = []
    for name, at, text in ("one", 0x100, first), ("two", 0x200, second):
        machine.load(rsp.RDRAM, at, code(text))
        (folder / f"{name}.bin").write_bytes(code(text))
        (folder / f"{name}.elf").touch()
        overlays.append(overlay("0x400", str(folder / f"{name}.elf"), str(folder / f"{name}.bin")))
    made = Stub(rsp.Timeline(machine), lambda: False, overlays)
    assert libraries(made) == ""
    return made


def libraries(asked: Stub) -> str:
    """The name of the overlay that GDB reads."""
    reply = (asked.reply(b"qXfer:libraries-svr4:read::0,fff") or b"").decode()
    assert reply.startswith("l") and reply.count("<library ") < 2
    return reply.rpartition(".elf")[0].rpartition("/")[2]


def stops(asked: Stub, packet: bytes) -> List[str]:
    """The replies to a packet that runs, which GDB sends again after each change of the libraries."""
    replies = [(asked.reply(packet) or b"").decode()]
    while "library" in replies[-1]:
        replies.append(f"{asked.line.step} {libraries(asked)}")
        replies.append((asked.reply(packet) or b"").decode())
    return replies


def test_swaps(folder: Path) -> None:
    """A run names each overlay at the step after the DMA, forwards, and at the DMA, backwards."""
    asked = stub(folder)
    shown = [it for it in stops(asked, b"c") if it[0] != "T"]
    assert shown == [f"{at + 1} {name}" for at, name in DMAS.items()]
    shown = [it for it in stops(asked, b"bc") if it[0] != "T"]
    before = zip([*DMAS][::-1], [*DMAS.values()][2::-1] + [""])
    assert shown == [f"{at} {name}" for at, name in before] and asked.line.step == 0


def test_breakpoints(folder: Path) -> None:
    """Nothing runs past a breakpoint at the instruction after the DMA, and single steps are made once each,
    forwards and backwards."""
    asked = stub(folder)
    assert asked.reply(b"Z0,4001054,4") == b"OK"  # after each DMA
    at = []
    for _ in range(3):
        replies = stops(asked, b"c")
        assert [it[:3] for it in replies[::2]] == ["T05", "T05"] and "25:04001054" in replies[-1]
        at.append(asked.line.step)
    assert asked.line.goto(at[1]) == at[1] and libraries(asked) == "two"
    for n in range(1, 4):
        assert stops(asked, b"bs")[-1].startswith("T05") and asked.line.step == at[1] - n
    assert libraries(asked) == "one"
    for n in range(2, -1, -1):
        assert stops(asked, b"s")[-1].startswith("T05") and asked.line.step == at[1] - n


# The same word is at 40c in both, but in the second one alone it is in a delay slot.
SAME = "nop; jr $31; nop; bne $0, $0, 0"
SLOT = "nop; nop; jr $31; bne $0, $0, 0"
BRANCH = "40c: bne $0, $0, 0x400: a branch in the delay slot of the branch at 408"


def test_sentences(folder: Path) -> None:
    """`waits` and `checks` name the overlay that is there when it happens, not the one that is there before,
    or at the end. `counts` names the one that has the word."""
    asked = stub(folder, SAME, SLOT)
    assert f"{BRANCH} ({folder}/two.elf)\n" in asked.monitor.begin("checks")[1]
    fetched = "400: nop: is fetched before the end of the transfer of 050, to IMEM 400 to 40f"
    assert f"{fetched} ({folder}/one.elf)\n" in asked.monitor.begin("waits")[1]
    asked.line.goto(40)
    assert asked.monitor.begin("checks")[1].startswith("nothing found\nlooked at: ")
    asked.line.goto(1000)
    rows = asked.monitor.begin("counts")[1].splitlines()
    ends = {"000 jal": "jal 0x040", "404 jr": f"({folder}/one.elf)", "408 jr": f"({folder}/two.elf)"}
    for begin, end in {**ends, "40c bne": "(in several overlays)"}.items():
        assert [it.endswith(end) for it in rows if it[10:].startswith(begin)] == [True], begin


@pytest.mark.needs("gdb-multiarch", "mips-linux-gnu-as")
def test_lines(folder: Path) -> None:
    """GDB shows the line of an overlay that is loaded, and otherwise its name."""
    asked = stub(folder, SAME, SLOT)
    (folder / "image").write_bytes(asked.line.machine.memory(rsp.RDRAM, 0, 4096))
    make = TOP / "examples/python/make_elf.py"
    for name, text, at in ("main", MAIN, "0"), ("one", SAME, "0x400"), ("two", SLOT, "0x400"):
        (folder / f"{name}.s").write_text(text.replace("; ", "\n").replace("$0, $0, 0", "$0, $0, 0x400"))
        succeeds(sys.executable, make, "--at", at, f"{name}.s", f"{name}.elf", cwd=folder, env=ENV)
    parts = [f"--overlay 0x400 {it}.elf {it}.bin" for it in ("one", "two")]
    connect = f"target remote | {sys.executable} -m rsp.gdb --rdram image {' '.join(parts)}"
    side = run(*STUB, "--side", env=ENV).stdout.strip()
    typed = [connect, "load", "monitor goto 10", "monitor checks", "monitor goto 23", "monitor checks"]
    words = ["gdb-multiarch", "-nx", "-q", "-x", side, "main.elf", "-batch"]
    words += [part for it in typed for part in ("-ex", it)]
    shown = run(*words, cwd=folder, env=ENV).stdout
    assert re.findall(re.escape(BRANCH) + r" \((.*)\)", shown) == ["two.elf", "two.s:4"], shown


WRONG = {
    "0x404 one.elf one.bin": "--overlay 0x404: an address in IMEM is a multiple of 8 below 0x1000",
    "0x2000 one.elf one.bin": "--overlay 0x2000: an address in IMEM is a multiple of 8 below 0x1000",
    "x one.elf one.bin": "x isn't a number",
    "0x400 none.elf one.bin": "No such file or directory: 'none.elf'",
    "0x400 one.elf none.bin": "No such file or directory: 'none.bin'",
    "0xff8 one.elf one.bin": "one.bin has no byte, or more than fit into IMEM from 0xff8 on",
    "0 one.elf /dev/zero": "/dev/zero has no byte, or more than fit into IMEM from 0x000 on",
    "0x400 \x1b.elf one.bin": "\\x1b.elf: GDB can't read this name",
}


@pytest.mark.parametrize("operands", WRONG)
def test_wrong(operands: str, folder: Path) -> None:
    """A sentence, and status 1."""
    for name in "one.elf", "\x1b.elf":
        (folder / name).touch()
    (folder / "one.bin").write_bytes(code(FIRST))
    ended = run(*STUB, "--overlay", *operands.split(" "), cwd=folder, env=ENV)
    assert ended.returncode == 1 and ended.stdout.count("\n") == 1, ended.stdout
    assert ended.stdout.startswith("rsp-gdb: ") and WRONG[operands] in ended.stdout
