"""RDRAM in `rsp.Timeline` and `rsp.gdb`: which DMA wrote a byte, which step made it, and watches.

They fail if a search names another DMA, another address or another step than a walk through the steps of a
plain machine, which sees what a DMA does by other bytes before it.
"""

import random
import re
import sys
from pathlib import Path
from typing import List, Optional, Tuple

import pytest

import rsp
from lib import TOP
from lib.library import module
from lib.library.module import loaded
from lib.processes import succeeds
from rsp import Reason
from rsp.dmas import DmaWatch
from rsp.gdb import Stub

ANY = 1 << 40
Walk = Tuple[rsp.Timeline, List[rsp.Machine]]


def random_dmas(chance: random.Random) -> str:
    """A program of stores and DMAs both ways, with rows that have gaps, wrap and overlap."""
    lines = []
    for _ in range(12):
        numbers = chance.choice((0, 0x1C00)) + 8 * chance.randrange(32), 8 * chance.randrange(40)
        length = chance.choice((7, 15, 31)) | chance.randrange(4) << 12 | 8 * chance.randrange(3) << 20
        to_rdram = chance.randrange(3) > 0
        lines += [f"ori $1, $0, {chance.randrange(256)}", f"sb $1, {chance.randrange(300)}($0)"]
        lines += [f"ori $2, $0, {numbers[0]}", "mtc0 $2, $c0", f"ori $2, $0, {numbers[1]}", "mtc0 $2, $c1"]
        lines += [f"lui $2, {length >> 16}", f"ori $2, $2, {length & 0xFFFF}", f"mtc0 $2, $c{2 + to_rdram}"]
    return "\n".join([*lines, "break"])


def walked(seed: int) -> Walk:
    """A timeline at the end of a random program, and a plain machine before each step and at the end."""
    chance = random.Random(seed)
    machine = loaded(random_dmas(chance))
    machine.load(rsp.RDRAM, 0, chance.randbytes(1024))
    line, machines = rsp.Timeline(machine, chance.choice((10, 5000)), 4), [machine.copy()]
    while machine.step() is rsp.Status.OK:
        machines.append(machine.copy())
    assert line.run_to(ANY).step == len(machines) - 1
    return line, machines


def source(before: rsp.Machine, address: int) -> Optional[Tuple[rsp.Bank, int]]:
    """Where a step takes a byte of RDRAM from, or None if it doesn't write it: what is there afterwards if
    each byte of DMEM and IMEM is a part of its address."""
    parts: List[int] = []
    for n, fill in (0, 1), (0, 2), (8, 1):
        copy, place = before.copy(), before.regs().pc
        word = copy.memory(rsp.IMEM, place, 4)
        for bank in rsp.DMEM, rsp.IMEM:
            copy.load(bank, 0, bytes((it | bank << 12) >> n & 255 for it in range(4096)))
        copy.load(rsp.IMEM, place, word)  # no DMA takes this
        copy.load(rsp.RDRAM, address, bytes([fill]))
        copy.step()
        parts += copy.memory(rsp.RDRAM, address, 1)
    low, again, high = parts
    return None if low != again else (rsp.Bank(high >> 4), high % 16 << 8 | low)


def changed(machines: List[rsp.Machine], bank: rsp.Bank, at: int, length: int, end: int) -> int:
    """The last step before `end` that changes bytes, or -1."""
    seen = [it.memory(bank, at, length) for it in machines[: end + 1]]
    return max((n for n in range(end) if seen[n] != seen[n + 1]), default=-1)


@pytest.mark.parametrize("seed", range(4))
def test_wrote(seed: int) -> None:
    """For bytes of RDRAM, the last DMA that wrote it, also with the same value, and the step before it that
    changed the byte it took."""
    line, machines = walked(seed)
    last, chance = len(machines) - 1, random.Random(seed)
    dmas = [n for n in range(last) if machines[n].copy().event(1).dma]
    for address in chance.sample(range(400), 25):
        assert line.goto(last) == last
        sources = [(n, it) for n in dmas for it in [source(machines[n], address)] if it]
        found = line.wrote(f"0x{0x80000000 + address:x}")
        if not sources:
            assert found == (Reason.LIMIT, 0, None) and found.dma is None
            continue
        step, (bank, at) = sources[-1]
        assert found.dma == (step, bank, at), address
        change = changed(machines, bank, at, 1, step)
        expected = (Reason.LIMIT, step) if change < 0 else (Reason.WATCH, change)
        assert found[:2] == expected and line.step == expected[1], address


@pytest.mark.parametrize("seed", range(4))
def test_watches(seed: int) -> None:
    """Of RDRAM and IMEM, forwards and backwards."""
    line, machines = walked(seed)
    last = len(machines) - 1
    for watch in (rsp.RDRAM, 40, 30), (rsp.RDRAM, 64, 1), (rsp.IMEM, 0xC00, 64), (rsp.RDRAM, 0, 4096):
        line.dma_watches = {DmaWatch(*watch)}
        steps = [n for n in range(last) if machines[n].memory(*watch) != machines[n + 1].memory(*watch)]
        line.goto(0)
        for step in steps:
            assert line.run_to(ANY) == (Reason.WATCH, step + 1, watch)
        assert line.run_to(ANY) == (Reason.HALT, last, None)
        for step in steps[::-1]:
            assert line.back() == (Reason.WATCH, step + 1, watch) and line.goto(step) == step
        assert line.back() == (Reason.LIMIT, 0, None)


def test_breakpoint() -> None:
    """Just after a DMA that writes no watched byte."""
    line = rsp.Timeline(loaded("mtc0 $0, $c0\nmtc0 $0, $c1\nmtc0 $0, $c2\nmtc0 $0, $c3\nnop\nbreak"))
    line.dma_watches, line.breaks = {DmaWatch(rsp.RDRAM, 64, 8)}, {12, 16}
    found = [line.run_to(ANY)[:2] for _ in range(3)]
    assert found == [(Reason.BREAK, 3), (Reason.BREAK, 4), (Reason.HALT, 6)]


SENT = """send: ori $1, $0, 0x1234
ori $2, $0, 0x300
sh $1, 2($0)
mtc0 $0, $c0
mtc0 $2, $c1
ori $3, $0, 7
mtc0 $3, $c3
break"""


TYPED = """target remote | rsp-gdb
load
watch *(short *) 0x80000302
continue
continue
reverse-continue
monitor wrote 0x80000303
"""
# What GDB says, in this order: forwards, at the halt, and backwards.
SHOWN = """New value = 4660
8\tbreak
halted after 8 steps
Old value = 4660
New value = 0
7\tmtc0 $3, $c3
step 6: 018 40831800 mtc0 $3, $c3 (sent.s:7), which took the byte from DMEM 003
step 2: 008 a4010002 sh $1, 2($0) (sent.s:3)
3\tsh $1, 2($0)"""


@pytest.mark.needs("gdb-multiarch", "mips-linux-gnu-as")
def test_typed(folder: Path) -> None:
    """README's headline, of a byte of RDRAM, in GDB."""
    (folder / "sent.s").write_text(SENT)
    make = TOP / "examples/python/make_elf.py"
    succeeds(sys.executable, make, "sent.s", "sent.elf", cwd=folder, env=module.ENV)
    stub = f"{sys.executable} -m rsp.gdb"
    side = succeeds(*stub.split(), "--side", env=module.ENV).strip()
    words = "gdb-multiarch", "-nx", "-q", "-x", side, "sent.elf"
    shown = succeeds(*words, cwd=folder, env=module.ENV, input=TYPED.replace("rsp-gdb", stub))
    assert re.search(".*\n(?s:.*)".join(map(re.escape, SHOWN.splitlines())), shown), shown


def test_monitor() -> None:
    """Its sentences, and where it goes; and that GDB's watch of the same byte stops before the DMA."""
    line = rsp.Timeline(loaded(SENT))
    asked = Stub(line, lambda: False)
    assert asked.reply(b"Z2,ffffffff80000302,2") == b"OK"
    assert asked.reply(b"c") == b"T05watch:ffffffff80000302;25:04001018;thread:1;"
    assert line.goto(8) == 8
    sentence = """step 6: 018 40831800 mtc0 $3, $c3, which took the byte from DMEM 003
step 2: 008 a4010002 sh $1, 2($0)\n"""
    assert asked.monitor.begin("wrote", "0x80000303") == (True, sentence) and line.step == 2
    line.goto(8)
    first, _, second = sentence.partition("\n")
    assert asked.monitor.begin("wrote", "0x04000002") == (True, second) and line.step == 2
    line.goto(8)
    only = f"{first.replace('003', '000')}\nno step from 0 to 6 has changed DMEM 000\n"
    assert asked.monitor.begin("wrote", "0xa0000300") == (True, only) and line.step == 6
    line.goto(8)
    none = "no DMA from 0 to 8 has written RDRAM 000310\n"
    assert asked.monitor.begin("wrote", "0x80000310") == (True, none) and line.step == 8
    past = "fault: 0x80001000 is past RDRAM, which ends at 0x80000fff\n"
    assert asked.monitor.begin("wrote", "0x80001000") == (True, past)
    assert "isn't an address such as" in asked.monitor.begin("wrote", "0x20000000")[1] and line.step == 8
