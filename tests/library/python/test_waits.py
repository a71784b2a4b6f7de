"""`rsp.waits`, and examples/c/waits.c, on programs that lack a wait, and on programs that lack none.

They fail if an instruction that comes too early isn't named, or another one is. The microcode of microcode/,
of examples/ and of docs/COOKBOOK.md lacks none.
"""

import re
import sys
from pathlib import Path
from typing import Any, Dict, List, Optional, Tuple

import pytest

import rsp
import rsp.slow
import rsp.waits
from lib import TOP
from lib.library.module import ENV, assert_raises, loaded
from lib.library.programs import built
from lib.pages import block_with
from lib.processes import run, succeeds
from rsp.script import runs

# Pieces of the programs. $2 is an address of DMEM, $1 one of RDRAM, $3 the order: 256 bytes.
BEGIN = "ori $2, $0, 0x400\nori $1, $0, 0x800\nori $3, $0, 255\n"
GET = "mtc0 $2, $c0\nmtc0 $1, $c1\nmtc0 $3, $c2\n"
PUT = GET.replace("$c2", "$c3")
SECOND = "ori $2, $0, 0x500\n"
THIRD = "ori $2, $0, 0x600\n"
LOAD, STORE = "lqv $v1[0], 0xf0($2)\n", "sqv $v1[0], 0xf0($2)\n"
BEFORE = "lqv $v2[0], -16($2)\n"  # of the buffer before


def wait(number: int = 6, name: str = "wait") -> str:
    """A loop until an SP register is 0."""
    return f"{name}: mfc0 $4, $c{number}\nbne $4, $0, {name}\nnop\n"


# Waits by SP_STATUS, whose bit 2 is busy and bit 3 full, and by a branch that leaves the loop.
STATUS = "wait: mfc0 $4, $c4\nandi $4, $4, {}\nbne $4, $0, wait\nnop\n"
LEAVES = "wait: mfc0 $4, $c6\nbeq $4, $0, done\nnop\nj wait\nnop\ndone: nop\n"
# A loop that brings bytes to one of two buffers while it works on those in the other one.
TURNS = """
      ori $1, $0, 0x800
      ori $3, $0, 255
      ori $8, $0, 4
      jal fetch
      ori $2, $0, 0x400
next: mfc0 $4, $c6
      bne $4, $0, next
      ori $5, $2, 0
      xori $2, $2, 0x100
      jal fetch
      addiu $1, $1, 256
      lqv $v1[0], 0($5)
      sqv $v1[0], 16($5)
      addiu $8, $8, -1
      bne $8, $0, next
      nop
      break
fetch: mtc0 $2, $c0
      mtc0 $1, $c1
      jr $31
      mtc0 $3, $c2
"""

# A routine that orders once no order is pending, as libraries of microcode have it, called for two buffers.
ROUTINE = f"""
{BEGIN}jal fetch
nop
{SECOND}jal fetch
nop
{{}}{LOAD}{{}}{THIRD}jal fetch
nop
{wait(6, "end")}break
fetch: mfc0 $4, $c5
bne $4, $0, fetch
nop
mtc0 $2, $c0
mtc0 $1, $c1
jr $31
mtc0 $3, $c2
"""


# A loop that fills one buffer again while it is sent.
ONE_BUFFER = (
    f"{BEGIN}ori $8, $0, 3\nturn: {STORE}{wait(5)}{PUT}bne $8, $0, turn\naddiu $8, $8, -1\n{wait(6, 'end')}"
)


def overlay(waits: str) -> str:
    """A program that brings 64 bytes to 100 in IMEM, where only `break` is, and jumps to the last word."""
    lines = f"ori $2, $0, 0x1100\nori $1, $0, 0x800\nori $3, $0, 63\n{GET}{waits}j 0x13c\nnop\n"
    return lines + "break\n" * (0x144 // 4 - len(lines.splitlines()))


RIGHT = {
    "one transfer": BEGIN + GET + wait() + LOAD,
    "other moves beside it": BEGIN + "mfc0 $5, $c7\n" + GET + "mfc0 $5, $c7\nmtc0 $0, $c7\n" + wait() + LOAD,
    "a branch that leaves the loop": BEGIN + GET + LEAVES + LOAD,
    "busy of SP_STATUS": BEGIN + GET + STATUS.format(4) + LOAD,
    "full of SP_STATUS": BEGIN + GET + SECOND + GET + STATUS.format(8) + BEFORE,
    "busy and full of SP_STATUS": BEGIN + GET + SECOND + GET + STATUS.format(12) + LOAD,
    "two transfers": BEGIN + GET + SECOND + GET + wait() + LOAD + BEFORE,
    "the first of two": BEGIN + GET + SECOND + GET + wait(5) + BEFORE,
    "three transfers": BEGIN + GET + SECOND + GET + wait(5) + THIRD + GET + wait(6, "end") + LOAD,
    "a load in the delay slot": BEGIN + GET + wait().replace("nop\n", LOAD) + STORE,
    "a read in the delay slot": BEGIN + GET + "mfc0 $4, $c6\nwait: bne $4, $0, wait\nmfc0 $4, $c6\n" + LOAD,
    "bytes beside it": BEGIN + GET + "lqv $v1[0], 256($2)\nlrv $v1[0], 0($2)\nsw $1, 0x3fc($0)\n",
    "a source that is loaded": BEGIN + PUT + LOAD + wait() + STORE,
    "an overlay": overlay(wait()),
    "two buffers in turn": TURNS,
    "a routine that waits for full": ROUTINE.format(wait(), BEFORE),
    "a signal before the wait": BEGIN + GET + STATUS.format(0x80).replace("wait", "end") + wait() + LOAD,
}
Named = List[Tuple[str, str]]  # instructions, and what they do too early
LOADS = [("lqv $v1[0], 240($2)", "loads")]
STORES = [("sqv $v1[0], 240($2)", "stores")]
WRITES = [(f"mtc0 ${n}, $c{to}", "writes a DMA register") for n, to in ((2, 0), (1, 1), (3, 2))]
WRONG: Dict[str, Tuple[str, Named]] = {
    "no wait": (BEGIN + GET + LOAD, LOADS),
    "other moves": (BEGIN + GET + "mfc0 $5, $c7\nmtc0 $5, $c11\nmfc0 $5, $c6\n" + LOAD, LOADS),
    "a store into what comes": (BEGIN + GET + STORE + wait(), STORES),
    "a store into what goes": (BEGIN + PUT + STORE + wait(), STORES),
    "the semaphore": (BEGIN + GET + wait(7) + LOAD, LOADS),
    "a register of the DPC": (BEGIN + GET + wait(11) + LOAD, LOADS),
    "full for busy": (BEGIN + GET + wait(5) + LOAD, LOADS),
    "full for busy, and a wait at the end": (BEGIN + GET + wait(5) + LOAD + wait(6, "end"), LOADS),
    "full for busy in each turn": (
        TURNS.replace("$c6", "$c5").replace("break", wait(6, "end") + "break"),
        [("lqv $v1[0], 0($5)", "loads"), ("sqv $v1[0], 16($5)", "stores")],
    ),
    "a routine that waits for full": (
        ROUTINE.format("", BEFORE),
        [*LOADS, ("lqv $v2[0], -16($2)", "loads")],
    ),
    "one buffer for what goes in each turn": (ONE_BUFFER, STORES),
    "a branch to the next line, and a wait at the end": (
        BEGIN + GET + "mfc0 $4, $c6\nbne $4, $0, go\nnop\ngo: " + LOAD + wait(6, "end"),
        LOADS,
    ),
    "full of SP_STATUS for busy": (BEGIN + GET + STATUS.format(8) + LOAD, LOADS),
    "a signal of SP_STATUS": (BEGIN + GET + STATUS.format(0x80) + LOAD, LOADS),
    "a branch the wrong way": (BEGIN + GET + wait().replace("bne", "beq") + LOAD, LOADS),
    "a branch that leaves the loop the wrong way": (BEGIN + GET + LEAVES.replace("beq", "bne") + LOAD, LOADS),
    "a read without a branch": (BEGIN + GET + "mfc0 $4, $c6\nnop\nnop\n" + LOAD, LOADS),
    "a branch on another register": (BEGIN + GET + wait().replace("bne $4", "bne $6") + LOAD, LOADS),
    "a branch to what comes next": (BEGIN + GET + "mfc0 $4, $c6\nbne $4, $0, go\nnop\ngo: " + LOAD, LOADS),
    "the first transfer alone": (BEGIN + GET + wait() + SECOND + GET + LOAD, LOADS),
    "the first of two alone": (BEGIN + GET + SECOND + GET + wait(5) + LOAD, LOADS),
    "a wait before the order": (BEGIN + wait() + GET + LOAD, LOADS),
    "a store in the delay slot": (BEGIN + GET + wait().replace("nop\n", STORE) + LOAD, STORES),
    "a store before the branch": (BEGIN + PUT + wait().replace("bne", STORE + "bne"), STORES),
    "a move in the delay slot": (
        BEGIN + GET + SECOND + GET + wait(5).replace("nop", "mtc0 $2, $c0"),
        WRITES[:1],
    ),
    "a third order": (BEGIN + GET + SECOND + GET + THIRD + GET + wait(), WRITES),
    "an overlay": (overlay(""), [("nop", "is fetched")]),
    "two buffers in turn": (
        re.sub(r"next: .*\n.*\n", "next:\n", TURNS),
        [("lqv $v1[0], 0($5)", "loads"), ("sqv $v1[0], 16($5)", "stores"), *WRITES],
    ),
}


def named(program: str) -> Named:
    """The instructions that `missing` names, in the order of their addresses."""
    found = sorted(rsp.waits.missing(loaded(program + "break\n"), 2000), key=lambda it: it.place)
    return [*dict.fromkeys((it.text, it.what) for it in found)]


@pytest.mark.parametrize("name", RIGHT)
def test_right(name: str) -> None:
    assert named(RIGHT[name]) == []


@pytest.mark.parametrize("name", WRONG)
def test_wrong(name: str) -> None:
    program, expected = WRONG[name]
    assert sorted(named(program)) == sorted(expected)


# What a wait changes if it repeats, by what is in its delay slot.
LEAVES_BEHIND = {
    "addiu $18, $18, -1": "$18",
    "sb $4, 0x12($4)": "DMEM 010",
    "vnor $v2, $v2, $v0": "$v2 lane 0",
    "mtc0 $4, $c7": "",
    "addiu $18, $0, 5": "",
    "lw $18, 0($0)": "",
}


@pytest.mark.parametrize("slot", LEAVES_BEHIND)
def test_turns(slot: str) -> None:
    """A wait in whose delay slot a counter, a store or bits go on, and others that may turn."""
    machine = loaded(BEGIN + GET + wait().replace("nop", slot) + "break\n")
    name, found = LEAVES_BEHIND[slot], [*rsp.waits.missing(machine, at_end=True)]
    what = f"changes {name} if it repeats"
    assert [(it.place, it.what, it.transfer.place) for it in found] == [(0x18, what, 0x14)] * bool(name)


def test_sentences() -> None:
    (found,) = rsp.waits.missing(loaded(BEGIN + GET + LOAD + "break\n"))
    assert found.transfer == (0x14, rsp.DMEM, 0x400, 256, False) and found.read is None
    sentence = "018: lqv $v1[0], 240($2): loads before the end of the transfer of 014, to DMEM 400 to 4ff"
    assert str(found) == sentence
    assert found.told({"begin": 0, "after": 0x1C}) == sentence.replace("018:", "018 (begin+24):")
    assert found.told({"begin": 0, "here": 0x18}) == sentence.replace("018:", "018 (here):")
    (found,) = rsp.waits.missing(loaded(BEGIN + PUT + wait(5) + STORE + "break\n"))
    sentence = "024: sqv $v1[0], 240($2): stores before the end of the transfer of 014, from DMEM 400 to 4ff"
    assert str(found) == f"{sentence} if it is under way at the read of 018"
    program = BEGIN + GET + STATUS.format(0x80) + wait(5, "next") + LOAD + "break\n"
    (found,) = rsp.waits.missing(loaded(program))
    assert found.read == 0x28  # the last one before the load


def test_causes() -> None:
    """Two loads after one transfer have one cause; a store after it has another."""
    program = BEGIN + GET + LOAD + LOAD + STORE + "break\n"
    assert [it.place for it in rsp.waits.missing(loaded(program))] == [0x18, 0x1C, 0x20]
    assert [it.place for it in rsp.waits.causes(loaded(program))] == [0x18, 0x20]


@pytest.mark.parametrize("waits, read", [("", None), (wait(5), 0x18)])
@pytest.mark.parametrize("order", [GET, PUT])
@pytest.mark.parametrize("end", ["break", "ori $5, $0, 2\nmtc0 $5, $c4"])
def test_end(end: str, order: str, waits: str, read: Optional[int]) -> None:
    """Only if it is asked for, an end while a transfer is under way."""
    program = BEGIN + order + waits + end + "\n"
    assert list(rsp.waits.missing(loaded(program))) == []
    (found,) = rsp.waits.missing(loaded(program), at_end=True)
    assert (found.transfer.place, found.what, found.read) == (0x14, "ends", read)
    assert found.text == end.splitlines()[-1]
    assert list(rsp.waits.missing(loaded(BEGIN + order + wait() + end + "\n"), at_end=True)) == []


def test_order_after_another_move() -> None:
    second = GET.replace("mtc0 $3, $c2", "mfc0 $5, $c7\nmtc0 $3, $c2")
    (found,) = rsp.waits.missing(loaded(BEGIN + GET + SECOND + second + LOAD + "break\n"))
    assert (found.transfer.place, found.transfer.address, found.place) == (0x28, 0x500, 0x2C)


def test_rows_and_the_end_of_dmem() -> None:
    """Two rows of 16 bytes from ff0 on are bytes ff0 to 00f."""
    rows = "ori $2, $0, 0xff0\nlui $3, 0x80\nori $3, $3, 0x100f\n" + GET
    inside, outside = ("lw $5, 12($0)", "lb $5, 0xff0($0)"), ("lw $5, 16($0)", "lb $5, 0xfef($0)")
    for line in inside + outside:
        assert len(list(rsp.waits.missing(loaded(f"{rows}{line}\nbreak\n")))) == (line in inside), line


def test_machine_afterwards() -> None:
    """It has made the steps, and neither its breakpoints nor a limit change what is found up to it."""
    machine = loaded(BEGIN + GET + LOAD + "break\n")
    machine.add_break(4)
    machine.add_break(0x18)
    assert len(list(rsp.waits.missing(machine, 6))) == 0 and machine.regs().pc == 0x18
    machine = loaded(BEGIN + GET + LOAD + "break\n")
    assert len(list(rsp.waits.missing(machine, 7))) == 1 and machine.regs().pc == 0x1C
    machine = loaded(BEGIN + GET + LOAD + "break\n")
    machine.add_break(0x18)
    assert len(list(rsp.waits.missing(machine))) == 1 and machine.step() is rsp.Status.HALTED
    assert list(rsp.waits.missing(machine)) == []
    wrong: Any = "5"
    assert_raises(TypeError, "missing: limit is of type str", list, rsp.waits.missing(machine, wrong))


SCRIPTS = [*sorted(TOP.glob("microcode/*.rsp")), *sorted(TOP.glob("examples/*.rsp"))]


@pytest.mark.parametrize("path", SCRIPTS, ids=lambda it: it.stem)
def test_microcode(path: Path) -> None:
    """Each run leaves the same bytes, too, if DMAs take time."""
    for line, machine in runs(path.read_text(), bytes(1 << 16)):
        assert rsp.slow.difference(machine) is None, line
        assert list(rsp.waits.missing(machine)) == [], line


def test_cookbook() -> None:
    """The page's code prints what it says of the example, which is the page's loop without its wait; of the
    loop with its wait, `missing` finds nothing."""
    name = "docs/COOKBOOK.md"
    code, lines = (block_with(name, "import rsp, rsp.waits", more) for more in (0, 1))
    assert succeeds(sys.executable, "-c", code, cwd=TOP, env=ENV) == lines
    block = block_with(name, "        jal   fetch             # the first block")
    right = "ori $1, $0, 0x800\nori $7, $0, 0xc00\n" + block.replace("# here work", "lw $5, 0($4) # work")
    assert rsp.slow.difference(loaded(right)) is None
    assert list(rsp.waits.missing(loaded(right), at_end=True)) == []
    wrong = re.sub(r"(?m)^(next:).*\n.*\n", r"\1\n", right)
    assert rsp.assemble(wrong) == rsp.assemble((TOP / "examples/double_buffer_no_wait.s").read_text())


@pytest.mark.needs("cc")
def test_in_c(folder: Path) -> None:
    """The example in C names the same of all these programs."""
    example = TOP / "examples/c/waits.c"
    made, text = built(folder, example), folder / "text.s"
    programs = {**WRONG, **{f"right: {name}": (text, []) for name, text in RIGHT.items()}}
    for slot, name in LEAVES_BEHIND.items():
        read = [("mfc0 $4, $c6", "changes something if it repeats")] * bool(name)
        programs[slot] = BEGIN + GET + wait().replace("nop", slot), read
    for name, (program, expected) in programs.items():
        text.write_text(program + "break\n")
        ended = run(made, text)
        found = re.findall(r"(?m)^\w+: (.*): (.*) before the end of the transfer of \w+$", ended.stdout)
        assert (ended.returncode, sorted({*found})) == (int(bool(expected)), sorted(expected)), name
    text.write_text(f"{BEGIN}{GET}{wait()}lw $5, 0($2)\nbeq $5, $0, end\nnop\n{GET}{LOAD}end: break\n")
    image = folder / "image"
    for data, status in (b"\x00" * 4096, 0), (b"\x01" * 4096, 1), (b"", 2):
        image.write_bytes(data)
        assert run(made, text, image).returncode == status
    text.write_text(f"lw $5, 8($0)\n{BEGIN}beq $5, $0, end\nnop\n{GET}{LOAD}end: break\n")
    for data, status in (bytes(12), 0), (bytes(11) + b"\1", 1):
        image.write_bytes(data)
        assert run(made, text, example, image).returncode == status
    assert run(made).returncode == run(made, folder / "none").returncode == 2
    assert run(made, text, folder / "none").returncode == 2
