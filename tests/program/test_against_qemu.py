"""Scalar instructions against QEMU's MIPS, by random blocks: registers and data must be the same at the end.

Each block of the scalar instructions that a plain big-endian MIPS has too is run by `qemu-mips` and by `rsp
run`; the 32 scalar registers and the 4096 bytes of DMEM are compared. `BLOCKS=3000 tests/all
tests/program/test_against_qemu.py` makes another number of blocks than 300, the same ones first.

A block's words are in IMEM from 0 on, and in the ELF file that QEMU runs at 4000 hex, a multiple of 4096, so
that the processor, which takes addresses modulo 4096, reads the same J and JR as QEMU. Data are at 0 to FFF
hex for both. A block sets all registers, and continues with random instructions, short branches and jumps
forward, and counted loops. A delay slot has a nop or an instruction that computes. On the processor the block
ends with BREAK; for QEMU with stores of all registers and a system call that writes them out.

Left out, because the two differ there on purpose or a plain MIPS lacks it:
  - the overflow trap: QEMU runs ADD, SUB, ADDI as ADDU, SUBU, ADDIU, and LWU as LW
  - links (JAL, JALR, BLTZAL, BGEZAL), which are taken modulo 4096 here, a branch in a delay slot, and a block
    that passes the end of IMEM
  - loads and stores that are not aligned, or wrap past 4095
  - BREAK, MFC0 and MTC0, moves and all else of the vector unit
"""

import os
import random
import re
import struct
from pathlib import Path
from typing import List, Sequence, Set, Tuple

import pytest

from lib.processes import run, run_bytes
from rsp_conformance.table import ROWS, destination, word_of

pytestmark = [pytest.mark.outside("it compares with another program, QEMU"), pytest.mark.needs("qemu-mips")]

BLOCKS, PART = int(os.environ.get("BLOCKS", 300)), 25  # how many blocks, and how many a test has
CODE = 0x4000  # QEMU's address of the block: a multiple of 4096
SAVED = 0x1000  # where QEMU's end of a block puts the registers, after the data
SYSCALL = 12
# Forms of the table, each as often as it is drawn.
COMPUTING = ("shift", "three", "three", "three", "immediate")
TRANSFERS = [row.name for row in ROWS.values() if row.form in ("load", "store")]
SIZES = {"b": 1, "h": 2, "w": 4}  # by the second letter of a transfer's name
BRANCHES = ("bltz", "bgez", "blez", "bgtz", "beq", "beq", "bne", "bne")
# What QEMU runs instead of an instruction that it lacks or that would trap.
INSTEAD = {"add": "addu", "sub": "subu", "addi": "addiu", "lwu": "lw"}
SMALL = [0, 1, 2, 31, 32, 0x7F, 0x80, 0xFF, 0x7FFF, 0x8000, 0xFFFF]
NUMBERS = [*SMALL, 0x7FFFFFFF, 0x80000000, 0x80000001, 0xFFFF8000, 0xFFFFFFFF]
Outcome = Tuple[Sequence[int], bytes]  # the registers and the data after a block


def word(name: str, **fields: int) -> int:
    return int(word_of(ROWS[name], fields))


def for_qemu(block_word: int) -> int:
    """The word that QEMU runs instead of a block's word."""
    for name, other in INSTEAD.items():
        if block_word & ROWS[name].mask == ROWS[name].value:
            return block_word & ~ROWS[name].mask | ROWS[other].value
    return block_word


class Block:
    """A random block: its words, the data before it, and the most steps that it can take."""

    def __init__(self, seed: str) -> None:
        self.seed, self.random = seed, random.Random(seed)
        self.words: List[int] = []
        self.steps, self.loops = 0, 1
        self.kept: Set[int] = set()  # registers that no instruction may write
        self.data = bytes(self.random.randrange(256) for _ in range(4096))
        for register in range(1, 32):
            self.set_register(register, self.number())
        for _ in range(self.random.randrange(20, 40)):
            self.piece()
        self.put("break")

    def number(self) -> int:
        return self.random.choice([self.random.choice(NUMBERS), self.random.randrange(1 << 32)])

    def source(self) -> int:
        return self.random.randrange(32)

    def target(self, first: int = 0) -> int:
        """A register that may be written, from the first on."""
        return self.random.choice([it for it in range(first, 32) if it not in self.kept])

    def put(self, name: str, **fields: int) -> int:
        """Adds an instruction, and returns its place."""
        self.words.append(word(name, **fields) if fields else ROWS[name].value)
        self.steps += self.loops
        return len(self.words) - 1

    def set_register(self, register: int, value: int) -> None:
        self.put("lui", t=register, imm=value >> 16)
        self.put("ori", s=register, t=register, imm=value)

    def compute(self) -> None:
        form = self.random.choice(COMPUTING)
        row = self.random.choice([it for it in ROWS.values() if it.form == form])
        fields = {"s": self.source(), "t": self.source(), "sa": self.source(), "imm": self.number()}
        self.put(row.name, **{**fields, str(destination(row)): self.target()})

    def transfer(self) -> None:
        name = self.random.choice(TRANSFERS)
        size = SIZES[name[1]]
        place = self.random.randrange(4096 // size) * size
        offset, base = self.random.randrange(-32768, 32768), self.target(1)
        self.set_register(base, (place - offset) % (1 << 32))
        register = self.target() if ROWS[name].form == "load" else self.source()
        self.put(name, s=base, t=register, imm=offset)

    def slot(self) -> None:
        self.random.choice([self.compute, lambda: self.put("sll")])()

    def passed(self) -> int:
        """A delay slot and some words, which may be none, over which the word before goes. The place then."""
        self.slot()
        for _ in range(self.random.randrange(4)):
            self.compute()
        return len(self.words)

    def branch(self) -> None:
        """A branch or a jump forward over some words."""
        if self.random.randrange(3):
            name = self.random.choice(BRANCHES)
            at = self.put(name)
            offset, s = self.passed() - at - 1, self.source()
            self.words[at] = word(name, s=s, t=self.random.choice([s, self.source()]), imm=offset)
        elif self.random.randrange(2):
            at = self.put("j")
            self.words[at] |= (CODE + 4 * self.passed()) // 4
        else:
            register, at = self.target(1), self.put("ori")
            self.put("jr", s=register)
            self.words[at] = word("ori", s=0, t=register, imm=CODE + 4 * self.passed())

    def loop(self) -> None:
        """A loop that is run some times: its counter is a register that the words in it don't write."""
        if self.loops > 1:
            return
        counter, times = self.target(1), self.random.randrange(1, 6)
        self.put("addiu", s=0, t=counter, imm=times)
        self.kept.add(counter)
        self.loops = times
        start = len(self.words)
        for _ in range(self.random.randrange(1, 5)):
            self.random.choice([self.compute, self.transfer, self.branch])()
        self.put("addiu", s=counter, t=counter, imm=-1)
        back = start - len(self.words) - 1
        self.put(self.random.choice(["bne", "bgtz"]), s=counter, t=0, imm=back)
        self.slot()
        self.loops = 1
        self.kept.remove(counter)

    def piece(self) -> None:
        kinds = [self.compute] * 5 + [self.transfer] * 2 + [self.branch] * 2 + [self.loop]
        self.random.choice(kinds)()


def elf_of(block: Block) -> bytes:
    """An ELF file for QEMU: the data at 0, the block at CODE, and then what writes data and registers out."""
    words = [for_qemu(it) for it in block.words[:-1]]
    words += [word("sw", s=0, t=n, imm=SAVED + 4 * n) for n in range(32)]
    words += [word("ori", s=0, t=n, imm=value) for n, value in ((2, 4004), (4, 1), (5, 0), (6, SAVED + 128))]
    words += [SYSCALL, word("ori", s=0, t=2, imm=4001), word("ori", s=0, t=4, imm=0), SYSCALL]
    code = struct.pack(f">{len(words)}I", *words)
    magic, sizes = b"\x7fELF\x01\x02\x01".ljust(16, b"\0"), (52, 32, 2, 0, 0, 0)
    header = struct.pack(">16sHHIIIIIHHHHHH", magic, 2, 8, 1, CODE, 52, 0, 0x50001001, *sizes)
    data_segment = struct.pack(">8I", 1, 0x1000, 0, 0, 4096, 0x2000, 6, 0x1000)
    code_segment = struct.pack(">8I", 1, 0x2000, CODE, CODE, len(code), len(code), 5, 0x1000)
    return (header + data_segment + code_segment).ljust(0x1000, b"\0") + block.data + code


def script_of(block: Block) -> str:
    """A script for the processor: loads, steps, and the state."""
    code = struct.pack(f">{len(block.words)}I", *block.words)
    lines = [f"load imem {i} {code[i : i + 100].hex()}" for i in range(0, len(code), 100)]
    lines += [f"load dmem {i} {block.data[i : i + 64].hex()}" for i in range(0, 4096, 64)]
    lines += ["step"] * (block.steps + 1) + ["regs"] + [f"mem dmem {i} 256" for i in range(0, 4096, 256)]
    return "".join(line + "\n" for line in lines)


def run_qemu(block: Block, folder: Path) -> Outcome:
    file = folder / "block"
    file.write_bytes(elf_of(block))
    file.chmod(0o700)
    ended = run_bytes("qemu-mips", [file])
    assert (ended.returncode, len(ended.stdout)) == (0, SAVED + 128), (block.seed, ended.stderr)
    return struct.unpack(">32I", ended.stdout[SAVED:]), ended.stdout[:4096]


def run_rsp(program: Path, block: Block) -> Outcome:
    ended = run(program, "run", input=script_of(block))
    faults = re.findall(r"(?m)^(?:fault|step Reserved).*", ended.stdout)
    assert (ended.returncode, faults) == (0, []), block.seed
    assert re.search("(?m)^step Halted", ended.stdout), f"block {block.seed} doesn't come to its end"
    lines = re.findall(r"(?m)^r.*", ended.stdout)
    registers = [int(word, 16) for line in lines for word in line.split()[1:]]
    data = bytes.fromhex("".join(re.findall(r"(?m)^.{6}: (.*)", ended.stdout)))
    assert (len(registers), len(data)) == (32, 4096), block.seed
    return registers, data


@pytest.mark.parametrize("first", range(0, BLOCKS, PART))
def test_blocks(first: int, program: Path, tmp_path: Path) -> None:
    """A block that differs leaves its script and its ELF file there; QEMU's number is the first."""
    wrong: List[str] = []
    for number in range(first, min(first + PART, BLOCKS)):
        block = Block(f"1.{number}")
        pairs = zip(run_qemu(block, tmp_path), run_rsp(program, block))
        registers, data = ([(n, *it) for n, it in enumerate(zip(*both)) if it[0] != it[1]] for both in pairs)
        if registers or data:
            (tmp_path / f"{number}.rsp").write_text(script_of(block))
            (tmp_path / "block").rename(tmp_path / f"{number}.elf")
            found = [f"${n}: {a:08x} and {b:08x}" for n, a, b in registers]
            found += [f"dmem {n:03x}: {a:02x} and {b:02x}" for n, a, b in data]
            wrong.append(f"{tmp_path}/{number}: {'; '.join(found[:8])}")
    assert not wrong
