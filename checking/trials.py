"""Tries the executor against the processor, as proofs use it.

A trial executes one instruction that a proof executed. What was unknown there are symbols here, and only
afterwards numbers take their place in what the executor gives. Then all registers, the flags that aren't
undefined, the memory and the next address have to be those of the processor.
"""

import random
from typing import Any, Dict, List, Sequence, Tuple

import z3

from definitions.unknown.products import applications, real

from .errors import Stuck, Wrong
from .executor import Processor
from .executor.decoding import REGISTERS, RSP, XMM, decoded
from .executor.memory import Memory, Region
from .executor.processor import CODE, FLAGS
from .executor.values import Byte, Truth, Value, joined, mask, split
from .forms import Form
from .native import FLAG_BITS, After, Native

TIMES = 20
AROUND = 512  # bytes of data before and after the middle
EDGES = (0, 1, 0x7FFF, 0x8000, 0x8001, 0xFFFF, 0x7F, 0x80, 0xFF, 0xFF80, 0x100, 0xFFFE)
UNTRIED = ("cpuid",)  # brsp_new asks which processor this is, and the executor says one that has everything
FLOW = ("call", "jmp", "ret")
NO_ACCESS = ("lea", "nop")
USERS = ("j", "set", "cmov", "adc", "sbb")  # of flags
STEPS = 8  # how many addresses an unknown address has
Swap = Tuple[Any, Any]


def edge_number(draw: random.Random, lanes: int) -> int:
    """A number whose lanes are often at an edge."""
    kind = draw.random()
    if kind < 0.7:
        parts = [draw.choice(EDGES) if draw.random() < 0.5 else draw.getrandbits(16) for _ in range(lanes)]
        return sum(part << 16 * n for n, part in enumerate(parts))
    if kind < 0.8:
        return draw.choice((0, mask(16 * lanes), draw.getrandbits(6), 1 << 16 * lanes - 1))
    return draw.getrandbits(16 * lanes)


class Trial:
    """One instruction with numbers, and with symbols for some of them."""

    def __init__(self, native: Native, form: Form, code: bytes, draw: random.Random) -> None:
        self.native, self.form, self.draw = native, form, draw
        self.it = decoded(self.moved(code), native.slot)
        self.general = [edge_number(draw, 4) for _ in range(16)]
        if form.name == "bsr":  # which is tried as it is used, of numbers that aren't 0
            self.general = [x if x & mask(16) else x | 1 << draw.randrange(16) for x in self.general]
        self.general[RSP] = native.data + 256
        self.xmm = [edge_number(draw, 8) for _ in range(16)]
        self.flags = {name: draw.random() < 0.5 for name in FLAGS}
        self.data = bytearray(draw.randbytes(2 * AROUND))
        edges = b"".join(edge_number(draw, 8).to_bytes(16, "little") for _ in range(STEPS))
        self.data[AROUND : AROUND + len(edges)] = edges
        self.start = native.data - AROUND
        self.swaps: List[Swap] = []
        self.numbers: Dict[int, int] = {}  # by the symbols' numbers in Z3
        self.code = native.place(self.moved(code))
        self.cpu = self.processor()

    def moved(self, code: bytes) -> bytes:
        """The instruction for the slot: its operand there is the data, and its target is `taken`."""
        it = decoded(code, self.native.slot)
        made, end = bytearray(code), self.native.slot + len(code)
        if "rip" in self.form.operands:
            at = it.raw.disp_offset
            made[at : at + 4] = (self.native.data - end & mask(32)).to_bytes(4, "little")
        if (it.name in FLOW or it.name.startswith("j")) and it.operands and it.is_number(0):
            at, size = it.raw.imm_offset, it.raw.imm_size
            made[at : at + size] = (self.native.taken - end & mask(8 * size)).to_bytes(size, "little")
        return bytes(made)

    # Arrangement

    def processor(self) -> Processor:
        """The executor's processor, with symbols where the form has unknowns."""
        memory = Memory()
        memory.add(Region(self.native.base, len(self.code), CODE, False, self.code))
        memory.add(Region(self.start, len(self.data), "data", True, None))
        cpu = Processor(memory, self.general[RSP], {})
        addresses = [n for n in range(len(self.it.operands)) if self.it.is_memory(n)]
        fixed = {RSP}
        for n in addresses:
            fixed |= self.place_operand(n)
        self.give_targets()
        cpu.general, cpu.xmm = [*self.general], [split(x, 16) for x in self.xmm]
        if self.it.name == "cdqe":
            cpu.general[0] = self.symbol("g0", self.general[0], 64)
        if self.it.name == "pblendvb":
            cpu.xmm[0] = split(self.symbol("x0", self.xmm[0], 128), 16)
        memory.bytes.update(enumerate(self.data, self.start))
        for n in range(len(self.it.operands)):
            self.give_kind(cpu, n, fixed)
        is_used = self.it.name.startswith(USERS) and self.draw.random() < 0.7
        cpu.flags = {name: self.flag(name) if is_used else x for name, x in self.flags.items()}
        cpu.sides = (True,)
        return cpu

    def symbol(self, name: str, number: int, width: int) -> Any:
        found = z3.BitVec(name, width)
        self.swaps.append((found, z3.BitVecVal(number, width)))
        self.numbers[found.get_id()] = number
        return found

    def flag(self, name: str) -> Truth:
        """A symbol for a flag."""
        found = z3.Bool(name)
        self.swaps.append((found, z3.BoolVal(self.flags[name])))
        return found

    def place_operand(self, n: int) -> "set[int]":
        """Lets the registers of an address point at the data. Returns the registers that are numbers."""
        memory = self.it.operands[n].mem
        base, index = (REGISTERS[it][0] if it in REGISTERS else None for it in (memory.base, memory.index))
        if self.it.name in NO_ACCESS:
            return set()
        at, scale = self.native.data - memory.disp, memory.scale
        if index is not None and index != base:
            self.general[index] = self.draw.randrange(8) if base is not None else at // scale
        if base is not None and base == index:
            self.general[base] = at // (1 + scale)
        elif base is not None:
            self.general[base] = at - (self.general[index] * scale if index is not None else 0)
        return {it for it in (base, index) if it is not None}

    def give_targets(self) -> None:
        """Lets a jump go to `taken`."""
        to = self.native.taken.to_bytes(8, "little")
        if self.it.name == "ret":
            offset = self.general[RSP] - self.start
            self.data[offset : offset + 8] = to
        elif self.it.name in FLOW and self.it.is_memory(0):
            self.data[AROUND : AROUND + 8] = to
        elif self.it.name in FLOW and not self.it.is_number(0):
            self.general[REGISTERS[self.it.operands[0].reg][0]] = self.native.taken

    def give_kind(self, cpu: Processor, n: int, fixed: "set[int]") -> None:
        """Puts symbols into an operand that had some in a proof, unless it is the register of an address."""
        kind, operand = self.form.kinds[n], self.it.operands[n]
        if self.it.is_xmm(n):
            number = XMM[operand.reg]
            symbols = split(self.symbol(f"x{number}", self.xmm[number], 128), 16)
            cpu.xmm[number] = self.mixed(kind, symbols, self.xmm[number].to_bytes(16, "little"))
        elif self.it.is_memory(n) and self.it.name not in NO_ACCESS:
            self.give_memory(cpu, n, kind)
        elif kind == "s" and operand.reg in REGISTERS:
            number = REGISTERS[operand.reg][0]
            if number not in fixed:
                cpu.general[number] = self.symbol(f"g{number}", self.general[number], 64)
        elif kind == "a":
            self.give_address_parts(cpu, n)

    def give_address_parts(self, cpu: Processor, n: int) -> None:
        """Symbols for the registers of an address that isn't used."""
        memory = self.it.operands[n].mem
        for number in {REGISTERS[it][0] for it in (memory.base, memory.index) if it in REGISTERS}:
            cpu.general[number] = self.symbol(f"g{number}", self.general[number], 64)

    def mixed(self, kind: str, values: Sequence[Byte], numbers: bytes) -> List[Byte]:
        """Bytes of which none is a symbol, or half of the lanes are."""
        if kind == "s":
            return [*values]
        pieces: List[Byte] = []
        for at in range(0, len(numbers), 2):
            is_number = kind == "n" or self.draw.random() < 0.5
            pieces += numbers[at : at + 2] if is_number else values[at : at + 2]
        return pieces

    def give_memory(self, cpu: Processor, n: int, kind: str) -> None:
        """The same of an operand in memory, or an unknown address of it."""
        size = self.it.operands[n].size
        if kind == "a":
            self.give_address(cpu, n, size)
        count = size * (STEPS if kind == "a" else 1)
        at = cpu.address(self.it, n) if kind != "a" else self.native.data
        offset = at - self.start
        numbers = bytes(self.data[offset : offset + count])
        symbols = [(self.symbol(f"m{at + k}", numbers[k], 8), 0) for k in range(count)]
        cpu.memory.bytes.update(enumerate(self.mixed("s" if kind == "a" else kind, symbols, numbers), at))

    def give_address(self, cpu: Processor, n: int, size: int) -> None:
        """Lets the base, or the index, be one of some numbers."""
        memory = self.it.operands[n].mem
        register = REGISTERS[memory.index or memory.base][0]
        step = size // (memory.scale if memory.index else 1) or 1
        chosen = self.draw.randrange(STEPS)
        symbol = self.symbol("step", chosen, 3)
        cpu.general[register] = z3.ZeroExt(61, symbol) * step + self.general[register]
        self.general[register] += chosen * step

    # Comparison

    def value(self, x: Value) -> int:
        """A value with the numbers in place of the symbols."""
        if isinstance(x, int):
            return int(x)
        if x.get_id() in self.numbers:
            return self.numbers[x.get_id()]
        found = z3.substitute(x, *self.swaps)
        nodes = [node for nodes in applications(found) for node in nodes]
        swaps = [(node, real(node.decl().name(), *node.children())) for node in nodes]
        found = z3.simplify(z3.substitute(found, *swaps) if swaps else found)
        if z3.is_bool(found):
            return int(z3.is_true(found))
        return int(found.as_long())

    def run(self) -> None:
        """Executes the instruction in both ways. Raises Wrong if something differs."""
        before = [int(self.general[n]) for n in range(16)]
        if self.it.name == "bsr":
            self.exclude_zero()
        cpu = self.cpu
        to = cpu.step(self.native.slot)
        if cpu.path and not all(self.value(it) for it in cpu.path):
            cpu = self.cpu = self.processor()
            cpu.sides = (False,)
            to = cpu.step(self.native.slot)
        flags = sum(self.flags[name] << at for name, at in FLAG_BITS.items())
        general = [x & mask(64) for x in before]
        after = self.native.execute(general, self.xmm, flags, bytes(self.data), self.start - self.native.base)
        for name, got, want in self.pairs(cpu, after, to):
            if got != want:
                raise Wrong(f"{self.form}: {self.it.text}: {name} is {want:x} on the processor, not {got:x}")

    def exclude_zero(self) -> None:
        """The same of a symbol."""
        source = self.cpu.get(self.it, 1)
        if not isinstance(source, int):
            self.cpu.path.append(source != 0)

    def pairs(self, cpu: Processor, after: After, to: int) -> List[Tuple[str, int, int]]:
        """What the executor and the processor give."""
        found = [(f"register {n}", self.value(x), after.general[n]) for n, x in enumerate(cpu.general)]
        found += [(f"xmm{n}", self.value(joined(x)), after.xmm[n]) for n, x in enumerate(cpu.xmm)]
        for name, at in FLAG_BITS.items():
            try:
                found.append((name, self.value(cpu.flag(name)), after.flags >> at & 1))
            except Stuck:
                continue  # it is undefined here, so that no proof can use it
        expected = bytearray(self.data)
        for at in cpu.memory.written:
            expected[at - self.start] = self.value(joined([cpu.memory.bytes[at]]))
        found.append(("the memory", int.from_bytes(expected, "big"), int.from_bytes(after.data, "big")))
        found.append(("the next address is taken", int(to == self.native.taken), int(after.is_taken)))
        return found


def tried(native: Native, forms: Dict[Form, Any], seed: str) -> Dict[Form, int]:
    """Tries each form some times, and returns how often."""
    draw, counts = random.Random(seed), {}
    for form in sorted(it for it in forms if it.name not in UNTRIED):
        codes = sorted(forms[form])
        for n in range(TIMES):
            Trial(native, form, codes[n % len(codes)], draw).run()
        counts[form] = TIMES
    return counts
