"""Which instructions proofs executed: the mnemonics, the forms of their operands, and what was unknown."""

from typing import Dict, NamedTuple, Sequence, Set

from capstone import x86_const as X

from .executor.decoding import REGISTERS, XMM, Instruction
from .executor.processor import Processor
from .executor.values import Byte

SOME = 20  # instructions that are kept of each form


class Form(NamedTuple):
    """A mnemonic with its operands, such as "r64,rsp64", and what they held: s (symbols), n (numbers),
    m (both), a (an unknown address), i (an immediate number)."""

    name: str
    operands: str
    kinds: str

    def __str__(self) -> str:
        return f"{self.name} {self.operands} {self.kinds}".replace("  ", " ")


def kind_of(values: Sequence[Byte]) -> str:
    numbers = sum(isinstance(it, int) for it in values)
    return "n" if numbers == len(values) else "m" if numbers else "s"


class Forms:
    """The forms, each with some of its instructions as bytes."""

    def __init__(self) -> None:
        self.found: Dict[Form, Set[bytes]] = {}
        self.known: Dict[int, str] = {}

    def observe(self, cpu: Processor, it: Instruction) -> None:
        """Takes an instruction that is going to be executed."""
        operands = self.known.get(it.address)
        if operands is None:
            operands = self.known[it.address] = ",".join(operand_of(it, n) for n in range(len(it.operands)))
        form = Form(it.name, operands, "".join(self.kind(cpu, it, n) for n in range(len(it.operands))))
        kept = self.found.setdefault(form, set())
        if len(kept) < SOME:
            kept.add(bytes(it.raw.bytes))

    @staticmethod
    def kind(cpu: Processor, it: Instruction, n: int) -> str:
        """What an operand holds."""
        operand = it.operands[n]
        if it.is_number(n):
            return "i"
        if it.is_xmm(n):
            return kind_of(cpu.xmm[XMM[operand.reg]])
        if not it.is_memory(n):
            return "n" if isinstance(cpu.register(operand.reg), int) else "s"
        at = cpu.address(it, n)
        if not isinstance(at, int):
            return "a"
        if it.name in ("lea", "nop"):
            return "n"
        region = cpu.memory.region(at, operand.size, "used")
        return kind_of([cpu.memory.byte(region, byte) for byte in range(at, at + operand.size)])


def operand_of(it: Instruction, n: int) -> str:
    """The form of an operand."""
    operand = it.operands[n]
    if it.is_number(n):
        return "i"
    if it.is_xmm(n):
        return "xmm"
    if it.is_memory(n):
        base = operand.mem.base
        kind = "rip" if base == X.X86_REG_RIP else "rsp" if base and REGISTERS[base][0] == 4 else "m"
        return f"{kind}{'x' if operand.mem.index else ''}{it.width(n)}"
    _, width, low = REGISTERS[operand.reg]
    return f"r{width}{'h' if low else ''}"
