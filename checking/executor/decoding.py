"""Decodes machine code by capstone."""

from typing import Any, Dict, List, NamedTuple, Tuple

import capstone
from capstone import x86_const as X

from ..errors import Stuck

GENERAL = "rax rcx rdx rbx rsp rbp rsi rdi r8 r9 r10 r11 r12 r13 r14 r15".split()
RSP = 4
LONGEST = 15  # bytes of an instruction


def decoder() -> Any:
    """Capstone for x86-64, with operands."""
    found = capstone.Cs(capstone.CS_ARCH_X86, capstone.CS_MODE_64)
    found.detail = True
    return found


DECODER = decoder()
NUMBERS = {DECODER.reg_name(number): number for number in range(1, X.X86_REG_ENDING)}


def names_of(register: str) -> Tuple[str, str, str, str]:
    """The names of a general register's lowest 64, 32, 16 and 8 bits."""
    if register[1:].isdigit():
        return register, register + "d", register + "w", register + "b"
    short = register[1:]
    return register, "e" + short, short, (short[0] if short[1] == "x" else short) + "l"


# Capstone's number of a general register, or of a part of it: its number, its width and its lowest bit.
REGISTERS: Dict[int, Tuple[int, int, int]] = {
    NUMBERS[name]: (number, width, 0)
    for number, register in enumerate(GENERAL)
    for name, width in zip(names_of(register), (64, 32, 16, 8))
}
REGISTERS.update({NUMBERS[name]: (number, 8, 8) for number, name in enumerate(("ah", "ch", "dh", "bh"))})
XMM = {NUMBERS[f"xmm{number}"]: number for number in range(16)}


class Instruction(NamedTuple):
    """An instruction at its address."""

    address: int
    size: int
    name: str
    operands: List[Any]
    text: str
    raw: Any  # capstone's object

    def width(self, n: int) -> int:
        """The bits of an operand."""
        return 8 * int(self.operands[n].size)

    def is_memory(self, n: int) -> bool:
        return bool(self.operands[n].type == X.X86_OP_MEM)

    def is_xmm(self, n: int) -> bool:
        return self.operands[n].type == X.X86_OP_REG and self.operands[n].reg in XMM

    def is_number(self, n: int) -> bool:
        return bool(self.operands[n].type == X.X86_OP_IMM)

    def is_twice(self) -> bool:
        """Whether the first two operands are one register."""
        a, b = self.operands[:2]
        return a.type == b.type == X.X86_OP_REG and a.reg == b.reg


def decoded(code: bytes, address: int) -> Instruction:
    """The instruction with which some bytes begin."""
    found = next(DECODER.disasm(code, address, 1), None)
    if found is None:
        raise Stuck(f"capstone decodes nothing at {address:x}")
    text = f"{found.mnemonic} {found.op_str}".strip()
    return Instruction(address, found.size, found.mnemonic, found.operands, text, found)
