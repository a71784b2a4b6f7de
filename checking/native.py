"""Executes one instruction on the processor that this program runs on."""

import ctypes
import mmap
import struct
from typing import List, NamedTuple, Sequence

SIZE, SLOT, TAKEN, END = 1 << 16, 1024, 1024 + 64, 2048
IN, OUT, SAVED, MARK = 4096, 4096 + 512, 4096 + 1024, 4096 + 1032
XMM, FLAGS = 128, 384  # in either: the general registers, the xmm registers, the flags
DATA = 32768
PUSHED = (3, 5, 12, 13, 14, 15)  # what a function has to keep
FLAG_BITS = {"cf": 0, "pf": 2, "zf": 6, "sf": 7, "of": 11}


class After(NamedTuple):
    """What an instruction leaves."""

    general: List[int]
    xmm: List[int]
    flags: int
    is_taken: bool  # whether it continues at `taken`
    data: bytes


class Native:
    """Code that loads all registers, executes what is in its slot, and stores all registers."""

    def __init__(self) -> None:
        self.pages = mmap.mmap(-1, SIZE, prot=mmap.PROT_READ | mmap.PROT_WRITE | mmap.PROT_EXEC)
        self.base = ctypes.addressof(ctypes.c_char.from_buffer(self.pages))
        self.slot, self.taken, self.data = (self.base + it for it in (SLOT, TAKEN, DATA))
        self.code = bytearray()
        self.enter()
        self.put(0)
        self.code = bytearray(
            b"\xc6\x05" + struct.pack("<i", MARK - TAKEN - 7) + b"\x01"
        )  # mov byte [mark], 1
        self.jump(TAKEN, END)
        self.put(TAKEN)
        self.code = bytearray()
        self.leave()
        self.put(END)
        self.run = ctypes.CFUNCTYPE(None)(self.base)

    def put(self, at: int) -> None:
        self.pages[at : at + len(self.code)] = bytes(self.code)

    def jump(self, start: int, to: int) -> None:
        self.code += b"\xe9" + struct.pack("<i", to - start - len(self.code) - 5)

    def use(self, opcode: bytes, register: int, start: int, at: int) -> None:
        """An instruction on a register and the memory at an offset in the pages."""
        self.code += opcode + bytes([5 | (register & 7) << 3])
        self.code += struct.pack("<i", at - start - len(self.code) - 4)

    def use_general(self, opcode: int, register: int, start: int, at: int) -> None:
        self.use(bytes([0x48 | (register > 7) << 2, opcode]), register, start, at)

    def use_xmm(self, opcode: int, register: int, start: int, at: int) -> None:
        self.use(b"\xf3" + b"\x44" * (register > 7) + bytes([0x0F, opcode]), register, start, at)

    def enter(self) -> None:
        """Loads xmm registers, flags and general registers."""
        for register in PUSHED:
            self.code += b"\x41" * (register > 7) + bytes([0x50 + (register & 7)])
        self.use_general(0x89, 4, 0, SAVED)  # mov [saved], rsp
        for register in range(16):
            self.use_xmm(0x6F, register, 0, IN + XMM + 16 * register)
        self.use_general(0x8D, 4, 0, IN + FLAGS)  # lea rsp, [flags]
        self.code += b"\x9d"  # popfq
        for register in range(16):
            self.use_general(0x8B, register, 0, IN + 8 * register)
        self.jump(0, SLOT)

    def leave(self) -> None:
        """Stores them."""
        for register in range(16):
            self.use_general(0x89, register, END, OUT + 8 * register)
        self.use_general(0x8D, 4, END, OUT + FLAGS + 8)
        self.code += b"\x9c\xfc"  # pushfq; cld
        for register in range(16):
            self.use_xmm(0x7F, register, END, OUT + XMM + 16 * register)
        self.use_general(0x8B, 4, END, SAVED)
        for register in reversed(PUSHED):
            self.code += b"\x41" * (register > 7) + bytes([0x58 + (register & 7)])
        self.code += b"\xc3"

    def place(self, code: bytes) -> bytes:
        """Puts an instruction into the slot, and returns the page of code."""
        self.code = bytearray(code)
        self.jump(SLOT, END)
        self.put(SLOT)
        return self.pages[:4096]

    def execute(
        self, general: Sequence[int], xmm: Sequence[int], flags: int, data: bytes, start: int
    ) -> After:
        """Executes it, with data at an offset in the pages."""
        self.pages[IN : IN + 128] = struct.pack("<16Q", *general)
        self.pages[IN + XMM : IN + XMM + 256] = b"".join(it.to_bytes(16, "little") for it in xmm)
        self.pages[IN + FLAGS : IN + FLAGS + 8] = struct.pack("<Q", flags | 2)
        self.pages[start : start + len(data)] = data
        self.pages[MARK] = 0
        self.run()
        wide = self.pages[OUT + XMM : OUT + XMM + 256]
        return After(
            [*struct.unpack("<16Q", self.pages[OUT : OUT + 128])],
            [int.from_bytes(wide[at : at + 16], "little") for at in range(0, 256, 16)],
            struct.unpack("<Q", self.pages[OUT + FLAGS : OUT + FLAGS + 8])[0],
            bool(self.pages[MARK]),
            self.pages[start : start + len(data)],
        )
