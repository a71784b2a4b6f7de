"""Faults in the machine code of a library, which have to be refused, and a change that has to be proved.

A fault is planted where an instruction of the microcode was executed, whatever the library's labels are. More
code than was there goes to the end of the library's code, and a jump leads there.
"""

import struct
from typing import Any, Callable, List, NamedTuple

from definitions.unknown.solver import Solver

from .cases import known_registers
from .elf import EXECUTABLE, LOAD
from .errors import Stuck
from .executor import Processor
from .executor.decoding import Instruction
from .library import BASE
from .prepared import Prepared
from .proving import Proof
from .starts import Begun

PATTERN, ELEMENT = (3, 1, 2), 9
ROOM = 64  # bytes after the code
FAR = 1 << 20
JUMP = 5  # bytes of a jump


class Used(NamedTuple):
    """An instruction that was executed, the address of its operand in memory, and its general registers."""

    it: Instruction
    address: int
    general: List[Any]


class Site:
    """What a step of an instruction executed, and the library's file, in which this can be changed."""

    def __init__(self, begun: Begun, proof: Proof) -> None:
        self.prepared: Prepared = begun.prepared
        self.library = self.prepared.library
        self.data = bytearray(self.library.elf.data)
        self.used: List[Used] = []
        begun.caller.observe = self.observe
        proof.step(())
        begun.caller.observe = None

    def observe(self, cpu: Processor, it: Instruction) -> None:
        memory = [n for n in range(len(it.operands)) if it.is_memory(n)]
        at = cpu.address(it, memory[0]) if memory else 0
        self.used.append(Used(it, at if isinstance(at, int) else 0, [*cpu.general]))

    def find(self, name: str, holds: Callable[[Used], bool] = lambda used: True) -> Used:
        """The last instruction with a mnemonic that was executed, of those for which something holds."""
        for used in reversed(self.used):
            if used.it.name == name and holds(used):
                return used
        raise Stuck(f"the step executes no {name} as the fault needs it")

    def offset(self, at: int) -> int:
        """Where in the file the byte at an address is."""
        for kind, _, offset, start, _, size, _, _ in self.library.elf.headers:
            if kind == LOAD and start <= at - BASE < start + size:
                return offset + at - BASE - start
        raise Stuck(f"{at:x} isn't in the library's file")

    def put(self, at: int, code: bytes) -> None:
        """Overwrites bytes."""
        offset = self.offset(at)
        self.data[offset : offset + len(code)] = code

    def replace(self, used: Used, old: bytes, new: bytes) -> None:
        """Overwrites a part of an instruction."""
        code = bytes(used.it.raw.bytes)
        at = code.rfind(old)
        if at < 0:
            raise Stuck(f"{used.it.text} has another encoding than the fault needs")
        self.put(used.it.address + at, new)

    def cave(self) -> int:
        """The address after the code, which becomes code, too."""
        (start,), (size, count) = struct.unpack_from("<Q", self.data, 32), struct.unpack_from(
            "<HH", self.data, 54
        )
        for n in range(count):
            at = start + n * size
            kind, flags, _, address, _, length, total, _ = struct.unpack_from("<IIQQQQQQ", self.data, at)
            if kind == LOAD and flags & EXECUTABLE:
                if length % 4096 > 4096 - ROOM:
                    raise Stuck("there is no room after the library's code")
                struct.pack_into("<QQ", self.data, at + 32, length + ROOM, total + ROOM)
                return BASE + int(address) + int(length)
        raise Stuck("the library has no code")

    def insert(self, first: Used, count: int, extra: bytes, is_last: bool = False) -> None:
        """Executes more code before some instructions that follow one another, or before the last of them."""
        index = self.used.index(first)
        parts = [bytes(it.it.raw.bytes) for it in self.used[index : index + count]]
        size, start, file = sum(map(len, parts)), first.it.address, self.offset(first.it.address)
        cave = self.cave()
        code = b"".join(parts[:-1]) + extra + parts[-1] if is_last else extra + b"".join(parts)
        code += b"\xe9" + struct.pack("<i", start + size - cave - len(code) - 5)
        self.data[file : file + size] = b"\xe9" + struct.pack("<i", cave - start - 5) + b"\x90" * (size - 5)
        self.data[file + cave - start : file + cave - start + len(code)] = code  # both are in one segment

    def store_to(self, used: Used, target: int) -> bytes:
        """Code that writes al to an address, by a register that points near it."""
        near = [
            (abs(target - x), n, x) for n, x in enumerate(used.general) if isinstance(x, int) and n % 8 != 4
        ]
        for distance, n, value in sorted(near)[:1]:
            if distance < 2 * FAR:
                return b"\x41" * (n > 7) + bytes([0x88, 0x80 | n % 8]) + struct.pack("<i", target - value)
        raise Stuck("no register points near the address")


def change(name: str, old: bytes, new: bytes) -> Callable[[Site], None]:
    """Changes the last instruction with a mnemonic and some bytes."""
    return lambda site: site.replace(site.find(name, lambda it: old in bytes(it.it.raw.bytes)), old, new)


def write(target: Callable[[Site], int]) -> Callable[[Site], None]:
    """Also writes a byte somewhere."""

    def plant(site: Site) -> None:
        used = site.find("paddsw", lambda it: len(bytes(it.it.raw.bytes)) < 5)
        site.insert(used, 2, site.store_to(used, target(site)))  # two instructions have room for a jump

    return plant


def on_return(code: bytes) -> Callable[[Site], None]:
    """Executes more before the call returns."""

    def plant(site: Site) -> None:
        first, size = len(site.used) - 1, site.used[-1].it.size
        while size < JUMP:
            first -= 1
            size += site.used[first].it.size
            if site.used[first].it.address + site.used[first].it.size != site.used[first + 1].it.address:
                raise Stuck("the instructions before the return don't follow one another")
        site.insert(site.used[first], len(site.used) - first, code, True)

    return plant


def plane(site: Site) -> None:
    """The lowest parts of the accumulators go to the middle ones."""
    low, middle = (address_of(site, f"{name}0") for name in ("low", "middle"))
    used = site.find("movdqu", lambda it: it.address == low and it.it.is_memory(0))
    code = bytes(used.it.raw.bytes)
    number = used.it.operands[0].mem.disp
    site.replace(used, code[-4:], struct.pack("<i", number + middle - low))


def misaligned(site: Site) -> None:
    """A move that needs no alignment becomes one that needs it."""
    used = site.find("movups", lambda it: it.address % 16 != 0)
    code = bytes(used.it.raw.bytes)
    at = code.index(b"\x0f") + 1
    site.put(used.it.address + at, bytes([code[at] + 0x18]))  # 0f 10 and 0f 11 become 0f 28 and 0f 29


def lost(site: Site) -> None:
    """The entry of the history gets another register's lanes."""
    history, caller = site.prepared.history, site.prepared.caller
    entry = history.entry_at(caller, 0)
    used = site.find("movups", lambda it: it.address in entry and it.it.is_memory(0))
    code = bytes(used.it.raw.bytes)
    at = code.index(b"\x0f") + 2
    site.put(used.it.address + at, bytes([code[at] ^ 0x38]))  # the number of the xmm register


def address_of(site: Site, name: str) -> int:
    """The first byte of the machine that is made of a field."""
    return min(at for at, names in site.prepared.layout.fields.items() if name in names)


def byte_of_dmem(site: Site) -> int:
    return next(at for at, place in site.prepared.places.items() if place == ("dmem", 100))


def behind(site: Site) -> int:
    """A megabyte behind the machine."""
    region = site.prepared.caller.allocated[-1]
    return region.start + region.size + FAR


class Plant(NamedTuple):
    """A change, the instruction that shows it, and what is said of it; empty if it has to be proved."""

    title: str
    name: str
    plant: Callable[[Site], None]
    said: str


PLANTS = [
    Plant("psubsw in place of paddsw", "vadd", change("paddsw", b"\xed", b"\xe9"), "the definition gives"),
    Plant("a shift by 14 in place of 15", "vadd", change("psrlw", b"\x0f", b"\x0e"), "the definition gives"),
    Plant("the low parts of accumulators to the middle", "vadd", plane, "the definition gives"),
    Plant("a store a megabyte behind the machine", "vadd", write(behind), "which no call may use"),
    Plant("a store to DMEM", "vadd", write(byte_of_dmem), "byte 64 of dmem is written"),
    Plant("a store to register 20", "vadd", write(lambda site: address_of(site, "v20_0")), "v20_0"),
    Plant("rbx destroyed", "vadd", on_return(b"\x31\xdb"), "rbx isn't as it was"),
    Plant("the direction flag set", "vadd", on_return(b"\xfd"), "the direction flag"),
    Plant("a move that isn't aligned", "vadd", misaligned, "isn't aligned"),
    Plant("a wrong entry of the history", "vadd", lost, "after brsp_back"),
    Plant("movapd in place of movdqa", "vadd", change("movdqa", b"\x0f\x6f", b"\x0f\x28"), ""),
]


def planted(begun: Begun, plant: Plant, path: str) -> None:
    """Writes a library with a fault."""
    site = Site(begun, Proof(Solver(), begun, known_registers(plant.name, ELEMENT, PATTERN)))
    plant.plant(site)
    with open(path, "wb") as file:
        file.write(site.data)
