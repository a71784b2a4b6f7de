"""The machine code of a library with the calls of brsp.h, and a caller that makes them over symbols.

Nothing is known of how the library lays a machine out: its own calls put symbols into it, and read them back.
Each call has to keep what the ABI of x86-64 says that it keeps, and may use no other memory than its caller
gave it, what brsp_new allocated, its stack, and the library's bytes that are only for reading.
"""

import hashlib
from typing import Any, Dict, List, Optional, Sequence, Set

import z3

from .elf import EXECUTABLE, WRITABLE, BadLibrary, Elf
from .errors import Stuck, Wrong
from .executor import Processor
from .executor.decoding import Instruction
from .executor.memory import Memory, Region
from .executor.processor import CODE, RETURN
from .executor.values import Truth, Value, alike, bits, known, split
from .states import SIZE

BASE, HEAP, BUFFERS, STACK, IMPORTS = (n << 32 for n in range(1, 6))
SLOT = (
    STACK + (1 << 20) - 8
)  # where the return address is, so that rsp is aligned as at the entry of a function
NEW_STACK, STACK_SIZE = 131072, 8192  # BRSP_STACK and BRSP_MACHINE_STACK
ARGUMENTS = (7, 6, 2, 1, 8, 9)  # rdi, rsi, rdx, rcx, r8, r9
KEPT = {3: "rbx", 5: "rbp", 12: "r12", 13: "r13", 14: "r14", 15: "r15"}
CLOBBERED = (1, 2, 6, 7, 8, 9, 10, 11)
DATA, STACK_NAME = "the library's data", "the stack"
IMAGE_SIZE = 64
BANKS = {"dmem": 4096, "imem": 4096, "image": IMAGE_SIZE}  # in the order of brsp_bank
CALLS = ("brsp_new", "brsp_load", "brsp_set", "brsp_get", "brsp_step", "brsp_back", "brsp_history")


class Library:
    """A library's file, as the loader puts it into memory."""

    def __init__(self, path: str) -> None:
        try:
            with open(path, "rb") as file:
                data = file.read()
        except OSError as fault:
            raise BadLibrary(f"it can't be read ({fault.strerror})") from None
        self.path, self.elf, self.sum = path, Elf(data), hashlib.sha256(data).hexdigest()
        lacking = [it for it in CALLS if it not in self.elf.exports]
        if lacking:
            raise BadLibrary(f"it doesn't export {lacking[0]}")
        names = {it.name for it in self.elf.relocations if it.name} - {*self.elf.exports}
        self.imports = {name: IMPORTS + 16 * n for n, name in enumerate(sorted(names))}
        self.segments = self.elf.image(BASE, self.imports)
        self.observe: Any = None  # is told of each instruction, unless a caller has another observer
        self.decoded: Dict[int, Instruction] = {}  # what was executed, by the addresses
        self.read: Set[int] = set()  # the addresses of constants that were read

    def regions(self) -> List[Region]:
        """What of memory the library's file is."""
        found = []
        low, high = (BASE + it for it in self.elf.sealed())
        for start, data, flags in self.segments:
            if flags & WRITABLE:
                sealed = max(0, min(high, start + len(data)) - start) if low <= start < high else 0
                found.append(Region(start, sealed, "the library's cells", False, data[:sealed]))
                found.append(Region(start + sealed, len(data) - sealed, DATA, True, data[sealed:]))
            else:
                name = CODE if flags & EXECUTABLE else "the library's constants"
                found.append(Region(start, len(data), name, False, data))
        return [it for it in found if it.size]

    def code_size(self) -> int:
        return sum(len(it.data) for it in self.segments if it.flags & EXECUTABLE)


def narrow(n: int) -> Value:
    """An argument of 32 bits: the caller may leave anything in the other half of its register."""
    return z3.Concat(z3.BitVec("upper_half", 32), z3.BitVecVal(n, 32))


class Caller:
    """Who makes calls: its memory, its path, and the buffers that it passes."""

    def __init__(self, library: Library, depth: int) -> None:
        self.library, self.memory = library, Memory()
        self.memory.read = library.read
        for region in library.regions():
            self.memory.add(region)
        self.path: List[Truth] = []
        self.sides: Sequence[bool] = ()
        self.taken: List[bool] = []
        self.allocated: List[Region] = []
        self.processor: Optional[Processor] = None  # that of the last call
        self.observe: Any = None
        self.loaded: Any = None
        self.buffers = {}  # type: Dict[str, int]
        self.handle = self.buffer("handle", 8)
        self.memory.bytes.update(dict.fromkeys(range(self.handle, self.handle + 8), 0))
        self.new(depth)
        self.result = self.buffer("result", 4096)
        self.state, self.out, self.bank = (
            self.buffer(*it) for it in (("state", SIZE), ("out", SIZE), ("bank", 4096))
        )

    def copy(self) -> "Caller":
        """A caller that goes on apart from this one."""
        other = object.__new__(Caller)
        other.__dict__.update(self.__dict__)
        other.memory, other.path, other.taken = self.memory.copy(), [*self.path], []
        return other

    def buffer(self, name: str, size: int) -> int:
        """The address of a buffer of the caller, with room round it."""
        at = BUFFERS + 8192 * (len(self.buffers) + 1)
        self.buffers[name] = at
        self.memory.add(Region(at, size, buffer_name(name), True, None))
        return at

    def set_stack(self, size: int) -> None:
        """The stack below the return address, which nobody may write."""
        self.memory.remove(STACK_NAME)
        self.memory.remove("the return address")
        self.memory.add(Region(SLOT - size, size, STACK_NAME, True, None))
        self.memory.add(Region(SLOT, 8, "the return address", False, None))
        self.memory.bytes.update(enumerate(split(RETURN, 8), SLOT))

    def new(self, depth: int) -> None:
        """brsp_new, which alone allocates and uses the library's data."""
        image = self.buffer("image", IMAGE_SIZE)
        self.set_stack(NEW_STACK)
        status = self.call("brsp_new", self.handle, image, IMAGE_SIZE, narrow(depth))
        if status != 0:
            raise Wrong(f"brsp_new returns {status}")
        self.memory.remove(DATA)
        self.set_stack(STACK_SIZE)

    # Calls

    def entered(self, name: str, arguments: Sequence[Value]) -> Processor:
        """A processor at the entry of a call, whose registers hold what any caller leaves there."""
        cpu = Processor(self.memory, SLOT, self.hooks(name == "brsp_new"))
        cpu.path, cpu.sides, cpu.taken = self.path, self.sides, self.taken
        cpu.observe, cpu.loaded = self.observe or self.library.observe, self.loaded
        cpu.decoded = self.library.decoded
        for n in range(16):
            cpu.general[n] = cpu.general[n] if n == 4 else z3.BitVec(f"caller_{n}", 64)
            cpu.xmm[n] = [(z3.BitVec(f"caller_xmm{n}", 128), k) for k in range(16)]
        for n, argument in zip(ARGUMENTS, arguments):
            cpu.general[n] = argument
        return cpu

    def call(self, name: str, *arguments: Value) -> int:
        """Makes a call, and returns its status."""
        cpu = self.processor = self.entered(name, arguments)
        try:
            cpu.call(BASE + self.library.elf.exports[name])
            self.check_kept(cpu)
            status = (
                known(z3.simplify(bits(cpu.general[0], 0, 32)))
                if not isinstance(cpu.general[0], int)
                else None
            )
        except (Stuck, Wrong) as why:
            raise type(why)(f"{name}: {why}") from None
        status = cpu.general[0] & 0xFFFFFFFF if status is None else status
        if not isinstance(status, int):
            raise Stuck(f"{name}: the status is unknown")
        return status

    @staticmethod
    def check_kept(cpu: Processor) -> None:
        """That the registers are as before which the ABI keeps, and so is the direction flag."""
        for n, name in KEPT.items():
            if not alike(cpu.general[n], z3.BitVec(f"caller_{n}", 64)):
                raise Wrong(f"{name} isn't as it was before the call")
        if cpu.is_down:
            raise Wrong("the direction flag is set after the call")

    # What the library imports

    def hooks(self, can_allocate: bool) -> Dict[int, Any]:
        """What is done in place of the functions of C. Only brsp_new may allocate."""
        found = {"memcpy": self.copy_bytes, "memmove": self.copy_bytes, "memset": self.set_bytes}
        if can_allocate:
            found["malloc"] = self.allocate
        return {
            self.library.imports[name]: hook for name, hook in found.items() if name in self.library.imports
        }

    def allocate(self, cpu: Processor) -> None:
        """Aligned to 16 bytes and to no more, with room round it. What it holds is unknown."""
        size = number(cpu.general[7])
        at = HEAP + (len(self.allocated) << 20) + 16
        region = Region(at, size, f"allocation {len(self.allocated)}", True, None)
        self.allocated = [*self.allocated, region]
        self.memory.add(region)
        returned(cpu, at)

    @staticmethod
    def copy_bytes(cpu: Processor) -> None:
        to, start, count = cpu.general[7], cpu.general[6], number(cpu.general[2])
        if count:
            cpu.store(number(to), cpu.load(number(start), count))
        returned(cpu, to)

    @staticmethod
    def set_bytes(cpu: Processor) -> None:
        to, value, count = cpu.general[7], bits(cpu.general[6], 0, 8), number(cpu.general[2])
        if count:
            cpu.store(number(to), split(value, 1) * count)
        returned(cpu, to)


def buffer_name(name: str) -> str:
    """The name of the region of a buffer."""
    return f"the caller's buffer `{name}`"


def number(x: Value) -> int:
    """An argument of a function of C."""
    if not isinstance(x, int):
        raise Stuck("a function of C gets an unknown address or length")
    return x


def returned(cpu: Processor, value: Value) -> None:
    """A function of C returns: what it may change is unknown."""
    for n in CLOBBERED:
        cpu.general[n] = z3.FreshConst(z3.BitVecSort(64), "clobbered")
    for n in range(16):
        symbol = z3.FreshConst(z3.BitVecSort(128), "clobbered")
        cpu.xmm[n] = [(symbol, k) for k in range(16)]
    cpu.undefine()
    cpu.general[0] = value
