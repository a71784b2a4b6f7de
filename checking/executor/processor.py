"""A processor: registers, flags, one path, and the operands of instructions."""

from typing import Any, Callable, Dict, List, Mapping, Optional, Sequence

import z3
from capstone import x86_const as X

from ..errors import Stuck, Wrong
from .addresses import Solved, addresses_of
from .decoding import LONGEST, REGISTERS, RSP, XMM, Instruction, decoded
from .memory import Memory
from .values import (
    Byte,
    Truth,
    Value,
    alike,
    bits,
    chosen,
    differ,
    either,
    is_set,
    joined,
    known,
    mask,
    negated,
    split,
    truth,
    zero_extended,
)

RETURN = 0x7FF000000000  # where a call returns to: no region is there
CODE = "the library's code"  # the region that may be executed
FLAGS = ("cf", "zf", "sf", "of", "pf")
LONGEST_CALL = 1000000
INVERSE = {"ae": "b", "a": "be", "ge": "l", "g": "le"}
Semantics = Callable[["Processor", Instruction], Optional[int]]
SEMANTICS: Dict[str, Semantics] = {}
PREFIXES: Dict[str, Semantics] = {}  # of mnemonics that end in a condition: j, set, cmov


def executes(*names: str) -> Callable[[Semantics], Semantics]:
    """What the mnemonics with these names do."""

    def add(f: Semantics) -> Semantics:
        SEMANTICS.update(dict.fromkeys(names, f))
        return f

    return add


def semantics_of(name: str) -> Semantics:
    """What a mnemonic does."""
    found = SEMANTICS.get(name) or next((f for it, f in PREFIXES.items() if name.startswith(it)), None)
    if found is None:
        raise Stuck("there is no semantics of this mnemonic")
    return found


# What a load from an unknown address gives: of it, of the addresses that it can be, and of the bytes at each.
Loaded = Callable[[Value, List[int], List[List[Byte]]], Optional[List[Byte]]]


class Processor:
    """One processor, on one path. `sides` says which sides the first branches on unknowns take."""

    def __init__(
        self, memory: Memory, stack: int, hooks: Mapping[int, Callable[["Processor"], None]]
    ) -> None:
        self.memory, self.hooks = memory, hooks
        self.general: List[Value] = [0] * 16
        self.general[RSP] = stack
        self.xmm: List[List[Byte]] = [[0] * 16 for _ in range(16)]
        self.flags: Dict[str, Any] = dict.fromkeys(FLAGS)
        self.is_down = False  # the direction flag
        self.path: List[Truth] = []
        self.sides: Sequence[bool] = ()
        self.taken: List[bool] = []
        self.count = 0
        self.trail: List[int] = []  # the addresses of what was executed
        self.solved = Solved()
        self.observe: Optional[Callable[["Processor", Instruction], None]] = None
        self.loaded: Optional[Loaded] = None
        self.decoded: Dict[int, Instruction] = {}

    # Memory

    def load(self, at: Value, count: int, is_aligned: bool = False) -> List[Byte]:
        """Some bytes of memory. Of an unknown address, those of each that it can be."""
        if isinstance(at, int):
            self.check_alignment(at, count, is_aligned)
            return self.memory.load(at, count)
        found = addresses_of(self.solved, self.path, at, count, is_aligned)
        parts = [self.memory.load(it, count) for it in found]
        values = self.loaded(at, found, parts) if self.loaded is not None else None
        return values or split(choice(at, found, [joined(it) for it in parts], 8 * count), count)

    def store(self, at: Value, values: Sequence[Byte], is_aligned: bool = False) -> None:
        """Writes bytes. What is at another address than an unknown one keeps what it holds."""
        count = len(values)
        if isinstance(at, int):
            self.check_alignment(at, count, is_aligned)
            self.memory.store(at, values)
            return
        size = min(count, 2)  # lanes stay lanes
        for it in addresses_of(self.solved, self.path, at, count, is_aligned):
            old, new = self.memory.load(it, count), []  # type: List[Byte], List[Byte]
            for low in range(0, count, size):
                piece, kept = joined(values[low : low + size]), joined(old[low : low + size])
                new += split(chosen(at == it, piece, kept, 8 * size), size)
            self.memory.store(it, new)

    @staticmethod
    def check_alignment(at: int, count: int, is_aligned: bool) -> None:
        if is_aligned and at % count:
            raise Wrong(f"the address {at:x} of {count} bytes isn't aligned, as the instruction asks")

    def push(self, x: Value) -> None:
        self.general[RSP] -= 8
        self.store(self.general[RSP], split(x, 8))

    def pop(self) -> Value:
        found = joined(self.load(self.general[RSP], 8))
        self.general[RSP] += 8
        return found

    # Operands

    def register(self, number: int) -> Value:
        """What a general register of capstone holds."""
        register, width, low = REGISTERS[number]
        return bits(self.general[register], low, width)

    def address(self, it: Instruction, n: int) -> Value:
        """The address of an operand in memory."""
        memory = it.operands[n].mem
        if memory.segment:
            raise Stuck("the operand has a segment")
        at = memory.disp
        if memory.base:
            is_here = memory.base == X.X86_REG_RIP
            at = at + (it.address + it.size if is_here else self.register(memory.base))
        if memory.index:
            at = at + self.register(memory.index) * memory.scale
        return at & mask(64) if isinstance(at, int) else known(z3.simplify(at))

    def get(self, it: Instruction, n: int) -> Value:
        """The number that an operand is."""
        operand = it.operands[n]
        if operand.type == X.X86_OP_REG:
            return self.register(operand.reg)
        if operand.type == X.X86_OP_IMM:
            return operand.imm & mask(it.width(n))
        return joined(self.load(self.address(it, n), operand.size))

    def put(self, it: Instruction, n: int, x: Value) -> None:
        """Writes an operand. A register's lower half clears its upper half, smaller parts keep the rest."""
        operand, x = it.operands[n], known(x)
        if operand.type == X.X86_OP_MEM:
            self.store(self.address(it, n), split(x, operand.size))
            return
        register, width, low = REGISTERS[operand.reg]
        if width >= 32:
            self.general[register] = zero_extended(x, width, 64)
            return
        old = split(self.general[register], 8)
        old[low // 8 : (low + width) // 8] = split(x, width // 8)
        self.general[register] = joined(old)

    def vector(self, it: Instruction, n: int, count: int = 16, is_aligned: bool = True) -> List[Byte]:
        """The lowest bytes of an xmm register, or bytes in memory, which most instructions want aligned."""
        if it.is_xmm(n):
            return self.xmm[XMM[it.operands[n].reg]][:count]
        if it.is_memory(n):
            return self.load(self.address(it, n), count, is_aligned and count == 16)
        return split(self.get(it, n), count)

    def put_vector(self, it: Instruction, values: Sequence[Byte], n: int = 0) -> None:
        """Writes all bytes of an xmm register."""
        assert len(values) == 16
        self.xmm[XMM[it.operands[n].reg]] = [*values]

    # Flags, of which each is a truth value, a function that gives one, or None if it is undefined

    def flag(self, name: str) -> Truth:
        """A flag."""
        found = self.flags[name]
        if callable(found):
            found = self.flags[name] = truth(found())
        if found is None:
            raise Stuck(f"the flag {name} is undefined")
        return found

    def set_flags(self, result: Value, width: int, cf: Any, of: Any) -> None:
        """The flags after a result."""
        self.flags = {
            "cf": cf,
            "of": of,
            "zf": lambda: result == 0,
            "sf": lambda: is_set(result, width - 1),
            "pf": lambda: even_parity(result),
        }

    def undefine(self, *names: str) -> None:
        """Leaves flags undefined; without names all."""
        self.flags.update(dict.fromkeys(names or FLAGS))

    def condition(self, name: str) -> Truth:
        """Whether a condition of jcc, setcc and cmovcc holds."""
        if name in INVERSE or name[0] == "n":
            return negated(self.condition(INVERSE.get(name) or name[1:]))
        if name == "be":
            return either(self.flag("cf"), self.flag("zf"))
        if name in ("l", "le"):
            less = differ(self.flag("sf"), self.flag("of"))
            return less if name == "l" else either(self.flag("zf"), less)
        flags = {"o": "of", "b": "cf", "e": "zf", "s": "sf", "p": "pf"}
        if name not in flags:
            raise Stuck(f"there is no condition {name}")
        return self.flag(flags[name])

    def decide(self, condition: Truth) -> bool:
        """Which side a branch takes. If both are possible, `sides` says which."""
        condition = truth(condition if isinstance(condition, bool) else z3.simplify(condition))
        if isinstance(condition, bool):
            return condition
        can_be = self.solved.is_possible(*self.path, condition)
        if not can_be or not self.solved.is_possible(*self.path, z3.Not(condition)):
            return can_be
        side = self.sides[len(self.taken)] if len(self.taken) < len(self.sides) else True
        self.taken.append(side)
        self.path.append(condition if side else z3.Not(condition))
        return side

    # Execution

    def instruction(self, at: int) -> Instruction:
        """The instruction there, of memory that nobody writes."""
        found = self.decoded.get(at)
        if found is None:
            region = self.memory.region(at, 1, "executed")
            if region.data is None or region.name != CODE:
                raise Wrong(f"{at:x} is executed, in {region.name}")
            code = region.data[at - region.start : at - region.start + LONGEST]
            found = self.decoded[at] = decoded(code, at)
        return found

    def step(self, at: int) -> int:
        """Executes the instruction there, and returns the address of the next one."""
        it = self.instruction(at)
        try:
            if self.observe:
                self.observe(self, it)
            to = semantics_of(it.name)(self, it)
        except (Stuck, Wrong) as why:
            raise type(why)(f"{why} (at {at:x}: {it.text})") from None
        except (AssertionError, IndexError, KeyError, ValueError, z3.Z3Exception) as fault:
            raise Stuck(f"its operands can't be computed: {fault!r} (at {at:x}: {it.text})") from None
        self.trail.append(at)
        return at + it.size if to is None else to

    def call(self, at: int) -> None:
        """Executes a function up to its return. The return address is on the stack."""
        start = self.general[RSP]
        while at != RETURN:
            hook = self.hooks.get(at)
            if hook:
                hook(self)
                at = target(self.pop())
                continue
            at = self.step(at)
            self.count += 1
            if self.count > LONGEST_CALL:
                raise Stuck(f"the call isn't over after {LONGEST_CALL} instructions")
        if not alike(self.general[RSP], start + 8):
            raise Wrong(f"rsp isn't as it was before the call, but {self.general[RSP]}")


def choice(at: Any, found: Sequence[int], parts: Sequence[Value], width: int) -> Value:
    """The part for an address, which is one of these, by bisection."""
    if all(alike(it, parts[0]) for it in parts):
        return parts[0]
    middle = len(found) // 2
    lower = choice(at, found[:middle], parts[:middle], width)
    upper = choice(at, found[middle:], parts[middle:], width)
    return chosen(z3.ULT(at, found[middle]), lower, upper, width)


def target(to: Value) -> int:
    """The address of a jump, which has to be a number."""
    if not isinstance(to, int):
        raise Stuck("a jump goes to an unknown address")
    return to


def even_parity(result: Value) -> Truth:
    """Whether the lowest byte has an even number of bits that are 1."""
    found: Truth = True
    for at in range(8):
        found = differ(found, is_set(result, at))
    return found
