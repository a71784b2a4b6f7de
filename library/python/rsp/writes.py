"""Finds in a trace which step changed a register, for `Timeline.wrote`."""

import ctypes
import re
from typing import Callable, Iterable, List, Optional, Sequence, Tuple

from .machine import Machine
from .native import lib
from .shapes import Bank, Stop
from .state import Traced

# Where the bytes of a register are in a State, how many they are, and where an entry of a trace has them: it
# has the scalar and the vector register that its step wrote, and the flags.
_BYTES = {
    "r": (0, 4, 4), "v": (128, 16, 20), "vco": (688, 2, 12), "vcc": (690, 2, 14), "vce": (692, 1, 16),
    "acc": (640, 48, None), "div_in": (694, 2, None), "div_out": (696, 2, None), "div_loaded": (698, 2, None),
}  # fmt: skip
_SCALAR, _VECTOR, _ENTRY = 17, 18, 36  # of an entry: the numbers of these registers, and its length
# The other names of scalar registers, as in assembly text: $v0 and $v1 are vector registers.
_NAMES = "zero at r2 r3 a0 a1 a2 a3 t0 t1 t2 t3 t4 t5 t6 t7 s0 s1 s2 s3 s4 s5 s6 s7 t8 t9 k0 k1 gp sp fp ra"
_SCALARS = {"s8": "30", **{name: str(n) for n, name in enumerate(_NAMES.split())}}
_FORM = re.compile(r"\$?(?:([rv]?)(\d\d?)|(acc|vc[oce]|div_(?:in|out|loaded)))(?:\[([0-7])\])?")


def place(address: int) -> Tuple[Bank, int]:
    """The memory of an address, and the address there. RDRAM is in KSEG0 and KSEG1, as for the CPU, and the
    SP's memories are there and at 0x04000000. Below 0x4000 are DMEM and IMEM too, as microcode has them. GDB
    extends the sign of an address of a MIPS to 64 bits."""
    if address >> 32 not in (0, 0xFFFFFFFF):
        raise ValueError
    address &= 0xFFFFFFFF
    physical = address & 0x1FFFFFFF if address >> 30 == 2 else address
    if physical >> 18 == 0x04000000 >> 18 or address < 0x4000:
        return (Bank.IMEM if physical & 0x1000 else Bank.DMEM), physical & 0xFFF
    if physical == address:
        raise ValueError
    return Bank.RDRAM, physical


def byte_of(name: str, image_length: int) -> Optional[Tuple[Bank, int]]:
    """The memory and the address of a byte whose name is an address, as for `Timeline.wrote`, or None for the
    name of a register."""
    if not name.startswith("0x"):
        return None
    try:
        bank, address = place(int(name, 16))
    except ValueError:
        raise ValueError(f"{name[:80]} isn't an address such as 0x04000010 or 0x80030002") from None
    if bank is Bank.RDRAM and address >= image_length:
        raise ValueError(f"{name[:80]} is past RDRAM, which ends at 0x{0x80000000 + image_length - 1:x}")
    return bank, address


def _found(raw: bytes, at: int, numbers: Iterable[int]) -> List[int]:
    """The entries of a trace whose byte `at` is one of these numbers."""
    form = b"[" + re.escape(bytes(numbers)) + b"]"
    return [it.start() for it in re.finditer(form, raw[at::_ENTRY])]


class Register:
    """A register or its lane by its name, as for `Timeline.wrote`, with its value on a machine."""

    def __init__(self, name: str, machine: Machine) -> None:
        found = _FORM.fullmatch(_SCALARS.get(name[name.startswith("$") :], name))
        kind, n, lane = (found[3] or found[1] or "r", int(found[2] or 0), found[4]) if found else ("", 32, "")
        if n > 31 or lane and kind[0] in "rd":
            raise ValueError(f"{name[:80]} isn't a register such as $r8, $t0, $v18, $v18[3], $acc or $vco")
        at, self._size, self._shown = _BYTES[kind]
        self._kind, self._n, self._at = kind, n, at + n * self._size
        bits = self._size * [255]  # those of each byte that count
        if lane and self._size < 16:
            bits = self._size * [1 << int(lane)]
        elif lane:
            bits = [255 * (it % 16 // 2 == int(lane)) for it in range(self._size)]
        pairs = zip(self._bytes(machine), bits)
        self._equal = [bytes(it for it in range(256) if not (it ^ now) & kept) for now, kept in pairs]

    def _bytes(self, machine: Machine) -> bytes:
        return bytes(machine.get())[self._at : self._at + self._size]

    def last_other(self, machine: Machine, steps: int, again: Callable[[], Machine]) -> Optional[int]:
        """Makes steps. The number of the last state, from 0 on, in which it has another value, or None.
        `again` gives another machine that is before these steps."""
        out, stop, first = (Traced * steps)(), Stop(), self._bytes(machine)
        machine._call_alone("trace", lib.brsp_trace, out, steps, ctypes.byref(stop))
        places, columns = self._columns(bytes(out), again)
        pairs = enumerate(zip(columns, self._equal))
        last = max(len((first[n : n + 1] + column).rstrip(equal)) for n, (column, equal) in pairs)
        return [*places, steps][last - 1] if last else None

    def _columns(self, raw: bytes, again: Callable[[], Machine]) -> Tuple[Sequence[int], List[bytes]]:
        """The steps of a trace that may have changed it, and what each of its bytes is after these steps."""
        places: Sequence[int] = range(len(raw) // _ENTRY)
        shown, length = self._shown, _ENTRY
        if self._kind == "r":
            places = _found(raw, _SCALAR, [self._n])
        elif self._kind == "v":
            words, first = memoryview(raw).cast("I")[:: _ENTRY // 4], self._n & 24
            places, group = (_found(raw, _VECTOR, [it]) for it in (self._n, first))
            if any(words[it] >> 26 == 50 and words[it] >> 11 & 31 == 11 for it in group):
                # An LTV changes eight registers, and its entry has only the first of them.
                places, shown = _found(raw, _VECTOR, [self._n, first]), None
        elif shown is None:
            places = _found(raw, _VECTOR, range(32))
        if shown is None:
            values, behind = [], again()
            for before, at in zip([-1, *places], places):
                behind.run(at - before)
                values.append(self._bytes(behind))
            raw, shown, length = b"".join(values), 0, self._size
        elif self._kind in "rv":
            raw = b"".join(raw[length * it : length * it + length] for it in places)
        return places, [raw[shown + n :: length] for n in range(self._size)]
