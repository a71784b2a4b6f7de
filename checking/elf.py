"""Reads a shared object of x86-64 as the system's loader would put it into memory."""

import struct
from typing import Dict, Iterator, List, NamedTuple, Tuple

EXECUTABLE, WRITABLE = 1, 2
LOAD, DYNAMIC, RELRO = 1, 2, 0x6474E552
STRINGS, DYNSYM = 5, 11
RELOCATIONS, RELOCATIONS_SIZE, CALLS, CALLS_SIZE = 7, 8, 23, 2
ABSOLUTE, CELL, JUMP, RELATIVE = 1, 6, 7, 8
X86_64, SHARED = 62, 3
# What reading a file of wrong headers raises.
UNREADABLE = (
    struct.error,
    LookupError,
    ValueError,
    ArithmeticError,
    MemoryError,
    RuntimeError,
    StopIteration,
)


class BadLibrary(Exception):
    """Why a file isn't a library that can be checked."""


class Segment(NamedTuple):
    """Bytes that are loaded together."""

    start: int
    data: bytes
    flags: int


class Relocation(NamedTuple):
    """A cell of eight bytes that holds the address of a symbol, or with the name "" of a byte of the file."""

    at: int
    name: str
    addend: int


class Elf:
    """The segments, the exports and the relocations of a shared object."""

    def __init__(self, data: bytes) -> None:
        if data[:6] != b"\x7fELF\x02\x01" or len(data) < 64:
            raise BadLibrary("it is no ELF file of 64 bits")
        self.data = data
        kind, machine = struct.unpack_from("<HH", data, 16)
        if machine != X86_64 or kind != SHARED:
            raise BadLibrary("it is no shared object for x86-64")
        try:
            self.headers = [*self.program_headers()]
            self.dynamic = {tag: value for tag, value in self.entries(DYNAMIC, "<QQ")}
            self.segments = [*self.loaded()]
            self.names = [*self.symbols()]
            self.exports = {name: at for name, at in self.names if at}
            self.relocations = [*self.relocated()]
        except (
            struct.error,
            LookupError,
            ValueError,
            RuntimeError,
            StopIteration,
            OverflowError,
            MemoryError,
        ) as fault:
            raise BadLibrary(f"its headers can't be read ({fault!r})") from None

    def program_headers(self) -> Iterator[Tuple[int, ...]]:
        """Of each: type, flags, offset, two addresses, size in the file and in memory, alignment."""
        (start,), (size, count) = struct.unpack_from("<Q", self.data, 32), struct.unpack_from(
            "<HH", self.data, 54
        )
        for number in range(count):
            yield struct.unpack_from("<IIQQQQQQ", self.data, start + number * size)

    def entries(self, kind: int, form: str) -> Iterator[Tuple[int, ...]]:
        """The entries of a part of some type."""
        _, _, offset, _, _, size, _, _ = next(it for it in self.headers if it[0] == kind)
        yield from struct.iter_unpack(form, self.data[offset : offset + size])

    def loaded(self) -> Iterator[Segment]:
        """The segments, with zeros after what is in the file."""
        for kind, flags, offset, start, _, size, total, _ in self.headers:
            if kind == LOAD:
                yield Segment(start, self.data[offset : offset + size] + bytes(total - size), flags)

    def read(self, at: int, count: int) -> bytes:
        """Bytes at an address."""
        found = next(it for it in self.segments if it.start <= at < it.start + len(it.data))
        return found.data[at - found.start : at - found.start + count]

    def symbols(self) -> Iterator[Tuple[str, int]]:
        """The names and the addresses of the dynamic symbols, which have a section."""
        (start,), (size, count) = struct.unpack_from("<Q", self.data, 40), struct.unpack_from(
            "<HH", self.data, 58
        )
        headers = [struct.unpack_from("<IIQQQQIIQQ", self.data, start + size * n) for n in range(count)]
        _, _, _, at, _, length, _, _, _, _ = next(it for it in headers if it[1] == DYNSYM)
        for entry in struct.iter_unpack("<IBBHQQ", self.read(at, length)):
            text = self.read(self.dynamic[STRINGS] + entry[0], 256).split(b"\0")[0]
            yield text.decode("ascii", "replace"), entry[4]

    def relocated(self) -> Iterator[Relocation]:
        """All cells that the loader fills."""
        for table, size in ((RELOCATIONS, RELOCATIONS_SIZE), (CALLS, CALLS_SIZE)):
            start = self.dynamic.get(table, 0)
            for at in range(start, start + self.dynamic.get(size, 0), 24):
                cell, info, addend = struct.unpack("<QQq", self.read(at, 24))
                kind, symbol = info & 0xFFFFFFFF, info >> 32
                if kind not in (ABSOLUTE, CELL, JUMP, RELATIVE):
                    raise BadLibrary(f"it has a relocation of type {kind}")
                name = "" if kind == RELATIVE else self.names[symbol][0]
                yield Relocation(cell, name, addend)

    def sealed(self) -> Tuple[int, int]:
        """The bytes that are read-only once the cells are filled: their start and their end."""
        found = next((it for it in self.headers if it[0] == RELRO), None)
        return (found[3], found[3] + found[6]) if found else (0, 0)

    def image(self, base: int, imports: Dict[str, int]) -> List[Segment]:
        """The segments at a base, with their cells filled. A name that nobody has is 0."""
        parts = [bytearray(it.data) for it in self.segments]
        for cell, name, addend in self.relocations:
            at = base + self.exports[name] if name in self.exports else imports.get(name, 0) if name else base
            number = next(
                n for n, it in enumerate(self.segments) if it.start <= cell < it.start + len(it.data)
            )
            offset = cell - self.segments[number].start
            struct.pack_into("<Q", parts[number], offset, (at + addend) % (1 << 64))
        return [Segment(base + it.start, bytes(part), it.flags) for it, part in zip(self.segments, parts)]
