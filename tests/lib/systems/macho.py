"""The code of a dylib, or of a program, for macOS in a program for Linux: what the loader of macOS would do
is done by an assembler. So that code runs where there is no Mac, over the C library of Linux. Calls of both
systems pass numbers and pointers alike."""

import re
import struct
from pathlib import Path
from typing import Dict, Iterator, List

from rsp_tools.systems.toolchain import call

SEGMENT = 0x19  # the load command LC_SEGMENT_64
PROGRAM, BASE = 2, 0x100000000  # MH_EXECUTE, and where its bytes begin
FIXUP = re.compile(r"__\S+\s+__\S+\s+0x([0-9A-Fa-f]+)\s(?:.*\s)?(\S+)")


def first(data: bytes) -> int:
    """The first address that has bytes: 0 in a dylib, 4 GB in a program."""
    return BASE if struct.unpack_from("<I", data, 12)[0] == PROGRAM else 0


def memory(data: bytes) -> bytearray:
    """What the loader would map, from its first address on: all segments but the linker's own, and a
    program's first one, which has no bytes."""
    mapped, at, base = bytearray(), 32, first(data)
    for _ in range(struct.unpack_from("<I", data, 16)[0]):
        command, size = struct.unpack_from("<II", data, at)
        if command == SEGMENT and not data.startswith((b"__LINKEDIT", b"__PAGEZERO"), at + 8):
            to, room, start, length = struct.unpack_from("<QQQQ", data, at + 24)
            to -= base
            mapped.extend(bytes(max(0, to + room - len(mapped))))
            mapped[to : to + length] = data[start : start + length]
        at += size
    return mapped


def fixups(library: Path, mapped: bytearray) -> Dict[int, str]:
    """The addresses that hold pointers, and what the assembler calls what they point to."""
    found: Dict[int, str] = {}
    base = first(library.read_bytes())
    for kind in ("--rebase", "--bind", "--lazy-bind"):
        for line in call("llvm-objdump", "--macho", kind, library).splitlines():
            fixup = FIXUP.fullmatch(line)
            if fixup and kind == "--rebase":
                at = int(fixup[1], 16) - base
                found[at] = f"base + {struct.unpack_from('<Q', mapped, at)[0] - base}"
            elif fixup:
                # The program is linked at once, so nothing is looked up later.
                found[int(fixup[1], 16) - base] = "0" if fixup[2] == "dyld_stub_binder" else fixup[2][1:]
    return found


def lines(library: Path) -> Iterator[str]:
    """The assembler's text: the bytes, with the pointers by name, and the calls."""
    data = library.read_bytes()
    mapped, base = memory(data), first(data)
    yield from ('.section .macho,"awx",%progbits', ".balign 16384", "base:")
    at = 0
    for address, name in sorted(fixups(library, mapped).items()):
        if address > at:
            yield f".byte {','.join(map(str, mapped[at:address]))}"
        yield f".quad {name}"
        at = address + 8
    yield f".byte {','.join(map(str, mapped[at:]))}"
    defined = call("llvm-nm", "-g", "--defined-only", library)
    for place, name in re.findall(r"(?m)^(\w+) T _(\w+)$", defined):
        yield f".globl {name}\n.set {name}, base + {int(place, 16) - base}\n.type {name}, %function"
    yield '.section .note.GNU-stack,"",%progbits'


def taken_out(library: Path, processor: str, at: Path) -> List[str]:
    """The words that link the code of one processor into a program. `at` is a folder for its files."""
    thin, text, erase = at / "thin.dylib", at / "dylib.s", at / "erase.c"
    call("llvm-lipo", library, "-thin", processor, "-output", thin)
    text.write_text("".join(f"{it}\n" for it in lines(thin)))
    # For Intel macOS has a call of its own.
    erase.write_text("#include <string.h>\nvoid __bzero(void *at, size_t n) { memset(at, 0, n); }\n")
    return ["-no-pie", str(text), *([str(erase)] if processor == "x86_64" else [])]
