"""Overlays for GDB: code that a DMA brings to IMEM, which GDB takes for a shared library while it is there.

An overlay is loaded if all its bytes are in IMEM. Only GDB reads its ELF, which is linked for this address.
"""

import os
from typing import List, NamedTuple, Optional, Sequence
from xml.sax.saxutils import quoteattr

from rsp.errors import printable
from rsp.script import number

IMEM = 0x04001000  # GDB's address of IMEM


class Overlay(NamedTuple):
    """The path of an overlay's ELF, and its bytes from an address in IMEM on."""

    elf: str
    address: int
    code: bytes


def overlay(address: str, elf: str, binary: str) -> Overlay:
    """The overlay that the operands of `--overlay` name. ValueError or OSError if it can't be one."""
    at = number(address)
    at = at - IMEM if at >> 12 == IMEM >> 12 else at
    if at % 8 or at >= 4096:
        raise ValueError(f"--overlay {address}: an address in IMEM is a multiple of 8 below 0x1000")
    with open(elf, "rb"), open(binary, "rb") as file:
        code = file.read(4097)
    if not 0 < len(code) <= 4096 - at:
        raise ValueError(f"{printable(binary)} has no byte, or more than fit into IMEM from 0x{at:03x} on")
    if not elf.isprintable():
        raise ValueError(f"{printable(elf)}: GDB can't read this name")
    return Overlay(os.path.abspath(elf), at, code)


def loaded(overlays: Sequence[Overlay], imem: bytes) -> List[Overlay]:
    """The overlays that are in IMEM: of those that begin at one address the longest."""
    found = [it for it in overlays if imem.startswith(it.code, it.address)]
    longest = {it.address: it for it in sorted(found, key=lambda it: len(it.code))}
    return [*longest.values()]


def owner(overlays: Sequence[Overlay], at: int, word: Optional[int] = None) -> str:
    """What a sentence about an instruction ends in: the ELF of the overlay, of these, that has bytes at its
    address, or this word there. gdb_side.py puts the line in its place if the overlay is loaded.
    """
    having = [it for it in overlays if 0 <= at - it.address < len(it.code)]
    if word is not None:
        having = [it for it in having if it.code.startswith(word.to_bytes(4, "big"), at - it.address)]
    return f" ({having[0].elf if len(having) == 1 else 'in several overlays'})" if having else ""


def library_list(overlays: List[Overlay]) -> bytes:
    """What GDB reads as the list of shared libraries on Linux. They aren't moved, so they have the ELF's
    addresses."""
    rows = (
        f'<library name={quoteattr(it.elf)} lm="{n}" l_addr="0" l_ld="0" lmid="0"/>'
        for n, it in enumerate(overlays, 1)
    )
    return f'<library-list-svr4 version="1.0">{"".join(rows)}</library-list-svr4>'.encode()
