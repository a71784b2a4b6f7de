"""`flat`: the cases of `steps` as a flat binary file for each instruction, for C without a parser of JSON.

All numbers are little-endian, and states are a brsp_state of brsp.h; conformance/README.md has the layout.
"""

import struct
from typing import Iterator, List, Tuple

from rsp_conformance import bench
from rsp_conformance.states import Numbers, numbers_of
from rsp_conformance.steps import Entry

MAGIC, VERSION = b"RSPCASES", 2
HEAD, CASE, PIECE = struct.Struct("<8sII"), struct.Struct("<III16sI"), struct.Struct("<IIII")
# The fields of an brsp_state in their order, each with its count of numbers and their bits.
FIELDS = {
    "words": (32, 32), "vectors": (256, 16), "high": (8, 16), "middle": (8, 16), "low": (8, 16),
    "carry": (1, 8), "differ": (1, 8), "compare": (1, 8), "clip": (1, 8), "extra": (1, 8), "zero": (1, 8),
    "div_in": (1, 16), "div_out": (1, 16), "div_loaded": (1, 16), "pc": (1, 16), "npc": (1, 16),
    "sp": (16, 32), "interrupt": (1, 32),
}  # fmt: skip
CODES = {8: "B", 16: "H", 32: "I"}
STATE = struct.Struct("<" + "".join(f"{count}{CODES[bits]}" for count, bits in FIELDS.values()))
BANKS = ("dmem", "imem", "rdram", "text")  # the last one isn't a memory, but the text of the instruction
Piece = Tuple[int, int, int, bytes]  # 0 before the case or 1 after it, the bank, the address, and the bytes


def state_bytes(state: Numbers) -> bytes:
    """The bytes of a brsp_state with the numbers of `full`."""
    lanes = [lane for register in state["v"] for lane in register]
    accumulators = [value >> shift & 0xFFFF for shift in (32, 16, 0) for value in state["acc"]]
    vco, vcc, divider = state["vco"], state["vcc"], (state["div_in"], state["div_out"], state["div_loaded"])
    flags = (vco & 255, vco >> 8, vcc & 255, vcc >> 8, state["vce"], 0)
    pcs = (state["pc"], state["npc"])
    return STATE.pack(
        *state["r"], *lanes, *accumulators, *flags, *divider, *pcs, *state["sp"], state["interrupt"]
    )


def pieces_of(entry: Entry) -> Iterator[Piece]:
    """The text of a case, the bytes of memories before it, with its word, and the bytes that it changes."""
    code = {entry["before"].get("pc", "000"): entry["word"]}
    yield 0, BANKS.index("text"), 0, entry["text"].encode(errors="replace")[:100]
    for when, part in enumerate((entry["before"], entry["after"])):
        for bank, name in enumerate(BANKS[:3]):
            runs = [*part.get(name, {}).items(), *(code.items() if name == "imem" and not when else ())]
            yield from ((when, bank, int(at, 16), bytes.fromhex(text)) for at, text in runs)


def states_of(entry: Entry) -> List[bytes]:
    """The states before and after a case."""
    before = {**bench.DEFAULT, **entry["before"]}
    return [state_bytes(numbers_of(state)) for state in (before, {**before, **entry["after"]})]


def case_bytes(entry: Entry) -> bytes:
    """A case: its head, the states before and after it, and the bytes of memories."""
    pieces, data = list(pieces_of(entry)), b""
    for when, bank, at, piece in pieces:
        data += PIECE.pack(when, bank, at, len(piece)) + piece + bytes(-len(piece) % 4)
    size = CASE.size + 2 * STATE.size + len(data)
    head = CASE.pack(size, int(entry["word"], 16), "choice" in entry, entry["name"].encode(), len(pieces))
    return head + b"".join(states_of(entry)) + data


def flat_bytes(entries: List[Entry]) -> bytes:
    """The file of an instruction."""
    return HEAD.pack(MAGIC, VERSION, len(entries)) + b"".join(map(case_bytes, entries))
