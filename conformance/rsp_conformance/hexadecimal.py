"""`hex`, for HDLs: lines of hexadecimal digits, and constants for the bits of states and instructions."""

from pathlib import Path
from typing import Iterator, List, Tuple

from rsp_conformance.safe_files import read_file, write_file
from rsp_conformance.flat import BANKS, FIELDS, STATE, states_of
from rsp_conformance.steps import Entry
from rsp_conformance.table import ROWS, ignored_bits

STATE_BITS = 8 * STATE.size
# The parts of a line from its last digit on, each with its number of bits.
PARTS = {"after": STATE_BITS, "before": STATE_BITS, "choice": 4, "word": 32, "name": 128, "text": 256}
# The fields of a brsp_changes in their order, as flat.FIELDS.
CHANGES = {
    "word": (1, 32), "value": (1, 32), "pc": (1, 16), "address": (1, 16), "vco": (1, 16), "vcc": (1, 16),
    "vce": (1, 8), "scalar": (1, 8), "vector": (1, 8), "stored": (1, 8), "lanes": (8, 16), "next_pc": (1, 16),
    "npc": (1, 16), "div_in": (1, 16), "div_out": (1, 16), "div_loaded": (1, 16), "quadword": (1, 16),
    "high": (8, 16), "middle": (8, 16), "low": (8, 16), "bytes": (32, 8),
}  # fmt: skip
HEAD = "Made by conformance/generate --hex: where the parts of a line, a state and a record begin, by bits."
WORDS_HEAD = """\
// Made by conformance/generate --hex: an instruction's fixed bits, and a mask of its operands.
// A random word is fixed | $urandom & mask. The RSP ignores bits that are in neither."""
FORMS = {"svh": ("//", "localparam int {} = {};"), "vhd": ("--", "  constant {} : natural := {};")}


def line_of(entry: Entry) -> str:
    """A case: its text, name, word and choice, and both states, each as one little-endian number."""
    before, after = (state[::-1].hex() for state in states_of(entry))
    text, name = entry["text"].encode()[:32].rjust(32, b"\0").hex(), entry["name"].encode().ljust(16).hex()
    return f"{text}{name}{entry['word']}{int('choice' in entry)}{before}{after}\n"


def hex_bytes(entries: List[Entry]) -> bytes:
    """The file of an instruction, without the cases that need or change memories."""
    shown = [entry for entry in entries if not {*BANKS} & {*entry["before"], *entry["after"]}]
    return "".join(map(line_of, shown)).encode()


def write_programs(folder: Path, name: str, out: Path) -> None:
    """Writes the memories of an instruction's programs, a word a line."""
    for path in folder.glob(f"{name}-*.*"):
        write_file(out / f"{path.name}.hex", read_file(path).hex("\n", 4) + "\n")


def offsets() -> Iterator[Tuple[str, int]]:
    """Constants of each part and field: its offset, the bits of a number, and their count; and all bits."""
    parts = {part: (1, bits) for part, bits in PARTS.items()}
    for whole, sizes in (("STATE", FIELDS), ("LINE", parts), ("CHANGES", CHANGES)):
        at, prefix = 0, "BRSP_CHANGES_" if whole == "CHANGES" else "BRSP_"
        for name, (count, bits) in sizes.items():
            start = f"{prefix}{name.upper()}"
            yield from ((start, at), (f"{start}_BITS", bits), (f"{start}_COUNT", count))
            at += count * bits
        yield f"BRSP_{whole}_BITS", at


def write_offsets(out: Path) -> None:
    """Writes brsp_state.svh and brsp_state.vhd."""
    for suffix, (comment, form) in FORMS.items():
        lines = [form.format(*constant) for constant in offsets()]
        lines = ["package brsp_state is", *lines, "end package;"] if suffix == "vhd" else lines
        write_file(out / f"brsp_state.{suffix}", "\n".join([f"{comment} {HEAD}", *lines, ""]))


def write_instructions(out: Path) -> None:
    """Writes rsp_forms.svh."""
    lines = [WORDS_HEAD]
    for row in ROWS.values():
        operands = ~(row.mask | ignored_bits(row)) & 0xFFFFFFFF
        lines.append(f"localparam [63:0] RSP_{row.name.upper()} = 64'h{row.value:08x}_{operands:08x};")
    write_file(out / "rsp_forms.svh", "\n".join([*lines, ""]))
