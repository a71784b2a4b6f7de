"""The differences that an emulator is known to have: a table that --known reads, and --write-known writes.

A line has an instruction, PROGRAM, or * for every instruction; what differs; and the reason. What differs is
a part of an end, a choice, FAULT or NOT_THERE, and of a program the instruction at which it differs. A *kind*
of differences is all of these that a case has, such as `VCO; vector registers; choice: MPEG row`.
"""

from pathlib import Path
from typing import Dict, List, Set, Tuple

from rsp_conformance.command_line import printable
from rsp_conformance.safe_files import read_file, write_file
from rsp_conformance.table import ROWS

from . import CampaignFault
from .protocol import FAULT, FIELDS, NOT_THERE, PROGRAM, WORDS, Kinds

HEAD, EVERY, CHOICE, AND = "instruction\tdiffers\treason", "*", "choice: ", "; "
Known = Dict[Tuple[str, str], str]  # the reasons
NAMES, OTHERS = {name.upper() for name in ROWS}, (PROGRAM.upper(), WORDS.upper())


def known_in(path: Path) -> Known:
    """The lines of a file. A CampaignFault names the first line that isn't one."""
    known: Known = {}
    text = read_file(path).decode(errors="replace")
    for number, line in enumerate(text.splitlines() or [""], 1):
        cells = line.split("\t")
        who, what, reason = cells if len(cells) == 3 else ("", "", "")
        ofs = {*NAMES, FAULT} if who == PROGRAM.upper() else {*FIELDS, FAULT, NOT_THERE}
        is_line = what in ofs or what.startswith(CHOICE)
        if number == 1 and line == HEAD:
            continue
        if number == 1 or not is_line or who not in (*NAMES, *OTHERS, EVERY) or not reason.strip():
            form = HEAD.replace("\t", ", ")
            raise CampaignFault(
                f"{path}, line {number}: '{printable(line[:60])}' isn't {form} of a difference"
            )
        known[who, what] = reason
    return known


def write_known(path: Path, known: Known) -> None:
    lines = (f"{who}\t{what}\t{reason}" for (who, what), reason in known.items())
    write_file(path, "".join(f"{line}\n" for line in (HEAD, *lines)))


def is_known(kind: str, name: str, known: Known) -> bool:
    """Whether differences of a kind are known: one of its choices, or all that differs."""
    those = {what for who, what in known if who in (name.upper(), EVERY)}
    return any(choice in those for choice in choices_of(kind)) or {*parts_of(kind)} <= those


def choices_of(kind: str) -> List[str]:
    return [item for item in kind.split(AND) if item.startswith(CHOICE)]


def parts_of(kind: str) -> List[str]:
    return [item for item in kind.split(AND) if not item.startswith(CHOICE)]


def lines_for(name: str, kinds: Kinds, known: Known) -> Known:
    """The lines that an instruction needs beside those that are known: a choice, or all that differs."""
    lines: Known = {}
    for kind, (_, first) in sorted(kinds.items(), key=lambda item: bool(choices_of(item[0]))):
        if not is_known(kind, name, {**known, **lines}):
            case = printable(first.partition(" ")[0].rstrip(":"))
            for what in choices_of(kind)[:1] or parts_of(kind):
                lines.setdefault((name.upper(), what), f"to be given; {case}")
    return lines


def gone(known: Known, found: Dict[str, Kinds]) -> Set[Tuple[str, str]]:
    """The lines about what ran that no difference needs; `found` has the kinds of each instruction."""
    those = {
        (who.upper(), item) for who, kinds in found.items() for kind in kinds for item in kind.split(AND)
    }
    those |= {(EVERY, what) for _, what in those}
    ran = {EVERY, *map(str.upper, found)}
    return {line for line in known if line[0] in ran and line not in those}
