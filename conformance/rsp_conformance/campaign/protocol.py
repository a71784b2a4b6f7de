"""What the processes of a campaign share: types, names of cases, and the layout of a batch's ends."""

from typing import Any, Dict, List, Tuple

Result = Dict[str, Any]  # of a task, of a batch of cases, or of a program: counts, and lines for the table
Task = Tuple[str, int, int]  # of a campaign: the instruction, the first number, and how many
Options = Dict[str, Any]  # of the campaign, for its tasks
Kinds = Dict[str, List[Any]]  # by kinds of differences, as known.py says: how many, and the first in words

VERSION = 2  # of the generator: another version gives the cases of the same numbers other names
PROGRAM = "program"  # in place of an instruction, in a task of programs
VERSIONS = {PROGRAM: 4, "mfc0": 4, "mtc0": 4}  # of the generators that have changed by themselves
WORDS, ALL_WORDS = (
    "reserved",
    1 << 19,
)  # in place of an instruction, in a task of reserved words; and how many
# What can differ in a case: the parts of an end, and what is no part of one.
FIELDS = (
    *("scalar registers", "vector registers", "accumulators", "VCO", "VCC", "VCE", "divider", "pc", "npc"),
    *(f"c{number}" for number in range(16)),
    *("interrupt", "status", "memories"),
)
FAULT, NOT_THERE = "fault", "not there"
BATCH, SHOWN = 1024, 5  # the cases of a call, and the differences of a task that are shown
# An end is a state, the status and a digest: the bytes of one, and where its status is.
END_BYTES, STATUS_AT = 784, 772
# The status of a case that isn't done yet, that the emulator can't be given, or whose instruction it lacks.
UNDONE, UNSHOWN, RESERVED = 0xFFFFFFFF, 0xFFFFFFFE, 105


def name_of(what: str, seed: str, number: int) -> str:
    """The name of a case, or of a program: VADD-g2-7-000123, with the generator's version.

    A case without a number has no name, except that of its instruction: its text is in the place of a seed.
    """
    if " " in seed:
        return what.upper()
    return f"{what.upper()}-g{VERSIONS.get(what, VERSION)}-{seed}-{number:06d}"


def plural(number: int, noun: str) -> str:
    """A number with its noun: 1 step, 2 steps."""
    return f"{number} {noun}{'s' * (number != 1)}"
