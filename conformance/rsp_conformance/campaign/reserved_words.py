"""Reserved words in a campaign (--reserved): whether an emulator takes the same words for instructions.

A case is a word, of 524,288 that have all values of the fields that select an instruction: the opcode, and
in each format the function, the register, the operation or the element that select it.
"""

from typing import Dict, Tuple

import numpy as np

from .generator import Array, cases_of
from .protocol import RESERVED, UNSHOWN
from .batches import Cases

OPCODES_FROM = 13  # the bits of a case's number that aren't its opcode
STATES_OF = "add"  # any instruction, whose cases have any state
# Where a field is in a word, its bits, and where they are in the number of a case. The fields of a format
# have different bits there.
FIELDS = ((0, 6, 0), (11, 5, 0), (16, 5, 0), (7, 4, 5), (21, 5, 8), (26, 6, OPCODES_FROM))


def words_of(numbers: Array) -> Array:
    """The words of the cases with these numbers."""
    parts = [(numbers >> place & (1 << bits) - 1) << low for low, bits, place in FIELDS]
    return np.bitwise_or.reduce(parts)


class ReservedWords(Cases):
    """Words on both sides, of which only whether they are reserved is compared."""

    def made(self, at: int, n: int) -> Tuple[Array, Dict[str, Array]]:
        cases = cases_of(STATES_OF, self.seed, at, n)[0]
        cases["word"] = words_of(np.arange(at, at + n))
        return cases, {}

    def run(self, at: int, cases: Array, ends: Array) -> Array:
        super().run(at, cases, ends)
        expected = self.expected[: len(cases)]
        unshown = ends["status"] == UNSHOWN
        for side in expected, ends:
            side["status"] = side["status"] == RESERVED
        ends["status"][unshown] = UNSHOWN
        for part in "state", "changed":
            ends[part] = expected[part]
        return expected["status"] != ends["status"]

    def describe(self, number: int, case: Array, expected: Array, got: Array, in_full: bool) -> str:
        kinds = ("an instruction", "a reserved word")
        texts = (kinds[int(end["status"])] for end in (expected, got))
        return "{}): expected {}, got {}".format(self.head(number, case), *texts)
