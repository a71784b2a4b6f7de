"""What the kit printed: how many functions it proved in each crate, and what became of each mutation.

The texts are what `rt ci`, `rt lib`, `rt must-fail` or tests/mutations/crates printed, or those lines of it
that the gate leaves in ~/.cache/rsp/said-COMMIT.txt.
"""

import re
from typing import Dict, NamedTuple, Optional

SECTION = re.compile(r"(?m)^== (rsp_\w+)(: its tests)?$")
PROVED = re.compile(r"(?m)^logic=proved (?:tests=\d+ )?functions=(\d+)(?: axioms=(\d+))?")
TRIED = re.compile(r"(?m)^(?:rt: )?must-fail (\w+)/(?:drawn\.)?(\S+)\.edit: (.*)")
REFUSED = "refused, as it must be"
WITH_TESTS = " with tests"


class Proof(NamedTuple):
    """The functions of a crate that are proved, and the kit's axioms that a program or library reaches."""

    functions: int
    axioms: int = 0


class Said(NamedTuple):
    """The proofs by the names of the crates, also of crates WITH_TESTS; and by crate what became of the
    mutations that were tried, by their names."""

    proofs: Dict[str, Proof]
    mutations: Dict[str, Dict[str, str]]


def proof(text: str) -> Optional[Proof]:
    """The proof of one crate, in what the kit printed of it; None if it doesn't say that it is proved."""
    found = PROVED.search(text)
    return Proof(int(found[1]), int(found[2] or 0)) if found else None


def read(text: str) -> Said:
    """What a text says."""
    said = Said({}, {})
    parts = SECTION.split(text)
    for name, tests, part in zip(parts[1::3], parts[2::3], parts[3::3]):
        if found := proof(part):
            said.proofs[name + (WITH_TESTS if tests else "")] = found
    for crate, name, result in TRIED.findall(text):
        said.mutations.setdefault(crate, {})[name] = result
    return said
