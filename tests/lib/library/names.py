"""The names of the library's calls in each language: that of C without its prefix, as a method of a machine
if the call is on one, or what docs/data/calls.tsv lists."""

import re
from typing import Dict, List

from lib.library import shapes
from lib.pages import data, page

Names = Dict[str, str]  # by the columns of the table
# How a method of a machine begins.
METHODS = {"C++": "machine::", "Python": "Machine.", "Rust": "Machine::", "JavaScript": "Machine."}
INTERNAL = "brsp_compare_"
# The helpers that are calls in each language. The others are what languages make texts and searches of.
HELPERS = {"brsp_save_state", "brsp_load_state"}


def calls() -> List[str]:
    """The calls in C that other languages have."""
    inline = re.findall(r"^static inline \w+ (brsp_\w+)\(", page("library/c/brsp_compare.h"), re.M)
    proved = (call.name for call in shapes.PROVED.calls)
    return [*proved, *HELPERS, *(it for it in inline if not it.startswith(INTERNAL))]


def usual(call: str) -> Names:
    """The names of a call in the languages, if the table has none."""
    of_machine = {
        it.name
        for it in shapes.INTERFACE.calls
        if it.parameters[:1] and it.parameters[0].type.element == "Machine"
    }
    own = call[len("brsp_") :]
    return {language: f"{begin * (call in of_machine)}{own}" for language, begin in METHODS.items()}


def named(language: str) -> List[str]:
    """The names of all calls in a language that has them."""
    listed = {row["C"]: row for row in data("calls")}
    names = (listed.get(call, usual(call))[language] for call in calls())
    return [name for name in names if name != "-"]
