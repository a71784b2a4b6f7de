"""`full`: the cases of `steps` with whole states of numbers, a JSON array for each instruction, in the form
of single-step tests of other processors. The files aren't stored, because they are five times as long.
"""

import json
from typing import Any, Dict, List, Tuple

from rsp_conformance import bench
from rsp_conformance.states import bytes_of, numbers_of
from rsp_conformance.steps import Entry

IMEM = 4096  # the address of the bytes of IMEM in `ram`; those of DMEM are before them
Memories = Dict[str, List[List[int]]]


def memories(entry: Entry) -> Tuple[Memories, Memories]:
    """The bytes of `ram` and of RDRAM before and after a case.

    Both list the same addresses, and all other bytes are 0.
    """
    before, after = entry["before"], entry["after"]
    code = {before.get("pc", "000"): entry["word"]}
    old: Memories = {"ram": [], "rdram": []}
    new: Memories = {"ram": [], "rdram": []}
    for name, bank, start in (("dmem", "ram", 0), ("imem", "ram", IMEM), ("rdram", "rdram", 0)):
        first = bytes_of({**before.get(name, {}), **(code if name == "imem" else {})})
        last = {**first, **bytes_of(after.get(name, {}))}
        for at in sorted(last):
            old[bank].append([start + at, first.get(at, 0)])
            new[bank].append([start + at, last[at]])
    return old, new


def case_of(entry: Entry) -> Dict[str, Any]:
    """A case of `steps` in the form of `full`."""
    before = {**bench.DEFAULT, **entry["before"]}
    old, new = memories(entry)
    case = {"name": entry["name"], "word": int(entry["word"], 16), "text": entry["text"]}
    if "choice" in entry:
        case["choice"] = entry["choice"]
    initial, final = numbers_of(before), numbers_of({**before, **entry["after"]})
    return {**case, "initial": {**initial, **old}, "final": {**final, **new}}


def full_text(entries: List[Entry]) -> str:
    """The file of an instruction, a case a line."""
    lines = [json.dumps(case_of(entry), separators=(",", ":")) for entry in entries]
    return "[\n" + ",\n".join(lines) + "\n]\n"
