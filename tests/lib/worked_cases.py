"""The states of worked cases, as docs/data/instructions.tsv has them.

A state is a list of items, with `; ` between them: `$1 0000001f`, `$v2 ffff` (four digits are all lanes),
`$v3[7] 007f` (a lane), `a`, `b` and `result` for $v1, $v2 and $v3, `acc` and `flags` (of all lanes), `DMEM`
with an address, `pc`, `npc`, `VCC`, `SP_STATUS`, `DIV_IN`, `DIV_OUT`, `mark`; or `nothing`.
"""

import re
from typing import Any, Dict, Iterator, Tuple, Union

from lib.lanes import flag_registers
from rsp_conformance import bench

KEYS = {
    "a": "v1",
    "b": "v2",
    "result": "v3",
    "VCC": "vcc",
    "SP_STATUS": "c4",
    "DIV_IN": "in",
    "DIV_OUT": "out",
}
Key = Union[int, str]


def parts(text: str) -> Iterator[Tuple[Key, str]]:
    """A cell's state as pairs: a key of a state of `bench`, or an address of DMEM, with its value."""
    for key, *values in (item.split() for item in filter(None, text.split("; "))):
        if key == "flags":
            yield from flag_registers(flag for flag in values if flag != "none").items()
        elif key == "acc":
            yield from ((f"a{lane}", values[0]) for lane in range(8))
        elif key == "DMEM":
            digits = re.findall("..", values[1])
            yield from ((int(values[0], 16) + i, byte) for i, byte in enumerate(digits))
        elif key == "mark":
            yield "loaded", "01"[values[0] == "set"]
        elif key != "nothing":
            key = KEYS.get(key) or (key[1:] if key.startswith("$v") else key.replace("$", "r"))
            yield key, values[0] * (8 if len(values[0]) == 4 and re.fullmatch(r"v\d+", key) else 1)


def part(look: Dict[str, Any], key: Key) -> str:
    """A byte of DMEM by its address, a lane as `v3[7]`, or another item of a look by its name."""
    if isinstance(key, int):
        return "".join(look["dmem"])[2 * key : 2 * key + 2]
    name, _, lane = key.partition("[")
    return str(look[name][4 * int(lane[0]) :][:4] if lane else look[name])


def state_of(before: str) -> Dict[str, Any]:
    """The state that a worked case begins with."""
    items = dict(parts(before))
    named = {key: value for key, value in items.items() if isinstance(key, str)}
    state = {**bench.DEFAULT, **{f"a{lane}": "0" * 12 for lane in range(8)}, **named}
    if "in" in items:
        state["divided"] = items["in"] + "0000"
    dmem = {f"{key:03x}": value for key, value in items.items() if isinstance(key, int)}
    return {**state, "dmem": dmem} if dmem else state
