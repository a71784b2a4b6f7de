"""What an instruction reads of a state, in the words of its rule, to show why two sides differ."""

import re
from typing import Dict, Iterator, List, Tuple

import rsp
from rsp_conformance.table import FORMS, ROWS, Row, address_of, fields_of, selected, uses_memory

Reads = Iterator[Tuple[str, str]]  # what it is, and its value

FLAGS = {"carry": "carry", "differ": "not-equal", "compare": "compare", "clip": "clip", "extra": "extra"}
# The flags that each computing instruction reads.
READ_FLAGS = {"vadd": ("carry",), "vsub": ("carry",), "vlt": ("carry", "differ"), "vge": ("carry", "differ"),
              "veq": ("differ",), "vne": ("differ",), "vcl": tuple(FLAGS), "vmrg": ("compare",)}  # fmt: skip
ADDING = ("vmac", "vmad", "vrnd", "vsar")  # the beginnings of those that read an accumulator
ACCUMULATORS = ("high", "middle", "low")
READ = 16  # the bytes that are shown at an address


def accumulator(state: rsp.State, lane: int) -> str:
    return "".join(f"{getattr(state.accumulators, part)[lane]:04x}" for part in ACCUMULATORS)


def lane_reads(row: Row, state: rsp.State, fields: Dict[str, int], lane: int) -> Reads:
    """What a lane of a computing instruction reads."""
    yield "a", f"{state.vectors[fields['vs']][lane]:04x}"
    yield "b", f"{state.vectors[fields['vt']][selected(fields['e'], lane)]:04x}"
    for flag in READ_FLAGS.get(row.name, ()):
        yield FLAGS[flag], str(getattr(state.flags, flag) >> lane & 1)
    if row.name.startswith(ADDING):
        yield "accumulator", accumulator(state, lane)


def computing(row: Row, state: rsp.State, fields: Dict[str, int]) -> Reads:
    """What all lanes read, lane 0 first."""
    lanes = [dict(lane_reads(row, state, fields, lane)) for lane in range(8)]
    for name in lanes[0]:
        yield name, " ".join(lane[name] for lane in lanes)


def dividing(state: rsp.State, fields: Dict[str, int]) -> Reads:
    divider, lane = state.divider, fields["e"] % 8
    yield f"source, lane {lane} of $v{fields['vt']}", f"{state.vectors[fields['vt']][lane]:04x}"
    yield "DIV_IN", f"{divider.input:04x}" + (", loaded" if divider.loaded else ", not loaded")
    yield "DIV_OUT", f"{divider.output:04x}"


def scalars(state: rsp.State, fields: Dict[str, int]) -> Reads:
    for name in ("s", "t", "base"):
        if name in fields:
            yield f"${fields[name]}", f"{state.words[fields[name]]:08x}"


def vectors(state: rsp.State, numbers: List[int]) -> Reads:
    for number in numbers:
        yield f"$v{number}", " ".join(f"{lane:04x}" for lane in state.vectors[number])


def addressed(row: Row, state: rsp.State, fields: Dict[str, int]) -> int:
    return address_of(row, fields, lambda name: state.words[fields[name]])


def memory(row: Row, state: rsp.State, fields: Dict[str, int], memories: bytes) -> Reads:
    at = addressed(row, state, fields)
    yield "address", f"{at:03x}"
    yield "DMEM there", bytes(memories[(at + i) % 4096] for i in range(READ)).hex(" ", 2)


def reads_of(name: str, word: int, state: rsp.State, memories: bytes) -> Reads:
    """All that a case's instruction reads."""
    row, fields = ROWS[name], fields_of(ROWS[name], word)
    yield from scalars(state, fields)
    if row.form == "vector":
        yield from computing(row, state, fields)
    if row.form == "lane":
        yield from dividing(state, fields)
    if row.form in ("from control", "to control"):
        yield from ((text, f"{getattr(state.flags, flag):08b}"[::-1]) for flag, text in FLAGS.items())
    if row.form in ("from sp", "to sp"):
        yield from ((f"SP register {n}", f"{value:08x}") for n, value in enumerate(state.sp) if n < 8)
    if uses_memory(row):
        yield from memory(row, state, fields, memories)
    if number := fields.get("vd" if "vd" in FORMS[row.form] else "vt") if "vector" in row.form else None:
        group = range(number & ~7, (number & ~7) + 8) if row.name in ("ltv", "stv") else [number]
        yield from vectors(state, [*group])
    if "branch" in row.form or "jump" in row.form or row.form == "link register":
        yield "npc", f"{state.npc:03x}"


FLAG = re.compile(r"vc[oce]: expected (\w+), got (\w+)")


def lane_in(line: str) -> int:
    """The lane of a difference, which is the lowest wrong lane of flags; -1 if the difference has no lane."""
    if found := FLAG.match(line):
        wrong = int(found[1], 16) ^ int(found[2], 16)
        return next(lane for lane in range(8) if (wrong | wrong >> 8) >> lane & 1)
    words = line.split(":")[0].split()
    named = [words[at + 1] for at, word in enumerate(words[:-1]) if word in ("lane", "accumulator")]
    return int(named[0]) if named else -1


def in_brief(name: str, word: int, state: rsp.State, line: str) -> str:
    """What the lane of a difference reads, or what its instruction reads of scalar registers."""
    row, fields = ROWS[name], fields_of(ROWS[name], word)
    lane = lane_in(line)
    if row.form == "vector":
        found = [("lane", str(lane))] if FLAG.match(line) else []
        found += lane_reads(row, state, fields, max(lane, 0))
    elif row.form == "lane":
        found = [*dividing(state, fields)]
    else:
        found = [*scalars(state, fields)]
        if uses_memory(row):
            found.append(("address", f"{addressed(row, state, fields):03x}"))
    return "".join(f"{', ' if at else '; '}{what} {value}" for at, (what, value) in enumerate(found))
