"""`steps`: cases of one instruction each, as lines of JSON, a file for each instruction."""

import json
from typing import Any, Dict, List

from rsp_conformance import bench
from rsp_conformance.bench import Observation
from rsp_conformance.cases import Case
from rsp_conformance.states import Texts
from rsp_conformance.table import ROWS, Row, fields_of

Entry = Dict[str, Any]  # a line of a file of `steps`


def checked_before(case: Case, found: Texts) -> Texts:
    """The state before a case, after a check that the machine is in this state."""
    before = dict(case.before)
    if "divided" in before:
        before["out"] = found["out"]
    for key in bench.DEFAULT:
        if found[key] != (expected := before.get(key, bench.DEFAULT[key])):
            raise bench.RspError(f"{case.name}: {key} was to be {expected}, and is {found[key]}")
    return {key: value for key, value in before.items() if value != bench.DEFAULT.get(key)}


def entry_of(case: Case, found: Observation) -> Entry:
    """A case in the form of `steps`."""
    before = checked_before(case, found["before"])
    after = bench.differences(found["before"], found["after"])
    _, word, text = found["text"].split(" ", 2)
    if word != f"{case.word:08x}":
        raise bench.RspError(f"{case.name}: the word is {case.word:08x}, and it is listed as {word}")
    entry = {"name": case.name, "word": word, "text": text}
    if case.choice:
        entry["choice"] = case.choice
    return {**entry, "before": before, "after": after}


def case_of(entry: Entry) -> Case:
    """A case of a file, without the state after it."""
    row, word = row_of(entry), int(entry["word"], 16)
    return Case(entry["name"], row, fields_of(row, word), entry["before"], word)


def text_of(program: str, cases: List[Case]) -> str:
    """The file of an instruction with these cases. An RspError if the machine doesn't know it."""
    found = bench.observe(program, [(it.row, it.word, {**bench.DEFAULT, **it.before}) for it in cases])
    lines = []
    for case, observation in zip(cases, found):
        if not observation["step"].startswith("step Done"):
            raise bench.RspError(f"{case.name}: {observation['step']}")
        lines.append(json.dumps(entry_of(case, observation), separators=(",", ":")) + "\n")
    return "".join(lines)


def read_row(text: str) -> List[Entry]:
    return [json.loads(line) for line in text.splitlines()]


def row_of(entry: Entry) -> Row:
    return ROWS[entry["name"].split("-")[0].lower()]


def observed_of(entry: Entry) -> bench.Observed:
    """A case in the form that `observe` takes. A memory that only `after` names is queried too."""
    named: Texts = {bank: {} for bank in bench.BANKS if bank in entry["after"]}
    return row_of(entry), int(entry["word"], 16), {**bench.DEFAULT, **named, **entry["before"]}
