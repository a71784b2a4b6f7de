"""A folder of test vectors: its instructions, their cases and their programs, each checked as it is read."""

import json
import re
from pathlib import Path
from typing import Any, Dict, List, Sequence

from rsp_conformance import HERE, bench
from rsp_conformance.safe_files import MOST_JSON, read_file
from rsp_conformance.steps import Entry
from rsp_conformance.table import ROWS

VECTORS = HERE / "vectors"  # the small set
MEMORY = 4096
# The addresses that are compared after a case. In RDRAM they are those of the window.
MEMORIES = {
    "dmem": range(MEMORY),
    "imem": range(MEMORY),
    "rdram": range(bench.WINDOW, bench.WINDOW + bench.WINDOW_LENGTH),
}
LONGEST_LINE = 1 << 17  # in bytes; a case with all bytes of memories has a third of them


class VectorsFault(Exception):
    """Why a folder's vectors can't be run, as a sentence."""


class Malformed(ValueError):
    """Why a case or a program can't be run, as a sentence."""


# What the checks below raise for JSON that has other parts than it should.
MALFORMED = (ValueError, KeyError, TypeError, AttributeError, RecursionError)


def names_in(folder: Path, wanted: Sequence[str] = ()) -> List[str]:
    """The instructions to run: the wanted ones, or all that the folder has."""
    found = sorted(path.stem for path in (folder / "steps").glob("*.jsonl"))
    if not folder.is_dir():
        raise VectorsFault(f"there is no folder {folder}")
    if not found:
        how = "no file steps/NAME.jsonl, as conformance/generate makes them"
        raise VectorsFault(f"{folder} has no test vectors: {how}")
    for name in wanted:
        if name.lower() not in ROWS:
            raise VectorsFault(f"the instruction table has no {name}")
        if name.upper() not in found:
            raise VectorsFault(f"{folder} has no test vectors of {name.upper()}")
    if unknown := [name for name in found if name.lower() not in ROWS]:
        raise VectorsFault(f"the instruction table has no {unknown[0]}, and {folder} has a file of that name")
    return [name.upper() for name in wanted] or found


def memory_in(path: Path) -> bytes:
    """The bytes of a memory."""
    if len(data := read_file(path)) != MEMORY:
        raise VectorsFault(f"{path} hasn't the 4096 bytes of a memory")
    return data


def require(is_right: object, why: str) -> None:
    """Raises Malformed if something isn't right."""
    if not is_right:
        raise Malformed(why)


def check_form(what: str, value: Any, form: Any) -> None:
    """Raises one of MALFORMED unless a value has a form: a regular expression of a text, the forms of the
    values of keys, or the form of each item of a list. An unknown key is refused, because nothing would
    compare its value.
    """
    if isinstance(form, str):
        is_right = isinstance(value, str) and re.fullmatch(form, value)
        require(is_right, f"{what} is {value!r:.40}, and hasn't the form {form}")
    elif isinstance(form, dict):
        for key, part in value.items():
            require(key in form, f"{what} has the unknown key {key!r:.40}")
            check_form(f"{key} of {what}", part, form[key])
    else:
        require(isinstance(value, list), f"{what} is {value!r:.40}, and not a list")
        for part in value:
            check_form(what, part, form[0])


TEXT = "(?s:.{0,100})"  # which each difference may repeat
WORD, ADDRESS = "[0-9a-f]{8}", "[0-9a-f]{3}"
STATE = {
    **{key: f"[0-9a-f]{{{len(text)}}}" for key, text in bench.DEFAULT.items()},
    **dict.fromkeys(("pc", "npc"), "[0-9a-f]{2}[048c]"),
}
CASE = {"name": "[^\ud800-\udfff]{0,100}", "word": WORD, "text": TEXT, "choice": TEXT}
PROGRAM_CASE = {**CASE, "pc": ADDRESS, "at": ADDRESS, "layout": TEXT}


def check_bytes(bank: str, pieces: Any, when: str) -> None:
    """Refuses bytes that no runner compares, except those before a case that a DMA past 2^24 reads."""
    compared = MEMORIES[bank]
    for address, text in pieces.items():
        check_form(f"{bank} {address!r:.40}", text, "([0-9a-f]{2})*")
        check_form(f"an address of {bank}", address, "[0-9a-f]{1,6}")
        first = int(address, 16)
        end = first + len(text) // 2
        is_low = (bank, when) == ("rdram", "before") and end <= bench.LOW_LENGTH
        is_right = is_low or compared.start <= first and end <= compared.stop
        require(is_right, f"{bank} {address!r} isn't in {compared.start:03x} to {compared.stop - 1:03x}")


def check_entry(name: str, entry: Any) -> None:
    """Raises one of MALFORMED if this isn't a case of an instruction."""
    states = {"before": {**STATE, "divided": WORD}, "after": STATE}
    check_form("the case", {key: entry[key] for key in entry.keys() - states}, CASE)
    require(entry["name"].startswith(f"{name}-"), f"its name, {entry['name']!r:.40}, isn't one of {name}")
    row, word = ROWS[name.lower()], int(entry["word"], 16)
    require(word & row.mask == row.value, f"the word {word:08x} is no {name}")
    require("text" in entry, "it has no text")
    for when, form in states.items():
        registers = {key: text for key, text in entry[when].items() if key not in MEMORIES}
        check_form(when, registers, form)
        for bank in entry[when].keys() & MEMORIES:
            check_bytes(bank, entry[when][bank], when)


def reason_of(fault: Exception, data: bytes) -> str:
    """Why data is malformed: a sentence, or the beginning of the data."""
    return str(fault) if isinstance(fault, Malformed) else repr(data[:40].decode(errors="replace"))


def entries_in(folder: Path, name: str) -> List[Entry]:
    """The cases of an instruction."""
    entries, path = [], folder / "steps" / f"{name}.jsonl"
    for number, line in enumerate(read_file(path).splitlines(), 1):
        try:
            require(len(line) <= LONGEST_LINE, f"it has more than {LONGEST_LINE} bytes")
            entry = json.loads(line)
            check_entry(name, entry)
        except MALFORMED as fault:
            why = reason_of(fault, line)
            raise VectorsFault(f"{path}, line {number}: this isn't a case: {why}") from None
        entries.append(entry)
    if not entries:
        raise VectorsFault(f"{path} has no case")
    return entries


def check_program(entry: Any) -> None:
    """Raises one of MALFORMED if this isn't a program of a manifest."""
    require(not entry.keys() - {"name", "steps", "layouts", "cases"}, f"it has the keys {[*entry]!r:.80}")
    check_form("its name", entry["name"], "[A-Za-z0-9_-]{1,100}")
    for layout, fields in entry["layouts"].items():
        for field, offset, length in fields:
            check_form(f"a field of layout {layout}", field, TEXT)
            is_right = type(offset) is type(length) is int and 0 < length <= MEMORY
            require(is_right, f"layout {layout} has the length {length!r:.40}, and not 1 to {MEMORY}")
    lengths = {name: sum(field[2] for field in fields) for name, fields in entry["layouts"].items()}
    check_form("a case", entry["cases"], [PROGRAM_CASE])
    for case in entry["cases"]:
        is_right = {"name", "text", "at"} <= {*case} and case["layout"] in lengths
        require(is_right, f"it has the case {case!r:.80}")
    count = sum(lengths[case["layout"]] for case in entry["cases"])
    require(count <= MEMORY, f"the fields of its cases have {count} bytes, and DMEM has {MEMORY}")


def manifest_in(folder: Path, name: str) -> Dict[str, Any]:
    """The manifest of an instruction's programs."""
    path = folder / "programs" / f"{name}.json"
    what, names, data = ": this isn't a manifest of programs", [], read_file(path, MOST_JSON)
    try:
        manifest: Dict[str, Any] = json.loads(data)
        require(not manifest.keys() - {"row", "programs"}, f"it has the keys {[*manifest]!r:.80}")
        for number, entry in enumerate(manifest["programs"], 1):
            what = f", program {number}: this isn't a program"
            check_program(entry)
            require(entry["name"] not in names, f"{entry['name']} is there twice")
            names.append(entry["name"])
    except MALFORMED as fault:
        raise VectorsFault(f"{path}{what}: {reason_of(fault, data)}") from None
    return manifest
