"""Runs the test vectors of `programs` on your emulator. In the folder of your mine.py, run

    python3 /path/to/conformance/programs.py /path/to/conformance/vectors/programs/*.json

mine.py contains a class Rsp with three methods, and each program gets a new Rsp:

    load(bank, data)   fills a memory, "imem" or "dmem", with these 4096 bytes
    run()              executes from pc 000, with SP_STATUS 0, until BREAK
    memory(bank)       returns the 4096 bytes of a memory

Each byte of DMEM that differs is printed in a line, with its case and its field. The status is 0 if all
programs passed, otherwise 1.
"""

import json
import os
import re
import sys
from pathlib import Path
from typing import Any, Dict, Iterator, List, Tuple

Difference = Tuple[str, str, str]  # what differs, what is expected, and what was found

MEMORY = 4096
MALFORMED = (ValueError, KeyError, TypeError, AttributeError, IndexError, RecursionError)  # of no manifest


def printable(text: str) -> str:
    """A text on one line, with each character that controls a terminal as its escape, such as \\x1b."""
    return "".join(c if c.isprintable() else c.encode("unicode_escape").decode() for c in text)


def fields_of(program: Dict[str, Any]) -> Dict[int, str]:
    """What the bytes of DMEM are after a program, by their address: a case and a field of its results."""
    fields = {}
    for case in program["cases"]:
        mark = f"; choice: {case['choice']}" if "choice" in case else ""
        for field, offset, length in program["layouts"][case["layout"]]:
            for at in range(length):
                address = (int(case["at"], 16) + offset + at) % 4096
                fields[address] = f"{case['name']} ({case['text']}{mark}), {field}, "
    return fields


def checked(program: Any) -> Dict[str, Any]:
    """A program of a manifest. Raises one of MALFORMED if it is none."""
    if not re.fullmatch("[A-Za-z0-9_-]{1,100}", program["name"]):  # it is a part of the names of files
        raise ValueError(f"{program['name']!r:.40} is no name of a program")
    for fields in program["layouts"].values():
        if wrong := [field for field in fields if not (isinstance(field[0], str) and 0 < field[2] <= MEMORY)]:
            raise ValueError(f"{wrong[0]!r:.40} is no field")
    for case in program["cases"]:
        if wrong := [key for key in ("name", "text", "at") if not isinstance(case[key], str)]:
            raise ValueError(f"{wrong[0]} is no text")
    fields_of(program)
    result: Dict[str, Any] = program
    return result


def programs_in(manifest: Path) -> List[Dict[str, Any]]:
    """The programs of a manifest. Ends with a sentence if it is none."""
    try:
        return [checked(program) for program in json.loads(manifest.read_text())["programs"]]
    except (OSError, *MALFORMED) as error:
        why = error if isinstance(error, (OSError, ValueError)) else f"{type(error).__name__}: {error}"
        sys.exit(printable(f"programs.py: can't read the programs of {manifest}: {why}"))


def image_of(path: Path) -> bytes:
    """The bytes of a memory. Ends with a sentence if the file has others."""
    try:
        if len(data := path.read_bytes()) == MEMORY:
            return data
    except OSError as error:
        sys.exit(printable(f"programs.py: can't read {path}: {error.strerror}"))
    sys.exit(printable(f"programs.py: {path} hasn't the {MEMORY} bytes of a memory"))


def differences(rsp: Any, imem: bytes, dmem: bytes, after: bytes) -> Iterator[Difference]:
    """Runs a program, and yields what differs in DMEM after it."""
    rsp.load("imem", imem)
    rsp.load("dmem", dmem)
    rsp.run()
    found = bytes(rsp.memory("dmem"))
    if len(found) != len(after):
        yield "bytes of dmem", str(len(after)), str(len(found))
    for at, (expected, got) in enumerate(zip(after, found)):
        if expected != got:
            yield f"DMEM {at:03x}", f"{expected:02x}", f"{got:02x}"


def check(rsp: Any, program: Dict[str, Any], folder: Path) -> Iterator[str]:
    """Runs a program, and yields a line for each difference, with its case and its field."""
    name, fields = program["name"], {f"DMEM {at:03x}": field for at, field in fields_of(program).items()}
    images = [image_of(folder / f"{name}.{end}") for end in ("imem", "dmem", "after")]
    for what, expected, got in differences(rsp, *images):
        yield f"{fields.get(what, name + ', ')}{what}: expected {expected}, got {got}"


def main() -> int:
    if not sys.argv[1:] or sys.argv[1] in ("-h", "--help"):
        print(__doc__, end="")
        return 0 if sys.argv[1:] else 2
    sys.path.insert(0, os.getcwd())
    try:
        import mine  # your emulator
    except ModuleNotFoundError as error:
        if error.name != "mine":
            raise
        sys.exit("programs.py: this folder has no mine.py, which --help describes")

    passed = failed = 0
    for manifest in map(Path, sys.argv[1:]):
        for program in programs_in(manifest):
            try:
                wrong = [*check(mine.Rsp(), program, manifest.parent)]
            except Exception:
                print(f"programs.py: an exception in {program['name']}:", file=sys.stderr)
                raise
            print("".join(f"{printable(line)}\n" for line in wrong), end="")
            passed, failed = passed + (not wrong), failed + bool(wrong)
    print(f"{passed} passed, {failed} failed")
    return int(failed > 0 or not passed)


if __name__ == "__main__":
    sys.exit(main())
