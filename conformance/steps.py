"""Runs the test vectors of `steps` on your emulator. In the folder of your mine.py, run

    python3 /path/to/conformance/steps.py [--strict] /path/to/conformance/vectors/steps/*.jsonl

mine.py contains a class Rsp with five methods, and each case gets a new Rsp:

    set(key, text)     sets a register, such as "r4" to "0000000c", or "npc" to "004"
    get(key)           returns a register as such a text
    load(bank, data)   fills a memory with these bytes: 4096 of "dmem" or "imem", 131072 of "rdram"
    memory(bank)       returns as many bytes of a memory
    step()             executes the instruction at pc, with the whole DMA that it starts

README.md lists the registers with their digits. mine.py may also have

    LACKS = {"interrupt", "rdram"}   registers and memories that are neither set nor compared
    divide(text), a method of Rsp    sets DIV_OUT by two instructions: README.md says which

If step() raises NotImplementedError, the case is skipped, and its instruction named at the end. Before the
first step, get() and memory() have to return what set() and load() got. The first eight registers and bytes
that differ in a case are printed, a line each, with the rule that we chose if the case depends on one. The
status is 0 if no case failed and one passed, otherwise 1; with --strict also if a case was skipped.
"""

import fileinput
import json
import os
import re
import sys
from collections import Counter
from contextlib import suppress
from typing import Any, Dict, Iterator, List, Tuple

Case = Dict[str, Any]
Registers = Dict[str, str]
Memories = Dict[str, bytearray]
Counts = Dict[str, int]  # of cases, by their instructions
Difference = Tuple[str, str, str]  # what differs, what is expected, and what was found

LINES = 8  # the most that are printed of a case
SIZES = {"dmem": 4096, "imem": 4096, "rdram": 131072}
# The registers before a case, unless the case says otherwise.
DEFAULT = {"pc": "000", "npc": "004", "vco": "0000", "vcc": "0000", "vce": "00", "interrupt": "0"}
DEFAULT.update({"in": "0000", "out": "0000", "loaded": "0"})
DEFAULT.update({f"r{n}": f"{n * 0x01010101:08x}" for n in range(32)})
DEFAULT.update({f"v{n}": "".join(f"{n * 0x100 + i * 0x11:04x}" for i in range(8)) for n in range(32)})
DEFAULT.update({f"a{i}": f"{(i + 1) * 0x000100010001:012x}" for i in range(8)})
DEFAULT.update({f"c{n}": "00000ff8" if n in (2, 3) else "00000000" for n in range(16)})


MALFORMED = (ValueError, KeyError, TypeError, AttributeError, RecursionError)  # of a line that is no case


def printable(text: str) -> str:
    """A text on one line, with each character that controls a terminal as its escape, such as \\x1b."""
    return "".join(c if c.isprintable() else c.encode("unicode_escape").decode() for c in text)


def check_value(key: str, value: Any) -> None:
    """Raises one of MALFORMED if this isn't the value of a register, or the bytes of a memory."""
    pieces = value.items() if key in SIZES else ()
    for address, text in pieces:
        if not re.fullmatch("[0-9a-f]{1,6}", address) or int(address, 16) + len(text) // 2 > SIZES[key]:
            raise ValueError(f"{key} has no address {address!r:.40} of its bytes")
        bytes.fromhex(text)
    digits = 8 if key == "divided" else len(DEFAULT.get(key, ""))
    if key not in SIZES and not (digits and re.fullmatch(f"[0-9a-f]{{{digits}}}", value)):
        raise ValueError(f"{key!r:.40} is no register, or {value!r:.40} no value of it")


def case_in(line: str) -> Case:
    """The case in a line. Raises one of MALFORMED if it has none."""
    case: Case = json.loads(line)
    names = ("name", "word", "text", *(["choice"] if "choice" in case else []))
    if wrong := [key for key in names if not isinstance(case[key], str)]:
        raise ValueError(f"{wrong[0]} is no text")
    check_value("imem", {case["before"].get("pc", "000"): case["word"]})
    for key, value in [*case["before"].items(), *case["after"].items()]:
        check_value(key, value)
    return case


def put(memories: Memories, pieces: Dict[str, Any]) -> None:
    """Writes the runs of bytes of `before` or `after` into the memories."""
    for bank, memory in memories.items():
        for address, text in pieces.get(bank, {}).items():
            at = int(address, 16)
            memory[at : at + len(text) // 2] = bytes.fromhex(text)


def begin(rsp: Any, case: Case, lacks: Any) -> Tuple[Registers, Memories]:
    """Brings the emulator into the state before a case, and returns this state."""
    state = {**DEFAULT, **case["before"]}
    registers = {key: state[key] for key in DEFAULT if key not in lacks}
    memories = {bank: bytearray(size) for bank, size in SIZES.items() if bank not in lacks}
    put(memories, case["before"])
    put(memories, {"imem": {state["pc"]: case["word"]}})

    if "divided" in state and hasattr(rsp, "divide"):
        rsp.divide(state["divided"])  # first, because it changes other registers, which are set below
    for key, text in registers.items():
        rsp.set(key, text)
    for bank, memory in memories.items():
        rsp.load(bank, bytes(memory))
    return registers, memories


def compare(rsp: Any, registers: Registers, memories: Memories) -> Iterator[Difference]:
    """What differs between the emulator's state and the expected one."""
    for key, text in registers.items():
        if (got := rsp.get(key)) != text:
            yield key, text, got
    for bank, memory in memories.items():
        found = bytes(rsp.memory(bank))
        if len(found) != len(memory):
            yield f"bytes of {bank}", str(len(memory)), str(len(found))
        elif found != memory:
            digits = 6 if bank == "rdram" else 3
            for at, (expected, byte) in enumerate(zip(memory, found)):
                if expected != byte:
                    yield f"{bank} {at:0{digits}x}", f"{expected:02x}", f"{byte:02x}"


def differences(rsp: Any, case: Case, lacks: Any) -> Iterator[Difference]:
    """Runs a case, and yields what differs after it."""
    registers, memories = begin(rsp, case, lacks)
    rsp.step()
    registers.update((key, text) for key, text in case["after"].items() if key in registers)
    put(memories, case["after"])
    yield from compare(rsp, registers, memories)


def check_kept(rsp: Any, case: Case, lacks: Any) -> None:
    """Ends with a sentence if the emulator doesn't return what it got before a case."""
    for what, expected, got in compare(rsp, *begin(rsp, case, lacks)):
        difference = f"{what}: expected {expected}, got {got}"
        why = "mine.py doesn't keep what set() and load() gave it, before any step"
        sys.exit(printable(f"steps.py: {why}: {difference}"))


def print_differences(case: Case, wrong: List[Difference]) -> None:
    """Prints the first differences of a case, and the number of the others."""
    mark = f"; choice: {case['choice']}" if "choice" in case else ""
    head = f"{case['name']} ({case['text']}{mark})"
    for what, expected, got in wrong[:LINES]:
        print(printable(f"{head}, {what}: expected {expected}, got {got}"))
    if len(wrong) > LINES:
        print(printable(f"{head}: {len(wrong) - LINES} more differences"))


def run(mine: Any, lacks: Any, cases: List[Case]) -> Tuple[Dict[str, int], Counts, Counts]:
    """Prints what differs in each case. The cases are counted by what became of them, and those that failed
    were skipped also by their instructions."""
    counts = dict.fromkeys(("passed", "failed", "choices"), 0)
    failed, skipped = Counter(), Counter()  # type: Counts, Counts
    for case in cases:
        name = case["name"].rsplit("-", 1)[0]
        try:
            if case is cases[0]:
                check_kept(mine.Rsp(), case, lacks)
            wrong = [*differences(mine.Rsp(), case, lacks)]
        except NotImplementedError:
            skipped[name] += 1
            continue
        except Exception:
            head = f"steps.py: an exception in {case['name']} ({case['text']}):"
            print(printable(head), file=sys.stderr)
            raise
        print_differences(case, wrong)
        if wrong and not counts["failed"]:
            with suppress(ValueError, TypeError, StopIteration):  # what was got isn't such a text
                say_why(case["name"], *wrong[0])
        counts["failed" if wrong else "passed"] += 1
        counts["choices"] += bool(wrong and "choice" in case)
        failed.update([name] * bool(wrong))
    return counts, failed, skipped


def say_why(name: str, what: str, expected: str, got: str) -> None:
    """Names the command that explains the first lane, bit or number that differs, to standard error."""
    if what in ("vco", "vcc", "vce"):
        bits = int(expected, 16) ^ int(got, 16)
        what += f".{max((bits & -bits).bit_length() - 1, 0)}"
    elif what[0] == "v":
        what += f".{next(at for at in range(8) if expected[4 * at :][:4] != got[4 * at :][:4])}"
    command = f"tools/define why {name} {what.replace(' ', '.')}"
    print(printable(f"steps.py: in a clone, {command} explains what is expected"), file=sys.stderr)


def main() -> int:
    paths = [word for word in sys.argv[1:] if word != "--strict"]
    if not paths or paths[0] in ("-h", "--help"):
        print(__doc__, end="")
        return 0 if paths else 2
    sys.path.insert(0, os.getcwd())
    try:
        import mine  # your emulator
    except ModuleNotFoundError as error:
        if error.name != "mine":
            raise
        sys.exit("steps.py: this folder has no mine.py, which --help describes")

    try:
        with fileinput.input(paths) as lines:
            cases = [case_in(line) for line in lines]
    except (OSError, *MALFORMED) as error:
        why = error if isinstance(error, (OSError, ValueError)) else f"{type(error).__name__}: {error}"
        sys.exit(printable(f"steps.py: can't read the cases of {lines.filename() or paths[0]}: {why}"))

    lacks = getattr(mine, "LACKS", ())
    if unknown := sorted({*lacks} - {*DEFAULT, *SIZES}):
        sys.exit(f"steps.py: LACKS names {unknown[0]!r}, which is no register and no memory")
    counts, failed, skipped = run(mine, lacks, cases)
    choices = f" ({counts['choices']} with a choice)" if counts["choices"] else ""
    end = f", {sum(skipped.values())} skipped" if skipped else ""
    print(f"{counts['passed']} passed, {counts['failed']} failed{choices}{end}")
    for what, numbers in {"failed": failed, "skipped": skipped}.items():
        if numbers:
            print(printable(f"{what}: {', '.join(f'{count} of {name}' for name, count in numbers.items())}"))
    if lacks:
        print("not compared: " + ", ".join(sorted(lacks)))
    is_strict = len(paths) < len(sys.argv) - 1
    return int(counts["failed"] > 0 or not counts["passed"] or bool(is_strict and skipped))


if __name__ == "__main__":
    sys.exit(main())
