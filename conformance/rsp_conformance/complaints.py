"""What steps.py and programs.py find different after a case or a program, in the words of conformance/run."""

from typing import Any, Dict, Iterator, Sequence, Tuple

import programs
import steps

from rsp_conformance.command_line import Complaints, first_complaints

Entry = Dict[str, Any]  # a case, or a program of a manifest
ResultByte = Tuple[Entry, str, int, int]  # a case, a field of its results, a byte of it, and how many it has
FLAG_NAMES = {"vco": ("carry", "not-equal"), "vcc": ("compare", "clip"), "vce": ("extra",)}


def of_case(entry: Entry, rsp: Any) -> Complaints:
    """How a machine's state after a case differs from the expected one: a text for each difference.

    The machine is one for steps.py. If it doesn't execute the instruction, it says why.
    """
    head = f"{entry['name']} ({entry['text']})"
    try:
        found = [text for difference in steps.differences(rsp, entry, ()) for text in in_words(*difference)]
    except NotImplementedError as fault:
        return [f"{head}: {fault}"]
    return first_complaints(head, [f"{head}, {text}" for text in found])


def wrong_flags(names: Sequence[str], expected: str, got: str) -> Iterator[str]:
    """The flags in which two values differ. Each name is that of eight flags, from the lowest bit on."""
    wrong = int(expected, 16) ^ int(got, 16)
    for bit in range(8 * len(names)):
        if wrong >> bit & 1:
            yield f"lane {bit % 8}: {names[bit // 8]}: expected {int(expected, 16) >> bit & 1}"


def in_words(key: str, expected: str, got: str) -> Iterator[str]:
    """The lanes, flags, whole numbers or bytes in which two values differ."""
    if key in FLAG_NAMES and len(expected) == len(got):
        yield from wrong_flags(FLAG_NAMES[key], expected, got)
    elif key[0] == "v" and len(expected) == len(got):
        lanes = ((lane, expected[4 * lane :][:4], got[4 * lane :][:4]) for lane in range(8))
        yield from (f"${key} lane {lane}: expected {a}, got {b}" for lane, a, b in lanes if a != b)
    else:
        names = {"a": "accumulator of lane ", "r": "$"}
        what = names[key[0]] + key[1:] if key[0] in names and key[1:].isdigit() else key
        yield f"{what}: expected {expected}, got {got}"


def results_of(entry: Entry) -> Dict[str, ResultByte]:
    """The bytes of DMEM that a program stores its results to, by their names in differences."""
    return {
        f"DMEM {(int(case['at'], 16) + offset + byte) % 4096:03x}": (case, field, byte, length)
        for case in entry["cases"]
        for field, offset, length in entry["layouts"][case["layout"]]
        for byte in range(length)
    }


def of_program(entry: Entry, rsp: Any, *images: bytes) -> Complaints:
    """How DMEM after a program differs from the expected DMEM: a text for each difference.

    The images are IMEM and DMEM before the program, and DMEM after it.
    """
    results, found, name = results_of(entry), [], entry["name"]
    for what, expected, got in programs.differences(rsp, *images):
        if what in results:
            found += [*in_result(results[what], what, expected, got)]
        elif what.startswith("DMEM"):
            found.append(f"{name}: {what}, which no case stores to: expected {expected}, got {got}")
        else:
            found.append(f"{name}: {got} bytes, and {expected} are expected")
    return first_complaints(name, [*dict.fromkeys(found)])


def in_result(result: ResultByte, what: str, expected: str, got: str) -> Iterator[str]:
    """The lanes, flags or address of a wrong byte of a result."""
    case, field, byte, length = result
    start, pair = f"{case['name']} ({case['text']})", f"expected {expected}, got {got}"
    if field in FLAG_NAMES:
        names, is_high = (*FLAG_NAMES[field], "above the flags"), byte == 0  # bits 15 to 8 come first
        yield from (f"{start}, {flag}" for flag in wrong_flags([names[is_high]], expected, got))
    elif length == 16:
        yield f"{start}, {field}, lane {byte // 2}: {('high', 'low')[byte % 2]} byte: {pair}"
    else:
        yield f"{start}, {field}, {what}: {pair}"
