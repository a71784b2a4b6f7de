"""Runs a case that refutes a proof: on the library by its calls, and by the definitions."""

import os
import subprocess
from typing import Any, Dict, List, Mapping

from definitions.states import SIZES, Machine
from definitions.unknown.effect import definitions
from definitions.working import computed

from .agreement import TOP
from .errors import Wrong
from .proving import Case, Refutation
from .states import FIELDS, FLAGS, PLANES, SIZE, START, shape


SECONDS = 60


def numbers_of(case: Case, values: Mapping[str, int]) -> Dict[str, int]:
    """The fields of a state before the step with these values of symbols. All others are 0."""
    found = {name: START[name] if name in START else values.get(name, 0) << shape(name)[0] for name in FIELDS}
    if case.registers:
        for name, number in registers_of(case, values).items():
            lanes = {f"v{number}_{n}": f"{name}_{n}" for n in range(8)}
            found.update((field, values[symbol]) for field, symbol in lanes.items() if symbol in values)
    return found


def registers_of(case: Case, values: Mapping[str, int]) -> Dict[str, int]:
    """The registers of a case: those that the values say, otherwise 1, 2 and 3."""
    found = {name: values.get(name, default) for name, default in (("vd", 3), ("vs", 1), ("vt", 2))}
    if case.registers and case.registers.odd is not None:
        found["vs"] = values.get("vs", 2) * 2 + case.registers.odd
    return found


def word_of(case: Case, values: Mapping[str, int]) -> int:
    """The word of a case, with numbers for its registers."""
    if not case.registers:
        return int(case.word)
    registers = registers_of(case, values)
    return case.registers.template | registers["vt"] << 16 | registers["vs"] << 11 | registers["vd"] << 6


def by_library(path: str, word: int, numbers: Mapping[str, int], back: bool) -> Dict[str, int]:
    """The fields after the step, perhaps undone, as the library gives them."""
    state = b"".join(numbers[name].to_bytes(size, "little") for name, (_, size) in FIELDS.items())
    words = [os.path.join(TOP, "tools/python"), "checking.calling"]
    given = f"{os.path.abspath(path)}\n{word:08x}\n{state.hex()}\n{int(back)}\n"
    try:
        ended = subprocess.run(
            words, input=given, capture_output=True, text=True, timeout=SECONDS, check=False
        )
    except subprocess.TimeoutExpired:
        raise Wrong(f"the library's step doesn't end within {SECONDS} s") from None
    if ended.returncode != 0:
        raise Wrong(f"the library's step ends with status {ended.returncode}")
    status, found = ended.stdout.split()
    if status != "0" or len(found) != 2 * SIZE:
        raise Wrong(f"the library's step returns {status}")
    data = bytes.fromhex(found)
    return {name: int.from_bytes(data[at : at + size], "little") for name, (at, size) in FIELDS.items()}


def by_definitions(word: int, numbers: Mapping[str, int]) -> Dict[str, int]:
    """The same, as the definitions give them."""
    machine: Machine = definitions().machine
    memories: Dict[str, Any] = {bank: bytearray(size) for bank, size in SIZES.items()}
    memories["imem"][numbers["pc"] : numbers["pc"] + 4] = word.to_bytes(4, "big")
    after = computed(
        lambda: machine.numbers_of(machine.step_of(machine.state_of(state_of(numbers), memories))[1])
    )
    found = {f"x{n}": value for n, value in enumerate(after["r"])}
    found.update((f"v{n}_{lane}", x) for n, value in enumerate(after["v"]) for lane, x in enumerate(value))
    for lane, value in enumerate(after["acc"]):
        found.update((f"{plane}{lane}", value >> low & 0xFFFF) for plane, low in zip(PLANES, (32, 16, 0)))
    masks = (after["vco"], after["vco"] >> 8, after["vcc"], after["vcc"] >> 8, after["vce"])
    found.update((name, value & 255) for name, value in zip(FLAGS, masks))
    found.update((f"sp{n}", value) for n, value in enumerate(after["sp"]))
    found.update((name, after[name]) for name in ("pc", "npc", "div_in", "div_out", "interrupt"))
    return {**found, "loaded": after["div_loaded"], "zero": 0}


def state_of(numbers: Mapping[str, int]) -> Dict[str, Any]:
    """The numbers of a state, as the definitions take them."""
    thirds = [[numbers[f"{plane}{lane}"] for plane in PLANES] for lane in range(8)]
    carry, differ, compare, clip, extra = (numbers[name] for name in FLAGS)
    found: Dict[str, Any] = {name: numbers[name] for name in ("pc", "npc", "div_in", "div_out", "interrupt")}
    found.update(vco=differ << 8 | carry, vcc=clip << 8 | compare, vce=extra, div_loaded=numbers["loaded"])
    found["r"] = [numbers[f"x{n}"] for n in range(32)]
    found["v"] = [[numbers[f"v{n}_{lane}"] for lane in range(8)] for n in range(32)]
    found["acc"] = [high << 32 | middle << 16 | low for high, middle, low in thirds]
    found["sp"] = [numbers[f"sp{n}"] for n in range(16)]
    return found


def replayed(path: str, case: Case, refuted: Refutation) -> List[str]:
    """What the library and the definitions give: a line for each field that differs."""
    numbers, word = numbers_of(case, refuted.values), word_of(case, refuted.values)
    got = by_library(path, word, numbers, refuted.is_undone)
    want = numbers if refuted.is_undone else by_definitions(word, numbers)
    operands = ", ".join(f"{name} = {x:x}" for name, x in numbers.items() if x and name not in START)
    head = f"word {word:08x} with {operands or 'all registers 0'}"
    differing = [name for name in FIELDS if got[name] != want[name]]
    if not differing:
        return [f"{head}: the library gives what the definitions give; the proof failed for another reason"]
    of = "before the step that was undone" if refuted.is_undone else "by the definitions"
    return [f"{head}: {it} is {got[it]:x} by the library, {want[it]:x} {of}" for it in differing]
