"""The entry of a trace for each instruction, and what its step changed, by its worked case of
docs/data/instructions.tsv.

They fail if an entry names something else than the text of its instruction does, or has another value than
the worked case ends with; or if `step_changes` gives another entry, or a state after the step that isn't the
machine's. An instruction writes its first operand, except those below.
"""

import re
from typing import Dict, Iterator, Sequence, Tuple

import pytest

import rsp
from lib import worked_cases
from lib.pages import data
from rsp_conformance.library_states import state_of
from rsp_conformance.states import numbers_of
from rsp_tools.shapes.interface import groups

# Jumps and branches write no register, or register 31 as a link.
NOTHING = {"beq", "bne", "blez", "bgtz", "bltz", "bgez", "j", "jr", "break", "ctc2", "mtc0", "vnop", "vnull"}
LINKS = {"jal", "bltzal", "bgezal"}
STORES = r"s[bhw]|s[bsldqrpuhfwt]v"
ALL = pytest.mark.parametrize("case", data("instructions"), ids=lambda it: it["Worked"].split()[0])


def named(text: str, scalars: Sequence[int]) -> Tuple[int, int, int, int]:
    """What an instruction writes: a scalar and a vector register, whether it stores, and where."""
    name, _, operands = text.partition(" ")
    if re.fullmatch(STORES, name):
        offset, base = groups(r".*, (-?\d+)\(\$(\d+)\)", operands)
        return 0, 32, 1, (scalars[int(base)] + int(offset)) % 4096
    if name in NOTHING:
        return 0, 32, 0, 0
    if name in LINKS:
        return 31, 32, 0, 0
    first = operands.split(", ")[1 if name == "mtc2" else 0]
    is_vector, digits = groups(r"\$(v?)(\d+).*", first)
    number = int(digits)
    if is_vector:
        return 0, number - number % 8 if name == "ltv" else number, 0, 0
    return number, 32, 0, 0


def values(entry: rsp.Traced, after: str) -> Iterator[Tuple[object, str, str]]:
    """What an entry shows and what the worked case ends with, of each part that both have."""
    lanes = "".join(f"{it:04x}" for it in entry.lanes)
    for key, value in worked_cases.parts(after):
        if key == f"r{entry.scalar}":
            yield key, f"{entry.value:08x}", value
        elif key == f"v{entry.vector}":
            yield key, lanes, value
        elif isinstance(key, str) and key.startswith(f"v{entry.vector}["):
            yield key, lanes[4 * int(key[-2]) :][:4], value
        elif key in ("vco", "vcc", "vce"):
            yield key, f"{getattr(entry, str(key)):0{len(value)}x}", value


def changed(before: rsp.State, dmem: bytes, by: rsp.Changes) -> Tuple[rsp.State, bytes]:
    """Registers and DMEM after a step, by what it changed."""
    after, entry = rsp.State.from_buffer_copy(before), by.traced
    after.words[entry.scalar] = entry.value
    if entry.vector < 32:
        after.vectors[entry.vector] = list(entry.lanes)
    after.accumulators, after.divider, after.pc, after.npc = by.accumulators, by.divider, by.pc, by.npc
    vco, vcc = entry.vco, entry.vcc
    after.flags = rsp.Flags(vco & 255, vco >> 8, vcc & 255, vcc >> 8, entry.vce)
    at = {(by.quadword + n) % 4096: byte for n, byte in enumerate(by.bytes)} if entry.stored else {}
    return after, bytes(at.get(n, byte) for n, byte in enumerate(dmem))


def machine_of(case: Dict[str, str]) -> rsp.Machine:
    """A machine that is about to run the instruction of a worked case."""
    machine, before = rsp.Machine(bytes(4096)), worked_cases.state_of(case["Before"])
    machine.set(state_of(numbers_of(before)))
    for address, digits in before.get("dmem", {}).items():
        machine.load(rsp.DMEM, int(address, 16), bytes.fromhex(digits))
    machine.load_words(rsp.IMEM, 0, rsp.assemble(f"{case['Worked']}\nnop\nnop\nover: nop\n"))
    return machine


@ALL
def test_entry(case: Dict[str, str]) -> None:
    machine = machine_of(case)
    scalars, words = list(machine.regs().words), machine.memory_words(rsp.IMEM, 0, 1)
    _, (entry,) = machine.trace(1)
    assert (entry.pc, [entry.word]) == (0, words)
    assert (entry.scalar, entry.vector, entry.stored, entry.address) == named(case["Worked"], scalars)
    assert entry.scalar != 0 or entry.value == 0, "a value of a register without one"
    assert entry.vector != 32 or not any(entry.lanes), "lanes of a register without one"
    for part, actual, expected in values(entry, case["After"]):
        assert actual == expected, part


@ALL
def test_changes(case: Dict[str, str]) -> None:
    """What the step of a worked case changes, with the entry that a trace has of it."""
    machine, name = machine_of(case), case["Worked"].split()[0]
    _, (entry,) = machine.copy().trace(1)
    before, dmem = machine.get(), machine.memory(rsp.DMEM, 0, 4096)
    by = machine.step_changes()
    assert by and by.traced == entry
    assert by.quadword == ((entry.address - entry.address % 16) if entry.stored else 0)
    assert entry.stored or not any(by.bytes)
    after, stored = changed(before, dmem, by)
    left = {part.name for part in machine.get().diff(after)}
    others = {"ltv": r"\$v(9|1[0-5]) lane \d", "break": "SP_STATUS", "mtc0": r"SP_.*|DPC.*"}.get(name, "")
    assert {it for it in left if not re.fullmatch(others, it)} == set(), "what the changes lack"
    is_right = stored == machine.memory(rsp.DMEM, 0, 4096)
    assert is_right, "DMEM by the changes is another"
