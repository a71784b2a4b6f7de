"""The states in which a step begins: where the machine continues, single step, halted, its history."""

from typing import Any, Dict, List, NamedTuple

import z3

from definitions.states import DEFAULT, SIZES, Machine
from definitions.unknown.effect import definitions
from definitions.working import computed

from .executor.values import Byte, Value
from .prepared import Prepared
from .states import START, symbol, symbols

OK, HALTED = 0, 104  # statuses of brsp.h
SINGLE_STEP, IS_HALTED = 0x20, 1  # bits of SP_STATUS as it is read


class Start(NamedTuple):
    """A kind of state, and what a step does to what isn't the instruction's."""

    title: str
    fixed: Dict[str, Value]
    after: Dict[str, Value]
    status: int
    next_entry: int  # the index after the newest entry of the history
    entries: int
    is_everywhere: bool  # whether IMEM has the word at each address, because pc is unknown


def after_step(fixed: Dict[str, int]) -> Dict[str, Value]:
    """pc, npc and SP_STATUS after a step of VNOP, by the definitions."""
    machine: Machine = definitions().machine
    word = definitions().word_of("vnop", 0, 0, 0, 0)
    keys = {**DEFAULT, "pc": f"{fixed['pc']:03x}", "npc": f"{fixed['npc']:03x}", "c4": f"{fixed['sp4']:08x}"}
    memories: Dict[str, Any] = {bank: bytearray(size) for bank, size in SIZES.items()}
    memories["imem"][fixed["pc"] : fixed["pc"] + 4] = word.to_bytes(4, "big")
    numbers = computed(lambda: machine.numbers_of(machine.step_of(machine.state(keys, memories))[1]))
    return {"pc": numbers["pc"], "npc": numbers["npc"], "sp4": numbers["sp"][4]}


def started(title: str, pc: int = 0, npc: int = 4, sp4: int = 0, index: int = 0, count: int = 0) -> Start:
    """A start with numbers."""
    fixed = {"pc": pc, "npc": npc, "sp4": sp4}
    status = HALTED if sp4 & IS_HALTED else OK
    return Start(title, {**START, **fixed}, after_step(fixed), status, index, count, False)


def anywhere() -> Start:
    """pc and npc as unknowns."""
    pc, npc = symbol("pc"), symbol("npc")
    fixed = {name: value for name, value in START.items() if name not in ("pc", "npc")}
    after = {"pc": npc, "npc": z3.simplify((npc + 4) & 0xFFF)}
    return Start("pc and npc unknown", {**fixed, "pc": pc, "npc": npc}, after, OK, 0, 0, True)


def usual() -> Start:
    return started("pc 0")


def starts() -> List[Start]:
    """All other states that are tried."""
    return [
        anywhere(),
        started("pc ffc in a delay slot", 0xFFC, 0x80),
        started("single step", sp4=SINGLE_STEP),
        started("halted", sp4=IS_HALTED),
        started("halted and single step", sp4=SINGLE_STEP | IS_HALTED),
        started("a history of 1 of 4", index=1, count=1),
        started("a full history whose newest entry is the last one", index=4, count=4),
        started("a full history whose newest entry is another", index=2, count=4),
        started("an empty history after a longer one", index=3, count=0),
    ]


class Begun:
    """A machine in such a state."""

    def __init__(self, prepared: Prepared, start: Start) -> None:
        self.prepared, self.start = prepared, start
        self.state: List[Byte] = symbols(start.fixed)
        self.caller = prepared.start(self.state, start.next_entry, start.entries)
