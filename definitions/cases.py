"""The definitions as an emulator of conformance/campaign: a line of JSON for each case and each answer."""

import json
import sys
from typing import Any, Dict, List

from .compiler import Compiler
from .states import BadInput, Machine, changed_bytes

BANKS = ("dmem", "imem", "rdram")
ENDS = "Rattle.rsp_machine.specs.declared.step.StepEnd.TheVariants"
HALTED, RESERVED = 104, 105  # statuses of an answer


class Side:
    """One side of a campaign."""

    def __init__(self, compiler: Compiler) -> None:
        self.machine = Machine(compiler)
        self.done, self.halted = (compiler.constructor(ENDS, name) for name in ("Done", "Halted"))
        self.given: Dict[str, bytes] = {}  # the memories that all cases begin with
        self.before: Dict[str, bytes] = {}
        self.state: Any = None

    def load(self, initial: Dict[str, Any]) -> None:
        """Begins a case."""
        memories = {bank: bytearray(self.given[bank]) for bank in BANKS}
        for at, byte in initial["ram"]:
            memories["imem" if at >= 4096 else "dmem"][at & 4095] = byte
        for at, byte in initial["rdram"]:
            memories["rdram"][at] = byte
        self.before = {bank: bytes(memory) for bank, memory in memories.items()}
        self.state = self.machine.state_of(initial, self.before)

    def changes(self, bank: str, base: int = 0) -> List[List[int]]:
        """The bytes of a memory that the case has changed."""
        changed = changed_bytes(self.before[bank], getattr(self.state, bank).newest())
        return [[base + at, byte] for at, byte in changed]

    def answer(self, query: Dict[str, Any]) -> Dict[str, Any]:
        """What the definitions say after the steps of a case."""
        if "initial" in query:
            self.load(query["initial"])
        status = made = 0
        while made < query.get("steps", 1) and not status:
            end, self.state = self.machine.step_of(self.state)
            status = 0 if end is self.done else HALTED if end is self.halted else RESERVED
            made += not status
        final = self.machine.numbers_of(self.state)
        final["ram"] = self.changes("dmem") + self.changes("imem", 4096)
        final["rdram"], final["status"] = self.changes("rdram"), status
        return {"final": {**final, "steps": made} if "steps" in query else final}


def answer_cases(compiler: Compiler) -> int:
    """Answers the lines of standard input."""
    side = Side(compiler)
    for line in sys.stdin:
        try:
            query = json.loads(line)
            if "memories" in query:
                side.given = {bank: bytes.fromhex(text) for bank, text in query["memories"].items()}
                continue
            answer = side.answer(query)
        except (ValueError, KeyError, TypeError, IndexError) as error:
            raise BadInput(f"the line is no case of a campaign: {error!r}: {line[:60]!r}") from None
        sys.stdout.write(json.dumps(answer) + "\n")
        sys.stdout.flush()
    return 0
