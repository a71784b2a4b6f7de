"""Emulators for campaigns, over the module `rsp`: python:emulator:CLASS in this folder.

The command `tools/python campaigns.emulator [HOW WORD]` answers lines of JSON. At a case of WORD
(hexadecimal) it misbehaves as HOW says: it hangs, dies, also with a long backtrace, or answers garbage, a
number out of its range, a byte of no memory, or an unknown key. With "after" it dies at the next case after
WORD.
"""

import json
import os
import sys
import time
from typing import Any, Dict, List, Optional, Tuple

import rsp
from rsp_conformance.library_states import numbers_of, state_of

BANKS = {"dmem": (rsp.DMEM, 0, 4096), "imem": (rsp.IMEM, 4096, 4096), "rdram": (rsp.RDRAM, 8192, 16384)}


class Machine(rsp.Machine):
    """A machine with an RDRAM of 16384 bytes, which also has the methods that programs need."""

    def __init__(self, memories: bytes) -> None:
        super().__init__(bytes(16384))
        self.load_all(memories)

    def load_all(self, memories: bytes) -> None:
        self.before = bytes(memories)
        for bank, start, length in BANKS.values():
            self.load(bank, 0, self.before[start : start + length])

    def memories(self) -> bytes:
        return b"".join(self.memory(bank, 0, length) for bank, _, length in BANKS.values())

    def single_step(self) -> rsp.Status:
        """A step."""
        return super().step()

    def step(self, case: Any = None) -> Any:
        """Runs a case with the memories of the beginning, or makes a step if there is no case."""
        if case is None:
            return self.single_step()
        self.set(rsp.State.from_buffer_copy(case["state"].tobytes()))
        self.load_words(rsp.IMEM, int(case["state"]["pc"]), [int(case["word"])])
        before = self.memories()
        status = self.single_step()
        after, state = self.memories(), self.get()
        self.load_all(self.before)
        return state, int(status), {at: byte for at, byte in enumerate(after) if byte != before[at]}

    def go(self, steps: int) -> int:
        """Makes steps up to a halt or a reserved word, and returns the last status."""
        status = rsp.Status.OK
        while steps and status == rsp.Status.OK:
            status, steps = self.single_step(), steps - 1
        return int(status)


class Stepping(Machine):
    """A machine whose `run` makes single steps."""

    def run(self, steps: int) -> Any:
        self.go(steps)


class WrongShift(Stepping):
    """SRA changes the lowest bit of its result if its word has bits that are ignored."""

    def single_step(self) -> rsp.Status:
        (word,) = self.memory_words(rsp.IMEM, self.get().pc, 1)
        status, number = super().single_step(), word >> 11 & 31
        if word & 0xFC00003F == 3 and word >> 21 & 31 and number:
            state = self.get()
            state.words[number] ^= 1
            self.set(state)
        return status


class Without(Machine):
    """Lacks VADD, and reports every second SRA as a reserved word."""

    def step(self, case: Any = None) -> Any:
        word = int(case["word"])
        is_lacking = word & 0xFE00003F == 0x4A000010 or (word & 0xFC00003F == 3 and word >> 16 & 1)
        state, status, changed = super().step(case)
        return (state, 105, {}) if is_lacking else (state, status, changed)


class Forgets(Machine):
    """Loses a register."""

    def get(self) -> rsp.State:
        state = super().get()
        state.words[5] = 0
        return state


class WrongStore(Stepping):
    """SB changes the first byte of DMEM, too, if its register has an odd number."""

    def single_step(self) -> rsp.Status:
        (word,) = self.memory_words(rsp.IMEM, self.get().pc, 1)
        status = super().single_step()
        if word >> 26 == 40 and word >> 16 & 1:
            self.load(rsp.DMEM, 0, bytes([self.memory(rsp.DMEM, 0, 1)[0] ^ 1]))
        return status


class Remembers(Stepping):
    """Its 99th step also changes VCE. `set` doesn't reset the count of steps."""

    made = 0

    def single_step(self) -> rsp.Status:
        status, self.made = super().single_step(), self.made + 1
        if self.made == 99:
            state = self.get()
            state.flags.extra ^= 1
            self.set(state)
        return status


class Stale(Stepping):
    """Keeps the first word that it executes at an address. `set` and `load` don't make it forget the word."""

    def __init__(self, memories: bytes) -> None:
        super().__init__(memories)
        self.decoded: Dict[int, int] = {}

    def single_step(self) -> rsp.Status:
        pc = self.get().pc
        (word,) = self.memory_words(rsp.IMEM, pc, 1)
        self.load_words(rsp.IMEM, pc, [self.decoded.setdefault(pc, word)])
        status = super().single_step()
        self.load_words(rsp.IMEM, pc, [word])
        return status


class Few:
    """Returns an end too few."""

    def __init__(self, memories: bytes) -> None:
        pass

    def ends(self, cases: Any) -> Any:
        import numpy
        from rsp_conformance.campaign.generator import END

        return numpy.zeros(len(cases) - 1, END)


def answer(machine: Machine, question: Dict[str, Any]) -> Dict[str, Any]:
    """The answer to a line."""
    if initial := question.get("initial"):
        machine.load_all(machine.before)
        machine.set(state_of(initial))
        for at, byte in initial["ram"]:
            machine.load(at // 4096, at % 4096, bytes([byte]))
    status = machine.go(question.get("steps", 1))
    changed = [(at, byte) for at, byte in enumerate(machine.memories()) if byte != machine.before[at]]
    ram = [(at, byte) for at, byte in changed if at < 8192]
    rdram = [(at - 8192, byte) for at, byte in changed if at >= 8192]
    return {**numbers_of(machine.get()), "status": status, "ram": ram, "rdram": rdram}


FINAL: Dict[str, Any] = {**numbers_of(rsp.State()), "ram": [], "rdram": []}
WRONG_ANSWERS = {
    "garbage": "no JSON",
    "range": json.dumps({"final": {**FINAL, "pc": 65536}}),
    "byte": json.dumps({"final": {**FINAL, "ram": [[99999, 1]]}}),
    "beside": json.dumps({"final": FINAL, "status": 5}),
    "unknown": json.dumps({"final": {**FINAL, "stat": 5}}),
}
LAST_WORDS = {
    "die": "panicked:\n  \x1b]0;title\x07boom\n",
    "panic": "panicked: boom\n" + "  at a function\n" * 200 + "  at main\n",
}


def misbehave(how: str) -> None:
    if how == "hang":
        time.sleep(3600)
    if how in LAST_WORDS:
        print(LAST_WORDS[how], end="", file=sys.stderr, flush=True)
        os._exit(3)
    if how in WRONG_ANSWERS:
        print(WRONG_ANSWERS[how], flush=True)


def answer_hex() -> None:
    """Answers lines `word state` by lines `status state`."""
    machine = Machine(bytes(24576))
    for word, state in map(str.split, sys.stdin):
        machine.set(rsp.State.from_buffer_copy(bytes.fromhex(state)[::-1]))
        machine.load_words(rsp.IMEM, machine.get().pc, [int(word, 16)])
        print(f"{machine.single_step():x}", bytes(machine.get())[::-1].hex())


def main(how: str = "", word: str = "0") -> None:
    if how == "hex":
        return answer_hex()
    machine: Optional[Machine] = None
    last = 0
    for line in sys.stdin:
        question = json.loads(line)
        if memories := question.get("memories"):
            machine = Machine(b"".join(bytes.fromhex(memories[bank]) for bank in BANKS))
        if memories or not machine:
            continue
        ram: List[Tuple[int, int]] = question.get("initial", {}).get("ram", [])
        case_word = int.from_bytes(bytes(byte for _, byte in ram), "big")
        if how == "after" and last == int(word, 16):
            misbehave("die")
        if case_word == int(word, 16):
            misbehave(how)
        last = case_word
        print(json.dumps({"final": answer(machine, question)}), flush=True)


if __name__ == "__main__":
    main(*sys.argv[1:])
