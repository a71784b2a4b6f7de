"""The emulators that can be checked. EMULATOR is one of
  FILE.so              a shared object with the interface of cases.h
  plugin:FILE.so       a plugin of mupen64plus: z64 with all its registers, any other by what microcode leaves
                       in memory
  python:MODULE:CLASS  a class; CLASS(memories) has `step(case)` -> (state, status, {address: byte}), or
                       `ends(cases)` -> an array of END, and, for programs, the methods that
                       rsp.first_difference calls of an emulator, with `steps(n)` or otherwise `run(n)`
  hex:COMMAND          a command that answers lines `word state` by lines `status state`
  console:cen64        Debian's cen64, as a whole console
  anything else        a command that answers each line of JSON by a line: conformance/FORMS.md describes them
"""

import contextlib
import ctypes
import functools
import importlib
import json
import os
import re
import subprocess
import sys
import tempfile
from typing import Any, Dict, Iterable, Optional, Tuple

import numpy as np
import rsp
from rsp_conformance.library_states import numbers_of, state_of

from . import CampaignFault, Unusable, words_of
from .build import built, library_object, microcode
from .generator import BANKS, END, IMEM, MEMORIES, RDRAM, STATE, Array
from .hashes import find_module
from .protocol import UNSHOWN

Changed = Dict[int, int]  # the changed bytes of memories, by their addresses
End = Tuple[Any, int, Changed]  # a state, the status, and the bytes
# The bytes of an answer, in which each byte of all memories can have changed; and of those to a batch, with
# what else the command prints.
LONGEST_LINE, MOST_OUTPUT = 1 << 20, 1 << 24


class Emulator:
    """An emulator of cases. If it takes programs, it also has the methods that rsp.first_difference calls."""

    seen: Array = np.full(END.itemsize, 255, np.uint8)  # the bits of an end that the emulator shows

    def fill(self, cases: Array, ends: Array) -> None:
        raise NotImplementedError

    def for_programs(self, compared: rsp.Machine) -> Any:
        """The emulator for rsp.first_difference, beside the machine that it is compared with."""
        machine = getattr(self, "machine", self)
        if not hasattr(machine, "load"):
            raise CampaignFault(f"{type(machine).__name__} takes no programs: it has no `load`")
        return for_programs(machine, compared)

    def memories_after(self, case: Array, memories: bytes, compared: rsp.Machine) -> Optional[bytes]:
        """All memories after a case, run as a program of one step; None if the emulator takes no programs.

        `memories` are those before each case, which the emulator has again afterwards.
        """
        try:
            machine = self.for_programs(compared)
        except CampaignFault:
            return None
        machine.set(rsp.State.from_buffer_copy(case["state"].tobytes()))
        load_all(machine, patched(memories, word_of(case)))
        machine.run(1)
        result = memories_in(machine)
        load_all(machine, memories)
        return result


class Counted:
    """An emulator for rsp.first_difference whose `steps` returns how many steps are done."""

    def __init__(self, emulator: Any, compared: rsp.Machine) -> None:
        self.emulator, self.compared, self.asked, self.done = emulator, compared, 0, 0

    def __getattr__(self, name: str) -> Any:
        return getattr(self.emulator, name)

    def run(self, steps: int) -> None:
        self.asked, self.done = steps, self.emulator.steps(steps)

    def get(self) -> rsp.State:
        """The state. After fewer steps it can't be that of the machine, which has made all steps."""
        state: rsp.State = self.emulator.get()
        if self.done > self.asked or self.done < self.asked and state == self.compared.get():
            raise CampaignFault(f"of {self.asked} steps it returned that {self.done} are done")
        return state


def for_programs(emulator: Any, compared: rsp.Machine) -> Any:
    """An emulator with the methods that rsp.first_difference calls."""
    return Counted(emulator, compared) if hasattr(emulator, "steps") else emulator


class Object(Emulator):
    """A shared object with the interface of cases.h."""

    def __init__(self, path: str, memories: bytes, what: str = "") -> None:
        self.lib, self.what = ctypes.CDLL(os.path.abspath(path)), what or path
        self.memories = bytearray(memories)
        self.lib.cases_open.restype = ctypes.c_void_p
        self.at = ctypes.c_void_p(self.lib.cases_open(what.encode(), bytes(memories)))
        if not self.at:
            raise CampaignFault(f"{self.what} can't be opened")
        if hasattr(self.lib, "cases_seen"):
            self.seen = self.seen.copy()
            self.lib.cases_seen(self.at, self.seen.ctypes)

    def fill(self, cases: Array, ends: Array) -> None:
        if refused := self.lib.cases_run(self.at, cases.ctypes, ends.ctypes, ctypes.c_size_t(len(cases))):
            raise CampaignFault(f"case {refused - 1} of the batch is refused")

    def for_programs(self, compared: rsp.Machine) -> Any:
        if not hasattr(self.lib, "cases_step"):
            raise CampaignFault(f"{self.what} takes no programs")
        self.compared = compared
        return for_programs(self, compared) if hasattr(self.lib, "cases_steps") else self

    def set(self, state: rsp.State) -> None:
        self.lib.cases_set(self.at, bytes(state))

    def get(self) -> rsp.State:
        """The state, with the machine's bits where the emulator shows none."""
        found, seen = bytearray(STATE.itemsize), self.seen[: STATE.itemsize]
        self.lib.cases_get(self.at, ctypes.byref((ctypes.c_char * len(found)).from_buffer(found)))
        ours = np.frombuffer(bytes(self.compared.get()), np.uint8)
        return rsp.State.from_buffer_copy(np.frombuffer(found, np.uint8) & seen | ours & ~seen)

    def load(self, bank: int, address: int, data: bytes) -> None:
        at = bank * IMEM + address
        self.memories[at : at + len(data)] = data
        self.lib.cases_load(self.at, bytes(self.memories))

    def memory(self, bank: int, address: int, length: int) -> bytes:
        found, at = ctypes.create_string_buffer(MEMORIES), bank * IMEM + address
        self.lib.cases_look(self.at, found)
        return found.raw[at : at + length]

    def run(self, steps: int) -> None:
        self.lib.cases_step(self.at, steps)

    def steps(self, steps: int) -> int:
        return int(self.lib.cases_steps(self.at, steps))


def load_all(machine: Any, memories: bytes) -> None:
    """Loads all memories of a machine, or of an emulator that takes programs."""
    for bank, (low, high) in enumerate(BANKS.values()):
        machine.load(bank, 0, memories[low:high])


def memories_in(machine: Any) -> bytes:
    """All memories of a machine, or of an emulator that takes programs."""
    lengths = (high - low for low, high in BANKS.values())
    return b"".join(bytes(machine.memory(bank, 0, length)) for bank, length in enumerate(lengths))


def patched(memories: Iterable[int], changed: Changed) -> bytes:
    """Memories with other bytes at some addresses."""
    result = bytearray(memories)
    for address, byte in changed.items():
        result[address] = byte
    return bytes(result)


def word_of(case: Array) -> Changed:
    """The bytes of a case's word, by their addresses."""
    return dict(enumerate(int(case["word"]).to_bytes(4, "big"), IMEM + int(case["state"]["pc"])))


@functools.lru_cache(1)
def digest() -> Any:
    """The function cases_digest of cases.h."""
    call = ctypes.CDLL(library_object()).cases_digest
    call.restype = ctypes.c_uint64
    return call


class Single(Emulator):
    """An emulator that takes one case at a time."""

    memories: bytes

    def step(self, case: Array) -> End:
        raise NotImplementedError

    def fill(self, cases: Array, ends: Array) -> None:
        for case, end in zip(cases, ends):
            before = patched(self.memories, word_of(case))
            state, status, changed = self.step(case)
            end["state"] = np.frombuffer(bytes(state), STATE)[0]
            end["changed"] = digest()(before, patched(before, changed))
            end["status"] = status  # last: it says that the case is done

    def memories_after(self, case: Array, memories: bytes, compared: rsp.Machine) -> Optional[bytes]:
        """All memories after a case, which is run again."""
        return patched(patched(memories, word_of(case)), self.step(case)[2])


class Python(Single):
    """A class in Python."""

    def __init__(self, path: str, memories: bytes) -> None:
        module, _, name = path.partition(":")
        if not name:
            raise CampaignFault("no class is named: python:MODULE:CLASS")
        self.memories = bytes(memories)
        find_module(module)
        self.machine = getattr(importlib.import_module(module), name)(self.memories)

    def fill(self, cases: Array, ends: Array) -> None:
        if not hasattr(self.machine, "ends"):
            return super().fill(cases, ends)
        found = self.machine.ends(cases)
        kind, shape = getattr(found, "dtype", type(found).__name__), getattr(found, "shape", "none")
        if (kind, shape) != (END, ends.shape):
            expected = f"END of rsp_conformance.campaign.generator and {ends.shape}"
            raise Unusable(f"`ends` returned an array of dtype and shape {kind} and {shape}, not {expected}")
        ends[:] = found

    def step(self, case: Array) -> End:
        end: End = self.machine.step(case)
        if not isinstance(end, tuple) or len(end) != 3 or not isinstance(end[0], rsp.State):
            raise Unusable(f"`step` returned {end!r:.60}, not an rsp.State, the status and the bytes")
        return end

    def memories_after(self, case: Array, memories: bytes, compared: rsp.Machine) -> Optional[bytes]:
        """All memories after a case. A class with `ends` shows them only if it takes programs."""
        base = Emulator if hasattr(self.machine, "ends") else Single
        return base.memories_after(self, case, memories, compared)


# The keys of the state in an answer.
FINAL = {*numbers_of(rsp.State()), "ram", "rdram", "status", "steps"}


def final_in(answer: Any) -> Dict[str, Any]:
    """The state in a command's answer.

    Raises a CampaignFault that names an unknown key, or a ValueError if there is no state.
    """
    if not isinstance(answer, dict) or not isinstance(answer.get("final"), dict):
        raise ValueError("no object with an object 'final' in it")
    if stray := sorted({*answer} - {"final"}):
        has = f"the key {stray[0]!r} beside 'final'"
        raise CampaignFault(f"the command's answer has {has}: everything belongs into 'final'")
    final: Dict[str, Any] = answer["final"]
    if unknown := sorted({*final} - FINAL):
        raise CampaignFault(f"the command's answer has an unknown key in 'final': {unknown[0]!r}")
    return final


def environment() -> Dict[str, str]:
    """The environment of a command, without our path of modules."""
    return {name: value for name, value in os.environ.items() if name not in ("PYTHONPATH", "PYTHONSAFEPATH")}


class Command(Single):
    """A command over lines of JSON."""

    def __init__(self, command: str, memories: bytes) -> None:
        self.process = subprocess.Popen(
            words_of(command),
            stdin=subprocess.PIPE,
            stdout=subprocess.PIPE,
            env=environment(),
        )
        self.memories = bytes(memories)
        self.say_memories()

    def say_memories(self) -> None:
        self.say({"memories": {bank: self.memories[low:high].hex() for bank, (low, high) in BANKS.items()}})

    def say(self, value: Dict[str, Any]) -> None:
        assert self.process.stdin
        with contextlib.suppress(BrokenPipeError):  # `ask` reports that the command has ended
            self.process.stdin.write(json.dumps(value, separators=(",", ":")).encode() + b"\n")
            self.process.stdin.flush()

    def ask(self, question: Dict[str, Any]) -> Tuple[rsp.State, int, Changed]:
        """The state, the status and the changed bytes of an answer."""
        self.say(question)
        assert self.process.stdout
        line = self.process.stdout.readline(LONGEST_LINE)
        if len(line) == LONGEST_LINE:
            raise CampaignFault(f"the command's line has {LONGEST_LINE} bytes, and doesn't end")
        if not line:
            raise CampaignFault(f"the command ended with status {self.process.wait()}")
        try:
            final = final_in(json.loads(line))
            changed: Changed = {at: byte for at, byte in final["ram"]}
            changed.update({RDRAM + at: byte for at, byte in final["rdram"]})
            if not all(0 <= at < MEMORIES and 0 <= byte < 256 for at, byte in changed.items()):
                raise ValueError("no byte of a memory")
            self.done = int(final.get("steps", question.get("steps", 1)))
            return state_of(final), final.get("status", 0), changed
        except (ValueError, KeyError, TypeError, IndexError, OverflowError) as fault:
            why = f"{type(fault).__name__} {fault}"
            raise CampaignFault(f"the command answered {line[:60]!r}: {why}") from None

    def step(self, case: Array) -> End:
        registers = numbers_of(rsp.State.from_buffer_copy(case["state"].tobytes()))
        return self.ask({"initial": {**registers, "ram": [*word_of(case).items()], "rdram": []}})

    def set(self, state: rsp.State) -> None:
        self.state = state
        self.question: Dict[str, Any] = {"initial": {**numbers_of(state), "ram": [], "rdram": []}}

    def get(self) -> rsp.State:
        return self.state

    def load(self, bank: int, address: int, data: bytes) -> None:
        at = bank * IMEM + address
        self.memories = self.after = self.memories[:at] + data + self.memories[at + len(data) :]

    def memory(self, bank: int, address: int, length: int) -> bytes:
        return self.after[bank * IMEM + address :][:length]

    def steps(self, steps: int) -> int:
        if self.question:
            self.say_memories()
        self.state, _, changed = self.ask({**self.question, "steps": steps})
        self.after, self.question = patched(self.memories, changed), {}
        return self.done


class Hex(Emulator):
    """A command over lines of hexadecimal digits, which is started for each batch of cases."""

    def __init__(self, command: str) -> None:
        self.words = words_of(command)

    def fill(self, cases: Array, ends: Array) -> None:
        """Runs the cases except those that may access a memory, which the command can't be given."""
        hidden = (cases["word"] >> 31 == 1) | (cases["word"] & 0xFFE07000 == 0x40801000)
        shown, ends["changed"] = np.nonzero(~hidden)[0], 0
        lines = (f"{case['word']:08x} {case['state'].tobytes()[::-1].hex()}\n" for case in cases[shown])
        output, status = self.output_of("".join(lines))
        answers = re.findall("(?m)^([0-9a-f]{1,8}) ([0-9a-f]{1544})$", output)
        for at, (ended, state) in zip(shown, answers):
            ends["state"][at] = np.frombuffer(bytes.fromhex(state)[::-1], STATE)[0]
            ends["status"][at] = int(ended, 16)
        if len(answers) < len(shown):
            print(re.sub("(?m)^[0-9a-f ]+$\n", "", output), file=sys.stderr, flush=True)
            raise CampaignFault(f"the command ended with status {status}, without this answer")
        ends["status"][hidden] = UNSHOWN

    def output_of(self, lines: str) -> Tuple[str, int]:
        """What the command prints for these lines, and its status."""
        with tempfile.TemporaryFile() as given:
            given.write(lines.encode())
            given.seek(0)
            pipes: Dict[str, Any] = {"stdin": given, "stdout": subprocess.PIPE, "env": environment()}
            process = subprocess.Popen(self.words, **pipes)
            assert process.stdout
            output = process.stdout.read(MOST_OUTPUT + 1)
        if len(output) > MOST_OUTPUT:
            process.kill()
            raise CampaignFault(f"the command has printed more than {MOST_OUTPUT} bytes")
        return output.decode(errors="replace"), process.wait()


def emulator_of(spec: str, memories: bytes) -> Emulator:
    """The emulator that EMULATOR names, with these memories.

    Microcode sets and stores the registers of a plugin, unless it is the build of z64 whose registers are
    known.
    """
    kind, _, rest = spec.partition(":")
    if kind == "python":
        return Python(rest, memories)
    if kind == "hex":
        return Hex(rest)
    if kind == "console":
        from .console import Console  # here, because it is an emulator of this module

        return Console(rest, memories)
    if kind != "plugin":
        return Object(spec, memories) if spec.endswith(".so") else Command(spec, memories)
    with contextlib.suppress(CampaignFault):
        return Object(built("z64"), memories, os.path.abspath(rest))
    return Object(built("microcode", microcode()), memories, os.path.abspath(rest))
