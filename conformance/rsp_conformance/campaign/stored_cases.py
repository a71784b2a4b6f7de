"""Runs test vectors on an emulator of a campaign, which is compared with what the vectors say.

A campaign's RDRAM is shorter than that of the vectors, so the addresses of a DMA in RDRAM are moved down.
"""

from pathlib import Path
from typing import Any, Dict, Iterator, List, NamedTuple, Tuple

import numpy as np
import rsp
from rsp_conformance import bench, complaints
from rsp_conformance.library_states import state_of
from rsp_conformance.states import Texts, bytes_of, numbers_of
from rsp_conformance.steps import Entry, row_of
from rsp_conformance.table import uses_memory
from rsp_conformance.vectors import memory_in

from . import CampaignFault
from .compare import Sides, in_brief, in_words, quadwords
from .emulators import digest, load_all, memories_in
from .generator import BANKS, CASE, END, IMEM, MEMORIES, RDRAM, STATE, Array
from .protocol import PROGRAM, RESERVED, UNSHOWN, Options, Result
from .stored import named_in
from .batches import Cases, check_cases

LENGTH = 1 << 17  # of the RDRAM of the vectors, whose DMAs are in WINDOW, or close to an end
WINDOW_DOWN, END_DOWN = bench.WINDOW - 0x2000, LENGTH - (MEMORIES - RDRAM)


class Placed(NamedTuple):
    """A stored case in a campaign's memories: the states and the memories before and after it."""

    before: rsp.State
    after: rsp.State
    memories: bytes
    memories_after: bytes


def is_dma(entry: Entry) -> bool:
    return int(entry["word"], 16) & 0xFFE07000 == 0x40801000  # as cases_is_dma of cases.h


def down(entry: Entry) -> int:
    """How far down the address of a case's DMA is moved."""
    address = int(entry["before"].get("c1", "0"), 16)
    if not is_dma(entry) or address >= 1 << 23:
        return 0
    return END_DOWN if LENGTH - 4096 <= address < LENGTH else WINDOW_DOWN


def state_in(texts: Texts, moved: int) -> rsp.State:
    state = state_of(numbers_of(texts))
    state.sp[1] = (state.sp[1] - moved) % (1 << 24)
    return state


def put(memories: bytearray, texts: Texts) -> None:
    """Puts the bytes of a state into the memories."""
    for bank, (start, _) in BANKS.items():
        for address, byte in bytes_of(texts.get(bank, {})).items():
            memories[start + address - WINDOW_DOWN * (address >= bench.WINDOW)] = byte


def placed(entry: Entry) -> Placed:
    before, moved, memories = {**bench.DEFAULT, **entry["before"]}, down(entry), bytearray(MEMORIES)
    put(memories, entry["before"])
    put(memories, {"imem": {before["pc"]: entry["word"]}})
    memories_before = bytes(memories)
    put(memories, entry["after"])
    after = {**before, **entry["after"]}
    return Placed(state_in(before, moved), state_in(after, moved), memories_before, bytes(memories))


def needs_memories(entry: Entry) -> bool:
    banks = {*BANKS} & {*entry["before"], *entry["after"]}
    return bool(banks) or is_dma(entry) or uses_memory(row_of(entry))


class StoredCases(Cases):
    """Stored cases of an instruction, on an emulator that takes programs. Any other gets those that need no
    memory.
    """

    def __init__(self, spec: str, name: str, entries: List[Entry]) -> None:
        super().__init__(spec, name, "", np.zeros(MEMORIES, np.uint8))
        self.entries, self.places = entries, [*map(placed, entries)]
        self.memories_found: Dict[bytes, List[str]] = {}  # what differs in them, by the case
        try:
            self.emulator = self.sides.emulator.for_programs(self.sides.machine)
        except CampaignFault:
            self.emulator = None

    def made(self, at: int, n: int) -> Tuple[Array, Dict[str, Array]]:
        entries, cases = self.entries[at : at + n], np.zeros(n, CASE)
        for case, entry, place in zip(cases, entries, self.places[at:]):
            case["state"] = np.frombuffer(bytes(place.before), STATE)[0]
            case["word"] = int(entry["word"], 16)
        choices = {entry["choice"] for entry in entries if "choice" in entry}
        return cases, {it: np.array([entry.get("choice") == it for entry in entries]) for it in choices}

    def title(self, number: int) -> str:
        return str(self.entries[number]["name"])

    def run(self, at: int, cases: Array, ends: Array) -> Array:
        places, expected = self.places[at : at + len(cases)], self.expected[: len(cases)]
        for end, place in zip(expected, places):
            end["state"], end["status"] = np.frombuffer(bytes(place.after), STATE)[0], 0
            end["changed"] = digest()(place.memories, place.memories_after)
        if self.emulator:
            for case, place, end in zip(cases, places, ends):
                self.step(case, place, end)
        else:
            self.fill(cases, self.entries[at : at + len(cases)], ends)
        return self.sides.differ(expected, ends)

    def step(self, case: Array, place: Placed, end: Array) -> None:
        """Runs a case. If nothing has changed, the emulator lacks the instruction."""
        self.sides.machine.set(place.after)  # whose bits an emulator has that doesn't show them
        self.emulator.set(place.before)
        load_all(self.emulator, place.memories)
        self.emulator.run(1)
        state, memories = self.emulator.get(), memories_in(self.emulator)
        end["state"], end["changed"] = np.frombuffer(bytes(state), STATE)[0], digest()(
            place.memories, memories
        )
        self.memories_found[case.tobytes()] = in_words(quadwords(place.memories_after, memories))
        is_same = state == place.before and memories == place.memories
        end["status"] = RESERVED if is_same else 0  # last: it says that the case is done

    def fill(self, cases: Array, entries: List[Entry], ends: Array) -> None:
        """Runs the cases that need no memory."""
        shown = np.array([not needs_memories(entry) for entry in entries])
        found = np.zeros(shown.sum(), END)
        if len(found):
            self.sides.emulator.fill(cases[shown], found)
        ends[shown] = found
        ends["status"][~shown] = UNSHOWN

    def memories_after(self, case: Array, expected: Array, got: Array) -> List[str]:
        return self.memories_found.get(case.tobytes(), [])


class Program:
    """A stored program on an emulator, as the class Rsp of conformance/programs.py."""

    def __init__(self, emulator: Any, steps: int) -> None:
        self.emulator, self.steps, self.memories = emulator, steps, bytearray(MEMORIES)

    def load(self, bank: str, data: bytes) -> None:
        self.memories[slice(*BANKS[bank])] = data

    def run(self) -> None:
        self.emulator.set(state_in(bench.DEFAULT, 0))
        load_all(self.emulator, bytes(self.memories))
        self.emulator.run(self.steps)

    def memory(self, bank: str) -> bytes:
        return bytes(self.emulator.memory(0, 0, IMEM))


def check_programs(spec: str, entries: List[Entry], folder: Path) -> Iterator[Result]:
    """Yields an empty result, and then the result of each program."""
    sides = Sides(spec, bytes(MEMORIES))
    yield {"count": 0, "unseen": sides.unseen}
    try:
        emulator = sides.emulator.for_programs(sides.machine)
    except CampaignFault:
        yield {"count": len(entries), "unshown": len(entries)}
        return
    for entry in entries:
        images = (memory_in(folder / f"{entry['name']}.{kind}") for kind in ("imem", "dmem", "after"))
        found = complaints.of_program(entry, Program(emulator, entry["steps"]), *images)
        line = f"{entry['name']}: {in_brief(found)}" if found else ""
        kinds = {entry["name"].rpartition("-")[0]: [1, line]}
        yield {"count": 1, **({"differ": 1, "kinds": kinds, "shown": [line]} if found else {})}


def results_of_stored(
    spec: str, name: str, start: int, count: int, ends: Array, options: Options
) -> Iterator[Result]:
    """The results of a task."""
    entries = named_in(options, name)
    if name == PROGRAM:
        folder = Path(options["stored"]) / "programs"
        return check_programs(spec, entries[start : start + count], folder)
    return check_cases(StoredCases(spec, name, entries), start, count, ends)
