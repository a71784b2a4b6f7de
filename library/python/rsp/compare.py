"""The first step after which an emulator differs from the machine."""

from ctypes import byref, c_uint8
from html import escape
from typing import Any, NamedTuple, Optional, Protocol

from . import errors, helpers
from .helpers import Difference
from .machine import Machine
from .native import lib, numbers_of, quick
from .shapes import Request, RequestKind
from .state import State


class Emulator(Protocol):
    """The methods of an emulator that `first_difference` calls. A machine has all of them, so a second
    machine can be the emulator."""

    def run(self, steps: int) -> Any:
        """Makes this many steps. The machine has made as many, so the emulator isn't halted before any of
        them, and no word is reserved.

        BREAK is a step, which sets bits 0 and 1 of SP_STATUS, `sp[4]`.
        """

    def get(self) -> State:
        """All registers; those that the emulator lacks as `set` gave them. The state that is returned is
        neither kept nor changed."""

    def set(self, state: State) -> Any:
        """Sets all registers."""

    def memory(self, bank: int, address: int, length: int) -> bytes:
        """`length` bytes of DMEM (0), IMEM (1) or RDRAM (2) from an address on: all of a memory, and of RDRAM
        also those to which a DMA wrote. They have 4096, 4096 and the machine's `image_length`."""

    def load(self, bank: int, address: int, data: bytes) -> Any:
        """Writes all bytes of a memory, from address 0 on."""


class FirstDifference(NamedTuple):
    """A step after which they differ: its number `step`, from 1; its instruction, with its `address`,
    the `word` and its `text`; and the state `before` it.

    `parts` lists what differs after the step, the machine's value first: registers, then quadwords of
    memories, such as `DMEM 3f0`. Step 0 means that they differ before the first step, because the emulator
    didn't keep what `set` and `load` gave it. If `steps` isn't 1, that many steps up to `step` lead to a
    difference, and the first of them is at `address`: either one of them changed RDRAM where no DMA wrote, or
    none of them alone leads to it, because the emulator has state that `get` and `set` don't carry. `str`
    says which, and what helps.
    """

    step: int
    address: int
    word: int
    text: str
    before: State
    parts: Difference
    steps: int = 1

    def __str__(self) -> str:
        numbers = self.step, self.steps, self.word, self.address
        return helpers.difference_text(numbers, self.text, self.parts)

    def __repr__(self) -> str:
        return f"<rsp.FirstDifference: {self._head()}>"

    def _head(self) -> str:
        return str(self).partition("\n")[0]

    def _repr_html_(self) -> str:
        return f"<p>{escape(self._head())}</p>{self.parts._repr_html_()}"


def _answer(emulator: Emulator, request: Request, data: memoryview) -> None:
    """Does what a search asks an emulator for. It gets states and bytes of its own, which it may keep."""
    if request.kind == RequestKind.RUN:
        emulator.run(request.steps)
    elif request.kind == RequestKind.SET:
        emulator.set(State.from_buffer_copy(data))
    elif request.kind == RequestKind.GET:
        state = emulator.get()
        if not isinstance(state, State):
            kind = type(state).__name__
            raise TypeError(f"first_difference: the emulator's get() is of type {kind}, not rsp.State")
        data[:] = bytes(state)
    elif request.kind == RequestKind.LOAD:
        emulator.load(request.bank, request.address, bytes(data))
    else:
        given = bytes(emulator.memory(request.bank, request.address, len(data)))
        if len(given) != len(data):
            asked = f"memory({request.bank}, {request.address}, {len(data)})"
            raise ValueError(f"first_difference: the emulator's {asked} has {len(given)} bytes")
        data[:] = given


def first_difference(
    machine: Machine, emulator: Emulator, every: int = 64, limit: int = 1000000
) -> Optional[FirstDifference]:
    """The first step after which an emulator differs from the machine; None if there is no such step within
    `limit` steps, or before a halt or a reserved word.

    After None, `machine.step()` tells these apart: it returns HALTED or RESERVED, unless the limit was the
    end. Breakpoints and watches are ignored.

    First the machine's registers and memories are copied into the emulator. Then both run in stretches of at
    most `every` steps, 1 to 1000000, which end before a DMA. After each stretch all registers, DMEM and IMEM
    are compared, after a DMA also the bytes of RDRAM that it wrote, and at the end all of RDRAM. If they
    differ, both go back to the last comparison and are stepped from there. (A wrong value that is overwritten
    before the end of its stretch isn't seen: repeat with `every=1`. What shows only if the emulator makes
    several steps without a pause needs longer stretches.) Both are left after the step that differs, and the
    machine's history is empty. Raises RspError with OUT_OF_RANGE if `every` or `limit`, 0 to 4294967295,
    isn't in its range, and ValueError if the emulator gives too few or too many bytes.
    """
    call, request = "first_difference", Request()
    to = byref(request)
    errors.check_type(call, "machine", machine, Machine)
    for name in "run", "get", "set", "memory", "load":
        if not hasattr(emulator, name):
            raise TypeError(f"{call}: the emulator is of type {type(emulator).__name__}, without {name}()")
    every, limit = numbers_of(call, every, limit)
    search = (c_uint8 * lib.brsp_search_bytes(machine.image_length))()
    data = memoryview(search).cast("B")
    status = machine._call_alone(call, lib.brsp_search_begin, every, limit, search, len(search))
    machine._check_done(status, call, (every, limit))
    while True:
        if request.kind == RequestKind.MEMORY and request.bank:  # the last of some: the machine may run
            status = machine._call_alone(call, lib.brsp_search_next, search, to)
        else:
            status = quick.brsp_search_next(machine._at, search, to)
        if status:
            machine._check_done(status, call)
        if request.kind == RequestKind.OVER:
            break
        _answer(emulator, request, data[request.at : request.at + request.len])
    it = helpers.found_of(search)
    if not it.count:
        return None
    line, before = it.line, State.from_buffer_copy(it.before)
    parts = Difference(helpers.parts_of(it.parts[: it.count]))
    return FirstDifference(it.step, line.address, line.word, line.text.decode(), before, parts, it.steps)
