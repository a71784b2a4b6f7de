"""A machine: its registers and memories, steps and runs, breakpoints and watches."""

import ctypes
import operator
from array import array
from ctypes import Structure, byref, c_size_t, c_uint32
from typing import Any, Callable, Iterable, Iterator, List, Optional, Tuple, TypeVar, cast

from . import errors, fields, helpers, shapes
from .errors import RspError
from .native import check, lib, numbers_of, quick
from .owner import Owner, fill_handle
from .shapes import Bank, Reason, Status
from .state import (
    Accumulators,
    Changes,
    Divider,
    Flags,
    Scalars,
    SpWords,
    State,
    Traced,
    state_refusal,
    unset,
)
from .stops import Dma, NotHalted, Stop, dma_of, move_stop_of, stop_of
from .texts import Line

STATUS_WRITES = 1 << 16  # a bit of the mask `writes` of Machine.event
DMEM, IMEM, RDRAM = Bank.DMEM, Bank.IMEM, Bank.RDRAM
# So many steps don't let another thread run meanwhile, because that takes longer than they do. Even if each
# is a DMA of 1 MiB, they take less time than Python leaves a thread before it lets another one run.
_FEW_STEPS = 32
_HALTED = (Status.HALTED,)
_STEP_ENDS = {status.value: status for status in (Status.OK, Status.HALTED, Status.RESERVED)}
_S = TypeVar("_S", bound=Structure)
_T = TypeVar("_T")
_set_item: Any = ctypes.Array.__setitem__


def numpy_for(name: str) -> Any:
    """The module numpy, which isn't imported before a call needs it."""
    try:
        import numpy
    except ImportError:
        raise ImportError(f"{name} needs numpy, which isn't installed") from None
    return numpy


def _word_array(call: str, words: Iterable[int]) -> Any:
    """An array of C with the words."""
    items = fields.list_of(words)
    if items is None:
        raise TypeError(f"{call}: words is of type {type(words).__name__}, not a list of integers")
    try:
        return (c_uint32 * len(items)).from_buffer(array("I", items))
    except (OverflowError, TypeError):
        for n, number in enumerate(errors.integers(call, items, "words[{}]")):
            if not 0 <= number < 1 << 32:
                text = f"{call}: words[{n}] is {number}, not 0 to 4294967295"
                raise RspError(Status.OUT_OF_RANGE, text) from None
        raise


class Machine(Owner):
    """A machine with a copy of an image of RDRAM and a history of `depth` states, at most 4096.

    The image has 64 to 8388608 bytes, a multiple of 8. `image_length` is this number. A refused call raises
    RspError with its status, an argument of a wrong type raises TypeError, and neither changes anything.
    """

    def __init__(self, image: bytes = bytes(64), depth: int = 0) -> None:
        self._hold()
        fill_handle("Machine", lib.brsp_new, self._handle, image, depth)

    def __repr__(self) -> str:
        try:
            pc, status = self.regs().pc, self.peek(4)
            following = self.listing(pc, 1)[0].text
        except RspError as fault:
            return f"<rsp.Machine: {fault.status.name}>"
        return f"<rsp.Machine: pc {pc:03x}, {'halted' if status & 1 else 'running'}, next {following}>"

    def copy(self) -> "Machine":
        """A second machine with the same registers and memories. Its history has room for as many states, but
        is empty, and it has no breakpoints and no watches."""
        made = Machine.__new__(Machine)
        made._hold()
        self._check_free("copy")
        self._check_done(quick.brsp_copy(made._at, self._at), "copy")
        return made

    __copy__ = copy

    def __deepcopy__(self, memo: Any) -> "Machine":
        return self.copy()

    def _call_with(self, call: str, *given: int) -> None:
        """Makes a short call that takes numbers."""
        numbers = numbers_of(call, *given)
        self._call(call, *numbers, numbers=numbers)

    def _fill(self, call: str, out: _T, *given: int) -> _T:
        """As `_call_with`, of a call that fills a structure or a number."""
        numbers = numbers_of(call, *given)
        self._call(call, *numbers, byref(cast(Any, out)), numbers=numbers)
        return out

    def _word(self, call: str, number: int) -> int:
        """A word by the number of its register. The test alone costs less than `_numbers`."""
        if type(number) is not int or not 0 <= number < 1 << 32:
            (number,) = numbers_of(call, number)
        out = c_uint32()
        self._call(call, number, byref(out), numbers=(number,))
        return out.value

    def _fill_alone(self, call: str, out: _S, *given: int) -> _S:
        """As `_fill`, of a call that may take long. Its first number is its steps."""
        numbers = numbers_of(call, *given)
        if numbers[0] <= _FEW_STEPS:
            self._call(call, *numbers, out, numbers=numbers)
        else:
            status = self._call_alone(call, getattr(lib, f"brsp_{call}"), *numbers, out)
            self._check_done(status, call, numbers)
        return out

    # Whole states, by tools/shapes

    def get(self) -> State:
        """Gives the state, and changes nothing."""
        return self._fill("get", unset(State))

    # Whole states

    def set(self, state: State) -> None:
        """Sets all registers, and empties the history. The memories stay unchanged. OUT_OF_RANGE for a state
        that no machine can have."""
        if not isinstance(state, State):
            raise TypeError(f"set: state is of type {type(state).__name__}, not rsp.State")
        if self._call("set", byref(state), ends=(Status.OUT_OF_RANGE,)):
            raise RspError(Status.OUT_OF_RANGE, f"set: {state_refusal(state)}")

    # Memories

    @property
    def image_length(self) -> int:
        """The number of bytes of the image of RDRAM."""
        return self._fill("image_length", c_size_t()).value

    def load(self, bank: int, address: int, data: bytes) -> None:
        """Writes the bytes of a buffer to a memory, and empties the history. Numbers of several bytes need
        the high byte first, as numpy's ">i2" has them: TypeError for a buffer in the other order."""
        numbers = numbers_of("load", bank, address)
        raw = errors.bytes_of("load", "data", data)
        self._call("load", *numbers, raw, len(raw), numbers=numbers)

    def load_words(self, bank: int, address: int, words: Iterable[int]) -> None:
        """Writes words below 2**32, the high byte of each first, and empties the history."""
        numbers = numbers_of("load_words", bank, address)
        items = _word_array("load_words", words)
        self._call("load_words", *numbers, items, len(items), numbers=numbers)

    def memory(self, bank: int, address: int, length: int) -> bytes:
        """A copy of `length` bytes of a memory: DMEM and IMEM have 4096, RDRAM as many as the image."""
        numbers = bank, address, length = numbers_of("memory", bank, address, length, most=1 << 23)
        out = (ctypes.c_uint8 * length)()
        self._call("memory", bank, address, out, length, numbers=numbers)
        return bytes(out)

    def memory_array(self, bank: int, address: int, length: int, dtype: Any = "u1") -> Any:
        """A copy of `length` bytes of a memory as a numpy array. To change the memory, pass the changed array
        to `load`.

        The items are bytes, or of another dtype. Memories have the high byte first, so words are ">u4" and
        lanes ">u2". With [("x", ">i2"), ("y", ">i2"), ("color", ">u4")] they are structures of eight bytes,
        and `["x"]` of the array has the first lane of each. This call needs numpy.
        """
        numpy, data = numpy_for("memory_array"), bytearray(self.memory(bank, address, length))
        return numpy.frombuffer(data, dtype)

    def memory_words(self, bank: int, address: int, count: int) -> List[int]:
        """`count` words of a memory, the high byte of each first."""
        numbers = bank, address, count = numbers_of("memory_words", bank, address, count, most=1 << 21)
        out = (c_uint32 * count)()
        self._call("memory_words", bank, address, out, count, numbers=numbers)
        return out[:]

    # Savestates

    def save_state(self) -> bytes:
        """A savestate: all registers and memories as bytes, which are the same in every language."""
        length = c_size_t()
        quick.brsp_save_state(self._at, None, 0, byref(length))
        out = (ctypes.c_uint8 * length.value)()
        status = self._call_alone("save_state", lib.brsp_save_state, out, len(out), byref(length))
        self._check_done(status, "save_state")
        return bytes(out)

    def load_state(self, data: bytes) -> None:
        """Sets all registers and memories from a savestate, and empties the history. Breakpoints and watches
        stay. OUT_OF_RANGE, and nothing is changed, for bytes that aren't a savestate of a machine with an
        image of this length."""
        raw = errors.bytes_of("load_state", "data", data)
        status = self._call_alone("load_state", lib.brsp_load_state, raw, len(raw))
        if status == Status.OUT_OF_RANGE:
            why = helpers.text("brsp_savestate_refusal_text", raw, len(raw), self.image_length)
            raise RspError(Status.OUT_OF_RANGE, f"load_state: {why}")
        self._check_done(status, "load_state")

    # Where the machine continues, by tools/shapes

    def start_task(self, address: int) -> None:
        """Starts the task whose structure of 64 bytes is at an address of RDRAM, and clears halted. The
        structure and the boot code are read from the machine's own RDRAM, so this isn't for hosts that keep
        RDRAM outside. Empties the history. Refused with TASK_PLACE unless the address is a multiple of 8 and
        the 64 bytes are in the image, and otherwise with TASK_SIZE unless the boot code has 1 to 4096
        bytes."""
        self._call_with("start_task", address)

    def set_pc(self, pc: int) -> None:
        """Lets the machine continue at an address of IMEM; a halted machine stays halted. Empties the
        history. Refused with OUT_OF_RANGE unless the address is a multiple of 4 below 4096."""
        self._call_with("set_pc", pc)

    # Steps

    def step(self) -> Status:
        """Executes one instruction. Returns OK, or HALTED or RESERVED if the machine can't."""
        if self._lock.locked():
            self._check_free("step")
        status = quick.brsp_step(self._at)
        if status not in _STEP_ENDS:
            self._check_done(status, "step")
        return _STEP_ENDS[status]

    def step_changes(self) -> Optional[Changes]:
        """As `step`, but returns what the step changed, or None if the machine can't make the step."""
        out = unset(Changes)
        ended = self._call("step_changes", byref(out), ends=_STEP_ENDS)
        return None if ended else out

    def run(self, steps: int) -> Stop:
        """Makes 1 to 1000000 steps, up to the first reason to stop."""
        return stop_of(self._fill_alone("run", shapes.Stop(), steps))

    def run_to_halt(self, limit: int = 100000000) -> Stop:
        """Runs to the halt. Raises NotHalted if something else stops the run: `limit` steps, a reserved word,
        a breakpoint or a watch."""
        (limit,), steps = numbers_of("run_to_halt", limit), 0
        stop = Stop(Reason.HALT if self.peek(4) & 1 else Reason.LIMIT, 0, self.regs().pc, None)
        while stop.reason is Reason.LIMIT and steps < limit:
            stop = self.run(min(limit - steps, 1000000))
            steps += stop.steps
        word, stop = stop.word, Stop(stop.reason, steps, stop.pc, stop.watch)
        stop.word = word
        if stop.reason is not Reason.HALT:
            raise NotHalted(stop, str(self.listing(stop.pc, 1)[0]))
        return stop

    def run_until_move(self, steps: int, reads: int, writes: int) -> Stop:
        """As `run`, but also stops before an MFC0 from an SP register whose bit is set in `reads`, and before
        an MTC0 to one whose bit is set in `writes`. Bit r is for register r.

        The reason is then Reason.MOVE. It may stop there before the first step. `pass_move` steps over the
        move, and `step` executes it.
        """
        return move_stop_of(self._fill_alone("run_until_move", shapes.Move(), steps, reads, writes))

    def event(self, steps: int, reads: int = 0, writes: int = 0) -> Stop:
        """Runs to the next event, for a caller that owns RDRAM. As `run_until_move`, but also stops before
        each DMA, with Reason.DMA.

        A move or a DMA is an event only if a step is left. Stepping over it, by `pass_move`, `pass_dma` or
        `step`, takes that step.

        With the bit STATUS_WRITES in `writes` it also stops after each MTC0 to SP_STATUS, whose step it
        makes. If the machine is then halted, or the next word is reserved or has a breakpoint, that is the
        reason. Otherwise the reason is Reason.INTERRUPT if that step raised the interrupt, and Reason.STATUS
        if not. So compare `interrupt` with its value before, because the reason can hide an interrupt.
        """
        out = self._fill_alone("event", shapes.Reached(), steps, reads, writes)
        stop = move_stop_of(out.at)
        stop.dma, stop.status, stop.interrupt = dma_of(out.dma), out.status, bool(out.interrupt)
        return stop

    def trace(self, steps: int) -> Tuple[Stop, List[Traced]]:
        """As `run`, with an entry for each step that it made."""
        (steps,) = numbers_of("trace", steps, most=1000000)
        out, stop = (Traced * steps)(), shapes.Stop()
        status = self._call_alone("trace", lib.brsp_trace, out, steps, byref(stop))
        self._check_done(status, "trace", [steps])
        return stop_of(stop), out[: stop.steps]

    def iter_trace(self, limit: int = 1000000) -> "Iterator[Traced]":
        """The entries of a trace one by one, up to a stop or `limit` steps. The machine may be up to 1024
        steps ahead of the entry."""
        (limit,) = numbers_of("iter_trace", limit)
        while limit:
            stop, entries = self.trace(min(limit, 1024))
            yield from entries
            limit = limit - len(entries) if stop.reason == Reason.LIMIT else 0

    def pass_move(self, value: int = 0) -> Status:
        """Steps over the MFC0 or MTC0 at pc without executing it; register rt of an MFC0 becomes the value.
        Empties the history.

        Returns OK, or HALTED if the machine is halted. Refused if another word is at pc.
        """
        numbers = numbers_of("pass_move", value)
        return Status(self._call("pass_move", *numbers, numbers=numbers, ends=_HALTED))

    def pass_dma(self) -> Status:
        """Steps over the DMA at pc, whose bytes the caller then moves. Everything is as after a step, SP
        registers included, except that the memories stay unchanged. Empties the history.

        Returns OK, or HALTED if the machine is halted. Refused if the word at pc starts no DMA.
        """
        return Status(self._call("pass_dma", ends=_HALTED))

    # Steps, by tools/shapes

    def back(self, states: int) -> None:
        """Undoes `states` steps. Refused with OUT_OF_RANGE unless `states` is 1 to 1000000, and otherwise
        with SHORT_HISTORY if the history holds fewer states."""
        self._call_with("back", states)

    def history(self) -> int:
        """Gives the number of steps that can be undone, which is the number of states in the history."""
        return self._fill("history", c_size_t()).value

    # Breakpoints, by tools/shapes

    def add_break(self, address: int) -> None:
        """Adds a breakpoint. A run stops when a step comes to it, so not at once if the run begins there.
        Refused with OUT_OF_RANGE unless the address is a multiple of 4 below 4096, otherwise with
        BREAK_TWICE if the address has a breakpoint, and otherwise with BREAK_FULL if sixteen addresses have
        one."""
        self._call_with("add_break", address)

    def drop_break(self, address: int) -> None:
        """Removes a breakpoint. Refused with OUT_OF_RANGE unless the address is a multiple of 4 below 4096,
        and otherwise with NO_BREAK if it has no breakpoint."""
        self._call_with("drop_break", address)

    def add_watch(self, address: int, length: int) -> int:
        """Watches 1 to 64 bytes inside DMEM, and gives the watch the lowest free number, 0 to 7. Refused
        with OUT_OF_RANGE for other bytes, and otherwise with WATCH_FULL if there are eight watches."""
        return self._fill("add_watch", c_size_t(), address, length).value

    def drop_watch(self, number: int) -> None:
        """Removes a watch. Refused with NO_WATCH if no watch has this number."""
        self._call_with("drop_watch", number)

    # Parts of the state, by tools/shapes

    def reg(self, number: int) -> int:
        """The scalar register `number`. Refused with OUT_OF_RANGE unless `number` is below 32."""
        return self._word("reg", number)

    def regs(self) -> Scalars:
        """All scalar registers, with pc and npc."""
        return self._fill("regs", unset(Scalars))

    def acc(self) -> Accumulators:
        """The accumulators."""
        return self._fill("acc", unset(Accumulators))

    def flags(self) -> Flags:
        """VCO, VCC and VCE."""
        return self._fill("flags", unset(Flags))

    def divider(self) -> Divider:
        """DIV_IN, DIV_OUT, and whether DIV_IN is loaded."""
        return self._fill("divider", unset(Divider))

    # Parts of the state

    def vreg(self, number: int) -> List[int]:
        """The eight lanes of vector register `number`, 0 to 31."""
        return list(self._fill("vreg", shapes.Lanes(), number).lanes)

    def set_reg(self, number: int, value: int) -> None:
        """Sets scalar register `number`, 0 to 31, to a value below 2**32, and empties the history. Register 0
        takes only 0."""
        numbers = number, value = numbers_of("set_reg", number, value)
        if number > 31 or value and not number:
            check(Status.OUT_OF_RANGE, "set_reg", numbers)
        self._change("set_reg", lambda state: operator.setitem(state.words, number, value))

    def set_vreg(self, number: int, lanes: Iterable[int]) -> None:
        """Sets the eight lanes of vector register `number`, 0 to 31, to numbers below 65536, and empties the
        history. Raises ValueError for other lanes."""
        numbers = (number,) = numbers_of("set_vreg", number)
        if number > 31:
            check(Status.OUT_OF_RANGE, "set_vreg", numbers)
        items = fields.taken(f"vectors[{number}]", fields.Lanes, lanes)
        self._change("set_vreg", lambda state: _set_item(state.vectors, number, items))

    def _change(self, call: str, change: Callable[[Any], object]) -> None:
        """Changes the state. No other call comes in between."""
        state = unset(State)
        to = byref(state)

        def _get_and_set(at: Any) -> int:
            status: int = quick.brsp_get(at, to)
            change(state)
            return status or int(quick.brsp_set(at, to))

        self._check_done(self._call_alone(call, _get_and_set), call)

    # SP registers, by tools/shapes

    def read(self, number: int) -> int:
        """Reads the SP register `number`, modulo 16, as the CPU does. A read of the semaphore, 7, takes it
        and empties the history."""
        return self._word("read", number)

    def peek(self, number: int) -> int:
        """Gives the word that `read` of the SP register `number`, modulo 16, would give, and changes
        nothing."""
        return self._word("peek", number)

    def write(self, number: int, value: int) -> None:
        """Writes the SP register `number`, modulo 16, as the CPU does, with its DMA if it is a length
        register. Empties the history."""
        self._call_with("write", number, value)

    def sp(self) -> SpWords:
        """Gives all SP registers and the interrupt flag, and changes nothing."""
        return self._fill("sp", unset(SpWords))

    # SP registers

    def write_dma(self, number: int, value: int) -> Optional[Dma]:
        """Writes SP register `number` as `write` does, but moves no byte. Returns the DMA that the write
        starts, whose bytes the caller then moves, or None."""
        return dma_of(self._fill("write_dma", shapes.Dma(), number, value))

    def set_sp(self, given: SpWords) -> None:
        """Sets all SP registers and the interrupt flag, without a DMA, and empties the history."""
        if not isinstance(given, SpWords):
            raise TypeError(f"set_sp: given is of type {type(given).__name__}, not rsp.SpWords")
        self._call("set_sp", byref(given))

    # Words of IMEM with their disassembly

    def listing(self, address: int, count: int) -> List[Line]:
        """At most 1024 words of IMEM from an address on, a multiple of 4, with their disassembly.

        The machine ignores bits 10 to 25 of a jump, but no jump in source text sets them. So the text of such
        a word is a `.word`.
        """
        numbers = address, count = numbers_of("listing", address, count, most=1024)
        lines = (shapes.Line * count)()
        self._call("listing", address, lines, count, numbers=numbers)
        return [Line(line.address, line.word, line.text.decode()) for line in lines]
