"""A machine that goes to any of its steps, forwards and backwards, also across DMAs."""

import collections
import ctypes
import operator
from bisect import bisect
from contextlib import contextmanager, suppress
from functools import partial
from typing import Callable, Counter, Iterator, List, NamedTuple, Optional, Set, Tuple, Union

from .dmas import Carried, DmaWatch, carriers, run_until_dma
from .errors import RspError, check_type
from .executed import Executed, nothing
from .machine import DMEM, IMEM, RDRAM, Machine
from .shapes import Bank, Reason
from .state import State
from .stops import Stop
from .writes import Register, byte_of

_PIECE = 1 << 16  # RDRAM is kept in pieces, which marks share as long as they are equal
_KEPT = 40 << 20  # the most bytes of RDRAM that marks keep, so that a process stays below 100 MB
_RUN = 1000000  # the most steps of a run
_DMAS = 10000  # and the most DMAs that write watched bytes, so that Ctrl-C ends it soon
_TRACED = 1 << 16  # and of a trace, whose entries are then 2 MiB
_HISTORY = 256  # steps that the machine undoes by itself; more would not fit into the cache of the processor

Watch = Tuple[int, int]


class _FoundParts(NamedTuple):
    reason: Reason
    step: int
    watch: Union[Watch, DmaWatch, None] = None


class Found(_FoundParts):
    """Where a search ended: the `reason`, the number of the `step`, and after Reason.WATCH the `watch` whose
    bytes the step before it has changed.

    The reason is LIMIT if nothing was found, or if the search was interrupted: `step` is where it was then.
    One more attribute isn't an item of the tuple: `dma`, the DMA that wrote a byte of RDRAM, or None.
    """

    dma: Optional[Carried] = None


class _Mark(NamedTuple):
    """All of a machine before a step. `changed` says that the caller has changed it there."""

    step: int
    state: State
    dmem: bytes
    imem: bytes
    rdram: Tuple[bytes, ...]
    changed: bool


class Timeline:
    """A copy of a machine that can go to any of its steps. `step` is the number of steps up to the present
    one, `machine` is the machine there, and `last` is the last step that was reached.

    A machine is deterministic, so a step can be reached again from a mark before it. Marks are copies of all
    registers and memories, one for each `gap` steps. If there are more than `most`, or if they keep more than
    40 MiB of RDRAM, every second one is dropped, and the gap is doubled. Those of your changes stay. So any
    step can be undone, also a DMA, and what you have changed.

    `machine` may be looked at as you like. After a change by its other calls, such as `load`, call `changed`.
    `breaks` holds up to sixteen addresses of IMEM, and `watches` up to eight ranges of DMEM: pairs of an
    address and a length of up to 64 bytes. `dma_watches` holds ranges of IMEM and RDRAM, which only DMAs
    change: a bank, an address and a length. All may be changed at any time. `goto`, `run_to` and `back` ask
    `is_interrupted` after at most a million steps each time, and end where they are if it returns true.
    """

    def __init__(self, machine: Machine, gap: int = 1 << 21, most: int = 32) -> None:
        check_type("Timeline", "machine", machine, Machine)
        self._gap, self._most = operator.index(gap), operator.index(most)
        self.machine = Machine(machine.memory(RDRAM, 0, machine.image_length), _HISTORY)
        for bank in DMEM, IMEM:
            self.machine.load(bank, 0, machine.memory(bank, 0, 4096))
        self.machine.set(machine.get())
        self.step = 0
        self.breaks: Set[int] = set()
        self.watches: Set[Watch] = set()
        self.dma_watches: Set[DmaWatch] = set()
        self._ranges: List[DmaWatch] = []  # those of `dma_watches` while a search may stop at them
        self.is_interrupted: Callable[[], bool] = lambda: False
        self._marks: List[_Mark] = []
        self._rdram: Tuple[bytes, ...] = ()
        self._searched, self._window = -1, 4096  # where the last search came to, and its next window
        self.changed()

    def changed(self) -> None:
        """Makes your changes of the machine part of the timeline. What came after them is forgotten."""
        self._marks = [it for it in self._marks if it.step < self.step]
        self.last = self.step
        self._rdram_moved = True  # RDRAM may differ from _rdram
        self._mark(True)

    def goto(self, step: int) -> int:
        """Goes to a step, whatever breakpoints and watches there are, and returns the number of the step at
        which it arrives: another one if the machine halts before, or meets a reserved word, or if this is
        interrupted."""
        return self._goto(step, self.is_interrupted)

    def _goto(self, step: int, is_interrupted: Callable[[], bool] = lambda: False) -> int:
        step = max(step, 0)
        if 0 <= self.step - step <= self.machine.history():
            if step < self.step:
                self.machine.back(self.step - step)
            self.step = step
        else:
            mark = self._marks[max(self._after(step) - 1, 0)]
            if step < self.step or self.step < mark.step:
                self._restore(mark)
            while self.step < step and not is_interrupted():
                if self._advance(step - self.step).reason in (Reason.HALT, Reason.RESERVED):
                    break
        return self.step

    def run_to(self, step: int) -> Found:
        """Runs forwards to the first reason to stop, at most to this step. A breakpoint at the present place
        doesn't count."""
        with self._armed():
            while self.step < step and not self.is_interrupted():
                found = self._advance(step - self.step)
                if found.reason is not Reason.LIMIT:
                    return found
        return Found(Reason.LIMIT, self.step)

    def back(self, least: int = 0) -> Found:
        """Goes back to the last breakpoint or watched change, or to the step `least`. The change may be that
        of the step just made, so to find the one before it, first go back by a step.

        What is between two marks is run again in windows, the last one first.
        """
        start, least = self.step, max(0, min(least, self.step))
        found = Found(Reason.LIMIT, least)
        for begin, end in self._windows(least) if self.breaks or self.watches or self.dma_watches else ():
            if self.goto(begin) != begin:
                return Found(Reason.LIMIT, self.step)
            with self._armed():
                while self.step < end:
                    if self.is_interrupted():
                        return Found(Reason.LIMIT, self.step)
                    here = self._advance(end - self.step)
                    if self.step < start and self._is_at_break():
                        found = Found(Reason.BREAK, self.step)
                    elif here.reason is Reason.WATCH:
                        found = here
                    elif here.reason in (Reason.HALT, Reason.RESERVED):
                        break  # only if the machine was changed without a call of `changed`
            if found.reason is not Reason.LIMIT:
                break
        return found if self.goto(found.step) == found.step else Found(Reason.LIMIT, self.step)

    def wrote(self, register: str, least: int = 0) -> Found:
        """Goes back to the last step that changed a register, so that pc is at its instruction, with
        Reason.WATCH. Names are `$r8`, `$8` or `$t0`, `$v18`, `$v18[3]`, `$acc`, `$acc[3]`, `$vco`, `$vcc`,
        `$vce`, `$vcc[3]`, `$div_in`, `$div_out` and `$div_loaded`; others raise ValueError. A byte's name is
        its address for the CPU: `0x04000010` is in DMEM, `0x04001010` in IMEM, and `0x80030002` in RDRAM. For
        a byte of RDRAM this goes to the last DMA that wrote it, which is then `dma`, and on to the step that
        changed the byte in DMEM before; if there is none it stays at the DMA.

        The reason is LIMIT if no step from the one where this ends has changed it: that is `least`, or where
        you did, or as far as this came before it was interrupted, for which it asks at each mark.
        """
        check_type("wrote", "register", register, str)
        byte = byte_of(register, self.machine.image_length)
        if byte:
            return self._wrote_byte(*byte, least)
        sought, found = Register(register, self.machine), Found(Reason.LIMIT, self.step)
        for begin, end in self._windows(least):
            copy, found = self._copy_at(begin), Found(Reason.LIMIT, begin)
            for at in range(begin, end, _TRACED):
                other = sought.last_other(copy, min(_TRACED, end - at), partial(self._copy_at, at))
                if other is not None:
                    found = Found(Reason.WATCH if at + other < end else Reason.LIMIT, at + other)
            if found.step > begin or found.reason is Reason.WATCH or self.is_interrupted():
                break
        self._goto(found.step)
        return found

    def _wrote_byte(self, bank: Bank, address: int, least: int) -> Found:
        if bank is not RDRAM:
            return self.last_change(bank, address, least)
        found = self.last_dma(address, least)
        if found.dma:
            change = self.last_change(found.dma.bank, found.dma.address, least)
            if change.reason is Reason.LIMIT and not self.is_interrupted():
                change = Found(Reason.LIMIT, self._goto(found.step))
            change.dma, found = found.dma, change
        return found

    def last_dma(self, address: int, least: int = 0) -> Found:
        """Goes back to the last DMA that wrote a byte of RDRAM, so that pc is at its MTC0, with `dma`. If
        there is none, it ends as `wrote` does."""
        last, here = None, self.step
        for here, end in self._windows(least):
            *_, last = [None, *carriers(self._copy_at(here), here, end, address)]
            if last or self.is_interrupted():
                break
        if last:
            found = Found(Reason.WATCH, last.step, DmaWatch(RDRAM, address, 1))
            found.dma = last
        else:
            found = Found(Reason.LIMIT, here)
        self._goto(found.step)
        return found

    def last_change(self, bank: Bank, address: int, least: int = 0) -> Found:
        """Goes back to the last step that changed a byte of DMEM or IMEM, so that pc is at its instruction.
        If there is none, it ends as `wrote` does."""
        kept = self.breaks, self.watches, self.dma_watches
        of_dmem, byte = bank is DMEM, DmaWatch(bank, address, 1)
        self.breaks, self.watches = set(), {(address, 1)} if of_dmem else set()
        self.dma_watches = set() if of_dmem else {byte}
        try:
            found = self.back(least)
        finally:
            self.breaks, self.watches, self.dma_watches = kept
        if found.reason is Reason.WATCH:
            found = Found(Reason.WATCH, self._goto(found.step - 1), found.watch)
        return found

    def counts(self, least: int = 0) -> Counter[int]:
        """How often the instruction at each address was executed from the step `least` to the present one."""
        counted, executed = collections.Counter(), nothing()  # type: Counter[int], Executed
        for executed in self.executed(least):
            pass
        for (place, _), count in executed.steps.items():
            counted[place] += count
        return counted

    def executed(self, least: int = 0) -> Iterator[Executed]:
        """As `counts`, but for each address and word, because a DMA may bring others, and with the directions
        of branches. Yields the same counts again and again, as they grow."""
        here, found = self.step, nothing()
        for begin, end in self._windows(least):
            copy = self._copy_at(begin)
            self._goto(here)
            while begin < end:
                begin += found.add(copy, end - begin) or end
                yield found

    def copy_at(self, step: int) -> Machine:
        """A copy of the machine at a step up to the present one. The timeline stays where it is."""
        here = self.step
        copy = self._copy_at(step)
        self._goto(here)
        return copy

    def _copy_at(self, step: int) -> Machine:
        self._goto(step)
        return self.machine.copy()

    def _windows(self, least: int) -> Iterator[Tuple[int, int]]:
        """The steps from `least` to the present one in windows between marks, the last window first. Windows
        grow, also from one search to the next one if that continues it, because each costs a run from a mark.
        """
        end = self.step
        window = self._window if end == self._searched else 4096
        while end > max(0, least):
            mark = self._marks[self._after(end - 1) - 1]
            begin, window = max(mark.step, least, end - window), 64 * window
            self._searched, self._window = begin, window
            yield begin, end
            end = begin

    def _after(self, step: int) -> int:
        """The number of marks up to a step."""
        return bisect([it.step for it in self._marks], step)

    def _is_at_break(self) -> bool:
        return bool(self.breaks) and self.machine.regs().pc in self.breaks

    def _mark(self, changed: bool) -> None:
        if self._rdram_moved:
            self._rdram, self._rdram_moved = tuple(self._pieces()), False
        dmem, imem = (self.machine.memory(it, 0, 4096) for it in (DMEM, IMEM))
        self._marks.append(_Mark(self.step, self.machine.get(), dmem, imem, self._rdram, changed))
        while len(self._marks) > self._most or self._kept() > _KEPT:
            kept = [it for n, it in enumerate(self._marks) if it.changed or n % 2 == 0]
            if len(kept) == len(self._marks):
                break
            self._marks, self._gap = kept, 2 * self._gap

    def _pieces(self) -> Iterator[bytes]:
        """RDRAM in pieces, of which those that haven't changed are the last mark's."""
        length, room = self.machine.image_length, bytearray(_PIECE)
        to = (ctypes.c_uint8 * _PIECE).from_buffer(room)
        for n, at in enumerate(range(0, length, _PIECE)):
            size = min(_PIECE, length - at)
            self.machine._call("memory", RDRAM, at, to, size)
            new = room if size == _PIECE else room[:size]
            yield self._rdram[n] if self._rdram and self._rdram[n] == new else bytes(new)

    def _kept(self) -> int:
        """How many bytes of RDRAM the marks keep, at most."""
        return _PIECE * len({id(piece) for mark in self._marks for piece in mark.rdram})

    def _restore(self, mark: _Mark) -> None:
        for n, piece in enumerate(mark.rdram):
            if self._rdram_moved or self._rdram[n] is not piece:
                self.machine.load(RDRAM, n * _PIECE, piece)
        self._rdram, self._rdram_moved = mark.rdram, False
        self.machine.load(DMEM, 0, mark.dmem)
        self.machine.load(IMEM, 0, mark.imem)
        self.machine.set(mark.state)
        self.step = mark.step

    @contextmanager
    def _armed(self) -> Iterator[None]:
        """The machine has breakpoints and watches only while a search may stop at them."""
        numbers: List[int] = []
        try:
            self._ranges = [*self.dma_watches]
            for place in self.breaks:
                self.machine.add_break(place)
            numbers += [self.machine.add_watch(*it) for it in self.watches]
            yield
        finally:
            self._ranges = []
            for place in self.breaks:
                with suppress(RspError):  # if it couldn't be set
                    self.machine.drop_break(place)
            for number in numbers:
                self.machine.drop_watch(number)

    def _advance(self, steps: int) -> Found:
        """Makes at most this many steps, up to a reason to stop, or a change of the caller's. Leaves a mark
        where one is due."""
        after = self._after(self.step)
        is_last = after == len(self._marks)
        end = self._marks[-1].step + self._gap if is_last else self._marks[after].step
        most = min(steps, max(end - self.step, 1), _RUN)
        before = self.machine.memory(DMEM, 0, 4096)
        reason, made, watch = self._run(most)
        self.step += made
        self.last = max(self.last, self.step)
        if self.watches and made and reason in (Reason.WATCH, Reason.HALT, Reason.RESERVED):
            # A halt or a reserved word after a watched change is reported in its place.
            now = self.machine.memory(DMEM, 0, 4096)
            ranges = ((at, length, slice(at, at + length)) for at, length in sorted(self.watches))
            watch = next(((at, length) for at, length, it in ranges if before[it] != now[it]), watch)
        reason = Reason.WATCH if watch else reason
        if self.step >= end and is_last:
            self._mark(False)
        elif self.step == end and self._marks[after].changed:
            self._restore(self._marks[after])
            if not watch:
                reason = Reason.BREAK if self._is_at_break() else Reason.LIMIT
        return Found(reason, self.step, watch)

    def _run(self, steps: int) -> Tuple[Reason, int, Union[Watch, DmaWatch, None]]:
        """Runs as `_advance` does: the reason, how many steps it made, and which of `dma_watches` the last
        one has changed, if a search may stop there. Only DMAs change IMEM and RDRAM, so this stops before
        those that may."""
        made = 0
        for _ in range(_DMAS):
            ranges = [*self._ranges]
            if not self._rdram_moved:
                ranges.append(DmaWatch(RDRAM, 0, self.machine.image_length))
            stop = run_until_dma(self.machine, steps - made, ranges)
            made += stop.steps
            if not stop.dma:
                return stop.reason, made, None
            self._rdram_moved = self._rdram_moved or stop.dma.to_rdram
            last, watch = self._dma()
            made += last.steps
            if watch or last.reason is not Reason.LIMIT or made == steps:
                return last.reason, made, watch
        return Reason.LIMIT, made, None

    def _dma(self) -> Tuple[Stop, Optional[DmaWatch]]:
        """Makes the step of a DMA: its stop, and the shortest watch that it has changed."""
        before = [(it, self.machine.memory(*it)) for it in self._ranges]
        last = self.machine.run(1)
        changed = [it for it, old in before if self.machine.memory(*it) != old]
        return last, min(changed, key=lambda it: it[2]) if changed else None
