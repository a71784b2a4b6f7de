"""The commands of GDB's `monitor`.

GDB sends no Ctrl-C while it waits for a reply, and a long wait disconnects it. So a command that takes long
is a job, which runs for half a second at a time: gdb_side.py asks for the next half, and can end the job.
"""

import math
import threading
import time
from contextlib import contextmanager, suppress
from typing import Any, Callable, Dict, Generator, Iterator, List, Optional, Sequence, Tuple, Union

import rsp
import rsp.checks
import rsp.waits
from rsp.dmas import carriers
from rsp.executed import direction, nothing, text_of
from rsp.gdb_overlays import Overlay, loaded, owner
from rsp.script import number
from rsp.writes import byte_of, place

SLICE = 0.5  # how many seconds of a job a packet may take
LONGEST = 600  # how many seconds a job may take altogether
_NOT_LOOKED_AT = "not looked at: transfers that were ordered before this step, or by the CPU; other data"
_ENDS = {rsp.Status.HALTED: "to the halt", rsp.Status.RESERVED: "to a reserved word"}
_AGAIN = "; the same command continues"
HELP = """\
monitor when           the number of the present step
monitor goto STEP      goes to a step
monitor counts [STEP]  how often each instruction was executed, from a step to the present one
monitor wrote NAME     goes back to the last change of a register or lane: $r8, $t0, $v18[3], $acc, $vco;
                       or of a byte: 0x80030002 in RDRAM, 0x04000010 in DMEM
monitor waits          the waits for a DMA that are missing from here to the halt, or in 1000000 steps
monitor checks         branches in delay slots, and addresses and lengths of DMAs whose low bits are dropped,
                       from here to the halt, or in 1000000 steps
monitor why            why the last breakpoint or watch was refused
monitor why NAME       what gave a value in the last step, or in the step that `wrote` found: $v3.2, $s1,
                       acc.2, carry.0, dmem.010, by the definitions
These are as in a script for `rsp run`:
monitor task ADDR | pc ADDR | load BANK ADDR HEX | write N VALUE | read N
monitor regs | vregs | acc | flags | sp | mem BANK ADDR LEN | dis ADDR N
"""
Job = Generator[str, Optional[bool], str]  # yields where it is, gets whether it has to end, returns the reply


def _bank(text: str) -> rsp.Bank:
    """A memory by its name."""
    if text.upper() not in rsp.Bank.__members__:
        raise ValueError("BANK is dmem, imem or rdram")
    return rsp.Bank[text.upper()]


def _memory_lines(machine: rsp.Machine, bank: str, start: str, length: str) -> str:
    """The reply to `mem`."""
    at, most = number(start), number(length)
    if not 0 < most <= 4096:
        raise ValueError("LEN is 1 to 4096")
    raw = machine.memory(_bank(bank), at, most)
    return "\n".join(f"{at + n:06x}: {raw[n : n + 16].hex()}" for n in range(0, most, 16))


def _why(machine: rsp.Machine, pc: int, name: str) -> str:
    """Why a value is what it is after a step, or why that can't be said. A byte may have GDB's address."""
    with suppress(ValueError):
        bank, address = place(int(name, 16))
        name = f"{bank.name.lower()}.{address:x}" if name.startswith("0x") else name
    try:
        word = int.from_bytes(machine.memory(rsp.IMEM, pc, 4), "big")
        return str(rsp.why(machine, word, name))
    except (ValueError, ImportError) as fault:
        return f"fault: {fault}"


class Monitor:
    """Carries out commands on a timeline. `changed` is called after a change of the machine, `told` returns
    what else the user should know, and `refusal` why a breakpoint was refused last.

    A sentence about an instruction of one of the `overlays` ends in the overlay's ELF, in parentheses.
    """

    def __init__(
        self,
        line: rsp.Timeline,
        changed: Callable[[], None],
        told: Callable[[], str],
        refusal: Callable[[], str],
        overlays: Sequence[Overlay] = (),
    ) -> None:
        self.line, self._changed, self._told, self._refusal = line, changed, told, refusal
        self._overlays = overlays
        self._job: Optional[Job] = None
        self._end, self._last, self._cut, self._is_first = math.inf, math.inf, False, True
        self._writing: Optional[int] = None  # the step that `wrote` has found

    def begin(self, name: str, *operands: str) -> Tuple[bool, str]:
        """Whether a command is done, and its reply, or where it is."""
        self._job, commands = None, self._commands()
        if name not in commands:
            return True, HELP if name == "help" else f"fault: {name[:80]} isn't a command\n{HELP}"
        try:
            made = commands[name](*operands)
        except TypeError:  # too many operands, or too few
            return True, f"fault: {name} has other operands\n{HELP}"
        except (rsp.RspError, ValueError) as fault:
            return True, f"fault: {fault}\n"
        if not isinstance(made, Generator):
            return True, f"{made}\n{self._told()}"
        self._job, self._last = made, time.monotonic() + LONGEST
        return self.more()

    def more(self, ends: bool = False) -> Tuple[bool, str]:
        """As `begin`, for a command that isn't done yet. With `ends` it has to end where it is."""
        if not self._job:
            return True, ""
        try:
            with self._slice():
                return False, self._job.send(True if ends or time.monotonic() > self._last else None)
        except StopIteration as done:
            reply = f"{done.value}\n{self._told()}"
        except (rsp.RspError, ValueError) as fault:
            reply = f"fault: {fault}\n"
        self._job = None
        return True, reply

    @contextmanager
    def _slice(self) -> Iterator[None]:
        """Gives a job half a second. No later packet has this limit, also if the command is refused."""
        before, self._end = self.line.is_interrupted, time.monotonic() + SLICE
        self._cut, self._is_first = False, True
        self.line.is_interrupted = self._is_over
        try:
            yield
        finally:
            self.line.is_interrupted = before

    def _is_over(self) -> bool:
        """Whether the half second is over. It never is at first, so that each one makes some progress."""
        self._cut, self._is_first = not self._is_first and time.monotonic() > self._end, False
        return self._cut

    def _goto(self, goal: int) -> Job:
        at = self.line.goto(goal)
        while self._cut and at != goal:
            if (yield f"step {at}, on the way to {goal}"):
                return f"step {at}, ended on the way to {goal}{_AGAIN}"
            at = self.line.goto(goal)
        return f"step {at}{', the last one' * (at < goal)}"

    def _wrote(self, name: str) -> Job:
        byte = byte_of(name, self.line.machine.image_length)
        if byte:
            return self._wrote_byte(*byte)
        return self._went(lambda: self.line.wrote(name), name)

    def _wrote_byte(self, bank: rsp.Bank, address: int) -> Job:
        """Goes back to the DMA that wrote a byte of RDRAM, and to the step that made the byte it took. The
        DMA may be the next step, because `reverse-continue` stops there at a watch."""
        told, step = "", self.line.step
        if bank is rsp.RDRAM:
            dma = next(carriers(self.line.copy_at(step), step, step + 1, address), None)
            if not dma:
                found, told = yield from self._search(
                    lambda: self.line.last_dma(address),
                    f"no DMA from %s to %s has written RDRAM {address:06x}",
                )
                dma = found.dma
            if not dma:
                return told
            bank, address = dma.bank, dma.address
            told = f"{self._here()}, which took the byte from {bank.name} {address:03x}\n"
        change = yield from self._went(
            lambda: self.line.last_change(bank, address), f"{bank.name} {address:03x}"
        )
        return told + change

    def _went(self, search: Callable[[], rsp.Found], name: str) -> Job:
        """Where a search has gone to."""
        found, told = yield from self._search(search, f"no step from %s to %s has changed {name}")
        self._writing = None if told else found.step
        return told or self._here()

    def _search(
        self, search: Callable[[], rsp.Found], without: str
    ) -> Generator[str, Optional[bool], Tuple[rsp.Found, str]]:
        """Searches backwards, and is then before the step that was found, as GDB is at a watched store. What
        there is to say instead if nothing was found: then it is where it was."""
        start, found = self.line.step, search()
        while found.reason is rsp.Reason.LIMIT and self._cut and found.step:
            if (yield f"step {found.step}, on the way back"):
                return found, f"step {found.step}, ended on the way back{_AGAIN}"
            found = search()
        if found.reason is rsp.Reason.WATCH:
            return found, ""
        while self.line.goto(start) != start:
            yield f"step {self.line.step}, on the way to {start} again"
        return found, without % (found.step, start)

    def _here(self) -> str:
        (row,) = self.line.machine.listing(self.line.machine.regs().pc, 1)
        there = loaded(self._overlays, self.line.machine.memory(rsp.IMEM, 0, 4096))
        return f"step {self.line.step}: {row}{owner(there, row.address)}"

    def _counts(self, first: str = "0") -> Job:
        least, found, end = number(first), nothing(), ""
        for found in self.line.executed(least):
            if self._is_over() and (yield f"{sum(found.steps.values())} steps counted"):
                end = f"\nended: this counts {sum(found.steps.values())} of the steps from {least} on"
                break
        words = self.line.machine.memory_words(rsp.IMEM, 0, 1024)
        rows = []
        for (at, word), count in sorted(found.steps.items()):
            other = "" if words[at // 4] == word else "  (another word is there)"
            it = f"{text_of(word, at)}{direction(found, (at, word))}{other}"
            rows.append(f"{count:9} {at:03x} {it}{owner(self._overlays, at, word)}")
        return "\n".join(rows) + end

    def _waits(self) -> Job:
        """Which waits are missing, and where this has looked."""
        return self._listed(lambda it: rsp.waits.search(it, at_end=True), "none is missing", _NOT_LOOKED_AT)

    def _checks(self) -> Job:
        """Which branches are in delay slots, and which DMAs drop bits."""
        return self._listed(rsp.checks.search, "nothing found", "not looked at: other data")

    def _listed(self, search: Callable[[rsp.Machine], Iterator[Any]], none: str, without: str) -> Job:
        """What a search on a copy finds, each cause once, and where it has looked."""
        machine, found, steps = (self.line.machine.copy(), {}, 0)  # type: rsp.Machine, Dict[Any, str], int
        if machine.peek(4) & 1:
            return "the machine is halted, so nothing follows: `monitor goto 0` goes to the first step"
        end = ""
        for it in search(machine):
            if not isinstance(it, int):
                code = it.code if isinstance(it, rsp.waits.Missing) else machine.memory(rsp.IMEM, 0, 4096)
                elf = owner(loaded(self._overlays, code), it.place)
                found.setdefault((it.cause, elf), f"{it}{elf}")
                continue
            steps = it
            if self._is_over() and (yield f"{steps} steps looked at, {len(found)} found"):
                end = f"in {steps} steps: then it was ended"
                break
        end = end or _ENDS.get(machine.step(), f"in {steps} steps, without a halt")
        looked = f"looked at: what this data does from here on, {end}"
        return "\n".join([*(found.values() or [none]), looked, without])

    def _explained(self, name: str = "") -> Union[str, Job]:
        """Why the last breakpoint was refused, or why a value is what it is after the last step, or after the
        step that `wrote` has found."""
        return self._explanation(name) if name else self._refusal()

    def _explanation(self, name: str) -> Job:
        step = self.line.step
        if step != self._writing and not step:
            raise ValueError("no step was made: `monitor why` explains the last one")
        before = self.line.copy_at(step if step == self._writing else step - 1)
        pc = before.regs().pc
        found: List[str] = []
        thread = threading.Thread(target=lambda: found.append(_why(before, pc, name)), daemon=True)
        thread.start()
        thread.join(SLICE)
        while thread.is_alive():
            if (yield "computing"):
                return "ended"
            thread.join(SLICE)
        return "".join(found)

    def _change(self, call: Callable[..., None], *operands: Any) -> str:
        """Makes a call that changes the machine."""
        call(*operands)
        self._changed()
        return "ok"

    def _read(self, n: str) -> str:
        word = self.line.machine.read(number(n))
        if number(n) == 7:  # the semaphore, which a read takes
            self._changed()
        return f"c{n} {word:08x}"

    def _commands(self) -> Dict[str, Callable[..., Any]]:
        """A function of the operands for each command, which returns the reply, or the job that makes it."""
        machine, state = self.line.machine, self.line.machine.get()
        return {
            "when": lambda: f"step {self.line.step}",
            "goto": lambda step: self._goto(number(step)),
            "counts": self._counts,
            "wrote": self._wrote,
            "waits": self._waits,
            "checks": self._checks,
            "why": self._explained,
            "task": lambda at: self._change(machine.start_task, number(at)),
            "pc": lambda at: self._change(machine.set_pc, number(at)),
            "load": lambda bank, at, data: self._change(
                machine.load, _bank(bank), number(at), bytes.fromhex(data)
            ),
            "write": lambda n, value: self._change(machine.write, number(n), number(value)),
            "read": self._read,
            "regs": machine.regs,
            "vregs": lambda: "\n".join(str(state).split("\n")[9:41]),  # after pc and the scalar registers
            "acc": lambda: state.accumulators,
            "flags": lambda: f"{state.flags} {state.divider}",
            "sp": lambda: "".join(f"c{n} {word:08x}\n" for n, word in enumerate(state.sp))
            + f"interrupt {state.interrupt}",
            "mem": lambda bank, start, length: _memory_lines(machine, bank, start, length),
            "dis": lambda at, count: "\n".join(map(str, machine.listing(number(at), number(count)))),
        }
