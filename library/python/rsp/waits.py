"""Finds missing waits for a DMA, and waits that change something if they repeat.

The machine finishes each DMA at once, so a program that forgets to wait runs well here, and fails on a
console.

    import rsp.waits

    with rsp.Machine(image) as machine:
        machine.start_task(0x100)
        for missing in rsp.waits.causes(machine):
            print(missing)

The rules are our own:

- A transfer is under way from the MTC0 that orders it, until a read of SP_DMA_BUSY, SP_DMA_FULL or SP_STATUS
  shows that it is done.
- At such a read a console may answer that all transfers are done, that the last one is under way, or that the
  last two are. The machine continues with the first answer. For each other answer a copy of the machine
  continues, and gets the same answer at all its reads. Once the copy has taken another way than the machine,
  it counts as waiting as soon as it reads again at an address where it has read before. A copy that doesn't
  is followed for AHEAD steps. A load between a read and the branch at which the two ways part doesn't count,
  because the program tests the answer there, and loads again.
- A copy that waits then gets the answer that all is done, and must come to the instruction at which the
  machine leaves the wait with the same registers and the same DMEM: a wait that repeats changes nothing.
- While a transfer is under way, no instruction may load a byte that it brings, store a byte that it brings or
  takes, or be fetched from what it brings.
- One more transfer may be ordered while one is under way, because a console has a second set of DMA registers
  for it, and programs that read ahead do so. While two are under way, nothing may write SP registers 0 to 3.
  After a third one the first is forgotten.

Transfers that the CPU orders are left out, and so are waits that give up after some rounds. A transfer that
is under way when the program ends is reported only if you ask for that, because the CPU may wait for it.
"""

from typing import Iterator, List, Mapping, NamedTuple, Optional, Sequence, Set, Tuple, Union

from . import DMEM, IMEM, Move, Reason, Machine, Status
from . import errors as _errors
from .helpers import quadwords

__all__ = ["AHEAD", "Missing", "Transfer", "causes", "missing", "search"]

AHEAD = 10000  # steps after an answer that isn't the machine's
READS, ORDERS, _WRITES = 0b1110000, 0b1100, 0b1111  # of SP registers, as masks
_STATUS, _FULL = 4, 5
_COP0 = 16
_STORES = frozenset((40, 41, 43, 58))  # SB, SH, SW and the vector stores, by the six high bits of a word
_TOUCHING = _STORES | frozenset((32, 33, 35, 36, 37, 39, 50))
_INVERTED = bytes(255 - n for n in range(256))


class Transfer(NamedTuple):
    """A transfer: the address `place` of the MTC0 that orders it, and its `length` bytes of DMEM or IMEM from
    `address` on, modulo 4096. If `to_rdram` is true it takes these bytes, otherwise it brings them."""

    place: int
    bank: int
    address: int
    length: int
    to_rdram: bool

    def __str__(self) -> str:
        last = (self.address + self.length - 1) % 4096
        here = f"{_errors.BANKS[self.bank]} {self.address:03x} to {last:03x}"
        return f"the transfer of {self.place:03x}, {'from' if self.to_rdram else 'to'} {here}"

    def turned(self, memory: bytes) -> bytes:
        """A memory of 4096 bytes that begins with those of the transfer."""
        return memory[self.address :] + memory[: self.address]

    def inverted(self, memory: bytes) -> bytes:
        """A memory of 4096 bytes with those of the transfer inverted."""
        turned, back = self.turned(memory), 4096 - self.address
        made = turned[: self.length].translate(_INVERTED) + turned[self.length :]
        return made[back:] + made[:back]


class _MissingParts(NamedTuple):
    transfer: Transfer
    place: int
    text: str
    what: str
    read: Optional[int] = None


class Missing(_MissingParts):
    """An instruction before which a wait is missing: the `transfer`, the instruction's address `place` and
    its `text`, and `what` it does: `loads`, `stores`, `is fetched`, `writes a DMA register` or `ends`. Or the
    instruction is a read in a wait, and `what` is `changes $18 if it repeats`, for the first
    register that is another one then, or the first quadword of DMEM.

    `read` is None, or the address of the last read of an SP register before the instruction, if the fault
    depends on that read: it happens only if the transfer is still under way there.

    One more attribute isn't an item of the tuple: `code`, the bytes of IMEM there, which tell overlays apart.
    """

    code: bytes = b""

    @property
    def cause(self) -> Tuple[int, str]:
        """What all instructions have in common that do the same before the end of this transfer."""
        return self.transfer.place, self.what

    def __str__(self) -> str:
        return self.told({})

    def told(self, labels: Mapping[str, int]) -> str:
        """The sentence, with the last label up to the address beside it, as in `230 (mix+8): lqv ..`.
        `labels` are those of a text (`Words.labels`)."""
        when = "" if self.read is None else f" if it is under way at the read of {self.read:03x}"
        before = [(at, name) for name, at in labels.items() if at <= self.place]
        at, name = max(before, default=(0, ""))
        label = f" ({name}{f'+{self.place - at}' if self.place > at else ''})" if name else ""
        return f"{self.place:03x}{label}: {self.text}: {self.what} before the end of {self.transfer}{when}"


def pass_read(machine: Machine, number: int, is_full: bool) -> None:
    """Steps over a read of an SP register of READS with the answer that one transfer is under way, or two."""
    status = machine.peek(_STATUS) | 4 | 8 * is_full
    machine.pass_move({_STATUS: status, _FULL: int(is_full)}.get(number, 1))


class _Walk:
    """A machine, and the transfers that are under way, in their order.

    `read` is None, or the address of the last read of a copy, which gets another answer than the machine.
    `reads` is the number of reads that the copy has made, `has_parted` whether it has left the machine's way,
    and `waits` whether it waits. The twin shows which bytes an instruction touches: it makes the same step
    over other bytes.
    """

    def __init__(
        self, machine: Machine, twin: Machine, transfers: Sequence[Transfer], read: Optional[int]
    ) -> None:
        self.machine, self.transfers = machine, [*transfers]
        self.has_parted, self.waits, self.reads = False, False, 0
        self._twin, self._read = twin, read
        self._asked: Set[int] = set()
        self._code = machine.memory_words(IMEM, 0, 1024)

    def step(self) -> Tuple[List[Missing], bool]:
        """Makes a step. Returns what is missing before it, and whether another step follows."""
        pc = self.machine.regs().pc
        word, found = self._code[pc // 4], self._fetch(pc)
        if word >> 26 == _COP0:
            stop = self.machine.run_until_move(1, READS, _WRITES)
            if stop.move and not stop.steps:  # after a step it is the move that comes next
                more, continues = self._move(pc, stop.move)
            else:
                more, continues = [], stop.steps == 1
        elif word >> 26 in _TOUCHING:
            more, continues = self._load_or_store(pc, word, word >> 26 in _STORES)
        else:
            more, continues = [], self.machine.step() is Status.OK
        if self.transfers and self.machine.peek(_STATUS) & 1:
            more, continues = more + [self._missing(it, pc, "ends") for it in self.transfers], False
        return found + more, continues

    def _missing(self, transfer: Transfer, pc: int, what: str) -> Missing:
        return self._with_code(Missing(transfer, pc, self.machine.listing(pc, 1)[0].text, what, self._read))

    def _with_code(self, found: Missing) -> Missing:
        found.code = self.machine.memory(IMEM, 0, 4096)
        return found

    def _fetch(self, pc: int) -> List[Missing]:
        brought = [it for it in self.transfers if it.bank == IMEM and not it.to_rdram]
        return [self._missing(it, pc, "is fetched") for it in brought if (pc - it.address) % 4096 < it.length]

    def _load_or_store(self, pc: int, word: int, stores: bool) -> Tuple[List[Missing], bool]:
        """Makes the step of a load or a store. The twin makes it with the transfer's bytes inverted: then a
        byte that is loaded gives other registers, and a byte that is stored is the same in both. A table of
        the bytes of each vector load would repeat the instructions' rules, and could be wrong."""
        before, dmem = self.machine.get(), self.machine.memory(DMEM, 0, 4096)
        continues = self.machine.step() is Status.OK
        after, stored = self.machine.get(), self.machine.memory(DMEM, 0, 4096)
        found = []
        for transfer in self.transfers:
            if transfer.bank != DMEM or transfer.to_rdram and not stores:
                continue
            self._twin.set(before)
            self._twin.load(DMEM, 0, transfer.inverted(dmem))
            self._twin.load_words(IMEM, pc, [word])
            self._twin.step()
            bytes_of_twin = transfer.turned(self._twin.memory(DMEM, 0, 4096))
            pairs = zip(transfer.turned(stored)[: transfer.length], bytes_of_twin)
            if any(a == b for a, b in pairs) if stores else after != self._twin.get():
                found.append(self._missing(transfer, pc, "stores" if stores else "loads"))
        return found, continues

    def _move(self, pc: int, move: Move) -> Tuple[List[Missing], bool]:
        """Makes a write of one of the SP registers 0 to 3, or a read that says what is under way."""
        if move.writes:
            return self._write(pc, move), True
        if self._read is None:
            found = [it for count in range(len(self.transfers)) for it in self._follow(pc, count + 1)]
            self.transfers.clear()
            return found, self.machine.step() is Status.OK
        if pc in self._asked and self.has_parted:
            self.waits = True
            return [], False
        self._asked.add(pc)
        self._read, self.reads = pc, self.reads + 1
        pass_read(self.machine, move.number, len(self.transfers) > 1)
        return [], True

    def _follow(self, pc: int, count: int) -> List[Missing]:
        """Returns what is missing if the last `count` transfers are still under way at a read."""
        copy = _Walk(self.machine.copy(), self._twin, self.transfers[-count:], pc)
        found: List[Missing] = []
        untested: List[Missing] = []  # what is missing since the last read
        out = self.machine.copy()  # until the ways part: then it is on its way out of a wait
        for _ in range(AHEAD):
            reads = copy.reads
            more, continues = copy.step()
            if copy.reads > reads:
                found, untested = found + untested, []
            untested += more
            if not copy.has_parted and out.step() is Status.OK and out.regs().pc != copy.machine.regs().pc:
                untested = [it for it in untested if it.what != "loads"]
                copy.has_parted = True
            if not continues:
                break
        return found + untested + (self._turned(copy, out) if copy.waits else [])

    def _turned(self, copy: "_Walk", out: Machine) -> List[Missing]:
        """Lets a copy that waits leave its wait, and names what it leaves behind that the machine doesn't."""
        turned, end = copy.machine, out.regs().pc
        (read,) = turned.listing(turned.regs().pc, 1)
        turned.add_break(end)
        if turned.run(AHEAD).pc != end:
            return []
        mine, its = ([it.memory(DMEM, 0, 4096)] for it in (turned, out))
        parts = [*turned.get().diff(out.get()), *quadwords(mine, its)][:1]
        whats = (f"changes {it.name} if it repeats" for it in parts)
        found = (Missing(copy.transfers[-1], read.address, read.text, it) for it in whats)
        return [copy._with_code(it) for it in found]

    def _write(self, pc: int, move: Move) -> List[Missing]:
        full = self.transfers[1:]
        found = [self._missing(full[-1], pc, "writes a DMA register")] if full else []
        at, length = self.machine.peek(0), (move.value & 0xFFF | 7) + 1
        if 1 << move.number & ORDERS:
            size = min(4096, length * ((move.value >> 12 & 0xFF) + 1))
            order = Transfer(pc, IMEM if at & 0x1000 else DMEM, at & 0xFFF, size, move.number == 3)
            self.transfers = [*self.transfers[-1:], order]
        self.machine.step()
        self._code = self.machine.memory_words(IMEM, 0, 1024)
        return found


def causes(machine: Machine, limit: int = 1000000, at_end: bool = False) -> Iterator[Missing]:
    """As `missing`, but only the first of all instructions that do the same before a transfer's end."""
    known: Set[Tuple[int, str]] = set()
    for found in missing(machine, limit, at_end):
        if found.cause not in known:
            known.add(found.cause)
            yield found


def missing(machine: Machine, limit: int = 1000000, at_end: bool = False) -> Iterator[Missing]:
    """Makes up to `limit` steps, and yields each instruction before which a wait is missing, once for each
    MTC0 that orders its transfer. With `at_end` the instruction that halts the machine while a transfer is
    under way is one too.

    The end is a halt, or a reserved word; breakpoints and watches don't count. If the limit comes first, this
    ends without an error: `machine.peek(4) & 1` is 1 only if the program has halted. A step takes some
    microseconds while a transfer is under way, and a read of SP_STATUS, SP_DMA_FULL or SP_DMA_BUSY up to a
    second: `search` can be left in between.
    """
    return (it for it in search(machine, limit, at_end) if isinstance(it, Missing))


def search(machine: Machine, limit: int = 1000000, at_end: bool = False) -> Iterator[Union[Missing, int]]:
    """As `missing`, but also yields how many steps were made, again and again."""
    (limit,) = _errors.integers("missing", (limit,))
    twin, left = Machine(), limit
    reported: Set[Tuple[int, int, str]] = set()
    while left > 0:
        stop = machine.run_until_move(min(left, 1000000), 0, ORDERS)
        left -= stop.steps
        if stop.reason in (Reason.HALT, Reason.RESERVED):
            return
        walk, continues = _Walk(machine, twin, [], None), stop.reason is Reason.MOVE
        while continues and left > 0:
            found, continues = walk.step()
            left -= 1
            for missed in found:
                key = missed.transfer.place, missed.place, missed.what
                if key not in reported and (at_end or missed.what != "ends"):
                    reported.add(key)
                    yield missed
            continues = continues and bool(walk.transfers)
            yield limit - left
