"""Where a run stopped, and what is next there."""

from typing import Any, NamedTuple, Optional, Tuple

from . import shapes
from .shapes import Bank, Reason

_REASONS = (*Reason,)  # by their numbers
# Looked up once, because the lookup in the Enum takes longer than the comparison.
_WATCH, _RESERVED, _BEFORE_MOVES = Reason.WATCH, Reason.RESERVED, (Reason.MOVE, Reason.DMA)


class Move(NamedTuple):
    """A move of SP register `number`: its `word`, whether it `writes` (MTC0), and the `value` of its scalar
    register."""

    word: int
    number: int
    writes: bool
    value: int


class Dma(NamedTuple):
    """A DMA: `rows` rows of `length` bytes. In the bank they follow one another from `address` on, in RDRAM
    they begin at `rdram` and have `skip` bytes between them. Addresses wrap at 4096 and at 2^24. `to_rdram`
    says whether the bytes go to RDRAM."""

    bank: Bank
    address: int
    rdram: int
    length: int
    rows: int
    skip: int
    to_rdram: bool


class _StopParts(NamedTuple):
    reason: Reason
    steps: int
    pc: int
    watch: Optional[int]


class Stop(_StopParts):
    """Where a run stopped: `reason`, `steps`, `pc`, and `watch`, the number of the watch at which it stopped,
    or None.

    More attributes aren't items of the tuple. `word` is the reserved word at which the run stopped, or None.
    `move` is the move before which `run_until_move` or `event` stopped. `event` also sets `dma`, the DMA that
    is next, or None, and `status` and `interrupt`, which are SP_STATUS and the interrupt flag there.
    """

    word: Optional[int] = None
    move: Optional[Move] = None
    dma: Optional[Dma] = None
    status: Optional[int] = None
    interrupt: Optional[bool] = None

    def __repr__(self) -> str:
        reason = f"Reason.{self.reason.name}"
        return f"Stop(reason={reason}, steps={self.steps}, pc={self.pc:#05x}, watch={self.watch})"


class NotHalted(Exception):
    """A run that should end in a halt didn't. `stop` says where and why it stopped, with all its steps."""

    __module__ = "rsp"  # the name in a traceback

    def __init__(self, stop: Stop, text: str) -> None:
        super().__init__(f"{stop.reason.name} after {stop.steps} steps, before {text}")
        self.stop, self._text = stop, text

    def __reduce__(self) -> Tuple[Any, ...]:
        return NotHalted, (self.stop, self._text)


def stop_of(out: Any) -> Stop:
    """The stop of a run."""
    reason = _REASONS[out.reason]
    stop = Stop(reason, out.steps, out.pc, out.watch if reason is _WATCH else None)
    if reason is _RESERVED:
        stop.word = out.word
    return stop


def move_stop_of(out: shapes.Move) -> Stop:
    """A stop, with the move that is next."""
    stop = stop_of(out.stop)
    if stop.reason in _BEFORE_MOVES:
        stop.move = Move(out.word, out.number, bool(out.writes), out.value)
    return stop


def dma_of(out: shapes.Dma) -> Optional[Dma]:
    """A DMA, or None if it has no rows."""
    if not out.rows:
        return None
    numbers = out.address, out.rdram, out.length, out.rows, out.skip
    return Dma(Bank(out.bank), *numbers, bool(out.to_rdram))
