"""Runs up to a DMA that may change some bytes, and where a byte came from, for `rsp.Timeline`."""

from ctypes import byref
from typing import Iterator, NamedTuple, Optional, Sequence

from . import shapes
from .machine import RDRAM, Machine
from .native import lib
from .shapes import Bank, Reason
from .stops import Dma, Stop, dma_of, stop_of

_RDRAM_SIDE = 1 << 24  # addresses of RDRAM wrap there


class DmaWatch(NamedTuple):
    """A range of IMEM or RDRAM."""

    bank: Bank
    address: int
    length: int


class Carried(NamedTuple):
    """A DMA that wrote a byte: the number of its `step`, and the `bank` and `address` of the byte it took."""

    step: int
    bank: Bank
    address: int


def run_until_dma(machine: Machine, steps: int, ranges: Sequence[DmaWatch]) -> Stop:
    """As `machine.run`, but also stops before each DMA that may write to one of these ranges, with Reason.DMA
    and `dma`, if a step is left."""
    if not ranges:
        return machine.run(steps)
    stop, dma = shapes.Stop(), shapes.Dma()
    given = (shapes.Range * len(ranges))(*(shapes.Range(*it) for it in ranges))
    more = steps, given, len(given), byref(stop), byref(dma)
    status = machine._call_alone("run_until_dma", lib.brsp_run_until_dma, *more)
    machine._check_done(status, "run_until_dma", [steps])
    found = stop_of(stop)
    found.dma = dma_of(dma)
    return found


def _source(dma: Dma, address: int) -> Optional[int]:
    """The address in the bank of the byte that a DMA puts at an address of RDRAM, or None. Of two rows that
    write there, the later one counts."""
    for row in reversed(range(dma.rows)):
        into = (address - dma.rdram - row * (dma.length + dma.skip)) % _RDRAM_SIDE
        if into < dma.length:
            return (dma.address + row * dma.length + into) % 4096
    return None


def carriers(machine: Machine, begin: int, end: int, address: int) -> Iterator[Carried]:
    """Makes the steps from `begin` to `end`, and yields each DMA that writes a byte of RDRAM."""
    at = begin
    while at < end:
        stop = run_until_dma(machine, min(end - at, 1000000), [DmaWatch(RDRAM, address, 1)])
        at += stop.steps
        if stop.dma:
            source = _source(stop.dma, address)
            if source is not None:
                yield Carried(at, stop.dma.bank, source)
            machine.step()
            at += 1
        elif stop.reason is not Reason.LIMIT:
            return
