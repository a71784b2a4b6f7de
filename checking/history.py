"""Where a library keeps a machine's history: a ring of entries, the index after the newest, their number."""

from typing import Dict, List, NamedTuple, Set, Tuple

from .errors import Wrong
from .executor.values import split
from .library import IMAGE_SIZE, Caller, Library, narrow

DEPTH, STEPS = 4, 6
WORD = 8  # bytes of a number of the history


class History(NamedTuple):
    """Offsets in the allocations of brsp_new."""

    ring: int  # the allocation
    entry: int  # the bytes of an entry
    block: int  # the allocation with the two numbers
    index_at: int
    count_at: int

    def entry_at(self, caller: Caller, index: int) -> range:
        """The addresses of the entry that a step writes, if the index after the newest is this."""
        region = caller.allocated[self.ring]
        start = region.start + index % (region.size // self.entry) * self.entry
        return range(start, start + self.entry)

    def numbers(self, caller: Caller) -> Dict[str, int]:
        """The addresses of the two numbers."""
        start = caller.allocated[self.block].start
        return {"index": start + self.index_at, "count": start + self.count_at}


def plain(library: Library, depth: int) -> Caller:
    """A caller with a machine whose memories are 0, so that each word does nothing."""
    caller = Caller(library, depth)
    caller.memory.bytes.update(dict.fromkeys(range(caller.bank, caller.bank + IMAGE_SIZE), 0))
    status = caller.call("brsp_load", caller.handle, narrow(2), narrow(0), caller.bank, IMAGE_SIZE)
    if status != 0:
        raise Wrong(f"brsp_load returns {status}")
    return caller


def find_history(library: Library) -> History:
    """The history, by what steps that do nothing write into a machine with room for four."""
    caller, larger = plain(library, DEPTH), plain(library, DEPTH + 1)
    sizes = [(a.size, b.size) for a, b in zip(caller.allocated, larger.allocated)]
    grown = [n for n, (a, b) in enumerate(sizes) if a != b]
    if len(grown) != 1 or sizes[grown[0]][0] != DEPTH * (sizes[grown[0]][1] - sizes[grown[0]][0]):
        raise Wrong("brsp_new allocates no ring whose size is that of its entries")
    ring = grown[0]
    seen: Dict[Tuple[int, int], List[object]] = {}
    for _ in range(STEPS):
        made_step(caller, ring, seen)
    counts, indices = [1, 2, 3, 4, 4, 4], [1, 2, 3, 4, 1, 2]
    found = {
        kind: [at for at, values in seen.items() if values == wanted]
        for kind, wanted in (("count", counts), ("index", indices))
    }
    if [len(it) for it in found.values()] != [1, 1]:
        raise Wrong("the history's index and number of entries aren't where a step would change them")
    (block, count), (other, index) = found["count"][0], found["index"][0]
    if block != other:
        raise Wrong("the history's index and number of entries aren't in one allocation")
    return History(ring, caller.allocated[ring].size // DEPTH, block, index, count)


def made_step(caller: Caller, ring: int, seen: Dict[Tuple[int, int], List[object]]) -> None:
    """A step, and the numbers that it writes outside of the ring."""
    caller.memory.written.clear()
    status = caller.call("brsp_step", caller.handle)
    if status != 0:
        raise Wrong(f"brsp_step returns {status}")
    for n, region in enumerate(caller.allocated):
        offsets: Set[int] = {
            (it - region.start) // WORD * WORD for it in caller.memory.written if region.has(it, 1)
        }
        for offset in offsets if n != ring else set():
            values = bytes(
                x if isinstance(x, int) else 0 for x in caller.memory.load(region.start + offset, WORD)
            )
            seen.setdefault((n, offset), []).append(int.from_bytes(values, "little"))


def set_numbers(caller: Caller, history: History, index: int, count: int) -> None:
    """Lets a machine have a history of so many entries."""
    for name, value in (("index", index), ("count", count)):
        caller.memory.bytes.update(enumerate(split(value, WORD), history.numbers(caller)[name]))
