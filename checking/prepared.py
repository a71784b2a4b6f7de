"""A machine whose memories and registers hold symbols, and steps of it."""

from typing import Any, Dict, FrozenSet, List, NamedTuple, Set

import z3

from .errors import Wrong
from .executor.values import Byte, Value, bits, joined, known, split, vector
from .history import History, set_numbers
from .library import BANKS, Caller, Library, buffer_name, narrow
from .states import CONSTANT, FIELDS, field, shape, symbols


class Place(NamedTuple):
    """A byte of a memory."""

    bank: str
    offset: int


def symbols_of(expression: Any) -> FrozenSet[str]:
    """The names of the symbols in an expression."""
    todo, seen, found = [expression], set(), set()  # type: List[Any], Set[int], Set[str]
    while todo:
        node = todo.pop()
        if node.get_id() in seen:
            continue
        seen.add(node.get_id())
        if node.num_args() == 0 and node.decl().kind() == z3.Z3_OP_UNINTERPRETED:
            found.add(str(node))
        todo += node.children()
    return frozenset(found)


class Layout:
    """Of which fields each byte of a machine is made, as brsp_set writes it for a state of symbols."""

    def __init__(self, caller: Caller) -> None:
        self.bytes: Dict[int, Byte] = {}
        self.fields: Dict[int, FrozenSet[str]] = {}
        set_state(caller, symbols(CONSTANT))
        for at in machine_bytes(caller):
            byte = caller.memory.bytes[at]
            names = frozenset() if isinstance(byte, int) else symbols_of(byte[0]) & FIELDS.keys()
            if names and not isinstance(known(z3.simplify(joined([byte]))), int):
                self.bytes[at], self.fields[at] = byte, names

    def form(self, at: int, state: List[Byte]) -> Byte:
        """The byte that brsp_set would put to an address of the machine, for a state."""
        expression, number = self.bytes[at]
        swaps = []
        for name in self.fields[at]:
            low, width = shape(name)
            swaps.append((z3.BitVec(name, width), vector(bits(field(state, name), low, width), width)))
        made = z3.substitute(expression, *swaps)
        is_number = all(z3.is_bv_value(value) for _, value in swaps)
        return split(known(z3.simplify(made) if is_number else made), expression.size() // 8)[number]


def succeed(caller: Caller, name: str, *arguments: Value) -> None:
    """A call on the machine that has to return BRSP_OK, on one path."""
    status = caller.call(name, caller.handle, *arguments)
    if status != 0 or caller.taken:
        raise Wrong(f"{name} returns {status}" if status else f"{name} branches on unknowns")


def set_state(caller: Caller, state: List[Byte]) -> None:
    caller.memory.store(caller.state, state)
    caller.memory.written.clear()
    succeed(caller, "brsp_set", caller.state)


def machine_bytes(caller: Caller) -> Set[int]:
    """The bytes of the machine that the last calls wrote."""
    return {at for at in caller.memory.written if any(it.has(at, 1) for it in caller.allocated)}


class Prepared:
    """A machine after brsp_load of all memories, all of symbols, and where it has them."""

    def __init__(self, library: Library, history: History, depth: int = 4) -> None:
        self.library, self.history, self.depth = library, history, depth
        self.caller = Caller(library, depth)
        self.places: Dict[int, Place] = {}
        for number, (bank, size) in enumerate(BANKS.items()):
            self.load(number, bank, size)
        self.imem = {place.offset: at for at, place in self.places.items() if place.bank == "imem"}
        self.layout = Layout(self.caller.copy())

    def load(self, number: int, bank: str, size: int) -> None:
        """Puts symbols into a memory, and finds their places."""
        caller = self.caller
        cells = [z3.BitVec(f"{bank}{at}", 8) for at in range(size)]
        indices = {cell.get_id(): at for at, cell in enumerate(cells)}
        caller.memory.store(caller.bank, [(cell, 0) for cell in cells])
        caller.memory.written.clear()
        succeed(caller, "brsp_load", narrow(number), narrow(0), caller.bank, size)
        for at in machine_bytes(caller):
            byte = caller.memory.bytes[at]
            if not isinstance(byte, int) and byte[0].get_id() in indices:
                self.places[at] = Place(bank, indices[byte[0].get_id()])
        if sum(place.bank == bank for place in self.places.values()) != size:
            raise Wrong(f"brsp_load doesn't put each byte of the {bank} to one address")

    def start(self, state: List[Byte], index: int, count: int) -> Caller:
        """A caller whose machine has this state, and a history with these numbers and unknown entries."""
        caller = self.caller.copy()
        set_state(caller, state)
        for name in ("state", "bank", "image"):  # no later call gets these
            caller.memory.remove(buffer_name(name))
        if self.depth:
            set_numbers(caller, self.history, index, count)
        return caller

    def put_word(self, caller: Caller, word: Value, pc: int) -> None:
        """Puts a word, the high byte first, to an address of IMEM."""
        for k, byte in enumerate(reversed(split(word, 4))):
            caller.memory.bytes[self.imem[pc + k]] = byte
