"""States of the definitions from plain numbers and from the keys of a test vector, and back."""

from typing import Any, Dict, Iterable, Iterator, List, Mapping, NamedTuple, Sequence, Tuple

from .arrays import Array
from .compiler import Compiler
from .kit import mask_l

STEP = "Rattle.rsp_machine.specs.Step"
SIZES = {"dmem": 4096, "imem": 4096, "rdram": 131072}
# What a vector doesn't name. conformance/README.md defines it.
DEFAULT = {"pc": "000", "npc": "004", "vco": "0000", "vcc": "0000", "vce": "00", "interrupt": "0"}
DEFAULT.update({"in": "0000", "out": "0000", "loaded": "0"})
DEFAULT.update({f"r{n}": f"{n * 0x01010101:08x}" for n in range(32)})
DEFAULT.update({f"v{n}": "".join(f"{n * 0x100 + i * 0x11:04x}" for i in range(8)) for n in range(32)})
DEFAULT.update({f"a{i}": f"{(i + 1) * 0x000100010001:012x}" for i in range(8)})
DEFAULT.update({f"c{n}": "00000ff8" if n in (2, 3) else "00000000" for n in range(16)})
OF_NO_STATE = "divided"  # a number that sets DIV_OUT in an emulator without that register
NUMBERS = {
    "pc": "pc",
    "npc": "npc",
    "vco": "vco",
    "vcc": "vcc",
    "vce": "vce",
    "in": "div_in",
    "out": "div_out",
}
NUMBERS.update({"loaded": "div_loaded", "interrupt": "interrupt"})


class BadInput(Exception):
    """Why a case, a key or an argument is refused."""


class Difference(NamedTuple):
    key: str
    expected: str
    got: str


def bits(mask: int) -> Tuple[bool, ...]:
    """The lowest eight bits of a mask as truth values."""
    return tuple(bool(mask >> i & 1) for i in range(8))


class Machine:
    """States and steps of the definitions.

    Numbers are a dictionary: pc, npc, r, v, acc, vco, vcc, vce, div_in, div_out, div_loaded, interrupt and
    sp, the 16 SP registers as they are read.
    """

    def __init__(self, compiler: Compiler) -> None:
        self.compiler = compiler
        self.step_of = compiler.get(STEP, "step_of")
        self.vco = compiler.get("Rattle.rsp_lanes.specs.Flags", "vco")
        self.vcc = compiler.get("Rattle.rsp_lanes.specs.Flags", "vcc")
        self.read_value = compiler.get("Rattle.rsp_regs.specs.Sp", "read_value")

    def state_of(self, n: Mapping[str, Any], memories: Mapping[str, bytes]) -> Any:
        """The state with these numbers and these memories."""
        record = self.compiler.record
        flags = record(
            carry=bits(n["vco"]),
            differ=bits(n["vco"] >> 8),
            compare=bits(n["vcc"]),
            clip=bits(n["vcc"] >> 8),
            extra=bits(n["vce"]),
        )
        return record(
            pc=n["pc"],
            npc=n["npc"],
            registers=tuple(n["r"]),
            vectors=tuple(map(tuple, n["v"])),
            accumulators=tuple(a - (a >> 47 << 48) for a in n["acc"]),
            flags=flags,
            divider=record(input=n["div_in"], output=n["div_out"], loaded=bool(n["div_loaded"])),
            sp=self.sp_of(n["sp"], bool(n["interrupt"])),
            **{bank: Array(bytearray(memory)) for bank, memory in memories.items()},
        )

    def sp_of(self, sp: Sequence[int], interrupt: bool) -> Any:
        """The SP registers, of which registers 2 and 3 read the kept skip."""
        status = sp[4]
        return self.compiler.record(
            memory=sp[0],
            dram=sp[1],
            skip=sp[2] >> 20,
            halted=bool(status & 1),
            broke=bool(status & 2),
            single_step=bool(status & 32),
            intbreak=bool(status & 64),
            signals=bits(status >> 7),
            interrupt=interrupt,
            semaphore=bool(sp[7] & 1),
            dpc=tuple(sp[8:16]),
        )

    def numbers_of(self, state: Any) -> Dict[str, Any]:
        """The numbers of a state."""
        divider = state.divider
        return {
            "pc": state.pc,
            "npc": state.npc,
            "r": state.registers,
            "v": state.vectors,
            "acc": [a % (1 << 48) for a in state.accumulators],
            "vco": self.vco(state.flags),
            "vcc": self.vcc(state.flags),
            "vce": mask_l(state.flags.extra),
            "div_in": divider.input,
            "div_out": divider.output,
            "div_loaded": int(divider.loaded),
            "sp": [self.read_value(i, state.sp) for i in range(16)],
            "interrupt": int(state.sp.interrupt),
        }

    def state(self, keys: Mapping[str, str], memories: Mapping[str, bytes]) -> Any:
        """The state with these keys of a vector, all of which are given, and these memories."""
        n: Dict[str, Any] = {name: int(keys[key], 16) for key, name in NUMBERS.items()}
        n.update(
            r=[int(keys[f"r{i}"], 16) for i in range(32)], acc=[int(keys[f"a{i}"], 16) for i in range(8)]
        )
        n["v"] = [[int(keys[f"v{i}"][at : at + 4], 16) for at in range(0, 32, 4)] for i in range(32)]
        n["sp"] = [int(keys[f"c{i}"], 16) for i in range(16)]
        return self.state_of(n, memories)

    def keys(self, state: Any) -> Dict[str, str]:
        """The keys of a state, as in a vector."""
        n = self.numbers_of(state)
        found = {key: f"{n[name]:0{len(DEFAULT[key])}x}" for key, name in NUMBERS.items()}
        found.update((f"r{i}", f"{value:08x}") for i, value in enumerate(n["r"]))
        found.update((f"v{i}", "".join(f"{x:04x}" for x in value)) for i, value in enumerate(n["v"]))
        found.update((f"a{i}", f"{value:012x}") for i, value in enumerate(n["acc"]))
        found.update((f"c{i}", f"{value:08x}") for i, value in enumerate(n["sp"]))
        return found


def is_hex(text: Any) -> bool:
    """Whether it is a text of hexadecimal digits."""
    return isinstance(text, str) and all(c in "0123456789abcdefABCDEF" for c in text)


def check_keys(keys: Mapping[str, Any]) -> None:
    """Refuses a key that vectors don't have, and a value with another number of digits."""
    for key, value in keys.items():
        if key == OF_NO_STATE:
            continue
        if key in SIZES:
            check_pieces(key, value)
        elif key not in DEFAULT:
            raise BadInput(f"there is no key {key!r}")
        elif not is_hex(value) or len(value) != len(DEFAULT[key]):
            raise BadInput(f"{key} takes {len(DEFAULT[key])} hexadecimal digits, not {value!r}")


def check_pieces(bank: str, pieces: Any) -> None:
    """Refuses bytes that aren't inside of a memory."""
    for address, text in pieces.items() if isinstance(pieces, dict) else [("?", None)]:
        if not is_hex(address) or not is_hex(text) or len(text) % 2:
            raise BadInput(f"{bank} takes hexadecimal addresses and bytes, not {address!r}: {text!r}")
        if int(address, 16) + len(text) // 2 > SIZES[bank]:
            raise BadInput(f"{bank} {address} is outside of the memory")


def put(memories: Dict[str, bytearray], pieces: Mapping[str, Any]) -> None:
    """Writes the bytes that a vector names into memories."""
    for bank, memory in memories.items():
        for address, text in pieces.get(bank, {}).items():
            at = int(address, 16)
            memory[at : at + len(text) // 2] = bytes.fromhex(text)


def before(case: Mapping[str, Any]) -> Tuple[Dict[str, str], Dict[str, bytearray]]:
    """The keys and the memories before a case, with its word at pc."""
    check_keys(case["before"])
    keys = {**DEFAULT, **{key: text for key, text in case["before"].items() if key in DEFAULT}}
    memories = {bank: bytearray(size) for bank, size in SIZES.items()}
    put(memories, case["before"])
    pieces = {"imem": {keys["pc"]: case["word"]}}
    check_pieces("imem", pieces["imem"])
    put(memories, pieces)
    return keys, memories


def differences(machine: Machine, case: Mapping[str, Any]) -> Iterator[Difference]:
    """Where the state after a step isn't the one of a vector."""
    keys, memories = before(case)
    check_keys(case["after"])
    after = machine.step_of(machine.state(keys, memories))[1]
    got = machine.keys(after)
    keys.update((key, text) for key, text in case["after"].items() if key in DEFAULT)
    put(memories, case["after"])
    yield from (Difference(key, text, got[key]) for key, text in keys.items() if got[key] != text)
    for bank, memory in memories.items():
        found = getattr(after, bank).newest()
        if found != memory:
            yield from different_bytes(bank, memory, found)


def different_bytes(bank: str, expected: Sequence[int], got: Sequence[int]) -> Iterator[Difference]:
    """The addresses at which two memories differ."""
    for at, (one, other) in enumerate(zip(expected, got)):
        if one != other:
            yield Difference(f"{bank} {at:03x}", f"{one:02x}", f"{other:02x}")


def changed_bytes(old: Sequence[int], new: Sequence[int]) -> Iterable[List[int]]:
    """The bytes that aren't as they were, each with its address."""
    return [] if old == new else [[at, value] for at, value in enumerate(new) if value != old[at]]
