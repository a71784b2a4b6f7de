"""The command of a clone that explains what is expected in a case: `tools/define why`."""

import re
from typing import Dict, Iterator

import rsp
from rsp_conformance.library_states import numbers_of
from rsp_conformance.states import texts_of
from rsp_conformance.table import ROWS, Row, fields_of, uses_memory

from .operands_read import addressed

# A difference by its first words, and what the command calls its value.
NAMES = (
    (r"\$v(\d+) lane (\d):", r"v\1.\2"),
    (r"\$(\d+):", r"r\1"),
    (r"accumulator (\d):", r"a\1"),
    (r"(pc|npc|in|out|loaded|interrupt):", r"\1"),
)
BITS = re.compile(r"(vc[oce]): expected (\w+), got (\w+)")
QUADWORD = re.compile(r"(DMEM|IMEM|RDRAM) (\w+): expected (\w+), got (\w+)")
# The fields of a word that are numbers of registers, with the first letter of a register's key.
REGISTERS = {"s": "r", "t": "r", "d": "r", "base": "r", "vs": "v", "vt": "v", "vd": "v"}
READ = 48  # bytes from the quadword before that of an address, of which loads read some


def name_of_value(difference: str) -> str:
    """The value of a difference; nothing if the command has no name for it."""
    if found := BITS.match(difference):
        wrong = int(found[2], 16) ^ int(found[3], 16)
        return f"{found[1]}.{(wrong & -wrong).bit_length() - 1}"
    if found := QUADWORD.match(difference):
        wrong_at = next(at for at in range(0, 32, 2) if found[3][at : at + 2] != found[4][at : at + 2])
        return f"{found[1].lower()}.{int(found[2], 16) + wrong_at // 2:03x}"
    matches = ((re.match(form, difference), name) for form, name in NAMES)
    return next((found.expand(name) for found, name in matches if found), "")


def registers(fields: Dict[str, int], texts: Dict[str, str]) -> Iterator[str]:
    """The registers that an instruction has as its fields, and all except scalar and vector registers."""
    named = [f"{letter}{fields[field]}" for field, letter in REGISTERS.items() if field in fields]
    others = [key for key in texts if not re.fullmatch(r"[rv]\d+", key)]
    yield from (f"{key}={texts[key]}" for key in dict.fromkeys([*named, *others]))


def memory(row: Row, fields: Dict[str, int], state: rsp.State, memories: bytes) -> Iterator[str]:
    """The bytes of DMEM around the address of a load or a store."""
    if uses_memory(row):
        at = addressed(row, state, fields) % 4096
        start = ((at & -16) - 16) % 4096
        wrapped = max(start + READ - 4096, 0)
        yield f"dmem.{start:03x}={memories[start : min(start + READ, 4096)].hex()}"
        yield from [f"dmem.000={memories[:wrapped].hex()}"] * bool(wrapped)


def keys_of(name: str, word: int, state: rsp.State, memories: bytes) -> str:
    """All that the instruction of a case reads, as KEY=HEX."""
    row, fields = ROWS[name], fields_of(ROWS[name], word)
    given = [*registers(fields, texts_of(numbers_of(state))), *memory(row, fields, state, memories)]
    return " ".join(given)


def command_for(name: str, word: int, state: rsp.State, memories: bytes, difference: str) -> str:
    """The command that explains what is expected in a difference of a case; nothing if there is none."""
    what, keys = name_of_value(difference), keys_of(name, word, state, memories)
    return f"tools/define why '{rsp.text(word, state.pc)}' {what} {keys}" if what else ""
