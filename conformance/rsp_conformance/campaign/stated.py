"""Cases without a number: an instruction, and the registers and bytes of DMEM before it.

They are written as `tools/define why` takes them: 'vadd $v1, $v2, $v3 v2=0005.. v3=fffd..'. What is left out
is as in the vectors, and the other bytes of memories are those of conformance/every.
"""

import re
from typing import Dict, Tuple

import numpy as np
import rsp
from rsp_conformance.bench import DEFAULT
from rsp_conformance.library_states import state_of
from rsp_conformance.states import numbers_of
from rsp_conformance.table import row_of

from . import CampaignFault
from .batches import Cases
from .generator import CASE, IMEM, Array, memories_of as numbered_memories

KEY = r"\s+(?=[a-z]+[\w.]*=)"  # the whitespace before one
MEMORIES = ("every", "1")  # the name and the seed of the memories of conformance/every


def is_stated(seed: str) -> bool:
    """Whether a seed is the text of such a case: seeds have no whitespace."""
    return " " in seed


def filled(key: str, digits: str) -> str:
    """The digits of a register: those before `..` repeated, or with zeros before them."""
    count = len(DEFAULT[key])
    if digits.endswith("..") and len(digits) > 2 and count % len(digits[:-2]) == 0:
        digits = digits[:-2] * (count // len(digits[:-2]))
    if not re.fullmatch(f"[0-9a-f]{{1,{count}}}", digits) or key[0] == "v" and len(digits) != count:
        raise CampaignFault(f"{key} has {digits[:40]!r}, and needs {count} hexadecimal digits")
    return digits.rjust(count, "0")


def keys_in(text: str) -> Tuple[str, Dict[str, str], Dict[int, str]]:
    """The instruction's text, the registers, and the bytes of DMEM by their addresses."""
    instruction, *words = re.split(KEY, text.strip())
    registers, pieces = {}, {}
    for word in words:
        key, _, digits = word.partition("=")
        if found := re.fullmatch("dmem.([0-9a-f]{1,3})", key):
            pieces[int(found[1], 16)] = digits
        elif key in DEFAULT:
            registers[key] = filled(key, digits)
        else:
            raise CampaignFault(f"{word[:40]!r} is no KEY=HEX of test vectors, such as r4=12 or v2=0005..")
    if "npc" not in registers:
        registers["npc"] = f"{int(registers.get('pc', '0'), 16) + 4 & 0xFFC:03x}"
    return instruction, registers, pieces


def case_in(text: str) -> Tuple[str, Array]:
    """The name of the instruction, and the case as an array of one."""
    instruction, registers, _ = keys_in(text)
    case = np.zeros(1, CASE)
    try:
        state = state_of(numbers_of({**DEFAULT, **registers}))
        (word,) = rsp.assemble(f"{instruction}\n", state.pc)
    except (ValueError, rsp.AssemblyError) as fault:
        raise CampaignFault(f"{text[:60]!r} is no case: {fault}") from None
    if not (row := row_of(word)):
        raise CampaignFault(f"{instruction!r} is reserved")
    case["state"], case["word"] = np.frombuffer(bytes(state), CASE["state"])[0], word
    return row.name, case


def memories_of(text: str) -> Array:
    """DMEM, IMEM and RDRAM before the case."""
    memories = numbered_memories(*MEMORIES).copy()
    for address, digits in keys_in(text)[2].items():
        try:
            found = np.frombuffer(bytes.fromhex(digits), np.uint8)
            memories[:IMEM][address : address + len(found)] = found
        except ValueError as fault:
            raise CampaignFault(f"the bytes at dmem.{address:03x} are no bytes of DMEM: {fault}") from None
    return memories


class StatedCase(Cases):
    """The one case that a text states, on both sides."""

    def made(self, at: int, n: int) -> Tuple[Array, Dict[str, Array]]:
        return case_in(self.seed)[1], {}
