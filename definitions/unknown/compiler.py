"""Compiles definitions so that they take unknown numbers and truth values."""

from typing import Any, Dict, List, Optional

from ..bodies import Body, short
from ..compiler import Compiler, code_of
from ..modules import Global, Library
from ..syntax import Expression
from . import numbers

# What is computed otherwise than kit.py does: the same of what is known, and a formula of what isn't.
KIT: Dict[str, Any] = {
    "kit_minus": numbers.minus, "kit_min": numbers.smaller, "kit_int_min": numbers.smaller,
    "kit_int_max": numbers.greater, "kit_int_div_euclid": numbers.int_div_euclid,
    "kit_not": numbers.opposite, "kit_cast_signed": numbers.cast_signed,
    "kit_leading_zeros": numbers.leading_zeros, "kit_to_be_bytes": numbers.to_be_bytes,
    "kit_bit_at": numbers.bit_at, "kit_mask_l": numbers.mask_l,
    "opposite": numbers.opposite, "both": numbers.both, "either": numbers.either, "chosen": numbers.chosen,
    "power_of_two": numbers.power_of_two, "times_power_of_two": numbers.times_power_of_two,
    "over_power_of_two": numbers.over_power_of_two, "tabulated": numbers.tabulated,
    "signed_modulo": numbers.signed_modulo,
}  # fmt: skip
# Functions of nine bits that divide or take a root: each of their 512 values is computed.
TABULATED = {"rsp_divide.Entries.reciprocal_entry", "rsp_divide.Entries.root_entry"}
# A definition whose formula is simpler than its text; a test compares both.
SIMPLER = {"rsp_numbers.Numbers.s48": "signed_modulo(48, {})"}
POWER = ("op", "^", ("num", 2))
BY_POWER = {"*": "times_power_of_two", "/": "over_power_of_two"}
LOGIC = {"&&": "both", "||": "either"}


class UnknownBody(Body):
    """Writes a definition with choices that give a formula if the test isn't known."""

    def statement(self, e: Expression, pad: str) -> str:
        return f"{pad}return {self.code(e)}\n" if e[0] == "if" else super().statement(e, pad)

    def ends_in_itself(self, e: Expression, after_suc: bool = False) -> bool:
        return False  # so that no `if` has to decide whether a loop goes on

    def climbs(self) -> Optional[int]:
        return None

    def choice(self, test: str, then: Expression, otherwise: Expression) -> str:
        return f"chosen({test}, lambda: {self.code(then)}, lambda: {self.code(otherwise)})"

    def code_of_op(self, e: Expression) -> str:
        _, op, a, b, _ = e
        if op in LOGIC:
            return f"{LOGIC[op]}({self.code(a)}, lambda: {self.code(b)})"
        if op == "^" and a == ("num", 2):
            return f"power_of_two({self.code(b)})"
        if op in BY_POWER and b[:3] == POWER:
            return f"{BY_POWER[op]}({self.code(a)}, {self.code(b[3])})"
        return super().code_of_op(e)

    def special(self, found: Global, arguments: List[Expression]) -> Optional[str]:
        if found.name == "not" and len(arguments) == 1:
            return f"opposite({self.code(arguments[0])})"
        return super().special(found, arguments)


class UnknownCompiler(Compiler):
    """Compiles definitions that take unknown operands."""

    def __init__(self, library: Library) -> None:
        super().__init__(library, UnknownBody)
        self.space.update(KIT)

    def function(self, module: str, name: str) -> str:
        text, code = super().function(module, name), code_of(module, name)
        if f"{short(module)}.{name}" in TABULATED:
            text += f"{code} = tabulated({code})\n"
        simpler = SIMPLER.get(f"{short(module)}.{name}")
        if simpler:
            text += f"{code}__text = {code}\ndef {code}(n):\n    return {simpler.format('n')}\n"
        return text
