"""The interface in Python: numbers, the structures that only the package uses, the types of calls, and the
regular calls as methods."""

import textwrap
from typing import Dict, Iterable, List, Sequence

from rsp_tools.shapes.interface import Call, Field, Interface, Struct, Type, c_name, in_one
from rsp_tools.shapes.methods import Method, by_parts, placed, told

# The structs that are classes of library/python/rsp/state.py, by their names there.
SHOWN = {
    "State": "State", "Scalars": "Scalars", "Accumulators": "Accumulators", "FlagBits": "Flags",
    "DivideState": "Divider", "SpWords": "SpWords", "Traced": "Traced", "Changes": "Changes",
}  # fmt: skip
# What the enums are for, by their names.
COMMENTS = {
    "Status": "What a call returns. No fault has one of these numbers: docs/FAULTS.md lists both.",
    "Fault": "Why a text has no meaning. FAULTS has the names in scripts.",
    "Bank": "The three memories.",
    "Reason": "Why a run stopped.",
    "Field": "A field of a state with a value that no machine can have. That of sp[n] is SP + n.",
}
TYPES = {
    **{it: f"c_uint{it[1:]}" for it in ("u8", "u16", "u32", "u64")},
    **{"i64": "c_int64", "usize": "c_size_t", "char": "c_char", "void": "None"},
    **SHOWN,
}
# The types of what methods give, and a regular call that is no method but a property.
GIVEN = {"": "None", "u32": "int", "usize": "int", **SHOWN}
BY_HAND = ("image_length",)
WIDTH = 110  # of a line
HEAD = f'''"""The calls, structures and numbers of the library. `tools/shapes` writes this file."""

import ctypes
import enum
from ctypes import POINTER, c_char, c_char_p, c_int64, c_size_t, c_uint16, c_uint32, c_uint64, c_void_p
from typing import Any, Dict, List, Tuple

from .state import {", ".join(sorted(SHOWN.values()))}
'''
TITLE = """# Each call's result, and the types of its arguments. Handles and buffers are passed by their
# addresses, because an integer costs a call less than a pointer does.
"""


def type_text(it: Type) -> str:
    """A type. A pointer to a struct of this file or to a text that stays has a type of its own."""
    element = TYPES.get(it.element, it.element)
    if not it.pointer:
        return element
    return f"POINTER({element})" if it.element not in TYPES or it.element in SHOWN else "c_void_p"


def enum_text(kind: str, numbers: Dict[str, int]) -> str:
    name = in_one(kind)
    comment = COMMENTS.get(name, f"`brsp_{kind}` of C.")
    items = "".join(f"    {it} = {number}\n" for it, number in numbers.items())
    return f'class {name}(enum.IntEnum):\n    """{comment}"""\n\n{items}'


def field_text(field: Field) -> str:
    """A field. An array of bytes in one of these structures is a text, which ends at its first zero."""
    counts = "".join(f" * {count}" for count in reversed(field.counts))
    kind = "c_char" if counts and field.type.element == "u8" else type_text(field.type)
    return f'        ("{field.name}", {kind}{counts}),\n'


def struct_text(struct: Struct) -> str:
    fields = "".join(map(field_text, struct.fields))
    head = f'class {struct.name}(ctypes.Structure):\n    """`{c_name(struct.name)}` of C."""\n\n'
    return f"{head}    _fields_ = [\n{fields}    ]\n"


def call_text(call: Call, handles: Sequence[str]) -> str:
    """A call as black lays it out."""
    plain = (Type("void", "mut") if it.type.element in handles else it.type for it in call.parameters)
    types = f"[{', '.join(map(type_text, plain))}]"
    result = "c_char_p" if call.result == Type("char", "const") else type_text(call.result)
    line = f'    "{call.name}": ({result}, {types}),'
    if len(line) > WIDTH:
        line = f'    "{call.name}": (\n        {result},\n        {types},\n    ),'
    return f"{line}\n"


def text(it: Interface) -> str:
    enums = [enum_text(*pair) for pair in it.numbers.items()]
    structs = [struct_text(struct) for name, struct in it.structs.items() if name not in SHOWN]
    constants = "".join(f"{name} = {number}\n" for name, number in it.constants.items())
    calls = "".join(call_text(call, it.handles) for call in it.calls)
    table = f"CALLS: Dict[str, Tuple[Any, List[Any]]] = {{\n{calls}}}\n"
    return "\n\n".join([HEAD, *enums, *structs, f"{constants}{TITLE}{table}"])


def methods_of(methods: Iterable[Method]) -> List[Method]:
    """Those whose methods here take numbers, and give what the call fills."""
    return [it for it in methods if it.name not in BY_HAND and not it.given and it.result in GIVEN]


def method_text(it: Method) -> str:
    """A method, whose docstring has room for its quotes at its end."""
    said = told(it.comment, "`{}`".format)
    said = textwrap.fill(f'{said}"""', WIDTH - 1, initial_indent='        """', subsequent_indent=" " * 8)
    numbers = "".join(f", {name}: int" for name in it.numbers)
    begin, given = f'"{it.name}"', "".join(f", {name}" for name in it.numbers)
    body = {
        "": f"self._call_with({begin}{given})",
        "u32": f"return self._word({begin}{given})",
        "usize": f"return self._fill({begin}, c_size_t(){given}).value",
    }.get(it.result, f"return self._fill({begin}, unset({GIVEN[it.result]}){given})")
    return f"\n    def {it.name}(self{numbers}) -> {GIVEN[it.result]}:\n{said}\n        {body}\n"


def files(it: Interface, methods: Sequence[Method]) -> Dict[str, str]:
    """Each file by its path in the repository."""
    made = by_parts(methods_of(methods), method_text)
    return {"library/python/rsp/shapes.py": text(it), **placed("library/python/rsp/machine.py", made)}
