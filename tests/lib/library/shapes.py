"""The interface that the library exports, as C has it and as ctypes lays it out."""

import ctypes
from typing import Any, Dict, List, Tuple
from typing import Type as Class

from rsp_tools.shapes import crate, native
from rsp_tools.shapes.interface import Call, Type, c_name

KINDS = {
    "u8": ctypes.c_uint8,
    "u16": ctypes.c_uint16,
    "u32": ctypes.c_uint32,
    "u64": ctypes.c_uint64,
    "i64": ctypes.c_int64,
    "usize": ctypes.c_size_t,
    "char": ctypes.c_char,
}
PROVED, INTERFACE = crate.interface(), native()
CALLS = [call.name for call in INTERFACE.calls]
Structure = Class[ctypes.Structure]
Layout = Tuple[int, List[Tuple[str, int, int]]]  # its size, and name, offset and size of each field


def type_in_c(it: Type) -> str:
    return f"{'const ' if it.pointer == 'const' else ''}{c_name(it.element)}{' *' if it.pointer else ''}"


def in_c(call: Call) -> Tuple[str, str]:
    """What a call returns in C, and the types of its parameters between bars."""
    return type_in_c(call.result), "|".join(type_in_c(it.type) for it in call.parameters) or "void"


def structures() -> Dict[str, Structure]:
    """Each struct as ctypes has it, by its name."""
    made: Dict[str, Any] = dict(KINDS)
    for struct in INTERFACE.structs.values():
        fields = []
        for it in struct.fields:
            kind = ctypes.c_void_p if it.type.pointer else made[it.type.element]
            for count in reversed(it.counts):
                kind *= count
            fields.append((it.name, kind))
        made[struct.name] = type(struct.name, (ctypes.Structure,), {"_fields_": fields})
    return {name: made[name] for name in INTERFACE.structs}


def layout(struct: Structure) -> Layout:
    places = [(name, getattr(struct, name)) for name, *_ in struct._fields_]
    return ctypes.sizeof(struct), [(name, at.offset, at.size) for name, at in places]


def layouts() -> Dict[str, Layout]:
    """The layout of each struct, by its name in C."""
    return {c_name(name): layout(struct) for name, struct in structures().items()}
