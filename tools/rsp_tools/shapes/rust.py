"""The interface in Rust: raw.rs is for the crate alone, shapes.rs has the structs that everybody gets,
status.rs the statuses, and calls.rs the regular calls."""

import textwrap
from typing import Dict, Iterator, List, Sequence

from rsp_tools.shapes import header
from rsp_tools.shapes.interface import Call, Field, Interface, Struct, Type, in_one
from rsp_tools.shapes.methods import HEADER, Method, by_parts, told

WIDTH = 140  # of a line, as rustfmt.toml has it
# The structs that everybody gets, and those of them whose default isn't all zeros.
SHOWN = (
    "Scalars", "Accumulators", "FlagBits", "DivideState", "State", "SpWords", "Traced", "Changes", "Dma",
)  # fmt: skip
OWN_DEFAULT = ("State", "SpWords")
# Calls whose methods are more: one is over another method, one never fails, and one gives an option.
BY_HAND = ("get", "image_length", "write_dma")
# Statuses that are no error: those of a step that was made or not, and that of a machine that is freed.
NO_ERRORS = ("OK", "NO_MACHINE", "HALTED", "RESERVED")
MOST = 32  # items of an array that has a default
# A pointer to anything is one to its bytes.
ELEMENTS = {"char": "u8", "void": "u8"}
CALLS = """//! The regular calls on a machine. `tools/shapes` writes this file.

use crate::error::done;
use crate::raw;
use crate::shapes::{%s};
use crate::{Machine, RspError};

// SAFETY of all calls below: as in machine.rs.
"""
STATUS = """//! The statuses that refuse a call. `tools/shapes` writes this file.

use crate::raw::status;

/// Why a call was refused, as `brsp.h` numbers it.
#[derive(Clone, Copy, Debug, PartialEq, Eq)]
#[non_exhaustive]
pub enum Status {
%s    /// The library has this version of the interface, and the crate is for [`VERSION`](crate::VERSION).
    Version(u32),
    /// A status that this crate doesn't know.
    Unknown(u32),
}

impl Status {
    /// The status of a number of `brsp.h`; none if it is BRSP_OK.
    pub(crate) fn of(number: u32) -> Option<Status> {
        Some(match number {
            status::OK => return None,
%s            other => Status::Unknown(other),
        })
    }
}
"""


def type_text(it: Type) -> str:
    return f"{f'*{it.pointer} ' if it.pointer else ''}{ELEMENTS.get(it.element, it.element)}"


def field_type(field: Field) -> str:
    made = type_text(field.type)
    for count in reversed(field.counts):
        made = f"[{made}; {count}]"
    return made


def comment(text: str, indent: str = "") -> str:
    lines = textwrap.wrap(text, WIDTH - len(indent) - len("/// "), break_on_hyphens=False)
    return "".join(f"{indent}/// {line}\n" for line in lines)


def derived(struct: Struct) -> str:
    """The traits that a struct derives. A pointer and a long array have no default."""
    has_none = struct.name in OWN_DEFAULT or any(
        it.type.pointer or max((0, *it.counts)) > MOST for it in struct.fields
    )
    default = [] if has_none else ["Default"]
    return ", ".join(["Clone", "Copy", "Debug", *default, "PartialEq", "Eq"])


def struct_text(struct: Struct, comments: Dict[str, str], is_shown: bool) -> str:
    """A struct. One that only the crate uses has no comments: the header of C has them."""

    def said(name: str, text: str, indent: str = "") -> str:
        return comment(comments.get(name, text), indent) if is_shown else ""

    fields = ""
    for it in struct.fields:
        shown = "pub(crate)" if it.name == "zero" else "pub"
        fields += said(f"{struct.name}.{it.name}", it.comment, "    ")
        fields += f"    {shown} {it.name}: {field_type(it)},\n"
    head = said(struct.name, struct.comment)
    return f"{head}#[repr(C)]\n#[derive({derived(struct)})]\npub struct {struct.name} {{\n{fields}}}\n"


def handle_text(name: str) -> str:
    return f"#[repr(C)]\npub struct {name} {{\n    pub at: *mut u8,\n}}\n"


def call_text(call: Call) -> str:
    """A declaration as rustfmt lays it out."""
    parameters = [f"{it.name}: {type_text(it.type)}" for it in call.parameters]
    result = "" if call.result == Type("void") else f" -> {type_text(call.result)}"
    line = f"    pub fn {call.name}({', '.join(parameters)}){result};\n"
    if len(line) - 1 <= WIDTH:
        return line
    inner = "".join(f"        {it},\n" for it in parameters)
    return f"    pub fn {call.name}(\n{inner}    ){result};\n"


def numbers_text(kind: str, numbers: Dict[str, int]) -> str:
    lines = "".join(f"    pub const {name}: u32 = {number};\n" for name, number in numbers.items())
    return f"pub mod {kind} {{\n{lines}}}\n"


def raw_parts(it: Interface) -> Iterator[str]:
    yield "//! What the headers of library/c declare. `tools/shapes` writes this file.\n"
    yield "#![allow(dead_code)] // the crate doesn't need all that C has\n"
    yield f"use crate::shapes::{{{', '.join(sorted(SHOWN))}}};\n"
    yield "".join(
        f"#[allow(dead_code)]\npub const {name}: usize = {n};\n" for name, n in it.constants.items()
    )
    yield from (numbers_text(kind, numbers) for kind, numbers in it.numbers.items())
    yield from (handle_text(name) for name in it.handles)
    yield from (struct_text(struct, {}, False) for name, struct in it.structs.items() if name not in SHOWN)
    yield 'extern "C" {\n' + "".join(map(call_text, it.calls)) + "}\n"


def method_text(it: Method) -> str:
    """A method as rustfmt lays it out."""
    said = told(it.comment, "[`{0}`](Machine::{0})".format, lambda name: status_link(in_one(name)))
    given = [f"{name}: u32" for name in it.numbers] + [f"given: &{it.given}"] * bool(it.given)
    passed = ["self.at()", *it.numbers, *["given"] * bool(it.given), *["&mut out"] * bool(it.result)]
    numbers = ", ".join(f"{name}.into()" for name in it.numbers)
    body = f'done(unsafe {{ raw::brsp_{it.name}({", ".join(passed)}) }}, "{it.name}", &[{numbers}])'
    if it.result:
        begin = f"{it.result}::default()" if it.result in SHOWN else "0"
        body = f"let mut out = {begin};\n        {body}?;\n        Ok(out)"
    parameters = ", ".join(["&self" if it.is_query else "&mut self", *given])
    head = f"    pub fn {it.name}({parameters}) -> Result<{it.result or '()'}, RspError> {{"
    return f"\n{comment(said, '    ')}{head}\n        {body}\n    }}\n"


def statuses_text(it: Interface, comments: Dict[str, str]) -> str:
    """The enum of the statuses that are errors."""
    said = header.comments_of(HEADER, "status")
    names = {name: in_one(name) for name in it.numbers["status"] if name not in NO_ERRORS}
    items = (
        f"{comment(comments.get(f'Status.{rust}', said[name]), '    ')}    {rust},\n"
        for name, rust in names.items()
    )
    arms = (f"            status::{name} => Status::{rust},\n" for name, rust in names.items())
    return STATUS % ("".join(items), "".join(arms))


def status_link(name: str) -> str:
    return f"[`{name}`](crate::Status::{name})"


def calls_text(methods: Sequence[Method]) -> str:
    """The methods, in a block for each part of brsp.h."""
    found = [it for it in methods if it.name not in BY_HAND and it.result in ("", "u32", "usize", *SHOWN)]
    used = ", ".join(sorted({name for it in found for name in (it.given, it.result) if name in SHOWN}))
    parts = by_parts(found, method_text)
    blocks = (f"\n/// {part}\nimpl Machine {{{lines.rstrip()}\n}}\n" for part, lines in parts.items())
    return CALLS % used + "".join(blocks)


def files(it: Interface, comments: Dict[str, str], methods: Sequence[Method]) -> Dict[str, str]:
    """Each file by its path in the repository."""
    head = "//! Parts of a machine as plain numbers. `tools/shapes` writes this file.\n"
    shown: List[str] = [struct_text(it.structs[name], comments, True) for name in SHOWN]
    return {
        "library/rust/src/raw.rs": "\n".join(raw_parts(it)),
        "library/rust/src/shapes.rs": "\n".join([head, *shown]),
        "library/rust/src/status.rs": statuses_text(it, comments),
        "library/rust/src/calls.rs": calls_text(methods),
    }
