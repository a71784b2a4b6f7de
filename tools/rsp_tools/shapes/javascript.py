"""The interface in JavaScript: tables, of which library/js makes its classes and reads what a call fills, and
the regular calls as methods, with what of both is declared for TypeScript."""

import json
import textwrap
from typing import Any, Dict, Iterable, Sequence

from rsp_tools.shapes.interface import PLAIN, Interface, Struct, Type, c_name, in_one
from rsp_tools.shapes.methods import Method, by_parts, placed, told
from rsp_tools.shapes.python import COMMENTS, GIVEN, methods_of

WIDTH = 120  # of a line
# The library for WebAssembly has addresses, and so lengths, of 64 bits.
ADDRESS = "u64"
DECLARED = ("status", "fault", "bank", "reason")  # for everybody
TYPES = {"None": "void", "int": "number"}  # of Python, as TypeScript calls them
ELEMENTS = {**{it: it for it in PLAIN}, "usize": ADDRESS, "char": "u8"}
HEAD = """/** The calls, structs and numbers of the headers in library/c. `tools/shapes` writes this file. */

/** Numbers by their names, and names by their numbers. */
function numbered(numbers) {
  const names = Object.fromEntries(Object.entries(numbers).map(([name, number]) => [number, name]));
  return Object.freeze({ ...numbers, ...names });
}
"""
STRUCTS = "/** Each struct's fields: the name, the kind, and an array's lengths, the outer one first. */\n"


def lines_of(items: Iterable[str], indent: str = "  ") -> str:
    """Items with a comma after each, in as many lines as they need."""
    lines = [indent]
    for it in items:
        if len(lines[-1]) + len(it) + 1 > WIDTH:
            lines.append(indent)
        lines[-1] += f"{it}, "
    return "\n".join(line.rstrip() for line in lines)


def numbers_text(kind: str, numbers: Dict[str, int]) -> str:
    items = lines_of(f"{it}: {number}" for it, number in numbers.items())
    return f"export const {in_one(kind)} = numbered({{\n{items}\n}});\n"


def kind_of(it: Type) -> str:
    return ADDRESS if it.pointer else ELEMENTS.get(it.element) or c_name(it.element)


def struct_text(struct: Struct) -> str:
    fields: Iterable[Any] = ([it.name, kind_of(it.type), *it.counts] for it in struct.fields)
    return f"  {c_name(struct.name)}: [\n{lines_of(map(json.dumps, fields), '    ')}\n  ],\n"


def text(it: Interface) -> str:
    numbers = [numbers_text(*pair) for pair in it.numbers.items()]
    constants = "".join(f"export const {name} = {number};\n" for name, number in it.constants.items())
    structs = "".join(map(struct_text, it.structs.values()))
    calls = lines_of(json.dumps(call.name) for call in it.calls)
    parts = [HEAD, constants, *numbers, f"{STRUCTS}export const STRUCTS = {{\n{structs}}};\n"]
    return "\n".join([*parts, f"export const CALLS = [\n{calls}\n];\n"])


def method_text(it: Method) -> str:
    given = ", ".join(it.numbers)
    name = {"": "call", "u32": "word", "usize": "length"}.get(it.result)
    call = f'#{name}("{it.name}", [{given}])' if name else f'#registers({GIVEN[it.result]}, "{it.name}")'
    return f"\n  {it.name}({given}) {{ {'return ' * bool(it.result)}this.{call}; }}\n"


def enum_text(name: str, numbers: Dict[str, int]) -> str:
    items = "".join(f"  {it} = {number},\n" for it, number in numbers.items())
    return f"/** {COMMENTS[name]} */\nexport enum {name} {{\n{items}}}\n"


def declaration(it: Method) -> str:
    said = f"{told(it.comment, '`{}`'.format)} */"
    said = textwrap.fill(said, WIDTH, initial_indent="  /** ", subsequent_indent="   * ")
    given = ", ".join(f"{name}: number" for name in it.numbers)
    return f"{said}\n  {it.name}({given}): {TYPES.get(GIVEN[it.result], GIVEN[it.result])};\n"


def files(it: Interface, methods: Sequence[Method]) -> Dict[str, str]:
    """Each file by its path in the repository."""
    mine = methods_of(methods)
    enums = "\n".join(enum_text(in_one(kind), it.numbers[kind]) for kind in DECLARED)
    declared = {"Numbers": f"\n{enums}\n", **by_parts(mine, declaration)}
    return {
        "library/js/shapes.js": text(it),
        **placed("library/js/rsp.js", by_parts(mine, method_text)),
        **placed("library/js/rsp.d.ts", declared),
    }
