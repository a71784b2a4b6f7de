"""The layouts and declarations of library/js, as far as they can be seen without its library.

They fail if a layout or a declared number differs from crates/rsp_c, or a method from the class of Python.
"""

import ast
import json
import re
from pathlib import Path
from typing import Dict, Set

import pytest

from lib import TOP
from lib.library import shapes
from lib.packages import need
from lib.pages import page
from lib.processes import succeeds
from rsp_tools.shapes.python import SHOWN

FOLDER = TOP / "library/js"
TYPES = page("library/js/rsp.d.ts")
# A field that has another name there.
RENAMED = {"bytes": "stored_bytes"}
# What one of the classes of Python and JavaScript has alone: a call of numpy, and how a machine is freed.
PYTHON_ALONE, JAVASCRIPT_ALONE = {"run_to_halt", "close", "memory_array"}, {"free"}
# A script that prints the layouts of the structs as layout.js computes them.
LAYOUTS = f"""
import {{ STRUCTS }} from "{FOLDER}/shapes.js";
import {{ layout }} from "{FOLDER}/layout.js";
const places = ({{ size, fields }}) => [size, fields.map((it) => [it.name, it.offset, it.size])];
const anew = Object.keys(STRUCTS).filter((it) => layout(it) !== layout(it)); // each read would compute these
if (anew.length) throw new Error(`layouts are computed anew: ${{anew}}`);
console.log(JSON.stringify(Object.fromEntries(Object.keys(STRUCTS).map((it) => [it, places(layout(it))]))));
"""


def python_names(name: str) -> Set[str]:
    """The public methods of a class of the module rsp."""
    tree = ast.parse(page(f"library/python/rsp/{name.lower()}.py"))
    (found,) = [it for it in tree.body if isinstance(it, ast.ClassDef) and it.name == name]
    names = {it.name for it in found.body if isinstance(it, ast.FunctionDef)}
    return {it for it in names if not it.startswith("_")}


def test_layouts(folder: Path) -> None:
    need("node")
    (folder / "layouts.mjs").write_text(LAYOUTS)
    output = succeeds("node", folder / "layouts.mjs")
    layouts = json.loads(json.dumps(shapes.layouts()))
    del layouts["brsp_range"]  # which only other languages have
    assert json.loads(output) == layouts


def body(head: str) -> str:
    """The body of a declaration, without comments."""
    text = re.sub(r"(?s)/\*.*?\*/", "", TYPES)
    (found,) = re.findall(rf"(?ms)^export {head} (?:extends \w+ )?\{{\n(.*?)^\}}", text)
    return str(found)


def enum_of(name: str) -> Dict[str, int]:
    """The numbers of an enum of the declarations."""
    return {name: int(number) for name, number in re.findall(r"(\w+) = (\d+),", body(f"enum {name}"))}


def methods_of(name: str) -> Set[str]:
    """The methods and fields of a class of the declarations."""
    return {*re.findall(r"(?m)^  (?:readonly )?(\w+)[(:]", body(f"class {name}"))} - {"constructor"}


@pytest.mark.parametrize("struct, name", SHOWN.items())
def test_declared_fields(struct: str, name: str) -> None:
    fields = (it.name for it in shapes.INTERFACE.structs[struct].fields if it.name != "zero")
    expected = [RENAMED.get(field, field) for field in fields]
    assert re.findall(r"(?m)^  (?:readonly )?(\w+): ", body(f"class {name}")) == expected


@pytest.mark.parametrize("name", ("Status", "Fault", "Bank", "Reason"))
def test_declared_numbers(name: str) -> None:
    assert enum_of(name) == shapes.INTERFACE.numbers[name.lower()]


@pytest.mark.parametrize("name", ("Machine", "Session"))
def test_declared_methods(name: str) -> None:
    """They are those of Python."""
    assert methods_of(name) - JAVASCRIPT_ALONE == python_names(name) - PYTHON_ALONE
