"""Each call of brsp.h has the same name in all languages, or docs/data/calls.tsv says which, and why.

They fail if a language lacks a call, or has it by another name.
"""

import re
from pathlib import Path

import pytest

from lib import TOP
from lib.library import names
from lib.packages import need
from lib.pages import data, page
from lib.processes import run


def body(text: str, form: str) -> str:
    """What is between the braces of a class, a struct, or the `impl`s of a type."""
    return "\n".join(re.findall(rf"(?ms)^{form}[^\n]*\{{\n(.*?)^\}}", text))


def test_rows() -> None:
    """Each row is of a call whose names aren't the usual ones, and says why."""
    rows = data("calls")
    assert rows and {row["C"] for row in rows} <= {*names.calls()}
    for row in rows:
        usual = names.usual(row["C"])
        assert {it: row[it] for it in usual} != usual and row["Why the names differ"] != "-", row


def test_cpp(folder: Path) -> None:
    need("c++")
    lines = []
    for name in names.named("C++"):
        owner, _, method = name.rpartition("::")
        used = f"using brsp::{name};"
        if owner:
            used = f"{{ struct of_class : brsp::{owner} {{ {used} }}; }}"
        kind = {"~": "std::is_destructible_v", "": "std::is_constructible_v"}.get(method.replace(owner, ""))
        lines.append(f"static_assert({kind}<brsp::{owner}>);" if kind else used)
    source = folder / "names.cpp"
    source.write_text('#include "brsp.hpp"\nvoid use()\n{\n' + "\n".join(lines) + "\n}\n")
    ran = run("c++", "-std=c++17", f"-I{TOP / 'library/c'}", "-fsyntax-only", source)
    assert ran.returncode == 0, ran.stdout


@pytest.mark.usefixtures("library")
def test_python() -> None:
    import rsp

    for name in names.named("Python"):
        owner, _, item = name.rpartition(".")
        made = getattr(rsp, owner) if owner else rsp
        fields = made.__init__.__code__.co_names if owner else ()
        assert hasattr(made, item) or item in fields, name


def test_rust() -> None:
    text = "\n".join(it.read_text() for it in sorted((TOP / "library/rust/src").glob("*.rs")))
    for name in names.named("Rust"):
        owner, _, item = name.rpartition("::")
        where = body(text, f"(?:impl|pub struct) {owner} ") if owner else text
        assert re.search(rf"(?m)^ *pub (?:fn )?{item}[(:]", where), name


def test_javascript() -> None:
    text = page("library/js/rsp.d.ts")
    for name in names.named("JavaScript"):
        owner, _, item = name.rpartition(".")
        where = body(text, f"export class {owner} ") if owner else text
        assert re.search(rf"(?m)^ *(?:export (?:function|class|const) |readonly )?{item}\b", where), name
