"""The eraser of tools/unproved: what it erases, and that it refuses each form that it doesn't know.

These fail if it guesses: if a form that it doesn't know gets into the erased text, or an erased text has
another number of lines.
"""

import re
from pathlib import Path
from typing import Dict, Tuple

import pytest

from lib import TOP
from lib.processes import run, succeeds
from rsp_tools.crates import LINES
from rsp_tools.unproved.erase import erase
from rsp_tools.unproved.tokens import Refused
from rsp_tools.unproved.workspace import sources

# Forms that the crates don't have: the text, and what is said of it. Each is at the second line.
UNKNOWN: Dict[str, Tuple[str, str]] = {
    "attribute": ("\n#[track_caller]\nfn f() {}", "the attribute `track_caller`"),
    "derive": ("\n#[derive(Clone, Arbitrary)]\nstruct S;", "the derive of `Arbitrary`"),
    "ghost item": ("\nghost fn f(n: u8) -> u8 { n }", "this form of `ghost`"),
    "clause": ("fn f()\n    requires n < 8\n{ }", "`requires` without a term"),
    "term": ("fn f()\n    ensures { a ≡ (λ { b)\n", "a term without an end"),
    "symbol": ("fn f() {\n    let x = λ;\n}", "'\\u03bb;' in the code"),
    "comment": ("fn f() {}\n/* a comment\n*/", "'/*' in the code"),
    "macro": (
        "fn f(rt: &HostRuntime) {\n    debug_assert!(rt; true);\n}",
        "the macro `debug_assert!` with a handle",
    ),
    "drop": ("struct S;\nimpl<T> Drop for Box<T> {\n    fn drop(self) {}\n}", "this form of `Drop`"),
    "formatter": ("\nfn f<W: Write, T>(f: &mut Formatter<W>, t: T) {}", "this form of `Formatter`"),
    "for C": ('\nextern "C" fn brsp_f(text: &str) -> u32 { 0 }', "a parameter of this function for C"),
    "error": (
        "\n#[derive(Debug, Error)]\n#[error(transparent)]\npub struct S(u8);",
        "this form of the derive of `Error`",
    ),
    "root": ("\n#![feature(portable_simd)]\n", "the attribute `feature`"),
}


@pytest.mark.parametrize("name", UNKNOWN)
def test_unknown(name: str) -> None:
    text, expected = UNKNOWN[name]
    with pytest.raises(Refused, match=re.escape(expected)) as refused:
        erase(text)
    assert refused.value.line == 2


def test_all_crates() -> None:
    """The lines stay, and no word of contracts is left in the code."""
    for path in (path for crate in LINES for path in sources(crate)):
        text = path.read_text()
        left = erase(text)
        assert left[: len(left.rstrip("\n"))].count("\n") >= text.count("\n") - 1, path
        assert not re.search(r"(?m)^[^/\n]*\b(ghost|requires|ensures|tactic)\b(?! [a-z])", left), path


def test_erased() -> None:
    """A contract, a field and a bound of contracts go; an exported slice becomes two arguments."""
    text = 'extern "C" fn f(m: &M, bytes: &[u8], alloc: Global) -> u32\n    ensures { result ≡ 0 }\n{\n}\n'
    head, clause, body, *_ = erase(text).split("\n")
    assert "(m: &M, bytes: *const u8, bytes_len: usize," in head and not clause.strip()
    assert "from_raw_parts(bytes, bytes_len)" in body and "let alloc = Global;" in body
    assert (
        erase("struct S {\n    /// seen\n    pub ghost a: { ℕ },\n    b: u8,\n}").split("\n")[3]
        == "    b: u8,"
    )


@pytest.mark.needs("cargo", "/usr/share/cargo/registry/memchr-*")
def test_message(folder: Path) -> None:
    """What isn't Rust is named by the file and the line of the .rt, in a path with a blank; so is what the
    eraser refuses. Nothing is built of that."""
    top = folder / "with blank" / "rsp"
    succeeds("git", "clone", "-q", "--shared", TOP, top)
    for name in "tools/rsp_tools", "tools/unproved":
        succeeds("cp", "-r", TOP / name, (top / name).parent)
    source = top / "crates/rsp_numbers/src/sign.rt"
    lines = source.read_text().split("\n")
    lines.append("fn wrong() -> u8 { true }")
    source.write_text("\n".join(lines))
    ended = run(top / "tools/unproved", "test", "--debian", "rsp_lanes")
    assert ended.returncode == 1 and f"--> crates/rsp_numbers/src/sign.rt:{len(lines)}:20" in ended.stdout
    source.write_text("\nghost x;\n")
    ended = run(top / "tools/unproved", "test", "--debian", "rsp_lanes")
    said = "unproved: crates/rsp_numbers/src/sign.rt:2: the eraser doesn't know this form of `ghost`.\n"
    assert (ended.returncode, ended.stdout) == (1, said)
