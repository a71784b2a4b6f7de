"""Writes the modules of library/rsp-core: the emulator's crates, erased, as modules of one crate for Rust.

Cargo.toml, README.md, the examples and the files that stand beside the modules' folders are written by hand.
"""

import re
import shutil
import subprocess
import textwrap
from pathlib import Path
from typing import Iterator, Tuple

from rsp_tools import TOP
from rsp_tools.crates import CRATES
from rsp_tools.unproved import stop
from rsp_tools.unproved.erase import Places, erase
from rsp_tools.unproved.tokens import end_of_brackets
from rsp_tools.unproved.workspace import SHIMS, sources

WIDTH = 100
CORE = TOP / "library/rsp-core"
MODULES = (
    *("numbers", "memory", "decode", "scalar", "lanes", "acc", "multiply", "compare", "divide", "loadstore"),
    *("regs", "machine", "dis"),
)
# Theorems, whose functions do nothing.
LEFT = {"decode/laws", "dis/laws", "machine/laws"}
# What is cut off with its braces, where it begins.
CUT = re.compile(r"#\[cfg\(test\)\]\s*mod tests\b|\bimpl(<[^{]*?>)? Model for |\bunsafe impl Send\b")
OF_THE_KIT = re.compile(
    r"[Cc]ontracts?\b|\bprover\b|\bproofs?\b|\bproved\b|\bspecs/|\bdefinitions?\b|\blaws?\b|docs/"
    r"|\bRattle\b|\bthe kit\b"
)
PARAGRAPH = re.compile(r"(?m)^(?P<indent>[ \t]*)(?P<mark>//[/!]?) .*\n(?:(?P=indent)(?P=mark) (?!- ).*\n)*")
# A line of a comment without text that no longer parts two paragraphs.
LONELY = re.compile(r"(?m)^[ \t]*//[/!]\n(?=[ \t]*(?!//[/!])|//[/!]\n)")
# A blank line, which an erased attribute left, between what documents an item and the item.
APART = re.compile(r"(?m)^([ \t]*(?:///.*|#\[.*\])\n)\n+(?=[ \t]*[^/\s])")
CHANGES = (
    (r"(?m)^#\[derive\(\)\]\n", ""),
    (r"(?m)^use std::marker::Model;\n", ""),
    (r"(?m)^(pub )?mod laws;\n", ""),
    (r": Ends \+ ", ": "),
    (r"( \+|:) Ends\b", ""),
    (r"\bstd::simd\b", "crate::simd"),
    (r"\bstd::", "core::"),
    (r"\b(byteorder|arrayvec|itoa|rsp_syntax)::", "crate::support::"),
    (r"[ \t]+(?=\n)", ""),
    (r"\n{3,}", "\n\n"),
)


def without_parts(text: str) -> str:
    """A text without its tests and without what only contracts have."""
    while found := CUT.search(text):
        text = text[: found.start()] + text[end_of_brackets(text, text.index("{", found.start())) :]
    return text


def told(paragraph: "re.Match[str]") -> str:
    """A paragraph of a comment without its sentences about contracts and proofs, in short lines."""
    head = f"{paragraph['indent']}{paragraph['mark']} "
    lines = [line[len(head) :] for line in paragraph[0].splitlines()]
    text = " ".join(line.strip() for line in lines)
    if text.startswith("For the prover"):
        text = "Only the proof of the sources needs this."
    elif OF_THE_KIT.search(text):
        text = " ".join(it for it in re.split(r"(?<=[.]) (?=[A-Z`])", text) if not OF_THE_KIT.search(it))
    elif max(map(len, lines)) + len(head) <= WIDTH or lines[0].startswith(("    ", "|", "#")):
        return paragraph[0]
    rest = head + "  " * text.startswith("- ")
    wrapped = textwrap.wrap(text, WIDTH, initial_indent=head, subsequent_indent=rest, break_on_hyphens=False)
    return "".join(f"{line}\n" for line in wrapped)


def plain(crate: str, path: Path) -> str:
    """A file of a crate as one of a module."""
    text = without_parts(erase(path.read_text(), Places("", "")))
    text = PARAGRAPH.sub(told, text)
    for old, new in CHANGES:
        text = re.sub(old, new, text)
    text = APART.sub(r"\1", LONELY.sub("", text))
    text = re.sub(r"\bcrate::(?!support\b|simd\b)", f"crate::{crate}::", text)
    text = re.sub(r"\brsp_(\w+)(?=::)", r"crate::\1", text)
    return f"use alloc::vec::Vec;\n{text}" if re.search(r"\bVec<", text) else text


def modules() -> Iterator[Tuple[Path, str]]:
    """Each file of the modules, by its path from `src`."""
    for name in MODULES:
        for path in sources(f"rsp_{name}"):
            file = path.relative_to(CRATES / f"rsp_{name}/src").with_suffix(".rs")
            if f"{name}/{file.with_suffix('')}" not in LEFT:
                yield Path(name, "mod.rs" if str(file) == "lib.rs" else file), plain(name, path)
    yield Path("simd.rs"), (SHIMS / "kit_std/src/simd.rs").read_text().replace("std::", "core::")


def write(core: Path = CORE) -> None:
    """Writes the modules anew, laid out by rustfmt."""
    for module in MODULES:
        shutil.rmtree(core / "src" / module, ignore_errors=True)
    made = []
    for name, text in modules():
        made.append(core / "src" / name)
        made[-1].parent.mkdir(parents=True, exist_ok=True)
        made[-1].write_text(text)
    try:
        ended = subprocess.run(["rustfmt", "--edition", "2024", *made])
    except OSError:
        stop("there is no rustfmt (Debian's package rustfmt-web)")
    if ended.returncode:
        stop("rustfmt refuses what is written")
    print(f"UNPROVED: {len(made)} files in {core}/src")
