"""compiled/ as tools/assemble makes it and ./prove compares it, by the files as they are and by small texts.

It fails if files are named or written so that git keeps each change of a line as a whole file, if other code
is assembled than the kit's, if ./prove passes what is stale, or if NOTICE leaves out a crate of the kit or
names another kit than the one that made the files.
"""

import re
from pathlib import Path
from typing import Dict, Tuple

import pytest

from lib import TOP
from lib.processes import succeeds
from rsp_tools.crates import LINES, uses, with_below
from rsp_tools.kit import assemble, modules, objects, record
from rsp_tools.kit.modules import LIBRARY, PROGRAM, WEB, Crate
from rsp_tools.systems.toolchain import Refused
from rsp_tools.targets import PROCESSORS

ARM = PROCESSORS["aarch64"].triple
FUNCTION = """\t.section\t.text.{name}
{name}:
\tje\t.LBB{number}_1
.LBB{number}_1:
\tmovl\t.LCPI{number}_0(%rip), %eax
.Lfunc_end{number}:
\t.size\t{name}, .Lfunc_end{number}-{name}
"""


def test_git_finds_the_version_before() -> None:
    """git looks for it among files whose names have the same sum (pack_name_hash), which few letters at the
    end decide: of two files with the same sum, a change of one line is stored as a whole file."""

    def name_hash(name: str) -> int:
        found = 0
        for letter in f"compiled/{name}".encode():
            found = ((found >> 2) + (letter << 24)) % 2**32
        return found

    names = [name for crate in assemble.ON_TOP for name in assemble.triples(crate)]
    assert len({*map(name_hash, names)}) == len(names) == len([*assemble.COMPILED.glob("*.s")])


def test_labels() -> None:
    """One more function leaves the text of the others as it was, though clang gives them other numbers."""
    one, other = (FUNCTION.format(name="other", number=it) for it in (0, 1))
    text = objects.with_stable_labels(FUNCTION.format(name="new", number=0) + other)
    assert text.endswith(objects.with_stable_labels(one)) and not re.search(r"\.L[A-Za-z_]+[01]\b", text)
    with pytest.raises(Refused, match="two functions have the same sum"):
        objects.with_stable_labels(one + other)


@pytest.mark.needs("rt")
def test_module_as_the_kit_gives_it(folder: Path) -> None:
    """What our clang keeps is what is compiled for Linux, by the words that it was given; its text, of which
    other code is made, is not. The text has the layout of the module's processor, and not of this one."""
    at, source = folder / "at", folder / "module.ll"
    modules.link_toolchain(at / "toolchain")
    source.write_text(f'target triple = "{ARM}"\n\ndefine i32 @seven() {{\n  ret i32 7\n}}\n')
    words = [f"--target={ARM}", "--sysroot=/none", "-ffunction-sections", "-c", "-x", "ir", source, "-o"]
    succeeds(at / "toolchain/bin/clang", *words, at / "made", "-O3")
    assert b"seven" not in (at / "made").read_bytes()
    modules.print_text(at / "module", "aarch64", at / "text.ll")
    assert f'target triple = "{ARM}"' in (at / "text.ll").read_text()
    kept = modules.own((at / "module.words").read_text().splitlines())
    made = modules.Module(at / "none", [], at / "module", kept)
    text = objects.for_linux(made, ARM, at)
    assert "\n\t.section\t.text.seven," in text and ".Lfunc_end0" not in text


def test_what_prove_says(
    monkeypatch: pytest.MonkeyPatch, folder: Path, capsys: pytest.CaptureFixture[str]
) -> None:
    """Files of another kit are no fault as long as their sources are the same."""
    made = {PROGRAM: {"a.s": b"1\n"}, LIBRARY: {"b.s": b"1\n"}}

    def run(kit: str, of: str, data: bytes, crate: Crate = PROGRAM) -> Tuple[int, str]:
        monkeypatch.setattr(assemble, "version", lambda: kit)
        monkeypatch.setattr(assemble, "sources", lambda _: f"names\n{of}\n")
        status = assemble.check({**made, crate: {name: data for name in made[crate]}})
        return status, capsys.readouterr().out.splitlines()[-1]

    monkeypatch.setattr(assemble, "COMPILED", folder)
    monkeypatch.setattr(assemble, "new_text", lambda: assemble.made_of(assemble.TOPS))
    (folder / "NOTICE").write_text("kit 1\n")
    monkeypatch.setattr(record, "sources", lambda _: "sum -")
    assert run("kit 1", "sum 1", b"1\n") == (1, "0 passed, 5 failed")
    assert assemble.write(made) == 0 and "a.s, rsp_main.made, b.s" in capsys.readouterr().out
    assert run("kit 1", "sum 1", b"1\n") == run("kit 2", "sum 1", b"1\n") == (0, "5 passed, 0 failed")
    (folder / "record").write_text("<<<<<<< HEAD\n")  # after a merge in which the marks fit
    for name in "record", "nothing":
        assert assemble.write(made) == 0 and f": {name} in compiled/" in capsys.readouterr().out
    assert run("kit 1", "sum 1", b"2\n") == (1, "4 passed, 1 failed")
    assert run("kit 2", "sum 1", b"2\n") == (3, "4 passed, 0 failed")
    assert run("kit 2", "sum 2", b"2\n") == (1, "2 passed, 3 failed")
    (folder / "b.s").write_bytes(b"2\n")
    assert run("kit 2", "sum 1", b"2\n", LIBRARY) == (1, "4 passed, 1 failed")


def test_other_tools(monkeypatch: pytest.MonkeyPatch, folder: Path) -> None:
    """With other versions of binaryen and wabt rsp.wasm stays, except if it is of another module."""

    def made(version: str, module: bytes) -> Dict[str, bytes]:
        monkeypatch.setattr(assemble, "COMPILED", folder)
        monkeypatch.setattr(assemble, "versions", lambda: version)
        monkeypatch.setattr(assemble, "lowered", lambda it: version.encode() + it)
        return assemble.with_short_memory(module)

    first = made("1", b"a")
    assert first["rsp.wasm"] == b"1a" and first["lowering"].startswith(b"1\n")
    for name, data in first.items():
        (folder / name).write_bytes(data)
    assert made("2", b"a") == first
    assert made("2", b"b")["rsp.wasm"] == b"2b"


def test_helpers(monkeypatch: pytest.MonkeyPatch) -> None:
    """A change of the helpers makes rsp.wasm stale, and not the assembly, with which cc compiles them."""
    monkeypatch.setattr(assemble, "version", lambda: "kit 1")
    monkeypatch.setattr(assemble, "sources", lambda _: "names\nsum -\n")
    names = {crate.made: assemble.mark(crate, {}).split()[6::2] for crate in (PROGRAM, LIBRARY, WEB)}
    assert {name for name in names if "library/c/helpers/search.c" in names[name]} == {"rsp_wasm.made"}
    assert "runtime/allocator.c" in names["rsp_wasm.made"]
    assert [it for listed in names.values() for it in listed if not (TOP / it).is_file()] == []


def test_notice() -> None:
    """It names the crates of the kit that ours use, those whose names are in the files, and the kit of the
    mark, which tools/assemble writes with the mark."""
    below = {used for crate in assemble.ON_TOP for name in with_below(crate.name) for used in uses(name)}
    texts = "".join(path.read_text() for path in assemble.COMPILED.glob("Linux-*.s"))
    inside = {*re.findall(r'"\.text\.(?:unlikely\.)?<*(\w+)::', texts)}
    notice, mark = ((TOP / "compiled" / name).read_text() for name in ("NOTICE", PROGRAM.made))
    assert {*re.findall(r"(?m)^  (\w+)(?:$| +after )", notice)} == (below | inside) - {*LINES}
    assert re.findall(r"rattle-kit-\w+", notice) == re.findall(r"\Arattle-kit-\w+", mark)
    assert (
        assemble.with_kit("the kit (rattle-kit-1a).", "rattle-kit-2 logic 0\nrest")
        == "the kit (rattle-kit-2)."
    )
