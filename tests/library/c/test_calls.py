"""Each call of the library from C and C++, and what docs/EMULATOR.md and brsp.h say of memory and threads.

They fail if a call in its range or out of it does something else, also under valgrind and with each
allocation failing; if a call uses more stack than brsp.h says (stack.c), or another takes memory than those
that may (no_memory.c), or keeps some (balance.c); if a machine can't go from thread to thread (threads.c), or
SP registers and RDRAM of a program's own differ (owner.c, host.cpp).
"""

import re
from pathlib import Path
from typing import List

import pytest

from lib import TOP
from lib.library import LOCKSTEP, shapes
from lib.library.programs import COUNTED, HERE, assert_passes, built, by_both, main_of, output_of
from lib.pages import block_with, blocks_of, page
from lib.processes import STRICT, compiled, run, succeeds

pytestmark = [pytest.mark.needs("cc"), pytest.mark.usefixtures("library")]
EXAMPLE = TOP / "examples/c/lockstep.c"
CONSOLE = TOP / "examples/c/console.hpp"
BY_CONSOLE = "-std=c++17", f"-I{CONSOLE.parent}"
SANITIZER = "-fsanitize=thread"


@by_both
def test_calls(compiler: str, folder: Path) -> None:
    assert_passes(built(folder, HERE / "calls.c", compiler=compiler))


@by_both
def test_lockstep(compiler: str, folder: Path) -> None:
    assert succeeds(built(folder, EXAMPLE, compiler=compiler)) == LOCKSTEP


@by_both
def test_page(compiler: str, folder: Path) -> None:
    """The program at the top of EMBEDDING.md, and the calls of EMULATOR.md, print what the pages say."""
    expected = re.findall(r"It prints `(.*)`", page("docs/EMBEDDING.md"))[0]
    first = block_with("docs/EMBEDDING.md", '#include "brsp.h"')
    assert output_of(folder, first, compiler) == f"{expected}\n"
    section = re.findall(r"(?ms)^## The calls for an emulator\n(.*?)^## ", page("docs/EMULATOR.md"))[0]
    lines = re.findall(r"[Tt]his\sprints\s`([^`]*)`", section)
    begin = "static const uint8_t image[64] = { 0 };\nbrsp_machine m = BRSP_NONE;\n"
    begin += "if (brsp_new(&m, image, 64, 100) != BRSP_OK) return 1;\n"
    program = main_of(begin + "\n".join(blocks_of(section)))
    assert lines and output_of(folder, program, compiler).splitlines() == lines


@pytest.mark.needs("c++")
def test_console(folder: Path) -> None:
    """The console of the examples, which owns RDRAM, beside a machine that has all inside. EMULATOR.md says
    how long it is."""
    (lines,) = re.findall(r"(\d+)\slines\sof\sC\+\+17", page("docs/EMULATOR.md"))
    assert len(CONSOLE.read_text().splitlines()) == int(lines) <= 120
    assert_passes(built(folder, HERE / "host.cpp", *BY_CONSOLE, compiler="c++"))


@pytest.mark.needs("c++")
def test_a_dma_by_the_cpu(folder: Path) -> None:
    """The example that loads microcode as games do."""
    example = built(folder, CONSOLE.with_suffix(".cpp"), *BY_CONSOLE, compiler="c++")
    assert succeeds(example) == "9 steps: 2 4 6 8 10 12 14 16, interrupt 1\n"


@pytest.mark.parametrize("name", ("stack.c", "no_memory.c"))
def test_no_call_is_missing(name: str) -> None:
    text = (HERE / name).read_text() + (HERE / "each_call.h").read_text()
    assert {call.name for call in shapes.PROVED.calls} - {*re.findall(r"(brsp_\w+)[(,]", text)} == set()


def program(name: str, folder: Path) -> Path:
    """One of the programs beside this file. no_memory has calls.c inside, and fails its allocations."""
    words: List[object] = [COUNTED] if name in ("balance", "no_memory") else ["-pthread"]
    if name == "no_memory":
        defined = ("-Dmain=all_calls", "-DQUIET")
        words.append(compiled(folder / "calls.o", "-std=c99", *STRICT, *defined, "-c", HERE / "calls.c"))
    return built(folder, HERE / f"{name}.c", *words)


@pytest.mark.parametrize("name", ("balance", "no_memory", "owner", "stack", "threads"))
def test_program(name: str, folder: Path) -> None:
    assert_passes(program(name, folder))


@pytest.mark.needs("valgrind")
@pytest.mark.parametrize("name", ("calls", "no_memory"))
def test_valgrind(name: str, folder: Path) -> None:
    words = ("valgrind", "-q", "--leak-check=full", "--error-exitcode=9")
    assert "==" not in succeeds(*words, program(name, folder))


def test_threads_under_a_sanitizer(folder: Path) -> None:
    """It is skipped where the sanitizer can't run: not every machine gives it its layout of memory."""
    (folder / "empty.c").write_text("int main(void) { return 0; }\n")
    made = run("cc", SANITIZER, "-o", "empty", "empty.c", cwd=folder)
    if made.returncode or run("./empty", cwd=folder).returncode:
        pytest.skip(f"{SANITIZER} doesn't run here (Debian's package libtsan2)")
    assert "WARNING" not in succeeds(built(folder, HERE / "threads.c", "-pthread", "-g", SANITIZER))


@pytest.mark.needs("qemu-x86_64")
@pytest.mark.parametrize("processor, status", [("core2duo", 102), ("Nehalem", 0)])
def test_older_processor(processor: str, status: int, folder: Path) -> None:
    """The calls that make a machine return a status on a processor without x86-64-v2, and raise no signal."""
    handles = "static uint8_t image[64]; brsp_machine m = BRSP_NONE; brsp_session b = BRSP_NONE;"
    calls = "brsp_new(&m, image, 64, 0), brsp_session_new(&b, image, 64)"
    (folder / "older.c").write_text(main_of(f'{handles}\nprintf("%u %u", {calls});'))
    made = built(folder, folder / "older.c")
    assert succeeds("qemu-x86_64", "-cpu", processor, made) == f"{status} {status}"


@pytest.mark.needs("nm")
@pytest.mark.parametrize("source", (EXAMPLE, HERE / "script.c"), ids=lambda it: it.stem)
def test_a_program_pays_for_its_calls_alone(source: Path, folder: Path) -> None:
    """One that makes no session doesn't hold the session's code."""
    names, is_held = succeeds("nm", built(folder, source, "-Wl,--gc-sections")), source != EXAMPLE
    assert [it in names for it in ("brsp_session_take", "rsp_commands")] == [is_held, is_held]


def test_size_of_the_shared_library(library: Path) -> None:
    assert (library / "libbrsp.so").stat().st_size <= 655360
