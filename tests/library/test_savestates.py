"""Savestates: the same bytes from C, C++, Python, Rust and JavaScript, and two machines that exchange them.

They fail if a language writes other bytes than C, takes bytes that it should refuse, changes a machine when
it refuses them, or if two machines differ whose steps are cut differently (savestates.c, whose numbers are
the table of conformance/FORMS.md).
"""

import json
import re
from pathlib import Path

import pytest

import rsp
from lib import TOP
from lib.library.programs import HERE, assert_passes, built
from lib.library.savestates import IMAGE, STEPS, TEXT
from lib.pages import page
from lib.processes import STRICT, compiled, succeeds

pytestmark = [pytest.mark.needs("cc"), pytest.mark.usefixtures("library")]
PLAY = HERE / "savestates.c"
IN_CPP = """#include "brsp.hpp"
#include <cstdio>
int main()
{
    brsp::bytes image(256);
    for (size_t i = 0; i < 256; i++) image[i] = uint8_t(i);
    brsp::machine machine(image, 5);
    machine.load_words(BRSP_IMEM, 0, brsp::assemble(TEXT));
    machine.run(1000);
    const brsp::bytes saved = machine.save_state();
    for (const uint8_t it : saved) std::printf("%02x", it);
    brsp::machine other(image);
    other.load_state(saved);
    if (other.save_state() != saved) return 1;
    try {
        other.load_state(brsp::bytes(saved.begin(), saved.end() - 1));
    } catch (const brsp::rsp_error &error) {
        std::printf("\\n%s\\n", error.what());
        return error.status != BRSP_OUT_OF_RANGE || other.save_state() != saved;
    }
    return 1;
}
"""


@pytest.fixture(scope="module")
def machine() -> rsp.Machine:
    made = rsp.Machine(IMAGE, 5)
    made.load_words(rsp.IMEM, 0, rsp.assemble(TEXT))
    made.run(STEPS)
    return made


@pytest.mark.needs("c++")
def test_cpp(machine: rsp.Machine, folder: Path) -> None:
    source = folder / "saves.cpp"
    source.write_text(IN_CPP.replace("TEXT", json.dumps(TEXT)))
    words = ("-std=c++17", *STRICT, source, TOP / "library/c/libbrsp.a")
    saved, why = succeeds(compiled(folder / "saves", *words, compiler="c++")).splitlines()
    assert saved == machine.save_state().hex()
    assert why == "load_state: there are 9231 bytes, not 8976 and those of the image"


def test_play(folder: Path) -> None:
    """Two machines over 10,000 slices; and each fault of a savestate in C."""
    assert_passes(built(folder, PLAY))


@pytest.mark.outside("it takes an hour")
@pytest.mark.timeout(3 * 3600)
def test_long_play(folder: Path) -> None:
    assert_passes(built(folder, PLAY), 300_000_000, timeout=3 * 3600)


def test_python(machine: rsp.Machine) -> None:
    saved = machine.save_state()
    other = rsp.Machine(bytes(256), 5)
    other.add_break(0x7F0)
    other.add_watch(0, 8)
    other.run(3)
    other.load_state(saved)
    assert other.save_state() == saved and other.get() == machine.get() and other.history() == 0
    assert other.memory(rsp.RDRAM, 0, 256) == machine.memory(rsp.RDRAM, 0, 256)
    other.drop_break(0x7F0)
    other.drop_watch(0)


@pytest.mark.parametrize(
    "change, why",
    (
        (lambda it: b"", "the bytes don't begin with RSPS"),
        (lambda it: b"RSPT" + it[4:], "the bytes don't begin with RSPS"),
        (lambda it: it[:7] + b"\2" + it[8:], "the savestate has version 2, not 1"),
        (lambda it: it[:-1], "there are 9231 bytes, not 8976 and those of the image"),
        (lambda it: it + b"\0", "there are 9233 bytes, not 8976 and those of the image"),
        (lambda it: it[:10], "there are 10 bytes, not 8976 and those of the image"),
        (
            lambda it: it[:10] + b"\1\x08" + it[12:] + bytes(8),
            "its image has 264 bytes, and that of the machine 256",
        ),
        (
            lambda it: it[:10] + b"\0\xf8" + it[12:-8],
            "its image has 248 bytes, and that of the machine 256",
        ),
        (lambda it: it[:712] + b"\0\2" + it[714:], "pc is 2, not a multiple of 4 below 4096"),
        (lambda it: it[:705] + b"\1" + it[706:], "byte 705 isn't 0"),
    ),
    ids=lambda it: it if isinstance(it, str) else "",
)
def test_python_refuses(change: "rsp.Any", why: str, machine: rsp.Machine) -> None:
    before = machine.save_state()
    with pytest.raises(rsp.RspError) as found:
        machine.load_state(change(before))
    assert str(found.value) == f"load_state: {why}" and found.value.status is rsp.Status.OUT_OF_RANGE
    assert machine.save_state() == before


def test_layout(machine: rsp.Machine) -> None:
    """The offsets of FORMS.md: the parts of a savestate, and the fields of a state after its twelve bytes."""
    section = page("conformance/FORMS.md").partition("## A savestate\n")[2].partition("\n## ")[0]
    rows = re.findall(r"(?m)^\| (\d+) \| (\d+) \|", section)
    ends = [int(at) + int(size) for at, size in rows]
    assert [int(at) for at, _ in rows] == [0, *ends[:-1]] and ends[-1] == 8976
    saved = machine.save_state()
    assert saved[:12] == b"RSPS" + (1).to_bytes(4, "big") + (256).to_bytes(4, "big")
    assert saved[8976:] == machine.memory(rsp.RDRAM, 0, 256) and len(saved) == 9232
