"""Refused calls in C, C++ and Python, by the one table of all languages (refusals.tsv, ranges.tsv). Rust's
test is in library/rust/tests, JavaScript's in tests/systems/wasm.

They fail if a language has another status or another sentence, or if a sentence names another argument than
the first that is wrong, or another range.
"""

from pathlib import Path
from typing import Any, Callable, Dict, List

import pytest

import rsp
from lib import TOP
from lib.library.programs import HERE, built, by_both, output_of
from lib.library.refusals import assert_refused, given, ranges, rows
from lib.processes import STRICT, compiled, succeeds

pytestmark = pytest.mark.usefixtures("library")


@by_both
def test_c(compiler: str, folder: Path) -> None:
    program = built(folder, HERE / "refusals.c", compiler=compiler)
    assert_refused("C", succeeds(program, input=given("C")))


@pytest.mark.needs("c++")
def test_cpp(folder: Path) -> None:
    words = ("-std=c++17", *STRICT, HERE / "refusals.cpp", TOP / "library/c/libbrsp.a")
    program = compiled(folder / "refusals", *words, compiler="c++")
    assert_refused("C++", succeeds(program, input=given("C++")))


FIELDS: Dict[int, Callable[[rsp.State, int], None]] = {
    1: lambda state, value: state.words.__setitem__(0, value),
    2: lambda state, value: setattr(state.divider, "loaded", value),
    3: lambda state, value: setattr(state, "pc", value),
    4: lambda state, value: setattr(state, "npc", value),
    5: lambda state, value: setattr(state, "interrupt", value),
}


class Sides:
    """A machine and a session, of which a row makes calls."""

    def __init__(self) -> None:
        self.machine, self.session = rsp.Machine(bytes(64), 4), rsp.Session(bytes(64))
        self.machine.load_words(rsp.IMEM, 0, [0x40010000])

    def set(self, field: int, value: int) -> None:
        state = self.machine.get()
        FIELDS.get(field, lambda it, word: it.sp.__setitem__(field - 16, word))(state, value)
        self.machine.set(state)

    def load_state(self, at: int, byte: int, length: int) -> None:
        saved = bytearray(self.machine.save_state().ljust(9216, b"\0"))
        saved[at] = byte
        self.machine.load_state(bytes(saved[:length]))

    def call(self, name: str, numbers: List[int]) -> None:
        """Makes a call of a row."""
        machine = self.machine
        own: Dict[str, Callable[..., Any]] = {
            "Machine": lambda length, depth: rsp.Machine(bytes(length), depth),
            "Session": lambda length: rsp.Session(bytes(length)),
            "load": lambda bank, address, length: machine.load(bank, address, bytes(length)),
            "load_words": lambda bank, address, count: machine.load_words(bank, address, [0] * count),
            "set": self.set,
            "set_sp": lambda it: machine.set_sp(rsp.SpWords(machine.sp().words, interrupt=it)),
            "load_state": self.load_state,
            "text": rsp.text,
            "assemble": lambda origin: rsp.assemble("nop", origin),
            "explain_text": lambda origin: rsp.explain_text("nop", origin),
            "first_difference": lambda *given: rsp.first_difference(machine, machine.copy(), *given),
            "feed": lambda: self.session.feed("step\n"),
            "end": self.session.end,
            "free": machine.close,
        }
        (own[name] if name in own else getattr(machine, name))(*numbers)


@pytest.mark.parametrize("calls", rows("Python"))
def test_python(calls: str) -> None:
    sides, (status, sentence) = Sides(), rows("Python")[calls]
    *before, last = [it.split() for it in calls.split("; ")]
    for name, *numbers in before:
        sides.call(name, [*map(int, numbers)])
    with pytest.raises(rsp.RspError) as caught:
        sides.call(last[0], [*map(int, last[1:])])
    assert caught.value.status.name == status and sentence in ("-", str(caught.value))


def refused(cases: List[str], folder: Path) -> List[str]:
    """What brsp_refusal_text says of the status OUT_OF_RANGE, for calls with their numbers."""
    lines = ["char text[256];"]
    for case in cases:
        call, _, numbers = case.partition(" ")
        lines.append(f'brsp_refusal_text(103, "{call}", "{numbers}", text, sizeof text); puts(text);')
    text = '#include "brsp_helpers.h"\n#include <stdio.h>\nint main(void)\n{\n%s\nreturn 0;\n}\n'
    return output_of(folder, text % "\n".join(lines)).splitlines()


@pytest.mark.needs("cc")
def test_ranges(folder: Path) -> None:
    """Of each argument the numbers beside its range are named, and those at its ends aren't."""
    valid: Dict[str, str] = {}
    wrong: Dict[str, str] = {}
    right: Dict[str, str] = {}
    for call, name, allowed, text in ranges():
        before = valid.get(call, f"{call} ")
        said, unit = ("has", " bytes") if name == "image" else ("is", "")
        for n in (allowed[0] - 1, allowed[-1] + 1, allowed[-1] + allowed.step, -1, 1 << 32, (1 << 64) + 1):
            wrong[f"{before}{n}"] = f"{call}: {name} {said} {n}{unit}, not {text}"
        for n in (allowed[0], allowed[-1]):
            right[f"{before}{n}"] = f"{call}: {name} {said}"
        valid[call] = f"{before}{allowed[-1]} "
    assert dict(zip(wrong, refused([*wrong], folder))) == wrong
    texts = zip(right.items(), refused([*right], folder))
    assert [case for (case, named), text in texts if text.startswith(named)] == []
