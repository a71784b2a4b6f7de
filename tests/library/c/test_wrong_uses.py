"""Wrong uses of first_difference: each comes to the same in all languages, as ../wrong_uses.tsv says.

They fail if a language accepts what another refuses, or reads what it was never given. Rust's are in
library/rust/tests/wrong_uses.rs, JavaScript's in tests/systems/wasm/wrong_uses.js.
"""

from pathlib import Path
from typing import Any, Dict, List

import pytest

from lib import TESTS
from lib.library.programs import HERE, built, by_both
from lib.processes import succeeds

pytestmark = pytest.mark.usefixtures("library")
TABLE = dict(it.split("\t") for it in (TESTS / "library/wrong_uses.tsv").read_text().splitlines()[1:])


def outcomes(text: str) -> Dict[str, str]:
    return dict(line.split("\t") for line in text.splitlines())


@by_both
def test_c(compiler: str, folder: Path) -> None:
    assert outcomes(succeeds(built(folder, HERE / "wrong_uses.c", compiler=compiler))) == TABLE


@pytest.mark.needs("cc", "valgrind")
def test_under_valgrind(folder: Path) -> None:
    """No byte is read that nothing has written."""
    words = ("valgrind", "-q", "--error-exitcode=9", "--leak-check=full")
    assert outcomes(succeeds(*words, built(folder, HERE / "wrong_uses.c"))) == TABLE


WORDS = [0x24010001, 0x24020002, 13]


def outcome(words: List[int], wrong: str = "", every: int = 4) -> str:
    """What the comparison with an emulator comes to, of whose methods one is wrong."""
    import rsp

    class Faulty(rsp.Machine):
        pass

    def get(self: Any) -> rsp.State:
        raw = bytearray(bytes(rsp.Machine.get(self)))
        raw[0] = 7  # register 0
        return rsp.State.from_buffer_copy(raw)

    methods = {"get": get, "memory": lambda self, bank, address, length: bytes(length)}
    if wrong:
        setattr(Faulty, wrong, methods.get(wrong, lambda self, *given: None))
    machine = rsp.Machine(bytes(range(64)))
    machine.load_words(rsp.IMEM, 0, words)
    machine.set_reg(5, 1)
    if not words:
        machine.close()
    try:
        found = rsp.first_difference(machine, Faulty(), every, 10)
    except rsp.RspError as refused:
        return refused.status.name
    return f"step {found.step}" if found else "none"


def test_python() -> None:
    found = {
        "every is 0": outcome(WORDS, every=0),
        "every is 1000001": outcome(WORDS, every=1000001),
        "no machine": outcome([]),
        "a halted machine": outcome([13, 13, 13]),
        "a reserved word": outcome([0xFFFFFFFE, 0, 0]),
        "set does nothing": outcome(WORDS, "set"),
        "load does nothing": outcome(WORDS, "load"),
        "get gives what no machine can have": outcome(WORDS, "get"),
        "memory gives zeros": outcome(WORDS, "memory"),
        "run does nothing": outcome(WORDS, "run"),
    }
    assert found == TABLE
