"""The test vectors of conformance/, on the program and on the library.

They fail if a vector says something else than what is done, if forms of the vectors differ, or if a runner
doesn't find a planted fault. Each instruction is a test.
"""

import contextlib
import functools
import io
import itertools
import json
import os
import re
import runpy
import subprocess
import sys
import time
from pathlib import Path
from types import ModuleType
from typing import Any, Dict, Iterable, Sequence, Tuple
from unittest.mock import patch

import pytest

from definitions.places import place_of
from lib import TOP, devices
from lib.processes import Ended, run, succeeds
from rsp_conformance import bench, complaints, full, generate
from rsp_conformance.command_line import Complaints
from rsp_conformance.corrupt import spoilt_entries
from rsp_conformance.library import Library, run_rows
from rsp_conformance.run import Shown, run_entries, run_manifest
from rsp_conformance.seeded_random import Random
from rsp_conformance.states import texts_of
from rsp_conformance.table import ROWS, Row
from rsp_conformance.vectors import VECTORS, entries_in, manifest_in

ALL = [name.upper() for name in ROWS]
NAMES = pytest.mark.parametrize("name", ALL)


def assert_passes(checks: Iterable[Complaints]) -> None:
    """There has to be a check, and none may have a complaint."""
    found = [*checks]
    assert found, "nothing is checked"
    assert [complaint for complaints in found for complaint in complaints] == []


@NAMES
def test_again(name: str, program: Path, folder: Path) -> None:
    """The program does what the files of an instruction say: `--again` writes them as they are."""
    write = functools.partial(generate.write_again, str(program), of=VECTORS, out=folder)
    assert not [*generate.generate([ROWS[name.lower()]], write, folder)]
    written = {path.relative_to(folder) for path in folder.glob("*/*")}
    stored = [*VECTORS.glob(f"*/{name}.js*"), *VECTORS.glob(f"*/{name}-*.after")]
    assert written == {path.relative_to(VECTORS) for path in stored}
    assert not [path for path in written if (VECTORS / path).read_bytes() != (folder / path).read_bytes()]


def test_files() -> None:
    """There are no files of other instructions."""
    assert {path.stem.split("-")[0] for path in VECTORS.glob("*/*")} == {*ALL}


SIZES = {"dmem": 4096, "imem": 4096, "rdram": 1 << 17}
BANKS = (("dmem", "ram", 0), ("imem", "ram", 4096), ("rdram", "rdram", 0))  # with their addresses in `full`


def assert_same_state(found: Dict[str, Any], texts: Dict[str, Any], *states: Dict[str, Any]) -> None:
    """A state of `full` has to have these registers, and the bytes of these states, one over the other."""
    assert texts_of(found).items() <= texts.items()
    memories, expected = ({"ram": bytearray(8192), "rdram": bytearray(1 << 17)} for _ in range(2))
    for name, memory in memories.items():
        for address, byte in found[name]:
            memory[address] = byte
    for state, (bank, name, start) in itertools.product(states, BANKS):
        for address, text in state.get(bank, {}).items():
            at = start + int(address, 16)
            expected[name][at : at + len(text) // 2] = bytes.fromhex(text)
    assert memories == expected


@NAMES
def test_full(name: str) -> None:
    """The cases of `full` are those of `steps`."""
    entries = entries_in(VECTORS, name)
    cases = json.loads(full.full_text(entries))
    assert len(cases) == len(entries)
    for entry, case in zip(entries, cases):
        before = {**bench.DEFAULT, **entry["before"]}
        code = {"imem": {before["pc"]: entry["word"]}}
        assert_same_state(case["initial"], before, before, code)
        assert_same_state(case["final"], {**before, **entry["after"]}, before, code, entry["after"])


FLAG_BITS = {"vco": ("carry", "not-equal"), "vcc": ("compare", "clip"), "vce": ("extra",)}
# The bits of registers with the names under which a difference is reported.
BITS = {
    **{("v3", 16 * (7 - lane)): f"$v3 lane {lane}" for lane in range(8)},
    **{
        (key, 8 * byte + lane): f"lane {lane}: {flag}"
        for key, flags in FLAG_BITS.items()
        for byte, flag in enumerate(flags)
        for lane in range(8)
    },
    **{(f"a{lane}", 47): f"accumulator of lane {lane}" for lane in range(8)},
    **{("r3", 0): "$3", ("npc", 2): "npc", ("c4", 0): "c4", ("in", 0): "in", ("interrupt", 0): "interrupt"},
}


@pytest.mark.parametrize("key, bit", BITS)
def test_name_of_a_bit(key: str, bit: int) -> None:
    """A difference is reported by the lane, the flag or the register of the bit that differs."""
    entry = entries_in(VECTORS, "VADD")[0]
    right = {**bench.DEFAULT, **entry["before"], **entry["after"]}
    wrong = f"{int(right[key], 16) ^ 1 << bit:0{len(right[key])}x}"
    (complaint,) = complaints.of_case(entry, Shown({**right, key: wrong}))
    assert complaint.startswith(f"{entry['name']} ({entry['text']}), {BITS[key, bit]}: expected ")


def test_name_of_a_byte() -> None:
    """A difference in the results of a program is reported by its lane or its flags."""
    entry = manifest_in(VECTORS, "VADD")["programs"][0]
    case, names = entry["cases"][0], {}
    for field, offset, length in entry["layouts"][case["layout"]]:
        for byte in range(length):
            name = f"{field}, lane {byte // 2}: {('high', 'low')[byte % 2]} byte"
            if field in FLAG_BITS:
                name = f"lane 0: {[*FLAG_BITS[field], 'above the flags'][byte == 0]}"
            names[(int(case["at"], 16) + offset + byte) % 4096] = name
    right = (VECTORS / f"programs/{entry['name']}.after").read_bytes()
    for address, name in names.items():
        wrong = bytes(byte ^ (at == address) for at, byte in enumerate(right))
        (complaint,) = complaints.of_program(entry, Shown({"dmem": [wrong.hex()]}), right, right, right)
        assert complaint.startswith(f"{case['name']} ({case['text']}), {name}: expected ")


def test_generation_after_a_fault(folder: Path) -> None:
    """The instructions that haven't begun then don't begin."""
    begun = []

    def write(row: Row) -> None:
        begun.append(row)
        time.sleep(0.02)
        raise OSError

    with pytest.raises(OSError):
        [*generate.generate([*ROWS.values()], write, folder)]
    assert 0 < len(begun) < len(ROWS) / 2


def test_program_that_is_not_built(folder: Path) -> None:
    """All that the build says is shown: its first line seldom has the reason."""
    (folder / "rsp").write_text("#!/bin/sh\necho first >&2\necho no space >&2\nexit 1\n")
    (folder / "rsp").chmod(0o755)
    ended = run(TOP / "conformance/run", "--program", folder / "rsp")
    why = f"run: {folder}/rsp isn't built, or doesn't begin: it ended with status 1 and no reply\n"
    assert (ended.returncode, ended.stdout) == (1, f"first\nno space\n{why}")


def ended_runner(
    name: str, path: Path, rsp_class: Any = Library, lacks: Sequence[str] = ()
) -> Tuple[str, Any]:
    """What a runner prints about a file on the library, or on another class `Rsp`, and its exit status."""
    import rsp_conformance.library_states  # noqa: F401  because patch.dict forgets what is imported later

    output, mine = io.StringIO(), ModuleType("mine")  # type: io.StringIO, Any
    mine.Rsp, mine.LACKS = rsp_class, lacks
    words = patch.object(sys, "argv", [f"{name}.py", str(path)])
    with patch.dict(sys.modules, mine=mine), words, patch.object(sys, "path", [*sys.path]):
        with contextlib.redirect_stdout(output), pytest.raises(SystemExit) as ended:
            runpy.run_path(str(TOP / f"conformance/{name}.py"), run_name="__main__")
    return output.getvalue(), ended.value.code


def output_of_runner(name: str, path: Path, rsp_class: Any = Library, lacks: Sequence[str] = ()) -> str:
    """What a runner prints that runs all cases of a file."""
    output, status = ended_runner(name, path, rsp_class, lacks)
    ((passed, failed),) = re.findall(r"(?m)^(\d+) passed, (\d+) failed", output)
    assert status == (failed != "0" or passed == "0")
    return output


def head_of(entry: Dict[str, Any]) -> str:
    """The beginning of a runner's line about a case, with the choice on which it depends."""
    mark = f"; choice: {entry['choice']}" if "choice" in entry else ""
    return f"{entry['name']} ({entry['text']}{mark}), "


RUNNERS = pytest.mark.parametrize("name", ("VADDC", "SQV", "MTC0", "BEQ", "STV"))


def assert_explained(entry: Dict[str, Any], hint: str) -> None:
    """That the command that steps.py names is one that explains a value of this case."""
    found = re.fullmatch(
        r"steps.py: in a clone, tools/define why (\S+) (\S+) explains what is expected\n", hint
    )
    assert found and found[1] == entry["name"], hint
    place_of(found[2])


@RUNNERS
def test_runners_of_steps(name: str, program: Path, library: Path, folder: Path, capsys: Any) -> None:
    """conformance/steps.py and conformance/run pass an instruction's first cases, and name spoilt ones."""
    all_entries, random, path = entries_in(VECTORS, name), Random("runner", name), folder / "steps.jsonl"
    entries = [*all_entries[:2], *[entry for entry in all_entries if "choice" in entry][:1]]
    path.write_text("".join(f"{json.dumps(entry)}\n" for entry in entries))
    assert output_of_runner("steps", path) == f"{len(entries)} passed, 0 failed\n"
    assert not any(run_entries(str(program), entries))
    for entry in entries:
        spoilt = [*spoilt_entries(entry, random)]
        for false, found in zip(spoilt, run_entries(str(program), spoilt)):
            path.write_text(json.dumps(false))
            if " no value of it" in str(ended_runner("steps", path)[1]):
                continue  # it lacks a byte of a register
            output = output_of_runner("steps", path)
            end = f"\n0 passed, 1 failed{' (1 with a choice)' * ('choice' in entry)}\nfailed: 1 of {name}\n"
            assert output.startswith(head_of(entry)) and output.endswith(end), false
            assert_explained(entry, capsys.readouterr().err.splitlines(keepends=True)[-1])
            assert found and all(complaint.startswith(f"{entry['name']} (") for complaint in found), false


@RUNNERS
def test_runners_of_programs(name: str, library: Path, folder: Path) -> None:
    """conformance/programs.py passes an instruction's programs, and names the case and the field of a wrong
    byte. A missing byte is a difference for conformance/run.
    """
    for path in VECTORS.glob(f"programs/{name}[-.]*"):
        (folder / path.name).write_bytes(path.read_bytes())
    count = len(manifest_in(VECTORS, name)["programs"])
    assert output_of_runner("programs", folder / f"{name}.json") == f"{count} passed, 0 failed\n"
    random = Random("spoilt", name)
    entry = random.pick(manifest_in(VECTORS, name)["programs"])
    case = random.pick(entry["cases"])
    field, offset, length = random.pick(entry["layouts"][case["layout"]])
    at, path = (int(case["at"], 16) + offset + random.below(length)) % 4096, folder / f"{entry['name']}.after"
    right = path.read_bytes()
    path.write_bytes(right[:at] + bytes([right[at] ^ 1]) + right[at + 1 :])
    difference = f"expected {right[at] ^ 1:02x}, got {right[at]:02x}"
    assert output_of_runner("programs", folder / f"{name}.json").splitlines() == [
        f"{head_of(case)}{field}, DMEM {at:03x}: {difference}",
        f"{count - 1} passed, 1 failed",
    ]
    shown = Shown({"dmem": [right[:at].hex()]})
    complaint = f"{entry['name']}: {at} bytes, and 4096 are expected"
    assert complaints.of_program(entry, shown, right, right, right) == [complaint]


LOST = "steps.py: mine.py doesn't keep what set() and load() gave it, before any step:"


@pytest.mark.parametrize("name", ("VRCPH", "VRSQH", "VNOP"))
def test_runner_for_an_emulator_that_lacks_registers(name: str, library: Path) -> None:
    """What LACKS names is neither set nor compared, and DIV_OUT is set by the two instructions of README."""
    import rsp

    lacks = ("interrupt", "c15", "rdram")
    words = rsp.assemble("vrcph $v1[0], $v2[0]\nvrcpl $v1[0], $v2[1]\n")

    class Lacking(Library):
        def set(self, key: str, text: str) -> None:
            assert key not in lacks
            if key != "out":
                super().set(key, text)

        def get(self, key: str) -> str:
            assert key not in lacks
            return super().get(key)

        def load(self, bank: str, data: bytes) -> None:
            assert bank not in lacks
            super().load(bank, data)

        def memory(self, bank: str) -> bytes:
            assert bank not in lacks
            return super().memory(bank)

        def divide(self, text: str) -> None:
            self.load("imem", b"".join(word.to_bytes(4, "big") for word in words))
            super().set("v2", text.ljust(32, "0"))
            self.step()
            self.step()

    path, count = VECTORS / f"steps/{name}.jsonl", len(entries_in(VECTORS, name))
    end = "not compared: c15, interrupt, rdram\n"
    assert output_of_runner("steps", path, Lacking, lacks) == f"{count} passed, 0 failed\n{end}"
    del Lacking.divide
    output, status = ended_runner("steps", path, Lacking, lacks)
    assert status == (1 if name == "VNOP" else f"{LOST} out: expected 8000, got 0000")
    assert not output.startswith(f"{count} passed")


def test_runner_for_an_emulator_that_lacks_an_instruction(library: Path, capsys: Any) -> None:
    """What `step` refuses by NotImplementedError is skipped; the case of another exception is named. The
    failed cases with a choice are counted apart."""

    class Lacking(Library):
        refusal: Any = NotImplementedError

        def step(self) -> None:
            if self.get("pc") >= "800":
                raise self.refusal
            super().step()
            self.set("interrupt", "0")

        def run(self) -> None:
            raise self.refusal

    path, entries = VECTORS / "steps/BREAK.jsonl", entries_in(VECTORS, "BREAK")
    tried = [it for it in entries if it["before"].get("pc", "000") < "800"]
    wrong = [it for it in tried if "1" in (it["before"].get("interrupt"), it["after"].get("interrupt"))]
    lines = [f"{head_of(it)}interrupt: expected 1, got 0" for it in wrong]
    counts = f"{len(tried) - len(wrong)} passed, {len(wrong)} failed ({len(wrong)} with a choice), "
    count = len(entries) - len(tried)
    skipped = f"{count} skipped\nfailed: {len(wrong)} of BREAK\nskipped: {count} of BREAK"
    assert 0 < len(wrong) < len(tried) < len(entries) and "; choice: pc after BREAK), " in lines[0]
    assert output_of_runner("steps", path, Lacking) == "\n".join([*lines, counts + skipped, ""])
    hint = f"steps.py: in a clone, tools/define why {wrong[0]['name']} interrupt explains what is expected\n"
    assert capsys.readouterr().err == hint
    Lacking.refusal = KeyError
    first = next(it for it in entries if it not in tried)
    for name, file in ("steps", path), ("programs", VECTORS / "programs/BREAK.json"):
        with pytest.raises(KeyError):
            output_of_runner(name, file, Lacking)
    names = f"steps.py: an exception in {first['name']} (break):\n", "programs.py: an exception in BREAK-1:\n"
    assert "".join(names) == capsys.readouterr().err


# An emulator of NOP, in the form of mine.py.
NOP = """class Rsp:
    def __init__(self):
        self.all = {}
    def set(self, key, value):
        self.all[key] = value
    def get(self, key):
        return self.all[key]
    load, memory = set, get
    def step(self):
        if int.from_bytes(self.all["imem"][:4], "big"):
            raise NotImplementedError
        self.all.update(pc="004", npc="008")
"""


@pytest.mark.parametrize("words, status", [([], 0), (["--strict"], 1)])
def test_skipped_cases(words: Sequence[str], status: int, folder: Path) -> None:
    """With --strict they are a failure."""
    (folder / "mine.py").write_text(NOP)
    nop = {**ADD, "name": "SLL-000", "word": "00000000", "after": {"pc": "004", "npc": "008"}}
    (folder / "cases").write_text("".join(f"{json.dumps(it)}\n" for it in (nop, ADD)))
    ran = run(sys.executable, TOP / "conformance/steps.py", *words, "cases", cwd=folder)
    assert (ran.stdout, ran.returncode) == ("1 passed, 0 failed, 1 skipped\nskipped: 1 of ADD\n", status)


A_CASE: Dict[str, Any] = {"name": "A", "word": "00000000", "text": "", "before": {}, "after": {}}
# What makes it no case, by what is said of it.
CHANGES: Dict[str, Dict[str, Any]] = {
    "name is no text": {"name": 5},
    "imem has no address": {"word": "0" * 8194},
    "'r32' is no register": {"before": {"r32": "00000000"}},
    "or '1' no value of it": {"after": {"r1": "1"}},
    "dmem has no address 'fff'": {"before": {"dmem": {"fff": "0000"}}},
    "non-hexadecimal number": {"before": {"dmem": {"0": "zz"}}},
    r"'\x1b]0;a' is no register": {"before": {"\x1b]0;a": "0"}},
}
# Lines that are no cases, with what is said of them. None has a control character in the answer.
NO_CASES = {
    "[" * 100000: "RecursionError: ",
    "5": "TypeError: ",
    **{json.dumps({**A_CASE, **change}): why for why, change in CHANGES.items()},
}


@pytest.mark.parametrize("line", NO_CASES, ids=[*NO_CASES.values()])
def test_runner_of_a_line_that_is_no_case(line: str, folder: Path) -> None:
    """It is refused in a sentence, before any case is run."""
    (folder / "mine.py").touch()
    (folder / "cases").write_text(line)
    ran = run(sys.executable, TOP / "conformance/steps.py", "cases", cwd=folder)
    assert ran.returncode == 1 and ran.stdout.startswith("steps.py: can't read the cases of cases: ")
    assert NO_CASES[line] in ran.stdout and ran.stdout.rstrip("\n").isprintable(), ran.stdout


PROGRAM = {"name": "A-1", "layouts": {"L0": [["x", 0, 1]]}, "cases": []}
A_PROGRAM_CASE = {"name": "A", "text": "", "at": "000", "layout": "L0"}
# Manifests of programs that are none, with what is said of them. None has a control character in the answer.
NO_PROGRAMS: Dict[str, Any] = {
    "RecursionError: ": "[" * 100000,
    "TypeError: ": 5,
    "KeyError: 'programs'": {},
    r"'../\x1b[2J' is no name": {"programs": [{**PROGRAM, "name": "../\x1b[2J"}]},
    "is no field": {"programs": [{**PROGRAM, "layouts": {"L0": [["x", 0, 1 << 60]]}}]},
    "KeyError: 'L1'": {"programs": [{**PROGRAM, "cases": [{**A_PROGRAM_CASE, "layout": "L1"}]}]},
    "text is no text": {"programs": [{**PROGRAM, "cases": [{**A_PROGRAM_CASE, "text": 5}]}]},
    "invalid literal for int": {"programs": [{**PROGRAM, "cases": [{**A_PROGRAM_CASE, "at": "\x1b"}]}]},
    "No such file or directory": {"programs": [PROGRAM]},
}


@pytest.mark.parametrize("why", NO_PROGRAMS)
def test_runner_of_a_manifest_of_no_programs(why: str, folder: Path) -> None:
    """It is refused in a sentence, and nothing of it reaches a terminal as it is."""
    (folder / "mine.py").write_text("class Rsp: pass\n")
    content = NO_PROGRAMS[why]
    (folder / "A.json").write_text(content if isinstance(content, str) else json.dumps(content))
    ran = run(sys.executable, TOP / "conformance/programs.py", "A.json", cwd=folder)
    assert ran.returncode == 1 and ran.stdout.startswith("programs.py: can't read "), ran.stdout
    assert why in ran.stdout and ran.stdout.rstrip("\n").isprintable(), ran.stdout


def test_names_that_control_a_terminal(folder: Path) -> None:
    """They are printed as escapes."""
    (folder / "mine.py").write_text(NOP.replace("raise NotImplementedError", "pass"))
    (folder / "cases").write_text(json.dumps({**ADD, "name": "\x1b]0;a\x07", "text": "\x1b[31m"}))
    ran = run(sys.executable, TOP / "conformance/steps.py", "cases", cwd=folder)
    head = r"\x1b]0;a\x07 (\x1b[31m), r3: expected 0b0b0b0b, got 03030303"
    assert head in ran.stdout.splitlines() and "\x1b" not in ran.stdout and ran.returncode == 1, ran.stdout


def test_runners_of_a_memory_that_is_too_long(library: Path) -> None:
    class Long(Library):
        def memory(self, bank: str) -> bytes:
            return super().memory(bank) + bytes(bank == "dmem")

    difference = "bytes of dmem: expected 4096, got 4097"
    assert ended_runner("steps", VECTORS / "steps/SW.jsonl", Long) == ("", f"{LOST} {difference}")
    output = output_of_runner("programs", VECTORS / "programs/SW.json", Long)
    assert f"SW-1, {difference}\n" in output and "\n0 passed, " in output


def test_runner_of_a_memory_that_is_not_kept(library: Path) -> None:
    """The first byte that is lost is named, and no case is run."""

    class Swapped(Library):
        def load(self, bank: str, data: bytes) -> None:
            super().load(bank, data[::-1])

    entry = entries_in(VECTORS, "SW")[0]
    address, text = min(entry["before"]["dmem"].items())
    why = f"{LOST} dmem {address}: expected {text[:2]}, got 00"
    assert ended_runner("steps", VECTORS / "steps/SW.jsonl", Swapped) == ("", why)


def test_runner_of_many_differences(folder: Path, library: Path) -> None:
    """The first eight of a case are printed, and the others counted."""

    class Filling(Library):
        def step(self) -> None:
            super().step()
            self.load("dmem", b"\x5a" * 4096)

    (folder / "cases").write_text(json.dumps({**ADD, "before": {}}))
    lines = [f"ADD-000 (add $3, $0, $11), dmem {at:03x}: expected 00, got 5a" for at in range(8)]
    lines += [
        "ADD-000 (add $3, $0, $11): 4088 more differences",
        "0 passed, 1 failed",
        "failed: 1 of ADD",
        "",
    ]
    assert output_of_runner("steps", folder / "cases", Filling) == "\n".join(lines)


def test_runner_of_an_unknown_register(folder: Path) -> None:
    (folder / "mine.py").write_text('LACKS = {"interupt", "rdram"}')
    ran = run(sys.executable, TOP / "conformance/steps.py", VECTORS / "steps/SW.jsonl", cwd=folder)
    assert ran.stdout == "steps.py: LACKS names 'interupt', which is no register and no memory\n"
    assert ran.returncode == 1


@pytest.mark.parametrize("name, other", (("steps", "programs/SW.json"), ("programs", "steps/SW.jsonl")))
def test_runner_of_a_wrong_file(name: str, other: str, folder: Path) -> None:
    """A file that isn't there, or is for the other runner, is named without a traceback."""
    (folder / "mine.py").touch()
    for path in folder / "none", VECTORS / other:
        ran = run(sys.executable, TOP / f"conformance/{name}.py", path, cwd=folder)
        assert ran.returncode == 1 and ran.stdout.startswith(f"{name}.py: can't read the ")
        assert f" of {path}: " in ran.stdout and ran.stdout.count("\n") == 1


# A case of ADD, which changes no memory; $11 has the default value, 0b0b0b0b.
ADD: Dict[str, Any] = {
    "name": "ADD-000",
    "word": "000b1820",
    "text": "add $3, $0, $11",
    "before": {"dmem": {"010": "aa"}},
    "after": {"r3": "0b0b0b0b", "pc": "004", "npc": "008"},
}
# Bytes of memories after it: the first and the last ones of each, a byte of `before`, and the word.
BYTES = {
    "dmem": {"000": "00", "fff": "00", "010": "aa"},
    "imem": {"000": "000b1820", "ffc": "00000000"},
    "rdram": {"010000": "00", "0101ff": "00"},
}


@pytest.mark.parametrize(
    "bank, address, raw", [(bank, *piece) for bank, pieces in BYTES.items() for piece in pieces.items()]
)
def test_named_memory(bank: str, address: str, raw: str, program: Path) -> None:
    """The bytes that a case names are compared, also if its instruction doesn't change any memory."""
    wrong = f"{int(raw[:2], 16) ^ 0x40:02x}"
    texts = (raw, wrong + raw[2:])
    cases = [{**ADD, "after": {**ADD["after"], bank: {address: text}}} for text in texts]
    complaint = f"ADD-000 (add $3, $0, $11), {bank} {address}: expected {wrong}, got {raw[:2]}"
    assert [*run_entries(str(program), cases)] == [[], [complaint]]


def run_add(program: Path, folder: Path, **how: Any) -> "Ended[str]":
    """Runs conformance/run on a true case and a false one, whose name and text have control characters."""
    text = "add\n\x9b31m\u202e\u2028\ud800"
    false = {**ADD, "name": "ADD-\x1b]0;title\x07", "text": text, "word": "000b2020"}
    for name, text in {
        "steps/ADD.jsonl": "".join(f"{json.dumps(entry)}\n" for entry in (ADD, false)),
        "programs/ADD.json": '{"programs": []}',
    }.items():
        (folder / name).parent.mkdir(parents=True)
        (folder / name).write_text(text)
    return run(TOP / "conformance/run", "--program", program, folder, **how)


def test_many_programs(program: Path, folder: Path) -> None:
    """Programs for more than one script. Of 4096 wrong bytes the first are named, and the others counted."""
    entries = [{"name": f"ADD-{number}", "layouts": {}, "cases": []} for number in range(120)]
    for kind in ("imem", "dmem", "after"):
        for entry in entries:
            (folder / f"{entry['name']}.{kind}").symlink_to(VECTORS / f"programs/ADD-1.{kind}")
    right = (VECTORS / "programs/ADD-1.after").read_bytes()
    (folder / "ADD-119.after").unlink()
    (folder / "ADD-119.after").write_bytes(bytes(byte ^ 0xFF for byte in right))
    *passed, failed = run_manifest(str(program), {"programs": entries}, folder)
    assert passed == [[]] * 119
    difference = f"expected {right[0] ^ 255:02x}, got {right[0]:02x}"
    assert failed[0] == f"ADD-119: DMEM 000, which no case stores to: {difference}"
    assert len(failed) == 65 and failed[-1] == "ADD-119: 4032 more differences"


def test_escaped_complaints(program: Path, folder: Path) -> None:
    """Names and texts are shown on one line, with their control characters escaped."""
    ended = run_add(program, folder)
    head = r"ADD-\x1b]0;title\x07 (add\n\x9b31m\u202e\u2028\ud800), "
    lines = ("$3: expected 0b0b0b0b, got 03030303", "$4: expected 04040404, got 0b0b0b0b")
    complaints = "".join(f"{head}{line}\n" for line in lines)
    assert (ended.returncode, ended.stdout) == (1, f"{complaints}1 passed, 1 failed\n")


@pytest.mark.parametrize("is_full", (True, False), ids=("full", "closed pipe"))
def test_output_that_cannot_be_written(is_full: bool, program: Path, folder: Path) -> None:
    """A sentence says so, and the status is 1."""
    reading, writing = os.pipe()
    os.close(reading)
    with open(devices.full(folder) if is_full else writing, "w") as output:
        ended = run_add(program, folder / "vectors", stdout=output, stderr=subprocess.PIPE)
    why = "No space left on device" if is_full else "Broken pipe"
    assert (ended.returncode, ended.stderr) == (1, f"standard output can't be written: {why}\n")


@NAMES
def test_library(name: str, library: Path) -> None:
    assert_passes(run_rows(VECTORS, [name]))


def test_command(library: Path) -> None:
    """On one instruction, because the tests above do the same for all."""
    output = succeeds("conformance/library", "conformance/vectors", "VCH")
    assert re.search(r"(?m)^[1-9]\d* passed, 0 failed$", output)
