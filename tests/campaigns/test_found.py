"""Faults planted in the library (faulty.c) are found by cases and programs, named, and shown again."""

import re
from pathlib import Path
from typing import Any, Dict

import pytest

from lib.campaigns import agreed, campaign, counts_of, faulty, programs_in, output_of
from lib.processes import run, succeeds
from rsp_conformance import bench
from rsp_conformance.campaign.protocol import name_of

pytestmark = [pytest.mark.needs("cc", "python:numpy"), pytest.mark.usefixtures("library")]


def test_lane_at_one_edge(folder: Path) -> None:
    """A lane of VADD is found by cases, named with the seed, and shown again by the case's name."""
    words = ("--instructions", "vadd,vsub", "--cases", 20000, "--seed", "b7")
    output = output_of(folder / "out", faulty(1), *words)
    counts = counts_of(folder / "out")
    assert counts["vsub"] == (20000, 0, 0) and counts["vadd"][1] > 3
    form = r"(VADD-g2-b7-\d{6}) \(vadd .*\): \$v\d+ lane 5: expected [0-9a-f]+, got [0-9a-f]+"
    first = re.search(form, output)
    assert first, output
    again = campaign(faulty(1), "--case", first[1]).stdout
    assert again.startswith(first[1]) and "lane 5: expected" in again


def test_state_before() -> None:
    """A difference is shown with what the instruction read: in the table that of the lane, by --case all."""
    output = campaign(faulty(1), "--case", f"{name_of('vadd', '1', 0)}..020000").stdout
    case = re.search(r"(VADD-\S+) \(.* at \w+; a 7fff, b 7fff, carry 1\): \$v\d+ lane 5: ", output)
    assert case, output
    case_output = campaign(faulty(1), "--case", case[1]).stdout
    for line in (r"before: a( \w{4}){5} 7fff", r"before: b( \w{4}){5} 7fff", r"before: carry( \d){5} 1"):
        assert re.search(line, case_output), case_output


def test_sequence_is_not_in_cases(folder: Path) -> None:
    output_of(folder, faulty(2), "--instructions", "lqv,vxor", "--cases", 5000)
    assert counts_of(folder) == agreed("lqv,vxor", 5000)


def test_sequence_in_programs(program: Path, folder: Path) -> None:
    """A sequence of two instructions is found by programs. Each is named, cut down, and can be replayed."""
    output = output_of(folder, faulty(2), "--cases", 0, "--programs", 300)
    assert counts_of(folder)["program"][1] > 3, output
    found = programs_in(folder)
    assert found
    for cut in found:
        assert re.match(r"PROGRAM-g4-1-\d{6}: step \d+, vxor ", cut["shown"])
        assert ([line.split()[1] for line in cut["listing"]], cut["steps"]) == (["lqv", "vxor"], 2)
        assert_replays(program, folder, cut)


def test_divider_in_programs(program: Path, folder: Path) -> None:
    """An emulator whose VRCPL always takes DIV_IN: a program that is cut down begins by loading it, because a
    script can't set a DIV_IN that isn't loaded."""
    output_of(folder, faulty(6), "--instructions", "vrcph,vrcpl", "--cases", 0, "--programs", 1, "--seed", 5)
    (cut,) = programs_in(folder)
    assert cut["steps"] > 1 and cut["listing"][-1].split()[1] == "vrcpl"
    assert_replays(program, folder, cut)


def assert_replays(program: Path, folder: Path, cut: Dict[str, Any]) -> None:
    """The text of a program that was cut down makes its words at their addresses. Its script ends as the
    library does, with nothing of the microcode that sets its state in RDRAM. The file for a test bench has
    the words, and the value that the library leaves.

    The script doesn't load bytes that are in memory already, because it would have three times as many lines.
    """
    source, script = (folder / "programs" / f"{cut['name']}.{kind}" for kind in ("s", "script"))
    found = re.match(r"# rsp asm --at (\d+)", source.read_text())
    at = ("--at", found[1] if found else "0")
    succeeds(program, "asm", *at, source, folder / "made")
    case = succeeds(program, "dis", "--places", *at, folder / "made")
    texts = [line.split(": ", 1) for line in cut["listing"]]
    assert texts and all(re.search(rf"(?m)^{pc} \w+ {re.escape(text)}$", case) for pc, text in texts), case
    assert script.read_text().count("\n") < 200
    assert sum("never runs" not in line for line in source.read_text().splitlines()[1:]) == cut["steps"]
    image = [int(word, 16) for word in source.with_suffix(".hex").read_text().split()]
    addresses = [4 * n for n, word in enumerate(image[387 : 387 + 1024]) if word]
    head, listed = (len(image), image[0], image[176] & 0xFFF), [int(line[:3], 16) for line in cut["listing"]]
    assert (*head, addresses) == (3459, cut["steps"], cut["pc"], listed)
    ended = run(program, "run", input=script.read_text() + f"mem rdram {bench.PROGRAM} 16\n")
    assert ended.returncode == 0 and "fault" not in ended.stdout
    assert ended.stdout.endswith(f"\n{bench.PROGRAM:06x}: {'0' * 32}\n")
    found = re.match(r"\$v(\d+) lane (\d): expected ([0-9a-f]+)", cut["differs"][0])
    assert found
    register, lane, expected = int(found[1]), int(found[2]), int(found[3], 16)
    assert image[194 + 32 + 4 * register + lane // 2] >> 16 * (lane % 2) & 0xFFFF == expected
    last = [line for line in ended.stdout.splitlines() if line.startswith(f"v{register:02d}")][-1]
    assert last.split()[1 + lane] == f"{expected:04x}"


def test_words_that_never_run() -> None:
    """They are marked in the text of a program that was cut down."""
    from rsp_conformance.campaign import compare, shrink

    program = compare.Program(bytes(shrink.STATE.itemsize), bytes(shrink.generator.MEMORIES))
    text = shrink.source_of(program, [0, 8], {0, 8})
    assert text.splitlines()[1:] == ["nop", "nop  # never runs", "nop"]
