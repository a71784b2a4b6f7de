"""The forms and the examples for cores in Verilog and VHDL, with Icarus, GHDL and Verilator.

It fails if a simulator can't read what conformance/generate --hex makes, if a page's commands for such cores
fail, if examples/hdl differs from the library, or if a hazard that is planted in it isn't found.

The page's rates of core.sv are those of its commands after `time`: the cases or programs, divided by the
user time. Campaigns had 400 cases of each instruction with Icarus, 10,000 with Verilator, and with C++ 20,000
without programs, or 600 programs without cases. Lockstep had 100 programs. Of the files of `programs` those
ran whose words the core knows.
"""

import itertools
import os
import re
from pathlib import Path

import pytest

from lib import TESTS, TOP
from lib.campaigns import programs_in
from lib.pages import block_with, matches, sentences
from lib.processes import STRICT, compiled, run, succeeds
from rsp_conformance.vectors import VECTORS, entries_in

OUTSIDE = pytest.mark.outside("what Verilator makes takes minutes to compile")
pytestmark = [pytest.mark.usefixtures("library"), pytest.mark.timeout(2400)]
PAGE = "docs/HDL.md"
FOUND_BY = {1: "VADD", 2: "LW", 3: "BNE"}  # the instruction whose program finds a hazard
# Makes a core that knows BREAK, and is halted after it.
BREAKS = r"""
s/assign is_reserved = op == NONE;/wire breaks = word == 13; assign is_reserved = op == NONE \&\& !breaks;/
s/\&\& !is_reserved;/\&\& !is_reserved \&\& !sp[128];/
s/^      pc <= issues/      if (issues \&\& breaks) sp[129:128] <= 3;\n&/
"""
# Makes a core that never issues VADD, and in which a VLT stays, up to a reset.
HANGS = r"""
s/assign issues = go \&\&/& op != VADD \&\&/
s/^  assign is_busy = /  logic is_kept;\
  always_ff @(posedge clk) is_kept <= !reset \&\& (is_kept || ex_op == VLT);\
&is_kept || /
"""
# Makes a core in which it isn't known whether it issues a VADD, as of a register without a reset.
UNKNOWN = r"s/assign issues = go \&\&/& (op == VADD ? 1'bx : 1'b1) \&\&/"
KNOWN = "VMULF VMUDN VMACF VMADH VADD VSUBC VCH VMRG VXOR VRCP VRCPL VRCPH"  # by the vector unit


def printed(folder: Path, commands: str, status: int = 0) -> str:
    """What commands of the page print, with this folder for that of the page. They end with the status."""
    environment = {**os.environ, "PATH": f"/usr/bin:{os.environ['PATH']}"}
    ended = run("sh", "-ec", commands.replace("/tmp/hdl", str(folder)), timeout=2000, env=environment)
    assert ended.returncode == status, ended.stdout
    return ended.stdout


def typed(folder: Path, *starts: str, edit: str = "", status: int = 0) -> str:
    """What blocks of the page print, with hazards in the core. The last command ends with the status."""
    core = succeeds("sed", "-f", TESTS / "hdl/hazards.sed", "-e", edit, "examples/hdl/core.sv")
    (folder / "core.sv").write_text(core)
    assert core.count("\n") <= 220
    commands = "".join(block_with(PAGE, it) for it in starts)
    commands = commands.replace("hex/LW-1\n", "hex/LW-1 || :\n")  # a core with a hazard may fail
    return printed(folder, commands.replace("examples/hdl/core.sv", f"{folder}/core.sv"), status)


@pytest.mark.needs("iverilog")
def test_first_result(folder: Path) -> None:
    """The page shows what its first commands print, without a hazard and with one. A core that knows BREAK
    passes, too."""
    for status, start in enumerate(("conformance/generate --hex", "sed -f")):
        output = printed(folder, block_with(PAGE, start), status)
        lines = output.replace(str(folder), "/tmp/hdl").splitlines()
        assert matches(lines, block_with(PAGE, start, more=1).splitlines()), lines
    output = typed(folder, "conformance/generate --hex", edit=BREAKS)
    assert "is_reserved = op == NONE && !breaks" in (folder / "core.sv").read_text()
    assert ": 1 passed, 0 failed, 0 skipped" in output, output


@pytest.mark.needs("iverilog", "python:numpy")
def test_hang(folder: Path) -> None:
    """A core that hangs fails, with the word, and is reset before the next case. A campaign shows it."""
    output = typed(folder, "conformance/generate --hex", edit=HANGS)
    reasons = {"VADD": "it issues no instruction", "VLT": "it doesn't retire an instruction"}
    for name, reason in reasons.items():
        hanging, entries = folder / f"hex/{name}.hex", entries_in(VECTORS, name)
        with hanging.open("a") as cases:
            cases.write((folder / "hex/VMRG.hex").read_text())
        ended = run("vvp", "-n", folder / "tb.vvp", f"+hex={hanging}")
        texts = [f"{it['name']} ({it['text']}): the core hangs at 000, word {it['word']}" for it in entries]
        assert ended.returncode == 1 and not [it for it in texts if f"{it}: {reason}\n" not in ended.stdout]
        counts = len(entries_in(VECTORS, "VMRG")), len(entries)
        assert ": {} passed, {} failed, 0 skipped".format(*counts) in ended.stdout, ended.stdout
    output = printed(folder, block_with(PAGE, "conformance/campaign").replace("vlt", "vmrg"), 1)
    assert re.search(r"(?m)^VADD +50 +0 +50 +0 +0 .*: status: expected 0, got 1\b", output), output
    assert re.search(r"(?m)^VMRG +50 +0 +0 ", output), output
    typed(folder, "conformance/generate --hex", edit=UNKNOWN)
    ended = run("vvp", "-n", folder / "tb.vvp", f"+hex={folder}/hex/VADD.hex")
    assert f": 0 passed, {len(entries_in(VECTORS, 'VADD'))} failed, 0 skipped" in ended.stdout, ended.stdout


@pytest.mark.needs("iverilog", "verilator", "make", "c++", "python:numpy")
def test_bench(folder: Path) -> None:
    """Cases and programs agree on the core, and cases on the vector unit. A program finds each hazard, and
    the cases of its instruction don't. What isn't there doesn't pass.
    """
    starts = "conformance/generate --hex", "vvp -n", "conformance/campaign", "verilator --binary"
    output = typed(folder, *starts, "iverilog -g2012")
    shown = re.search("line ends with `(.*? clocks)`", sentences(PAGE))
    assert shown and shown[1] in output and output.count(": 0 differ, ") == 2, output
    for cases in (folder / f"hex/{name}.hex" for name in KNOWN.split()):
        output = succeeds("vvp", "-n", folder / "vu.vvp", f"+hex={cases}")
        count = cases.read_text().count("\n")
        assert f": {count} passed, 0 failed, 0 skipped, " in output, output
    benches = f"vvp -n {folder}/tb.vvp", f"{folder}/tb/Vtb"
    for bench, (hazard, name) in itertools.product(benches, FOUND_BY.items()):
        program = f"program={name}-1"
        runs = f"{program} +hazard=0", f"{program} +hazard={hazard}", f"hex={name}.hex +hazard={hazard}"
        statuses = 0, 1, int(name == "LW")  # a load has no cases there
        for words, failed, status in zip(runs, (0, 1, 0), statuses):
            ended = run(*f"{bench} +{words}".split(), cwd=folder / "hex")
            assert (
                ended.returncode == status and f", {failed} failed, 0 skipped" in ended.stdout
            ), ended.stdout
    for bench, kind in itertools.product(benches, ("hex", "program", "replay")):
        ended = run(*f"{bench} +{kind}=none".split())
        assert ended.returncode == 1 and "none: 0 passed, " in ended.stdout, ended.stdout


@OUTSIDE
@pytest.mark.needs("ghdl", "iverilog")
def test_ghdl(folder: Path) -> None:
    """Cases, and memories of programs; and a unit in VHDL, in the bench."""
    succeeds("conformance/generate", "--hex", "--of", TOP / "conformance/vectors", folder, "VXOR")
    succeeds("ghdl", "-a", "--std=08", "hex/brsp_state.vhd", TESTS / "hdl/read.vhd", cwd=folder)
    succeeds("ghdl", "-e", "--std=08", "read", cwd=folder)
    files = ("-gcases=hex/VXOR.hex", "-gwords=hex/VXOR-1.imem.hex")
    output = succeeds("ghdl", "-r", "--std=08", "read", *files, cwd=folder)
    assert "62 cases" in output and re.search(r"1024 words, [1-9]\d* of them VXOR", output), output
    assert ": 62 passed, 0 failed, 0 skipped" in typed(folder, "ghdl -a")


@OUTSIDE
@pytest.mark.needs("iverilog", "verilator", "make", "c++", "python:numpy")
@pytest.mark.parametrize("hazard", range(5))
def test_campaign(hazard: int, folder: Path) -> None:
    """The core agrees. A hazard shows in all programs, and the bench replays the one that was cut down."""
    edit, status = f"s/hazard = 0; initial.*/hazard = {hazard};/", int(hazard > 0)
    output = typed(folder, "conformance/generate --hex", "verilator --cc", edit=edit, status=status)
    assert f"\n42000 cases and 50 programs: {50 * (hazard > 0)} differ" in output, output
    assert hazard != 2 or block_with(PAGE, "PROGRAM-g4") in output, output
    assert bool(programs := programs_in(folder / "programs")) == bool(hazard), output
    for program in programs:
        replay = f"+replay={folder}/programs/programs/{program['name']}.hex"
        ended = run("vvp", "-n", folder / "tb.vvp", replay, f"+wave={folder}/wave.vcd")
        assert program["differs"][0] in ended.stdout or not program["differs"][0].startswith(
            "$v"
        ), ended.stdout
        assert ended.returncode == 1 and ", 1 failed, " in ended.stdout, ended.stdout
        assert hazard != 4 or re.search("hangs at .*: it issues no instruction\n", ended.stdout), ended.stdout
        assert "$var" in (folder / "wave.vcd").read_text()
    waveform = block_with(PAGE, 'conformance/campaign "hex:vvp -n /tmp/hdl/tb.vvp +wave')
    assert "1 done, 0 differ" in printed(folder, waveform.replace("case.vcd", "/tmp/hdl/case.vcd"))
    assert (folder / "case.vcd").exists()


@OUTSIDE
@pytest.mark.needs("iverilog", "verilator", "make", "c++", "python:numpy")
def test_hang_in_campaign(folder: Path) -> None:
    """A core that hangs differs, or says that an instruction isn't done."""
    edit = f"s/hazard = 0; initial.*/hazard = 0;/{HANGS}"
    output = typed(folder, "conformance/generate --hex", "verilator --cc", edit=edit, status=1)
    assert re.search(
        r"(?m)^PROGRAM +(\d+) +0 +\1 .*: of 1 steps it returned that 0 are done ", output
    ), output
    for name in "VADD", "VLT":
        assert re.search(rf"(?m)^{name} +2000 +0 +2000 +0 +0 .*: status: expected 0, got 1\b", output), output


@OUTSIDE
@pytest.mark.needs("verilator", "make", "c++")
def test_lock_step(folder: Path) -> None:
    """The core agrees. A hazard is named by its register, and a waveform shows it."""
    output = typed(folder, "conformance/generate --hex", "library/c/build")
    assert re.search("30000 instructions, 21 of 21 forms, .* agrees", output), output
    for number in range(1, 5):
        words = (f"+hazard={number}", "+programs=100", f"+wave={folder}/wave.vcd")
        ended = run(folder / "lock/Vlock", *words)
        form = r"hangs after it, at \w+, word c8\w+" if number == 4 else r"expected \w+, got \w+"
        assert re.match(rf"instruction \d+, \w+.*: .*{form}\n", ended.stdout), ended.stdout
        assert ended.returncode == 1 and (folder / "wave.vcd").stat().st_size > 100_000
    assert run(folder / "lock/Vlock", "+programs=0").returncode == 1


@pytest.mark.needs("verilator", "c++")
def test_valid(folder: Path) -> None:
    """Lockstep compares only those bits of a record that are valid."""
    headers = f"-I{succeeds('verilator', '--getenv', 'VERILATOR_ROOT').strip()}/include/vltstd"
    files = TESTS / "hdl/valid.cpp", "examples/hdl/lock.cpp", "library/c/libbrsp.a"
    program = compiled(folder / "valid", *STRICT, "-std=c++17", headers, *files, compiler="c++")
    head = "instruction 1, 000 addi $1, $0, 5: "
    wrong = (
        f"{head}accumulator high lane 3: expected 0000, got 0007",
        f"{head}$1: expected 00000005, got 00000006",
    )
    expected = ["agrees", wrong[0], "differs", "agrees", wrong[1], "differs"]
    assert succeeds(program).splitlines() == expected
