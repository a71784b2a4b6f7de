"""The golden model in SystemVerilog, examples/hdl/lanes.sv, with Icarus, Verilator and Yosys.

It fails if the model differs from a vector or from the library, if the vectors of an instruction
don't find a fault that is planted in the model, or if Yosys doesn't tell an equal lane from a wrong one.
"""

import os
import re
import shutil
from pathlib import Path
from typing import List, Sequence

import pytest

from lib import TESTS, TOP
from lib.pages import block_with, sentences
from lib.processes import run, succeeds

HDL, PAGE = TOP / "examples/hdl", "docs/HDL.md"
MODEL = (HDL / "lanes.sv").read_text()
INSTRUCTIONS = (line.split("\t") for line in (TOP / "docs/data/instructions.tsv").read_text().splitlines())
NAMES = [name for name, bits, *_ in INSTRUCTIONS if bits.startswith("COP2 (opcode 0x12), function")]
FAULTS = [line.split("\t") for line in (TESTS / "hdl/faults.tsv").read_text().splitlines()[1:]]


@pytest.fixture(scope="module")
def cases(tmp_path_factory: pytest.TempPathFactory) -> Path:
    """The files of `hex` of the computing instructions."""
    folder = tmp_path_factory.mktemp("lanes")
    succeeds("conformance/generate", "--hex", "--of", TOP / "conformance/vectors", folder, *NAMES)
    return folder / "hex"


def failing(names: Sequence[str], cases: Path, folder: Path, model: str = MODEL) -> List[str]:
    """Those of some instructions with whose vectors a model doesn't agree."""
    (folder / "lanes.sv").write_text(model)
    core = (HDL / "tb.sv", HDL / "vu_core.sv", HDL / "lanes_vu.sv")
    succeeds("iverilog", "-g2012", "-I", cases, "-I", folder, "-o", folder / "tb.vvp", *core)
    outputs = {name: run("vvp", "-n", folder / "tb.vvp", f"+hex={cases}/{name}.hex").stdout for name in names}
    counts = {name: (cases / f"{name}.hex").read_text().count("\n") for name in names}
    return [it for it in names if f": {counts[it] or 1} passed, 0 failed, 0 skipped, " not in outputs[it]]


@pytest.mark.needs("iverilog", "verilator", "make", "c++", "python:numpy")
@pytest.mark.usefixtures("library")
def test_model(cases: Path, folder: Path) -> None:
    """All vectors agree, and 500 cases of each instruction by the page's commands for 100,000."""
    assert len(NAMES) == 45 and failing(NAMES, cases, folder) == []
    unit = re.search("with `(--top-module core [^`]*)` in place of `([^`]*)`", sentences(PAGE))
    assert unit
    commands = block_with(PAGE, "verilator --cc").rpartition("conformance/campaign")[0]
    commands = commands.replace(unit[2], unit[1]) + block_with(PAGE, "conformance/campaign /tmp/hdl/core.so")
    commands = commands.replace("/tmp/hdl", str(folder)).replace("100000", "500 --here")
    environment = {**os.environ, "PATH": f"/usr/bin:{os.environ['PATH']}"}
    lines = [row.split()[:4] for row in succeeds("sh", "-ec", commands, env=environment).splitlines()]
    assert [name for name in NAMES if [name, "500", "0", "0"] not in lines] == []


@pytest.mark.needs("iverilog")
def test_faults(cases: Path, folder: Path) -> None:
    """The vectors of an instruction find each planted fault in it."""
    assert all(MODEL.count(old) == 1 for _, old, _ in FAULTS)
    found = (failing([name], cases, folder, MODEL.replace(old, new)) for name, old, new in FAULTS)
    assert [fault for fault, names in zip(FAULTS, found) if not names] == []


@pytest.mark.needs("yosys")
def test_equivalence(folder: Path) -> None:
    """A lane of vu.sv is equal to the model, also from a copy of equal.sv. Without the carry it isn't, and
    the log shows a carry.
    """
    shutil.copytree(HDL, folder / "examples/hdl")
    (folder / "docs").symlink_to(TOP / "docs")
    command = block_with(PAGE, "yosys").replace("/tmp/hdl", str(folder))
    for name in "VADD", "VCH", "VMADH":
        succeeds("sh", "-ec", command.replace("VCH", name), cwd=folder)
    shutil.copy(HDL / "equal.sv", folder)
    script = (HDL / "equal.ys").read_text()
    (folder / "equal.ys").write_text(script.replace("examples/hdl/equal.sv", "equal.sv"))
    succeeds("yosys", "-q", "-D", "NAME=VADD", "-s", "equal.ys", cwd=folder)
    unit = folder / "examples/hdl/vu.sv"
    unit.write_text(unit.read_text().replace("{17'd0, flags[0]}", "18'd0"))
    assert run("sh", "-ec", command.replace("VCH", "VADD"), cwd=folder).returncode == 1
    shown = dict(re.findall(r"\\(\w+) .* ([01]+)\n", (folder / "equal.log").read_text()))
    a, b, right, wrong = (int(shown[name][-16:], 2) for name in ("a", "b", "acc_expected", "acc_found"))
    assert (right, wrong) == (a + b + 1 & 0xFFFF, a + b & 0xFFFF) and shown["flags"][-1] == "1", shown
