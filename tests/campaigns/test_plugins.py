"""Campaigns against plugins of mupen64plus: one whose registers aren't known, and z64."""

import json
import re
from pathlib import Path

import pytest

from lib import TOP
from lib.campaigns import SOURCES, agreed, campaign, counts_of, results_of, output_of
from lib.z64 import PLUGIN as Z64
from rsp_conformance.campaign.build import built
from rsp_conformance.campaign.protocol import name_of

pytestmark = [pytest.mark.needs("cc", "python:numpy"), pytest.mark.usefixtures("library")]

SHOWN, HIDDEN = "add,lw,sqv,vmadh,vch,vrcpl,cfc2,vsar", "beq,mtc0,vrcph"


def other_plugin(fault: int) -> str:
    """A plugin over the library, the addresses of whose registers aren't known."""
    return f"plugin:{built('other_plugin', [f'-DFAULT={fault}'], SOURCES / 'other_plugin.c')}"


def test_plugin_that_is_the_library(folder: Path) -> None:
    """Microcode sets and stores its registers, where it can. The output names what isn't compared."""
    names = f"{SHOWN},{HIDDEN}"
    output = output_of(folder, other_plugin(0), "--instructions", names, "--cases", 300)
    assert counts_of(folder) == agreed(names, 300), output
    results = [result for result in results_of(folder).values() if "unshown" in result]
    unshown = {result["instruction"]: result["unshown"] for result in results}
    assert unshown == {**dict.fromkeys(SHOWN.split(","), 0), **dict.fromkeys(HIDDEN.split(","), 300)}
    assert "Not compared, or not in all bits: divider, pc, npc, SP registers, interrupt." in output


def test_fault_of_a_plugin(folder: Path) -> None:
    output = output_of(folder, other_plugin(1), "--instructions", "vxor,vor", "--cases", 50)
    assert counts_of(folder) == agreed("vor", 50, vxor=(50, 50, 0)), output


def test_plugin_takes_no_programs(folder: Path) -> None:
    ended = campaign(other_plugin(0), "--programs", 1, "--cases", 0, "--here", folder)
    assert ended.returncode == 2 and "takes no programs" in ended.stderr


@pytest.mark.needs(Z64)
def test_memories_of_a_case() -> None:
    """A case is shown with the memories that differ."""
    output = campaign(f"plugin:{Z64}", "--case", name_of("slv", "1", 0)).stdout
    assert re.search(r"(?m)^  DMEM [0-9a-f]{3}: expected [0-9a-f]+, got [0-9a-f]+$", output), output


@pytest.mark.needs(Z64)
def test_table_of_z64(folder: Path) -> None:
    """No case differs of the instructions on which z64 agrees by OTHERS.md, but BLTZAL does nothing."""
    known = json.loads((TOP / "conformance/others/z64.json").read_text())["instructions"]
    agree = ",".join(name for name, result in known.items() if not result["differ"])
    output = output_of(folder, f"plugin:{Z64}", "--instructions", f"{agree},bltzal", "--cases", 500)
    counts = counts_of(folder)
    assert counts.pop("bltzal")[1] > 400 and counts == agreed(agree, 500), output
