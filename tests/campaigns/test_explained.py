"""The command that `--case` names for a difference explains the value that is expected there.

It fails if a command isn't accepted, or if the value after the instruction isn't the one that the library
gave: then the command lacks something that the instruction reads.
"""

import shlex
from typing import Dict

import pytest

import rsp
from definitions.explain import Explainer, arguments_of
from definitions.modules import Library
from definitions.places import place_of
from definitions.states import before
from lib import TOP
from rsp_conformance.campaign.explaining import command_for
from rsp_conformance.campaign.generator import cases_of, memories_of
from rsp_conformance.table import ROWS
from rsp_conformance.campaign.compare import in_words

CHOSEN = "vadd vmacf vch vrcph vmov vsar lqv ltv lrv mtc2 cfc2 ctc2 addu sra sw bne jal".split()


@pytest.fixture(scope="module")
def explainer() -> Explainer:
    return Explainer(Library(str(TOP)))


def values_after(explainer: Explainer, command: str) -> Dict[str, str]:
    """The value that a command explains, by its name."""
    tool, why, text, what, *keys = shlex.split(command)
    assert (tool, why) == ("tools/define", "why")
    given = arguments_of(keys)
    word = explainer.word_of(text, int(given["pc"], 16))
    state = explainer.machine.state(*before({"before": given, "word": f"{word:08x}"}))
    return {what: explainer.explain(state, place_of(what), text).after}


@pytest.mark.parametrize("name", CHOSEN)
def test_command(name: str, explainer: Explainer) -> None:
    """For each register that the first cases of an instruction change."""
    assert name in ROWS
    memories = memories_of(name, "1").tobytes()
    for case in cases_of(name, "1", 0, 3)[0]:
        old = rsp.State.from_buffer_copy(case["state"].tobytes())
        machine = rsp.Machine(memories[8192:])
        machine.load(rsp.DMEM, 0, memories[:4096])
        machine.set(old)
        machine.load_words(rsp.IMEM, old.pc, [int(case["word"])])
        machine.step()
        for line in in_words(machine.get().diff(old)):
            command = command_for(name, int(case["word"]), old, memories, line)
            if command:
                ((what, digits),) = values_after(explainer, command).items()
                expected = line.split("expected ")[1].split(",")[0]
                assert digits in (expected, bit_of(what, expected)), command


def bit_of(what: str, digits: str) -> str:
    """A flag's bit of a register."""
    register, _, bit = what.partition(".")
    return str(int(digits, 16) >> int(bit) & 1) if register in ("vco", "vcc", "vce") else ""
