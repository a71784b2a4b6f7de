"""Emulators that hang, die and answer garbage: each fault is named by its case, and all other cases are run.
"""

import glob
import re
from pathlib import Path

import pytest

from lib.campaigns import EMULATOR, agreed, campaign, counts_of, faulty, output_of
from lib.packages import is_here
from rsp_conformance.campaign import CampaignFault
from rsp_conformance.campaign.protocol import name_of

if is_here("python:numpy"):
    from rsp_conformance.campaign.emulators import Command
    from rsp_conformance.campaign.generator import cases_of, memories_of

pytestmark = [pytest.mark.needs("cc", "python:numpy"), pytest.mark.usefixtures("library")]

CASE_17, CASE_18, CASE_19 = (name_of("vadd", "1", number) for number in (17, 18, 19))
WRONG = {
    "hang": "no answer within 10 seconds",
    "die": "the command ended with status 3; it wrote: panicked: / \\x1b]0;title\\x07boom",
    "panic": "the command ended with status 3; it wrote: panicked: boom / at a function / ",
    "garbage": "the command answered b'no JSON",
}


def word_17() -> str:
    """The word of CASE_17."""
    return f"{int(cases_of('vadd', '1', 17, 1)[0]['word'][0]):08x}"


def twenty(emulator: str, out: Path, *more: object) -> str:
    """The output of 20 cases, of which one has a fault, and all others agree."""
    output = output_of(out, emulator, "--instructions", "vadd", "--cases", 20, *more)
    assert counts_of(out) == {"vadd": (20, 1, 1)}, output
    return output


@pytest.mark.parametrize("how", WRONG)
def test_command(how: str, folder: Path) -> None:
    output = twenty(f"{EMULATOR} {how} {word_17()}", folder, "--limit", 10)
    assert f"{CASE_17}: " in output and WRONG[how] in output
    assert how != "panic" or re.search(r" / \.\. / .*at a function / at main\n", output), output


@pytest.mark.parametrize(
    "how, message",
    [
        ("byte", "no byte of a memory"),
        ("range", "pc is 65536, not 0 to 65535"),
        ("beside", "has the key 'status' beside 'final': everything belongs into 'final'"),
        ("unknown", "has an unknown key in 'final': 'stat'"),
    ],
    ids=str,
)
def test_answer_that_is_none(how: str, message: str) -> None:
    """A number out of its range, a byte of no memory, and unknown keys are refused."""
    command = Command(f"{EMULATOR} {how} {word_17()}", memories_of("vadd", "1"))
    with pytest.raises(CampaignFault, match=message):
        command.step(cases_of("vadd", "1", 17, 1)[0][0])
    command.process.communicate(timeout=60)


@pytest.mark.parametrize("is_late", [False, True], ids=["of two cases", "after the batch"])
def test_fault_that_a_case_does_not_show(is_late: bool, folder: Path) -> None:
    """The first case of the run that repeats the fault is named."""
    emulator = faulty(3, f"-DWORD=0x{word_17()}") if is_late else f"{EMULATOR} after {word_17()}"
    late = f"{CASE_19}: ended by SIGABRT; it wrote: core: \\x1b[31mboom"
    what = late if is_late else f"{CASE_18}: {WRONG['die']}"
    output = twenty(emulator, folder)
    assert f"{what}; the shortest run that shows it begins with {CASE_17}" in output


@pytest.mark.parametrize(
    "name, number, step", [("Remembers", 0, "steps 1 to 100, from"), ("Stale", 1, "step 1,")]
)
def test_difference_that_depends_on_what_ran_before(name: str, number: int, step: str, folder: Path) -> None:
    """It is shown as a difference. The program isn't cut down, because it agrees the next time, or on a new
    emulator."""
    words = (f"python:emulator:{name}", "--instructions", "xor", "--cases", 0, "--programs", 2)
    output, why = output_of(folder, *words), "because it depends on what the emulator ran before"
    form = rf"PROGRAM-g4-1-00000{number}: {step} xor .*: expected .*; not cut down, {why}"
    assert re.search(form, output), output
    assert counts_of(folder) == {"program": (2, 1, 0)}


def test_case_that_depends_on_what_ran_before(folder: Path) -> None:
    """It is repeated on a new emulator, and said to agree there. One that differs there isn't."""
    why = "it agrees on a new emulator, so it depends on what the emulator ran before"
    for name, is_hidden in (("Stale", True), ("WrongShift", False)):
        words = (f"python:emulator:{name}", "--instructions", "sra", "--cases", 100)
        output = output_of(folder / name, *words)
        assert re.search(r"(?m)^SRA .*: expected", output) and (f"; {why}\n" in output) == is_hidden, output


# An emulator that leaves a process in its group, and one that has called setsid. Neither ends by itself.
WRAPPED = f"sleep 1000 &\nsetsid sleep 1000 &\nexec {EMULATOR}\n"


@pytest.mark.parametrize("how", ["", "die"])
def test_processes_of_an_emulator(how: str, folder: Path) -> None:
    """All are gone when a campaign ends, also one that a fault ends."""
    (folder / "wrap.sh").write_text(f"{WRAPPED[:-1]} $*\n")
    words = ("--instructions", "vadd", "--cases", 20, "--here", "out")
    ended = campaign(f"sh {folder}/wrap.sh {how} {word_17()}", *words, cwd=folder)
    left = [path for path in glob.glob("/proc/[0-9]*/cwd/wrap.sh") if Path(path).samefile(folder / "wrap.sh")]
    assert (left, ended.returncode) == ([], int(how == "die")), ended.stdout + ended.stderr


@pytest.mark.parametrize(
    "emulator, why",
    [
        ("sh -c 'yes | tr -d \\\\n'", "the command's line has 1048576 bytes, and doesn't end"),
        ("hex:yes", "the command has printed more than 16777216 bytes"),
    ],
)
def test_output_without_an_end(emulator: str, why: str, folder: Path) -> None:
    """It is a fault, and no process keeps more of it."""
    output = output_of(folder, emulator, "--instructions", "vadd", "--cases", 1)
    assert f"{name_of('vadd', '1', 0)}: {why}" in output, output


def test_lost_register(folder: Path) -> None:
    output = campaign("python:emulator:Forgets", "--cases", 0, "--programs", 1, "--here", folder).stdout
    form = r"(?m)PROGRAM-g4-1-000000: step 0, .*: \$5: expected [0-9a-f]{8}, got 0{8}$"
    assert re.search(form, output), output


def test_array_of_another_shape(folder: Path) -> None:
    """One sentence, after the first task."""
    words = ("python:emulator:Few", "--instructions", "vadd,vsub", "--cases", 3)
    ended = campaign(*words, "--here", folder)
    form = r"campaign: python:emulator:Few: `ends` returned an array .* and \(2,\), not END .*\n"
    assert (ended.returncode, ended.stdout) == (2, "") and re.fullmatch(form, ended.stderr), ended.stderr


def test_command_of_hexadecimal_lines(folder: Path) -> None:
    """It agrees, and isn't given cases of memories. If a command ends early, its first case is named."""
    names = "vrcpl,beq,sqv"
    output = output_of(folder / "all", f"hex:{EMULATOR} hex", "--instructions", names, "--cases", 1100)
    assert counts_of(folder / "all") == agreed(names, 1100), output
    assert re.search(r"(?m)^SQV +0 +1100 +0 ", output), output
    output = output_of(folder / "few", "hex:true", "--instructions", "vadd", "--cases", 1)
    assert f"{name_of('vadd', '1', 0)}: the command ended with status 0, without this answer" in output
