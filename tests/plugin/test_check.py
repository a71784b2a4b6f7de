"""Check mode beside plugins with a planted fault (faulty.c), and beside Debian's z64, which differs."""

import copy
import re
import shutil
from pathlib import Path
from typing import List

import pytest

from lib import TOP
from lib.plugin import HERE, Z64, Bench, assert_plays, check_tasks, start_lines, tasks_of_rom

pytestmark = [pytest.mark.needs("cc"), pytest.mark.xdist_group("plugin")]

# What z64 executes differently, by OTHERS.md: an instruction for calls/showing.s, and what is named.
Z64_DIFFERS = {
    "lwu $4, 0($0)": "$4 is",
    "vrsq $v4[0], $v2[0]": "$v4 is",
    "vmulu $v4, $v1, $v1": "$v4 is",
    "vmov $v4[1], $v2[2]": "accumulator",
    "ldv $v4[9], 16($0)": "$v5 is",
    "sdv $v2[9], 64($0)": "DMEM",
    "bltzal $2, 0x100": "pc is|$31 is",
    "mtc0 $2, $c0": "SP_MEM_ADDR is",
    "mfc0 $4, $c7": "SP_SEMAPHORE is",
    "vabs $v4, $v2, $v1": "accumulator",
}


def products(bench: Bench) -> List[str]:
    return [f"put imem 0 {bench.words_of('products')}", f"put dmem 0 {'40004000 ' * 4} {'00080008 ' * 4}"]


def test_no_fault(bench: Bench, folder: Path) -> None:
    tasks = tasks_of_rom(bench)
    assert check_tasks(bench, folder, bench.faulty(0), tasks)[1:] == [f"{len(tasks)} tasks, 0 differ"]


@pytest.mark.parametrize(
    "name, expected",
    [("none.so", ": cannot open shared object file"), ("libbrsp.so", " isn't an RSP plugin")],
)
def test_no_plugin(name: str, expected: str, bench: Bench, folder: Path) -> None:
    """An option ends at whitespace, which the repository's path may have."""
    shutil.copy(TOP / "library/c/libbrsp.so", folder)
    other = folder / name if name == "libbrsp.so" else name
    (message,) = check_tasks(bench, folder, other, tasks_of_rom(bench)[:1])
    assert name + expected in message


def test_options_of_the_next_rom(bench: Bench, folder: Path) -> None:
    """From ROM to ROM the user chooses a right plugin, a wrong one, none, and the wrong one again."""
    right, wrong = (f"CheckAgainst {bench.faulty(fault)}" for fault in (0, 1))
    lines = start_lines(f"CheckFolder {folder}")[:-1]
    for chosen in (right, wrong, "CheckAgainst", wrong):
        lines += [f"option {chosen}", "initiate", "set SP_PC 0", "set SP_STATUS 0", *products(bench)]
        lines += ["cycles 100000000", "close"]
    ends = [line.partition(" ")[2][2:] for line in bench.drive(lines) if re.search(r"\d tasks", line)]
    agree, differ = (["1 tasks", f"check: 1 tasks, {count} differ"] for count in (0, 1))
    assert ends == [*agree, *differ, "1 tasks", *differ]


def test_folder_that_cannot_be_written(bench: Bench) -> None:
    messages = check_tasks(bench, Path("/proc/none"), bench.faulty(1), [products(bench)])
    lost = [f"cannot write /proc/none/rsp-task-1.{suffix}" for suffix in ("txt", "script")]
    assert messages[-3:] == [*lost, "1 tasks, 1 differ"]


def test_child_takes_no_memory(bench: Bench, folder: Path) -> None:
    """Another thread of the emulator may hold a lock of malloc when the child is forked."""
    wary = copy.copy(bench)
    wary.plugin = bench.faulty(0)
    expected = check_tasks(bench, folder, bench.faulty(1), [products(bench)])
    for report in folder.glob("rsp-task-1.*"):
        report.unlink()
    assert len(expected) == 6 and check_tasks(wary, folder, bench.faulty(1), [products(bench)]) == expected


def test_child_that_ended(bench: Bench, folder: Path) -> None:
    """The process for single steps is killed, as one of a full machine may be: the emulator goes on."""
    messages = check_tasks(bench, folder, bench.faulty(4), [products(bench), products(bench)])
    assert messages.count("the other plugin failed in single steps, by signal 9") == 2
    assert messages[-1] == "2 tasks, 2 differ"


def test_report_that_is_there(bench: Bench, folder: Path) -> None:
    """A file of a report's name, or a link to another file, stays as it is."""
    kept, link, text = folder / "kept", folder / "rsp-task-1.txt", folder / "rsp-task-1.script"
    kept.write_text("kept")
    link.symlink_to(kept)
    text.write_text("earlier")
    messages = check_tasks(bench, folder, bench.faulty(1), [products(bench)])
    refused = [f"{path} is there already, and stays as it is" for path in (link, text)]
    assert messages[-3:] == [*refused, "1 tasks, 1 differ"]
    assert kept.read_text() == "kept" and link.is_symlink() and text.read_text() == "earlier"


def test_wrong_lane(bench: Bench, folder: Path) -> None:
    """VMUDM sets the lowest bit of lane 5, which shows when the lane is stored, in step 8 of task 2."""
    messages = check_tasks(bench, folder, bench.faulty(1), [["put imem 0 0000000d"], products(bench)])
    difference = "DMEM 000028 is 00020002 here and 00020003 there"
    step = f"task 2, step 8, 01c: {bench.words('sqv $v3[0], 32($0)')} sqv $v3[0], 32($0): {difference}"
    files = [f"{folder}/rsp-task-2.{suffix}" for suffix in ("txt", "script")]
    assert messages[1:] == [f"task 2: {difference}", step, *files, "2 tasks, 1 differ"]
    assert_plays(bench, folder, 2)
    text = (folder / "rsp-task-2.txt").read_text()
    assert text.endswith("The other's DMEM after it:\n000020: 00020002000200020002000300020002\n")


@pytest.mark.parametrize(
    "fault, difference",
    [
        (2, "RDRAM 003000 is 00000003 here and 00000000 there"),
        (3, "RDRAM 002ff8 is 00000005 here and 00000001 there"),
    ],
    ids=["eight bytes more", "nothing"],
)
def test_wrong_transfer(fault: int, difference: str, bench: Bench, folder: Path) -> None:
    """A DMA to RDRAM writes too much or nothing: no register shows it, and no byte that the plugin uses. The
    script begins after a DMA into DMEM, with an accumulator whose middle part begins with 1."""
    into, out = ((HERE / f"calls/dma_{it}.s").read_text() for it in ("in", "out"))
    begin = "addiu $1, $0, -1\nmtc2 $1, $v1[0]\nvmudn $v2, $v1, $v1\n"
    change = "lw $4, 0x100($0)\naddiu $4, $4, 4\nsw $4, 0x100($0)"
    words = bench.words(begin + into.replace("break", change) + out)
    task = [f"put imem 0 {words}", "put dmem f00 00000100 00002ff8 00000007", "put rdram 2ff8 1 2 3 4"]
    messages = check_tasks(bench, folder, bench.faulty(fault), [task])
    step = f"task 1, step 18, 044: {bench.words('mtc0 $3, $c3')} mtc0 $3, $c3: {difference}"
    assert messages[1:3] == [f"task 1: {difference}", step]
    assert messages[-1] == "1 tasks, 1 differ"
    assert_plays(bench, folder, 1)


@pytest.mark.needs(str(Z64))
@pytest.mark.parametrize("text", Z64_DIFFERS)
def test_z64(text: str, bench: Bench, folder: Path) -> None:
    """Each known difference is found at the fourth step of its task, and what differs is named."""
    memory = f"put dmem 0 {'80008000 ' * 4} 87654321 c001d00d 00077e57 12348abc"
    words = bench.words((HERE / "calls/showing.s").read_text().replace("nop", text))
    messages = check_tasks(bench, folder, Z64, [[f"put imem 0 {words}", memory]])
    (step,) = [line for line in messages if line.startswith("task 1, step 4, 00c: ")]
    assert f" {text}: " in step and any(it in step for it in Z64_DIFFERS[text].split("|")), messages
    assert_plays(bench, folder, 1)
