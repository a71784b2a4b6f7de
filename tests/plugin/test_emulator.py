"""The ROM (rom/) in mupen64plus, in its three CPU modes and by Debian's front end."""

import contextlib
import os
import re
import subprocess
from pathlib import Path
from typing import Any, Dict, Iterator, List, Tuple

import pytest

from lib import TOP
from lib.packages import need
from lib.pages import blocks_of, page
from lib.plugin import CORE, FRONT_END, GRAPHICS, HEADERS, Z64, Bench, results
from lib.processes import run, succeeds

pytestmark = [pytest.mark.needs("cc"), pytest.mark.xdist_group("plugin-rom")]

LAST = "task-12.script"  # how the last line of check mode about the ROM ends
MODES = {"interpreter": 0, "cached interpreter": 1, "recompiler": 2}
RESULTS = 79  # calls of `check` in rom/cpu.c, with those in loops
# The semaphore, what the DMA registers hold after a DMA, and a DMA round the end of DMEM:
# conformance/OTHERS.md, at MFC0 and MTC0.
Z64_WRONG = {0x602, 0x604, 0x605, 0x606, 0x609, 0x60A, 0x60B, 0x610, 0x611}
HUNT = page("tests/plugin/HUNT.md")
MESSAGES = re.findall(r"^(RSP\D*: check: .*)", HUNT, re.M)  # what check mode says, by the page
PLAYS = r"(?ms)^(\S*mupen64plus --.*?[^\\])$"  # a command of the page


@pytest.fixture(scope="session")
def hunt(bench: Bench) -> Bench:
    """The bench with what the page's command makes in its folder: plugins and ROMs of the hunt."""
    need("mips-linux-gnu-gcc")
    succeeds(TOP / "tools/python", "lib.plugin", bench.folder, bench.program)
    return bench


@pytest.fixture(scope="session")
def runs(hunt: Bench) -> Dict[str, Tuple[str, bytes]]:
    """What the ROM prints in each CPU mode, with the RDRAM at its end."""
    need(str(HEADERS), str(CORE))
    return {name: hunt.play(hunt.folder / "all.z64", hunt.plugin, mode) for name, mode in MODES.items()}


@pytest.mark.parametrize("mode", MODES)
def test_results(mode: str, runs: Dict[str, Tuple[str, bytes]]) -> None:
    """Each result of the ROM is right, and all are there."""
    output, rdram = runs[mode]
    assert "front done" in output and rdram, output
    found = [*results(rdram)]
    wrong = [f"{n:03x}: {a:08x}, expected {b:08x}" for n, is_right, a, b in found if not is_right]
    assert (wrong, len(found)) == ([], RESULTS)
    assert rdram[0x3FFFF0:0x3FFFF8] == b"DONE\0\0\0\0"


def test_all_modes_leave_the_same_rdram(runs: Dict[str, Tuple[str, bytes]]) -> None:
    assert len({rdram for _, rdram in runs.values()}) == 1


@pytest.mark.needs(str(HEADERS), str(CORE), str(Z64))
def test_rom_on_z64(hunt: Bench) -> None:
    """The ROM finds z64's differences by the CPU, and nothing else."""
    output, rdram = hunt.play(hunt.folder / "short.z64", Z64, 2)
    found = [*results(rdram)]
    assert {number for number, is_right, *_ in found if not is_right} == Z64_WRONG, output
    assert len(found) == RESULTS - 9


def remove_reports(hunt: Bench) -> None:
    """Removes those of an earlier run, which check mode doesn't overwrite."""
    for report in hunt.folder.glob("rsp-task-*"):
        report.unlink()


@pytest.mark.needs(str(HEADERS), str(CORE))
def test_hunt_of_page(hunt: Bench) -> None:
    """The hunt of HUNT.md, by the same plugins on the same ROM, and the script of its difference."""
    remove_reports(hunt)
    output, _ = hunt.play(hunt.folder / "all.z64", hunt.plugin, 2, "CheckAgainst=./faulty-1.so")
    found = re.findall(r"^rsp \d check: (.*)", output, re.M)
    assert len(MESSAGES) == 5
    assert found[1:] == [*(line.partition("check: ")[2] for line in MESSAGES), "12 tasks, 1 differ"]
    script = (hunt.folder / "rsp-task-12.script").read_text()
    more = re.findall(r"printf '(.*?)'", HUNT)[0].replace("\\n", "\n")
    script = script[: script.index("\nregs\n") + 1] + more
    replies = run(hunt.program, "run", input=script).stdout.splitlines()[-37:]
    expected = blocks_of(HUNT)[-1].splitlines()
    assert len(expected) == 8
    assert [line for line in replies if line in expected] == expected


def type_command(hunt: Bench, home: Path, command: str, last: str, **environment: str) -> List[str]:
    """Types a command, and returns the front end's lines up to one that ends so: the ROM never ends."""
    remove_reports(hunt)
    env = {"HOME": str(home), "PATH": "/usr/bin:/bin", "LC_ALL": "C.UTF-8", **environment}
    how: Dict[str, Any] = {"cwd": hunt.folder, "env": env, "text": True, "errors": "replace"}
    # With a screen it takes no signal while the ROM is in its last loop.
    words = ["timeout", "--kill-after=1", "240", "stdbuf", "-oL", "sh", "-c", f"exec {command}"]
    lines: List[str] = []
    with subprocess.Popen(words, stdout=subprocess.PIPE, stderr=subprocess.STDOUT, **how) as front:
        for line in front.stdout or ():
            lines.append(line.rstrip())
            if lines[-1].endswith(last):
                break
        front.terminate()
        front.communicate()
    return lines


def of_check_mode(lines: List[str]) -> List[str]:
    return [line for line in lines if "check: " in line]


@pytest.mark.needs(str(FRONT_END))
@pytest.mark.parametrize("is_kept", [False, True], ids=["lost", "kept"])
def test_hunt_as_typed(is_kept: bool, hunt: Bench, folder: Path) -> None:
    """Debian's front end sets options of its command line after PluginStartup, and saves them if it may."""
    command = re.findall(PLAYS, HUNT)[0].replace("\\\n", "")
    words = command.replace("--nosaveoptions ", "") if is_kept else command
    assert of_check_mode(type_command(hunt, folder, words, LAST))[1:] == MESSAGES
    options = (folder / ".config/mupen64plus/mupen64plus.cfg").read_text().partition("[Rsp-Proved]")[2]
    held = re.findall(r'^CheckAgainst = "(.*)"$', options, re.M)
    assert held[:1] == ["./faulty-1.so" if is_kept else ""], options[:900]


@contextlib.contextmanager
def screen() -> Iterator[Dict[str, str]]:
    """The environment of a program that draws on a screen in memory, and plays to nobody."""
    reading, write = os.pipe()
    words = ["Xvfb", "-displayfd", str(write), "-screen", "0", "800x600x24", "-nolisten", "tcp"]
    with subprocess.Popen(words, pass_fds=[write], stderr=subprocess.DEVNULL) as server:
        os.close(write)
        try:
            with os.fdopen(reading) as display:
                yield {"DISPLAY": f":{display.readline().strip()}", "SDL_AUDIODRIVER": "dummy"}
        finally:
            server.terminate()


@pytest.mark.needs(str(FRONT_END), str(GRAPHICS), "Xvfb")
def test_on_a_screen(hunt: Bench, folder: Path) -> None:
    """The ROM as PLUGIN.md plays it, with a graphics plugin that draws; and in check mode, which keeps it."""
    commands = re.findall(PLAYS, page("docs/PLUGIN.md"))[:2]
    play, check = (it.replace("OTHER.so", "faulty-1.so").replace(" ROM", " all.z64") for it in commands)
    (hunt.folder / "plugin").mkdir()
    (hunt.folder / "plugin/mupen64plus-rsp-proved.so").symlink_to(hunt.plugin)
    with screen() as environment:
        lines = type_command(hunt, folder, play, "Starting R4300 emulator: Dynamic Recompiler", **environment)
        assert "Starting R4300" in lines[-1]
        assert "using RSP plugin: 'Proved RSP'" in str(lines) and "using Video plugin: 'Z64gl'" in str(lines)
        lines = type_command(hunt, folder, check, LAST, **environment)
        assert "using Video plugin: 'Z64gl'" in str(lines)
        assert of_check_mode(lines)[1:] == MESSAGES
