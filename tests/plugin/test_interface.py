"""Each call of the plugin's interface by an emulator that has nothing else (driver.c), bad input included."""

import os
import re
from pathlib import Path
from typing import Any, List

import pytest

from lib import TOP
from lib.pages import page
from lib.plugin import FLAGS, HEADERS, HERE, Bench, start_lines
from lib.processes import compiled, run, succeeds
from lib.sanitizers import sanitizers
from lib.z64 import REGISTERS

pytestmark = [pytest.mark.needs("cc"), pytest.mark.xdist_group("plugin")]

CONSTANTS = {
    "sizeof(m64p_rsp_info)": "sizeof(RSP_INFO)",
    "M64_PLUGIN_RSP": "M64PLUGIN_RSP",
    "M64_FLOAT": "M64TYPE_FLOAT",
    "M64_ROM_GET_SETTINGS": "M64CMD_ROM_GET_SETTINGS",
    "M64_SETTINGS_WITHOUT_PACK": "offsetof(m64p_rom_settings, disableextramem)",
    **{f"M64_{it}": f"M64ERR_{it}" for it in ("SUCCESS", "NOT_INIT", "ALREADY_INIT", "INCOMPATIBLE")},
    **{f"M64_{it}": f"M64MSG_{it}" for it in ("ERROR", "WARNING", "INFO")},
}
FILES = ("m64p_types.h", "m64p_common.h", "m64p_plugin.h", "mupen64plus.h", "stddef.h")


def replies_of(command: str, text: str) -> List[str]:
    """The lines that a command of a script is answered by."""
    if command != "registers":
        return [line for line in text.split(" / ") if line]
    values = dict(item.split("=") for item in text.split())
    return [f"{name} {values.get(name, ''):0>8}" for name in REGISTERS]


def script(text: str) -> Any:
    """A test's lines for the driver and their replies, from a script of calls/calls.txt."""
    lines, replies = [], []
    name, *commands = [line for line in text.splitlines() if not line.strip().startswith("#")]
    for line in commands:
        command, _, expected = (part.strip() for part in line.partition("|"))
        times, _, repeated = command.rpartition(" times ")
        first, _, option = command.partition(" ")
        if first == "task":
            lines += start_lines(*filter(None, [option]))
            replies.append("start 0")
        else:
            lines += [repeated] * int(times or 1)
            replies += replies_of(command, expected) * int(times or 1)
    return pytest.param(lines, replies, id=name)


SCRIPTS = [script(text) for text in (HERE / "calls/calls.txt").read_text().split("\n\n")[1:]]


def fill(bench: Bench, lines: List[str]) -> List[str]:
    """Lines with words in place of <NAME> of microcode, and of <TEXT>."""
    return [re.sub("<(.+?)>", lambda match: bench.words_of(str(match[1])), line) for line in lines]


def all_scripts(bench: Bench) -> List[str]:
    """The lines of all scripts, one ROM after the other."""
    return [line for it in SCRIPTS for line in (*fill(bench, it.values[0]), "close", "shutdown")]


@pytest.mark.parametrize("lines, replies", SCRIPTS)
def test_calls(lines: List[str], replies: List[str], bench: Bench) -> None:
    assert bench.drive(fill(bench, lines)) == fill(bench, replies)


@pytest.mark.needs("valgrind")
def test_under_valgrind(bench: Bench) -> None:
    under = ("valgrind", "-q", "--leak-check=full", "--error-exitcode=9")
    lines = bench.drive(all_scripts(bench), under=under)
    assert len(lines) > 100 and not [line for line in lines if "==" in line or line.startswith("status")]


def test_under_sanitizers(bench: Bench, folder: Path) -> None:
    """The plugin and the driver are watched by gcc's sanitizers."""
    if not sanitizers():
        pytest.skip("the sanitizers of gcc don't run here")
    env = {**os.environ, "CFLAGS": " ".join(("-Werror", *sanitizers()))}
    succeeds(TOP / "plugin/build", folder / "plugin.so", env=env)
    options = (*FLAGS, *sanitizers(), "-rdynamic")
    driver = compiled(folder / "driver", *options, HERE / "driver.c", "-ldl", "-lpthread")
    ended = run(driver, folder / "plugin.so", input="\n".join([*all_scripts(bench), ""]), cwd=folder)
    assert ended.returncode == 0 and ended.stdout.count("\n") > 100, ended.stdout[-3000:]


@pytest.mark.parametrize("word, status", [("--what", 2), ("--help", 0)])
def test_words_of_build(word: str, status: int) -> None:
    ended = run(TOP / "plugin/build", word)
    assert ended.returncode == status and ended.stdout.startswith("plugin/build [OUT]: makes")


@pytest.mark.needs(str(HEADERS))
def test_headers(folder: Path) -> None:
    """Each constant of plugin/mupen64plus.h, and each field's offset, are those of libmupen64plus-dev."""
    info = re.findall(r"struct m64p_rsp_info {(.*?)}", page("plugin/mupen64plus.h"), re.S)[0]
    fields = re.findall(r"\w+", re.sub(r"unsigned( char)?|void|\(void\)", "", info))
    assert len(fields) == 26
    pairs = [f"{mine} == {its}" for mine, its in CONSTANTS.items()]
    for field in fields:
        its = f"{field}_REG" if field.isupper() and field not in ("RDRAM", "DMEM", "IMEM") else field
        pairs.append(f"offsetof(m64p_rsp_info, {field}) == offsetof(RSP_INFO, {its})")
    lines = [*(f'#include "{it}"' for it in FILES), *(f'_Static_assert({it}, "{it}");' for it in pairs), ""]
    (folder / "pairs.c").write_text("\n".join(lines))
    succeeds("cc", f"-I{HEADERS}", f"-I{TOP}/plugin", "-fsyntax-only", folder / "pairs.c")
