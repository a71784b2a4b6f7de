"""What measures (measure/) prints figures: small runs, and long ones outside the gate."""

import os
import re
import sys
from pathlib import Path

import pytest

from lib import TOP
from lib.packages import need
from lib.plugin import CORE, HEADERS
from lib.processes import succeeds
from lib.z64 import PLUGIN as Z64

FIGURES = r"\| .*\d\.\d \|\n"
LONG = pytest.mark.outside("it measures for minutes")
ROM = ("mips-linux-gnu-gcc", str(HEADERS), str(CORE))
# What is typed, what it needs, and what it prints.
RUNS = {
    "speed --line step": (["valgrind"], r".*\n.*\n\| `step` \| \d,\d{3} \|\n"),
    "host run-six": (["cc", "valgrind"], r".*\n.*\n\| of six \| \d{3}\.\d \|\n"),
}
LONG_RUNS = {
    "speed": (
        ["cc", "valgrind"],
        rf"(?s)(?:.*\| -?\d+ to \d+ \|\n){{8}}.*(?:{FIGURES}){{12}}.*(?:\| .* \| [\d,.]+ \|\n){{15}}",
    ),
    "speed --stalls": (["cc"], rf"(?s).*{FIGURES}"),
    "speed --z64": (["valgrind", Z64], rf"(?s).*{FIGURES}"),
    "speed --time": ([Z64], rf"(?s).*(?:{FIGURES}){{3}}"),
    "plugin_speed": (["cc", "valgrind", Z64], r"(?s)(?:.*\|---.*\|.*\d \|\n){3}\n"),
    "plugin_speed --rom": (
        ["cc", "valgrind", Z64, *ROM],
        r"the plugin .*: z64 takes \d+\.\d\d times as long\n\n",
    ),
}


@pytest.mark.timeout(3600)
@pytest.mark.usefixtures("program", "library")
@pytest.mark.parametrize("words", [*RUNS, *(pytest.param(words, marks=LONG) for words in LONG_RUNS)])
def test_run(words: str) -> None:
    tools, expected = {**RUNS, **LONG_RUNS}[words]
    need(*tools)
    env = {**os.environ, "PATH": f"{Path(sys.executable).parent}:{os.environ['PATH']}"}  # with this Python
    output = succeeds(TOP / "tools/python", *f"measure.{words}".split(), env=env, timeout=3000)
    assert re.fullmatch(expected, output), output
