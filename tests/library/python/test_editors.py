"""The lines that GDB.md has for vim, Emacs and cgdb, typed in a terminal of tmux, in a folder with a blank.

They fail if an editor doesn't show a reply of `monitor` and the end of a run, or if its arrow doesn't follow
`monitor goto`. The gate leaves them out, because its machine has no editors: Debian's packages are vim,
emacs-nox, cgdb and tmux.
"""

import re
import shlex
import shutil
import subprocess
import sys
import time
from pathlib import Path
from typing import Dict, List

import pytest

from lib import TOP
from lib.library.module import ENV
from lib.pages import block_with, page
from lib.processes import run, succeeds

pytestmark = [
    pytest.mark.outside("it needs vim, Emacs and cgdb"),
    pytest.mark.needs("gdb-multiarch", "mips-linux-gnu-as"),
]
STUB = (sys.executable, "-m", "rsp.gdb")
PAGE = "docs/GDB.md"
TYPED = "load", "break 6", "continue", "monitor when", "monitor goto 99", "monitor goto 3"
# An editor's first words, whether its own lines come first, and what its screen shows on line 5 at the end.
EDITORS: Dict[str, List[str]] = {
    "vim": ["vim -u NONE -N scale.s", r"line=5 .*name=debugPC"],
    "emacs": ["emacs -nw -Q", r"=> +nop"],
    "cgdb": ["", r"5├─+> nop"],
}


def lines_of(editor: str, side: str) -> List[str]:
    """What the page has for an editor, line by line, up to GDB's prompt."""
    connect = block_with(PAGE, ":packadd termdebug").splitlines()[-1]
    if editor == "vim":
        return block_with(PAGE, ":packadd termdebug").splitlines()
    if editor == "cgdb":
        return [*re.findall("`(cgdb -d .*?)`", page(PAGE)), connect]
    line = block_with(PAGE, "gdb-multiarch -i=mi").strip()
    return ["\x1bxgdb", "\x01\x0b" + re.sub(r"/path/\S+", lambda _: shlex.quote(side), line), connect]


class Screen:
    """A terminal in which keys are typed."""

    def __init__(self, folder: Path, command: str) -> None:
        self._words = ["tmux", "-S", str(folder / "socket")]
        self.env = {**ENV, "PATH": f"{folder}:{ENV['PATH']}", "TERM": "xterm", "LC_ALL": "C.UTF-8"}
        self.tmux("-f", "/dev/null", "new-session", "-d", "-x", "150", "-y", "60", "-c", str(folder), command)

    def tmux(self, *words: str) -> str:
        """What tmux prints."""
        return succeeds(*self._words, *words, env=self.env)

    def type(self, line: str) -> None:
        """Types a line, and waits until the screen has been still for two seconds."""
        self.tmux("send-keys", "-l", line)
        self.tmux("send-keys", "Enter")
        old, still = "", 0
        while still < 4:
            time.sleep(0.5)
            new = self.tmux("capture-pane", "-p")
            old, still = new, still + 1 if new == old else 0


@pytest.mark.parametrize("editor", EDITORS)
def test_editor(editor: str, folder: Path) -> None:
    for program in editor, "tmux":
        if not shutil.which(program):
            pytest.skip(f"there is no {program}")
    folder = folder / "with blank"
    folder.mkdir()
    (folder / "scale.s").write_text(block_with(PAGE, "# Doubles the samples"))
    (folder / "data.rsp").write_text(re.findall("`(load dmem .*?)`", page(PAGE))[0])
    stub = " ".join(map(shlex.quote, STUB))
    (folder / "rsp-gdb").write_text(
        f'#!/bin/sh\nPYTHONPATH={shlex.quote(ENV["PYTHONPATH"])} exec {stub} "$@"\n'
    )
    (folder / "rsp-gdb").chmod(0o755)
    make = TOP / "examples/python/make_elf.py"
    succeeds(sys.executable, make, "scale.s", "scale.elf", cwd=folder, env=ENV)
    begin, arrow = EDITORS[editor]
    screen = Screen(folder, begin or "sh")
    try:
        for line in (*lines_of(editor, run(*STUB, "--side", env=ENV).stdout.strip()), *TYPED):
            screen.type(line)
        shown = screen.tmux("capture-pane", "-p", "-S", "-200")
        if editor == "vim":
            screen.type('\x17:echo execute("sign place group=*")')
            shown += screen.tmux("capture-pane", "-p")
        for part in r"step 51 \(scale.s:6\)", r"step \d+, the last one", "step 3\n", arrow:
            assert re.search(part, shown), f"no {part} in:\n{shown}"
    finally:
        subprocess.run([*screen._words, "kill-server"], check=False)
