"""Proves crates with all that they use, one after the other, each by `rt lib`."""

import time
from typing import Callable, List, Sequence

from rsp_tools.crates import CRATES, with_below

from . import toolchain

WAITS = "rt: waiting for another rt"  # how the line begins that `rt` prints beside another run in the crate


def prove(name: str, say: Callable[[str], None]) -> bool:
    """Proves the library of a crate, and returns whether it is proved. `rt lib` prints nothing if it was
    proved before; otherwise out/proof.log has what it prints of the proof."""
    folder, begun = CRATES / name, time.time()
    (folder / "out").mkdir(exist_ok=True)
    lines: List[str] = []

    def take(line: str) -> None:
        if not lines:
            say(f"{name} begins")
        lines.append(line)

    status, text = toolchain.run(["rt", "lib"], folder, take), "".join(lines)
    if status or "logic=proved" in text:
        (folder / "out/proof.log").write_text(text)
    if not status and [it for it in lines if not it.startswith(WAITS)]:
        say(f"{name} is proved after {time.time() - begun:.0f} s")
    return not status


def prove_below(tops: Sequence[str], say: Callable[[str], None]) -> str:
    """Proves what isn't proved of the crates below these. Returns "", or a crate that can't be proved."""
    names = dict.fromkeys(name for top in tops for name in with_below(top)[:-1])
    return next((name for name in names if not prove(name, say)), "")
