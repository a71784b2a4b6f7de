"""`rsp.slow`, whose DMAs take time, on waits that turn.

They fail if a read gets another answer than the rules say, or if a wait that counts its turns isn't found.
test_waits.py shows that the repository's microcode leaves the same bytes.
"""

import sys
from pathlib import Path
from typing import List

import pytest

import rsp
import rsp.slow
import rsp.waits
from lib.library.module import ENV, loaded
from lib.pages import block_with
from lib.processes import run

# A loop that counts its eight turns in the delay slot of a wait, and what the two modules say of it.
COUNTS, NAMED, DIFFERS = (block_with("docs/COOKBOOK.md", "        ori   $18, $0, 8", it) for it in range(3))
RIGHT = COUNTS.replace("        addiu", "        nop\n        addiu")


@pytest.mark.parametrize("number, answers", ((4, [12, 12, 4, 0]), (5, [1, 1, 0, 0]), (6, [1, 1, 1, 0])))
def test_answers(number: int, answers: List[int]) -> None:
    """The first of three DMAs takes two reads, the second one none, and the third one read more."""
    reads = "".join(f"mfc0 ${at}, $c{number}\n" for at in range(8, 12))
    for limit in range(1, 20):
        machine, counts = loaded(3 * "mtc0 $0, $c2\nnop\n" + reads + "break\n"), iter((2, 0, 1))
        stop = rsp.slow.run(machine, lambda: next(counts), limit)
        assert stop == loaded(10 * "nop\n" + "break\n").run(limit) and stop.pc == machine.regs().pc
    assert [machine.reg(at) for at in range(8, 12)] == answers
    assert [machine.peek(at) for at in (4, 5, 6)] == [3, 0, 0]


def test_difference() -> None:
    """Also what COOKBOOK says of its loop, here and by `rsp.waits`."""
    machine = loaded(COUNTS)
    (wait,) = rsp.waits.missing(machine.copy())
    assert [str(wait), rsp.slow.difference(machine)] == [NAMED.strip(), DIFFERS.strip()]
    assert machine.regs().pc == 0 and rsp.slow.difference(loaded(RIGHT)) is None
    stored = loaded(COUNTS.replace("bne   $18, $0, turn", "bgtz $18, turn"))
    assert str(rsp.slow.difference(stored)).startswith("DMEM 010 is 00000000000000000000000000000000 if DMAs")
    with pytest.raises(rsp.NotHalted):
        rsp.slow.difference(machine, limit=65)
    draws = [[draw() for _ in range(99)] for draw in map(rsp.slow.drawn, (3, 3))]
    assert draws[0] == draws[1] and {*draws[0]} == {*range(5)}


def test_command(folder: Path) -> None:
    for text, status, printed in (COUNTS, 1, DIFFERS.strip()), (RIGHT, 0, "no difference"):
        script = f"asm 0\n{text}stay: j stay\nnop\nend\nrun 1000\nwrite 4 5\nrun 1\n"
        (folder / "script").write_text(script)
        ended, last = run(sys.executable, "-m", "rsp.slow", folder / "script", env=ENV), script.count("\n")
        lines = f"line {last - 2}: {printed}\nline {last}: not compared: LIMIT after 1000000 steps"
        assert ended.returncode == status and ended.stdout.startswith(lines)
    assert run(sys.executable, "-m", "rsp.slow", folder / "none", env=ENV).returncode == 1
