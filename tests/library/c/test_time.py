"""How long a call of the library takes at most: what docs/EMULATOR.md says of the number of its steps.

It fails if so many of the slowest steps that a search found take longer than the page says, by the
processor's time, the least of five calls.
"""

import re
import time
from typing import Callable

import pytest

import rsp
from lib.pages import page

pytestmark = [
    pytest.mark.usefixtures("library"),
    pytest.mark.outside("it measures milliseconds, which other work on the processor makes longer"),
]
TEXT = " ".join(page("docs/EMULATOR.md").split())
# 256 rows of 4096 bytes with a skip; the moves to SP_RD_LEN and SP_WR_LEN, and a store.
LARGEST, DMA_IN, DMA_OUT, STORE = 0xEC8FFFFF, 0x40811000, 0x40811800, 0xAC000000


def machine(word: int) -> "rsp.Machine":
    """A machine whose IMEM is full of a word, with all that a run can stop at."""
    made = rsp.Machine(bytes(8 << 20), depth=256)
    made.load_words(rsp.IMEM, 0, [word] * 1006 + [0x08000000] + [0] * 17)
    state = made.get()
    state.words[1], state.sp[0], state.sp[1] = LARGEST, 8, 0x63248
    made.set(state)
    for n in range(16):
        made.add_break(4092 - 4 * n)  # after the jump back
    for n in range(8):
        made.add_watch(64 * n, 64)
    return made


def least(call: Callable[[], object]) -> float:
    """The processor's milliseconds of a call, the least of five."""
    taken = []
    for _ in range(5):
        began = time.process_time()
        call()
        taken.append(1000 * (time.process_time() - began))
    return min(taken)


@pytest.mark.parametrize("call, word", (("run", DMA_IN), ("run", DMA_OUT), ("run_until_move", STORE)))
def test_call(call: str, word: int) -> None:
    sentence = rf"a `brsp_{call}` of at most ([\d,]+) steps.*? takes less than (\d+) ms"
    steps, most = re.findall(sentence, TEXT)[0]
    count, masks = int(steps.replace(",", "")), (0, 12) if call == "run_until_move" else ()
    made, stops = getattr(machine(word), call), []
    assert least(lambda: stops.append(made(count, *masks))) < int(most)
    assert all(it.steps == count for it in stops)
