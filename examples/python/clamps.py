"""clamps.py SCRIPT: does it overflow? Runs on from what a script leaves, up to the halt, and prints which
instructions clamp (saturate) which lanes of their results, and how often. VMULQ and VMACQ are left out."""

import sys
from collections import Counter
from pathlib import Path
from typing import Iterator, Tuple

import rsp
from rsp.script import ASKED, machine_of


def clamped(changes: rsp.Changes) -> Iterator[Tuple[int, str, int]]:
    """The address, the text and each lane in which a step has clamped: the accumulator doesn't fit there."""
    name = changes.traced.text.split()[0]
    for lane, (value, accumulator) in enumerate(zip(changes.traced.lanes, changes.accumulators)):
        high = (accumulator >> 16) - (accumulator >> 47 << 32)  # bits 47 to 16, signed
        least = 0 if name in ("vmulu", "vmacu") else -0x8000
        is_product = name[:4] in ("vmul", "vmac", "vmud", "vmad") and name[4:] != "q"
        is_sum = name in ("vadd", "vsub")
        if is_product and not least <= high < 0x8000 or is_sum and value != accumulator & 0xFFFF:
            yield changes.traced.pc, changes.traced.text, lane


with machine_of(*rsp.run_script(Path(sys.argv[1]).read_bytes() + ASKED)) as machine:
    found = Counter(it for step in iter(machine.step_changes, None) for it in clamped(step))
for (at, text, lane), times in sorted(found.items()):
    print(f"{at:03x} {text}: clamps lane {lane}, {times} times")
