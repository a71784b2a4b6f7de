"""Tests of microcode, to be copied. `pytest test_microcode.py` runs them, or `python3 -m unittest`.

It needs the package rsp alone. Put your text in place of SCALED, and your model in place of `model`.
"""

import random
import struct
import unittest
from typing import List

import rsp

# Eight samples at 0 times the volume at 16, as fractions. The results go to 32.
SCALED = """
        lqv   $v1[0], 0($0)
        lqv   $v2[0], 16($0)
        vmulf $v3, $v1, $v2[0]
        sqv   $v3[0], 32($0)
        break
"""


def model(sample: int, volume: int) -> int:
    """The product of two fractions, rounded and clamped."""
    return min((sample * volume * 2 + 0x8000) >> 16, 32767)


class TestScaled(unittest.TestCase):
    def scaled(self, samples: List[int], volume: int) -> List[int]:
        with rsp.Machine(bytes(64)) as machine:
            machine.load_words(rsp.IMEM, 0, rsp.assemble(SCALED))
            machine.load(rsp.DMEM, 0, struct.pack(">9h", *samples, volume))
            machine.run_to_halt(100)
            return list(struct.unpack(">8h", machine.memory(rsp.DMEM, 32, 16)))

    def test_edges(self) -> None:
        for volume in (-32768, -1, 0, 1, 32767):
            samples = [-32768, -32767, -1, 0, 1, 2, 32766, 32767]
            self.assertEqual(self.scaled(samples, volume), [model(it, volume) for it in samples], volume)

    def test_random_samples(self) -> None:
        draw = random.Random(1)
        for _ in range(1000):
            *samples, volume = (draw.randrange(-32768, 32768) for _ in range(9))
            self.assertEqual(self.scaled(samples, volume), [model(it, volume) for it in samples])

    def test_script(self) -> None:
        """The replies to a script. A fault among them means that the script itself is wrong."""
        load = "load dmem 0 40004000400040004000400040004000\nload dmem 16 4000\n"
        replies, _ = rsp.run_script(f"asm 0\n{SCALED}end\n{load}run 100\nmem dmem 32 2\n")
        self.assertEqual([it for it in replies.splitlines() if it.startswith(b"fault ")], [])
        self.assertEqual(replies.splitlines()[-1], b"000020: 2000")


if __name__ == "__main__":
    unittest.main()
