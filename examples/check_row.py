#!/usr/bin/env python3
"""check_row.py [PROGRAM]: checks VMULF against a model, over pipes to `rsp run`.

Copy `Session`: it sends a command and reads the lines of the reply. Then put your instruction and your model
in place of `VMULF` and `model`.
"""
import random
import subprocess
import sys
from typing import List


class Session:
    """A running `rsp run`, which is asked line by line."""

    def __init__(self, program: str) -> None:
        pipe = subprocess.PIPE
        run = subprocess.Popen([program, "run"], stdin=pipe, stdout=pipe, text=True, bufsize=1)
        assert run.stdin and run.stdout
        self.stdin, self.stdout = run.stdin, run.stdout

    def ask(self, command: str, lines: int = 1) -> List[str]:
        """Sends a command that replies with so many lines, and returns them. A refusal is one line, which
        begins with `fault`."""
        self.stdin.write(command + "\n")
        reply = [self.stdout.readline().rstrip("\n")]
        if not reply[0].startswith("fault "):
            reply += [self.stdout.readline().rstrip("\n") for _ in range(lines - 1)]
        return reply

    def assemble(self, address: int, text: str) -> str:
        """Assembles a text. The lines of a block have no reply, only its end has."""
        self.stdin.write(f"asm {address}\n{text}\n")
        return self.ask("end")[0]


VMULF = """
    lqv  $v1[0], 0($0)
    lqv  $v2[0], 16($0)
    vmulf $v3, $v1, $v2
    sqv  $v3[0], 32($0)
    break
"""


def signed(lane: int) -> int:
    return lane - 65536 if lane >= 32768 else lane


def model(a: int, b: int) -> int:
    """The result of VMULF for one lane: twice the product, rounded, its upper half clamped to 16 bits."""
    upper = (2 * signed(a) * signed(b) + 32768) >> 16
    return min(max(upper, -32768), 32767) % 65536


def main() -> None:
    session = Session(sys.argv[1] if len(sys.argv) > 1 else "./rsp")
    assert session.assemble(0, VMULF) == "ok 5 words"
    chance = random.Random(1)
    edges = [0, 1, 0x7FFF, 0x8000, 0xFFFF]
    for _ in range(200):
        a, b = ([chance.choice([*edges, chance.randrange(65536)]) for _ in range(8)] for _ in range(2))
        session.ask("load dmem 0 " + "".join(f"{lane:04x}" for lane in a + b))
        session.ask("write 4 1")  # clears halted, which BREAK has set
        session.ask("pc 0")
        session.ask("run 100")
        result = session.ask("mem dmem 32 16")[0].split()[1]
        expected = "".join(f"{model(x, y):04x}" for x, y in zip(a, b))
        if result != expected:
            sys.exit(f"VMULF of {a} and {b}: rsp says {result}, the model {expected}")
    print("VMULF: 1600 lanes agree with the model")


main()
