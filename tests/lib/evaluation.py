"""What the tests of the package `definitions` share."""

import subprocess
from pathlib import Path
from typing import Dict, List, Optional

from definitions.compiler import Compiler
from definitions.kit import lines
from definitions.modules import Library
from definitions.programs import IMAGE_BYTES, Session
from lib import TOP
from rsp_conformance.seeded_random import Random

COMMIT = subprocess.run(["git", "rev-parse", "HEAD"], cwd=TOP, capture_output=True, text=True).stdout.strip()
LINES = [
    line.strip()
    for path in sorted(TOP.glob("microcode/*.s"))
    for line in path.read_text().splitlines()
    if line.strip() and not line.startswith("#")
]
BANKS = ("dmem", "imem", "rdram")
STATEMENTS = ("addiu $1, $1, 1", "bgez $1, 0", "nop", "mtc0 $1, $c2", "break", "sqv $v1[0], 16($0)")
LETTERS = 'abcdefghijklmnopqrstuvwxyz0123456789$[](),:;#.+- \tqhvxVRL_"/{|~'


def compiler(changed: Optional[Dict[str, str]] = None) -> Compiler:
    """The definitions, with texts in place of files."""
    return Compiler(Library(str(TOP), changed))


def answered(definitions: Compiler, script: bytes, image: bytes = bytes(IMAGE_BYTES)) -> bytes:
    """The replies to a script, by the definitions."""
    session = Session(definitions, image)
    return b"".join([session.answer(line) for line in lines(tuple(script))] + [session.end()])


def vectors(name: str) -> List[str]:
    """The lines of the vectors of an instruction."""
    return Path(TOP, f"conformance/vectors/steps/{name}.jsonl").read_text().splitlines()


def number(random: Random, most: int) -> str:
    """A number up to a bit more than the most, in either form."""
    value = random.pick((0, 1, 2, 3, 4, 8, 16, 63, 64, 65, 255, 256, random.below(most + 1), most, most + 1))
    return random.pick((str(value), hex(value)))


def block(random: Random) -> str:
    """A block of statements, seldom without its end."""
    made = [random.pick((*STATEMENTS, random.pick(LINES))) for _ in range(1 + random.below(8))]
    end = "regs" if random.one_in(10) else "end"
    return "\n".join([f"asm {4 * random.below(8)}", *made, end])


def command(random: Random) -> str:
    """A command of a script, most often one that isn't refused."""
    near = random.below(5) > 0
    instruction = str(4 * random.below(16)) if near else number(random, 4096)
    commands = {
        "run": random.pick(("1", "2", "5", "20", "100", number(random, 300))),
        "break": instruction,
        "unbreak": instruction,
        "pc": instruction,
        "watch": f"{random.below(64) if near else number(random, 4096)} {number(random, 64)}",
        "unwatch": number(random, 8),
        "back": str(random.below(9)) if near else number(random, 1000000),
        "mem": f"{random.pick(BANKS)} {number(random, 4096)} {number(random, 256)}",
        "dis": f"{4 * random.below(1024)} {number(random, 64)}",
        "read": number(random, 15),
        "write": f"{number(random, 15)} {number(random, 2**32 - 1)}",
        "task": str(8 * random.below(20)),
        "load": f"{random.pick(BANKS)} {number(random, 4000)} {random.bytes(random.below(20))}",
        **{name: "" for name in ("step", "regs", "vregs", "acc", "flags", "sp")},
    }
    name = random.pick((*commands, "step", "run", "run", "watch", "asm", "asm", "asm", "junk"))
    if name == "asm":
        return block(random)
    if name == "junk":
        return "".join(chr(32 + random.below(95)) for _ in range(random.below(12)))
    return f"{name} {commands[name]}"


def faulty(random: Random, line: str) -> str:
    """A line with up to three changes."""
    letters = list(line)
    for _ in range(random.below(4)):
        at = random.below(len(letters) + 1)
        change = random.below(3)
        letters[at : at + (change > 0)] = [] if change == 1 else [random.pick(LETTERS)]
    text = "".join(letters)
    return "nop" if text.strip() == "end" else text
