"""The result of a script, and the first fault among its replies."""

import re
import struct
from typing import Any, Iterator, List, Optional, Tuple, Union

from . import errors
from .machine import DMEM, IMEM, Machine
from .session import Session
from .state import State

# The lines of a script whose replies are the whole machine, except RDRAM.
_BANKS = "".join(f"mem {bank} {at} 256\n" for bank in ("dmem", "imem") for at in range(0, 4096, 256))
ASKED = f"\n{_BANKS}regs\nvregs\nacc\nflags\nsp\n".encode()
STATE = struct.Struct("<32I256H24H2HBx5H17I")  # a State as a list of numbers; where some of them are:
ACCUMULATORS, PC = 288, 318
_FAULT = b"fault "
_EXCERPT = 80  # how many characters of a line a message shows


def number(text: str) -> int:
    """The number that a text is, as scripts have it."""
    if not re.fullmatch("[0-9]{1,16}|0x[0-9a-fA-F]{1,16}", text):
        raise ValueError(f"{text[:80]} isn't a number")
    return int(text, 16 if "x" in text else 10)


class ScriptError(Exception):
    """A reply is a fault. `line` is the number of the line in the script, from 1, `text` is that line,
    `fault` the number of the fault, `reply` the whole reply, and `replies` all replies up to it, with it.

    For a fault of an `asm` block `line` is the line of the block that is at fault. `text` is empty if the
    script ends before `end`.
    """

    def __init__(self, line: int, text: str, reply: str, replies: bytes = b"") -> None:
        excerpt = errors.printable(text[:_EXCERPT])
        super().__init__(f"line {line}: {reply}: {excerpt}".rstrip(": "))
        self.line, self.text, self.reply = line, text, reply
        self.fault, self.replies = int(reply.split()[1]), replies or f"{reply}\n".encode()

    def __reduce__(self) -> Any:
        return ScriptError, (self.line, self.text, self.reply, self.replies)


class Ran:
    """The result of a script: `replies`, and `image`, which is copied when it is first read.

    It unpacks and compares like the pair of both.
    """

    def __init__(self, replies: bytes, image: Union[bytes, Session]) -> None:
        self.replies, self._image = replies, image

    @property
    def image(self) -> bytes:
        """The image of RDRAM as the script leaves it."""
        if not isinstance(self._image, bytes):
            self._image = self._image.rdram
        return self._image

    def __iter__(self) -> Iterator[bytes]:
        yield self.replies
        yield self.image

    def __len__(self) -> int:
        return 2

    def __getitem__(self, number: int) -> bytes:
        return self.image if range(2)[number] else self.replies

    def __eq__(self, other: object) -> bool:
        return isinstance(other, (Ran, tuple)) and tuple(self) == tuple(other)

    __hash__ = None  # type: ignore[assignment]

    def __reduce__(self) -> Any:
        return Ran, (self.replies, self.image)

    def __repr__(self) -> str:
        return f"<rsp.Ran: {len(self.replies)} bytes of replies>"


def run_script(script: Union[str, bytes], image: Optional[bytes] = None, strict: bool = False) -> Ran:
    """The replies of `rsp run` to a script, and the image as the script leaves it. The result is a pair,
    whose second item is copied only when it is asked for.

    With `strict` the first reply that is a fault raises ScriptError, and the lines after it aren't run.
    """
    session = Session(image)
    replies = strict_replies(session, script) if strict else session.feed(script) + session.end()
    return Ran(replies, session)


def strict_replies(session: Session, script: Union[str, bytes]) -> bytes:
    """The replies to a whole script. Raises ScriptError at the first one that is a fault.

    It ends there because the lines after it rest on a line that wasn't carried out.
    """
    raw = errors.script_of("run_script", script)
    lines, replies = raw.split(b"\n"), []
    block = 0  # the number of the line `asm` of the block that is open
    for number, reply in enumerate(session.iter_feed(raw), 1):
        replies.append(reply)
        if reply.startswith(_FAULT):
            raise _fault(lines, number, block, replies)
        block = 0 if reply else block or _opened(lines, number)
    replies.append(session.end())
    if replies[-1].startswith(_FAULT):
        raise _fault(lines, len(lines), block or _opened(lines, len(lines)), replies)
    return b"".join(replies)


def machine_of(replies: bytes, rdram: bytes) -> Machine:
    """The machine of a script whose last lines are ASKED, by its replies and the image that it left."""
    lines = replies.decode().splitlines()
    banks = bytes.fromhex("".join(line.partition(": ")[2] for line in lines[-579:-67]))
    registers = " ".join(line.partition(" ")[2] for line in lines[-67:])
    pc, npc, *numbers = (int(digits, 16) for digits in re.findall(r"\b[0-9a-f]+\b", registers))
    acc = numbers[ACCUMULATORS:][:8]
    parts = [value >> shift & 0xFFFF for shift in (32, 16, 0) for value in acc]
    numbers[ACCUMULATORS : ACCUMULATORS + 8] = parts
    numbers[PC:PC] = [pc, npc]
    machine = Machine(rdram)
    machine.load(DMEM, 0, banks[:4096])
    machine.load(IMEM, 0, banks[4096:])
    machine.set(State.from_buffer_copy(STATE.pack(*numbers)))
    return machine


def runs(script: str, image: bytes) -> Iterator[Tuple[int, Machine]]:
    """Carries out a script. The number of each line `run`, and the machine before it, without breakpoints."""
    session = Session(image)
    for number, line in enumerate(script.splitlines(), 1):
        if line.split()[:1] == ["run"]:
            yield number, machine_of(session.feed(ASKED), session.rdram)
        session.feed(f"{line}\n")


def _opened(lines: List[bytes], number: int) -> int:
    """The number of a line without a reply if it opens a block, otherwise 0."""
    return number if lines[number - 1].partition(b"#")[0].split()[:1] == [b"asm"] else 0


def _fault(lines: List[bytes], number: int, block: int, replies: List[bytes]) -> ScriptError:
    """The error of the last reply, to a line. A fault of a block counts from the line after `asm`."""
    words = replies[-1].decode().split()
    line = block + int(words[-1]) if words[-2] == "line" else number
    text = b"".join(lines[line - 1 : line]).decode("ascii", "backslashreplace").strip()
    return ScriptError(line, text, " ".join(words), b"".join(replies))
