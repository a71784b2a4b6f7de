"""What `rsp run`, `rsp asm` and `rsp dis` write, by the definitions: the same bytes, files and statuses."""

import os
import sys
import tempfile
from typing import Any, Optional

from . import kit
from .arrays import Array
from .compiler import Compiler

SESSION = "Rattle.rsp_bench.specs.Session"
SESSION_NAMES = ("first_session", "line_answer", "end_reply")
FEEDS = "Rattle.rsp_script_io.specs.Feeds"
SYNTAX = "Rattle.rsp_syntax.specs"
IMAGE_BYTES = 4194304


class Fault(Exception):
    """A fault that `rsp` names on standard error before it ends with status 1."""


def read_file(path: str) -> bytes:
    """The bytes of a file."""
    try:
        with open(path, "rb") as file:
            return file.read()
    except (OSError, ValueError):
        raise Fault(f"cannot read {path}") from None


def read_input(limit: int) -> bytes:
    """So many bytes of standard input."""
    try:
        return sys.stdin.buffer.read(limit)
    except (OSError, AttributeError):  # it is None if it was closed before
        raise Fault("fault 40 ReadFault") from None


def write_output(data: bytes) -> None:
    """Writes to standard output at once."""
    if not data:
        return
    try:
        sys.stdout.buffer.write(data)
        sys.stdout.buffer.flush()
    except (OSError, AttributeError):
        # What is still in the buffer would be written again at the end.
        sys.stdout = None  # type: ignore[assignment]
        raise Fault("fault 41 WriteFault") from None


def write_file(path: str, data: bytes) -> None:
    """Replaces a file as a whole, or writes into what isn't a regular file."""
    real = os.path.realpath(path)
    try:
        if os.path.exists(real) and not os.path.isfile(real) or path.endswith("/"):
            with open(path, "wb") as file:
                file.write(data)
            return
        number, name = tempfile.mkstemp(dir=os.path.dirname(real))
        try:
            with open(number, "wb") as file:
                file.write(data)
            os.chmod(
                name, os.stat(real).st_mode & 0o7777 if os.path.exists(real) else 0o666 & ~current_umask()
            )
            os.replace(name, real)
        except OSError:
            os.unlink(name)
            raise
    except (OSError, ValueError):
        raise Fault(f"cannot write {path}") from None


def current_umask() -> int:
    """The bits that new files don't get."""
    mask = os.umask(0o077)
    os.umask(mask)
    return mask


class Session:
    """A session of a script: its lines are answered one after another."""

    def __init__(self, compiler: Compiler, image: bytes) -> None:
        first_session, self.line_answer, self.end_reply = (
            compiler.get(SESSION, name) for name in SESSION_NAMES
        )
        self.session = first_session(Array(bytearray(image)))
        self.lines = 0

    def answer(self, line: Any) -> bytes:
        """The reply to a line."""
        answer = self.line_answer(line, self.session)
        self.session = answer.next
        self.lines += 1
        return bytes(answer.reply)

    def end(self) -> bytes:
        """What is written at the end of a script."""
        return bytes(self.end_reply(self.session))

    def rdram(self) -> bytes:
        """The contents of RDRAM."""
        return bytes(self.session.debugging.state.rdram)


class Programs:
    """The three commands."""

    def __init__(self, compiler: Compiler) -> None:
        self.compiler = compiler
        self.limit: int = compiler.get(FEEDS, "script_limit")()
        self.session: Optional[Session] = None

    def run(self, path: Optional[str], rdram: Optional[str], save: Optional[str]) -> int:
        """Answers a script. A script on standard input that is too long is answered up to the limit."""
        script = b"" if path is None else read_file(path)
        if len(script) > self.limit:
            raise Fault("fault 42 ScriptTooLong")
        image = bytes(IMAGE_BYTES) if rdram is None else read_file(rdram)
        if len(image) % 8 or not 64 <= len(image) <= 8388608:
            raise Fault("fault 7 SizeFault")
        script = script if path is not None else read_input(self.limit + 1)
        is_long = len(script) > self.limit
        session = self.session = Session(self.compiler, image)
        if is_long:
            script = script[: script.rfind(b"\n", 0, self.limit) + 1]
        for line in kit.lines(tuple(script)):
            write_output(session.answer(line))
        if is_long:
            raise Fault("fault 42 ScriptTooLong")
        write_output(session.end())
        if save is not None:
            write_file(save, session.rdram())
        return 0

    def asm(self, source: str, out: str) -> int:
        """Assembles a text into a file of words."""
        text = read_file(source)
        if len(text) > self.limit:
            raise Fault("fault 42 ScriptTooLong")
        try:
            text.decode()
        except UnicodeDecodeError:
            raise Fault("fault 33 NotText") from None
        meaning = self.compiler.get(f"{SYNTAX}.SourceText", "meaning_of_text")(tuple(text), 0)
        if isinstance(meaning, kit.Err):
            name = self.compiler.get(f"{SYNTAX}.Faults", "kind_name")(meaning._0.kind)
            raise Fault(f"fault {bytes(name).decode()} line {meaning._0.line}")
        write_file(out, bytes(self.compiler.get("Rattle.rsp_memory.specs.Words", "words_bytes")(meaning._0)))
        write_output(b"ok %d words\n" % len(meaning._0))
        return 0

    def dis(self, path: str) -> int:
        """Lists the words of a file."""
        data = read_file(path)
        if len(data) % 4 or len(data) > 4096:
            raise Fault("bad size")
        words = tuple(int.from_bytes(data[at : at + 4], "big") for at in range(0, len(data), 4))
        listing = self.compiler.get(f"{SYNTAX}.Disassembly", "listing")(0, words)
        write_output(b"".join(bytes(line) + b"\n" for line in listing))
        return 0

    def progress(self) -> str:
        """How far a run has come."""
        names = ("f_rsp_machine_2e_Laws__steps_of", "f_rsp_debug_2e_Debugging__after_steps")
        made = sum(self.compiler.space[name].computed for name in names if name in self.compiler.space)
        return f"{self.session.lines} lines are answered, {made} states are computed" if self.session else ""
