"""Hostile scripts, texts, files and streams.

Random code is run, disassembled and assembled back; a script that breaks off at a byte is answered as far as
it goes; bytes, images and names of files are refused as SCRIPT and FAULTS say; closed streams and files
without end get their faults.
"""

import os
import random
import re
import select
import subprocess
import threading
from contextlib import suppress
from pathlib import Path
from typing import Any, Dict, Iterator, List, Optional

import pytest

from lib.program import content
from lib.script_cases import SCRIPTS, ScriptCase

STOP = re.compile(rb"stop (Reserved|Halted|Limit) steps (\d+) pc [0-9a-f]{3}")
TOO_LONG = b"rsp: fault 42 ScriptTooLong\n"


def random_images(seed: int, count: int) -> Iterator[bytes]:
    """Random contents of IMEM: half of any words, half of words whose opcodes the machine knows."""
    numbers = random.Random(seed)
    opcodes = [0, 1, 2, 3, 4, 5, 8, 13, 15, 16, 18, 18, 18, 32, 35, 40, 43, 50, 58]
    for number in range(count):
        words = [numbers.getrandbits(32) for _ in range(1024)]
        if number % 2:
            words = [numbers.choice(opcodes) << 26 | word & 0x3FFFFFF for word in words]
        yield b"".join(word.to_bytes(4, "big") for word in words)


@pytest.mark.parametrize("seed", range(4))
def test_random_code_is_run(seed: int, rsp: Any) -> None:
    """64 images, each for 10,000 steps. A line has room for some 120 bytes."""
    lines: List[str] = []
    for image in random_images(seed, 64):
        lines += [f"load imem {at} {image[at : at + 64].hex()}" for at in range(0, len(image), 64)]
        lines += ["pc 0", "write 4 1", "run 10000"]
    result = rsp("run", script="\n".join([*lines, ""]).encode())
    assert (result.status, result.errors) == (0, b"")
    stops = [STOP.fullmatch(line) for line in result.output.splitlines() if line.startswith(b"stop")]
    assert len(stops) == 64 and all(stop and int(stop[2]) <= 10000 for stop in stops)


@pytest.mark.parametrize("seed", range(4))
def test_random_words_come_back(seed: int, rsp: Any, folder: Path) -> None:
    for image in random_images(seed, 64):
        (folder / "image").write_bytes(image)
        listing = rsp("dis", "image")
        assert (listing.status, listing.errors) == (0, b"")
        (folder / "source").write_bytes(listing.output)
        assert rsp("asm", "source", "words") == (0, b"ok 1024 words\n", b"")
        assert content(folder / "words") == image


# The replies to last lines that break off inside a number and are commands all the same: by the script, the
# index of the line and its text. They were worked out by hand.
SHORTER_NUMBERS = {
    ("blocks/block", 6, b"mem imem 0 1"): b"000000: 24\n",
    ("runs/watch", 2, b"run 1"): b"stop Limit steps 1 pc 004\n",
    ("runs/watch", 2, b"run 10"): b"stop Watch 0 steps 2 pc 008\n",
    ("runs/watch", 3, b"run 1"): b"stop Limit steps 1 pc 00c\n",
    ("runs/watch", 3, b"run 10"): b"stop Halted steps 2 pc 010\n",
    ("registers/task-run", 3, b"task 0"): b"ok\n",
    ("registers/task-run", 3, b"task 0x"): b"fault 31 BadNumber\n",
    ("registers/task-run", 3, b"task 0x4"): b"fault 4 TaskPlace\n",
    ("registers/task-run", 5, b"run 1"): b"stop Limit steps 1 pc 004\n",
}


def cut_reply(name: str, place: int, cut: bytes, line: bytes) -> bytes:
    """The reply to the first bytes of a line outside of a block.

    It is BadCommand until all words have begun, and then, for the bytes at the end of a load, BadNumber at an
    odd number of digits. Other last words are in SHORTER_NUMBERS.
    """
    if not cut or (name, place, cut) in SHORTER_NUMBERS:
        return SHORTER_NUMBERS.get((name, place, cut), b"")
    if len(cut.split()) < len(line.split()):
        return b"fault 30 BadCommand\n"
    assert cut.startswith(b"load"), cut
    return b"fault 31 BadNumber\n" if len(cut.split()[-1]) % 2 else b"ok\n"


def prefix_replies(name: str, script: bytes, replies: bytes, length: int) -> bytes:
    """The replies to the first bytes of a script.

    Each of its lines outside of a block, except `asm`, has one stored reply, and so has the `end` of a block.
    Whole lines, the last one with or without LF, keep their replies. A block that is open at the end, with K
    lines, gets `fault 10 BadLine line K+1`; a cut line is one of them.
    """
    lines = script.split(b"\n")
    *whole, cut = script[:length].split(b"\n")
    if cut and cut == lines[len(whole)]:
        whole, cut = [*whole, cut], b""
    answered = 0
    block: Optional[int] = None
    for line in whole:
        if line.startswith(b"asm"):
            block = 0
        elif block is not None and line != b"end":
            block += 1
        else:
            answered, block = answered + 1, None
    whole_replies = b"".join(replies.splitlines(keepends=True)[:answered])
    if block is not None:
        return whole_replies + b"fault 10 BadLine line %d\n" % (block + bool(cut) + 1)
    return whole_replies + cut_reply(name, len(whole), cut, lines[len(whole)] if cut else b"")


@pytest.mark.parametrize("name", ("blocks/block", "runs/watch", "registers/task-run"))
def test_prefixes(name: str, rsp: Any, folder: Path) -> None:
    """Each prefix of a script gives exactly its replies, which follow from the stored ones."""
    stored = ScriptCase(SCRIPTS / f"{name}.script")
    words, script, replies = stored.words(folder), stored.script, stored.expected.output
    for length in range(len(script) + 1):
        result = rsp(*words, script=script[:length])
        assert result == (0, prefix_replies(name, script, replies, length), b""), f"the first {length} bytes"


# Bytes and encodings.

DONE, NOT_TEXT = b"step Done pc 004\n", b"fault 33 NotText\n"
SCRIPTS_OF_BYTES = {
    "a byte-order mark": (b"\xef\xbb\xbfstep\nstep\n", NOT_TEXT + DONE),
    "UTF-16": ("step\n".encode("utf-16-le"), 2 * NOT_TEXT),
    "half a character": (b"step # \xc3\nstep\n", NOT_TEXT + DONE),
    "a zero after the last line": (b"step\n\0", DONE + NOT_TEXT),
    "a line of 256 zeros": (bytes(256), NOT_TEXT),
    "a line of 257 zeros": (bytes(257), b"fault 32 LineTooLong\n"),
    "CR in the place of LF": (b"step\rstep\r", NOT_TEXT),
    "LF before CR": (b"step\n\rstep\n\r", DONE + 2 * NOT_TEXT),
    "a block in UTF-16": (b"asm 0\n" + "nop\n".encode("utf-16-le"), b"fault 10 BadLine line 3\n"),
}


@pytest.mark.parametrize("script, replies", SCRIPTS_OF_BYTES.values(), ids=SCRIPTS_OF_BYTES)
def test_bytes_of_a_script(script: bytes, replies: bytes, rsp: Any) -> None:
    assert rsp("run", script=script) == (0, replies, b"")


def test_each_byte(rsp: Any) -> None:
    """In a comment and in a block a tab and 20 to 7e are text, and a CR before LF is dropped."""
    others = [byte for byte in range(256) if byte != 0x0A]
    script = b"".join(b"#%c\nasm 0\n#%c\nend\n" % (byte, byte) for byte in others)
    refused = NOT_TEXT + b"fault 10 BadLine line 1\n"
    are_text = (byte in (0x09, 0x0D) or 0x20 <= byte <= 0x7E for byte in others)
    replies = [b"ok 0 words\n" if is_text else refused for is_text in are_text]
    assert rsp("run", script=script) == (0, b"".join(replies), b"")


BAD_LINE, NO_UTF_8 = b"10 BadLine line 2", b"33 NotText"
# Bytes in a text of `rsp asm`, and the fault.
TEXTS_OF_BYTES = {
    **{it: BAD_LINE for it in (b"\0", b"\x0b", b"\x0c", b"\x1b[31m", b"\x7f", b"\r\r", b"\xc2\x80")},
    **{it.encode(): BAD_LINE for it in ("\u202e", "\ufeff", "\U0010ffff")},
    **{it: NO_UTF_8 for it in (b"\x80", b"\xc3", b"\xc0\x80", b"\xed\xa0\x80", b"\xf4\x90\x80\x80", b"\xff")},
}


@pytest.mark.parametrize("text", TEXTS_OF_BYTES, ids=bytes.hex)
def test_bytes_of_a_text(text: bytes, rsp: Any, folder: Path) -> None:
    (folder / "source").write_bytes(b"nop\nnop # " + text + b"\nfoo\n")
    assert rsp("asm", "source", "words") == (1, b"", b"rsp: fault " + TEXTS_OF_BYTES[text] + b"\n")
    assert content(folder / "words") is None


# Files that aren't, and streams.


@pytest.mark.parametrize("length", (0, 8, 56, 63, 65, 8388607))
def test_image_of_a_wrong_size(length: int, rsp: Any, folder: Path) -> None:
    (folder / "image").write_bytes(bytes(length))
    result = rsp("run", "--rdram", "image", "--save", "saved", script=b"step\n")
    assert result == (1, b"", b"rsp: fault 7 SizeFault\n") and content(folder / "saved") is None


LONG, DEEP = "n" * 256, "n/" * 2100 + "n"  # longer than a name and a path may be
# Commands with a name that no file can have, or that is an option's, and the names. `source` is a file.
READS, WRITES = "run --rdram {}|dis {}|asm {} words", "run --save {}|asm source {}"
NO_FILES = {
    READS: ("-", ".", "..", "source/", "source/x", LONG, DEEP),
    WRITES: (".", "..", "source/", "source/x", "new/", LONG, DEEP),
    "run --rdram={}|dis -- {}|asm -- {} words": ("-x", "--", "--at"),
}


@pytest.mark.parametrize(
    "line, name",
    [(line, it) for lines, names in NO_FILES.items() for line in lines.split("|") for it in names],
    ids=lambda it: it[:20],
)
def test_name_of_no_file(line: str, name: str, rsp: Any, folder: Path) -> None:
    (folder / "source").write_bytes(b"nop\n")
    result = rsp(*(word.format(name) for word in line.split()))
    verb = "write" if line in WRITES else "read"
    assert result == (1, b"", f"rsp: cannot {verb} {name}\n".encode())
    assert [*os.listdir(folder)] == ["source"] and content(folder / "source") == b"nop\n"


# Commands that read a pipe of 64 bytes, and what they print.
OF_A_PIPE = {
    "run --rdram pipe": b"00003c: 6e6f700a\nfault 6 RangeFault\n",
    "asm pipe words": b"ok 16 words\n",
    "dis pipe": b".word 0x6e6f700a\n" * 16,
}


@pytest.mark.parametrize("words", OF_A_PIPE)
def test_named_pipe(words: str, rsp: Any, folder: Path) -> None:
    pipe = folder / "pipe"
    os.mkfifo(pipe)
    sender = threading.Thread(target=lambda: pipe.write_bytes(b"nop\n" * 16), daemon=True)
    sender.start()
    result = rsp(*words.split(), script=b"mem rdram 60 4\nmem rdram 64 1\n")
    sender.join(20)
    assert result == (0, OF_A_PIPE[words], b"")


# Which stream is closed, the command, and how it ends.
CLOSED = {
    "input": (0, "run --rdram image --save image", (1, b"", b"rsp: fault 40 ReadFault\n")),
    "output": (1, "run --rdram image --save image", (1, b"", b"rsp: fault 41 WriteFault\n")),
    "output of asm": (1, "asm source words", (1, b"", b"rsp: fault 41 WriteFault\n")),
    "output of dis": (1, "dis image", (1, b"", b"rsp: fault 41 WriteFault\n")),
    "errors of a fault": (2, "dis missing", (1, b"", b"")),
    "errors": (2, "run --rdram image --save image", (0, b"step Done pc 004\n", b"")),
}


@pytest.mark.parametrize("stream, words, expected", CLOSED.values(), ids=CLOSED)
def test_closed_stream(stream: int, words: str, expected: Any, rsp: Any, folder: Path) -> None:
    """No file that is opened takes the closed stream's number, so that none gets replies or messages."""
    (folder / "image").write_bytes(bytes(range(64)))
    (folder / "source").write_bytes(b"nop\n")
    assert rsp(*words.split(), script=b"step\n", preexec_fn=lambda: os.close(stream)) == expected
    assert content(folder / "image") == bytes(range(64)) and content(folder / "source") == b"nop\n"
    assert content(folder / "words") == (bytes(4) if "asm" in words else None)


PIPES: Dict[str, Any] = {"stdin": subprocess.PIPE, "stdout": subprocess.PIPE, "stderr": subprocess.PIPE}


@pytest.mark.timeout(50)
def test_pipe_that_stays_open(program: Path) -> None:
    """A line is answered at once."""
    with subprocess.Popen([program, "run"], **PIPES) as process:
        assert process.stdin and process.stdout
        process.stdin.write(b"step\n")
        process.stdin.flush()
        is_answered = select.select([process.stdout], [], [], 20)[0]
        process.stdin.close()
        assert is_answered and process.stdout.readline() == b"step Done pc 004\n"
        assert process.wait(20) == 0


@pytest.mark.timeout(50)
def test_output_is_closed_early(program: Path) -> None:
    with subprocess.Popen([program, "run"], **PIPES) as process:
        assert process.stdin and process.stdout and process.stderr
        process.stdout.close()
        with suppress(BrokenPipeError):
            process.stdin.write(b"vregs\n" * 1000)
            process.stdin.close()
        assert (process.stderr.read(), process.wait(20)) == (b"rsp: fault 41 WriteFault\n", 1)


# Characters that a terminal would obey, or that would begin another line, and how a message shows them.
CONTROLS = {
    "\x1b[31m": "\\x1b[31m",
    "a\nb\tc\r": "a\\x0ab\\x09c\\x0d",
    "\x7f\x9b": "\\x7f\\x9b",
    "\xa0\u00fc\\": "\xa0\u00fc\\",
}
# Commands with such a name, and their first line on standard error.
NAMED = {
    "run --rdram {}": "rsp: cannot read {}",
    "run --save no/{}": "rsp: cannot write no/{}",
    "asm {} words": "rsp: cannot read {}",
    "asm source no/{}": "rsp: cannot write no/{}",
    "dis {}": "rsp: cannot read {}",
    "dis source --at {}": "error: invalid value '{}' for '--at <ADDR>': not a multiple of 4 from 0 to 4092",
    "{}": "error: unrecognized subcommand '{}'",
    "run {}": "rsp: cannot read {}",
    "run source {}": "error: unexpected argument '{}' found",
    "run --{}": "error: unexpected argument '--{}' found",
    "run --strict={}": "error: unexpected value '{}' for '--strict' found; no more were expected",
}


@pytest.mark.parametrize("name", CONTROLS, ids=ascii)
@pytest.mark.parametrize("line", NAMED)
def test_control_characters(line: str, name: str, rsp: Any, folder: Path) -> None:
    (folder / "source").write_bytes(b"nop\n")
    result = rsp(*(word.format(name) for word in line.split()))
    errors = result.errors.decode()
    assert errors.partition("\n")[0] == NAMED[line].format(CONTROLS[name])
    assert (result.status, errors.count("\n") == 1) == (
        (1, True) if errors.startswith("rsp: ") else (2, False)
    )
    assert not re.search(r"[\x00-\x09\x0b-\x1f\x7f-\x9f]", errors)


def test_script_that_never_ends(rsp: Any) -> None:
    with open("/dev/zero", "rb") as endless:
        assert rsp("run", stdin=endless) == (1, b"", TOO_LONG)
