"""Sessions of the Python module beside the program, on the scripts of the repository.

They fail if the replies differ from those that are stored, or from what `rsp run` writes, if the image does,
or if a call isn't refused as its text says. A script comes whole by run_script, and cut at random into calls
of `feed`.
"""

import copy
import pickle
import random
from pathlib import Path
from typing import Callable, Dict, Iterator, Tuple, Union
from unittest import mock

import pytest

import rsp
from lib.library.module import assert_raises, assert_refused
from lib.program import content, run_program
from lib.script_cases import ScriptCase, all_cases
from rsp import RspError, Status

LONGEST = 1048576
Chance = random.Random
Pair = Union[Tuple[bytes, bytes], rsp.Ran]  # replies and image


def cut(script: bytes, chance: Chance) -> Iterator[bytes]:
    """The script in pieces, some of them empty."""
    most, at = 5000 if len(script) > 5000 else chance.choice((1, 7, 100)), 0
    while at < len(script):
        length = chance.randrange(most + 1)
        yield script[at : at + length]
        at += length


def in_pieces(script: bytes, image: bytes, chance: Chance) -> Tuple[bytes, bytes]:
    """The replies and the image of a session whose script comes in pieces."""
    with rsp.Session(image) as session:
        replies = b"".join(session.feed(it) for it in cut(script, chance))
        return replies + session.end(), session.rdram


def by_program(program: Path, script: bytes, image: bytes, folder: Path) -> Tuple[bytes, bytes]:
    """The output of `rsp run`, and the image that it saves."""
    given, saved = folder / "image", folder / "saved"
    given.write_bytes(image)
    result = run_program(program, ["run", "--rdram", given, "--save", saved], script)
    return result.output, content(saved) or b""


def assert_equal(name: str, result: Pair, expected: Pair) -> None:
    """Asserts that replies and image are the expected ones; an image is too long to be shown."""
    assert result[0] == expected[0], name
    is_equal = result[1] == expected[1]
    assert is_equal, f"{name}: the image differs"


@pytest.mark.parametrize("script", all_cases(), ids=str)
def test_stored(script: ScriptCase, program: Path, folder: Path) -> None:
    """The replies that are stored, and the image that the program leaves."""
    given, (status, expected, _) = script.image(), script.expected
    if status:
        assert_refused(Status.OUT_OF_RANGE, rsp.run_script, script.script, given)
        return
    image = bytes(1 << 22) if given is None else given
    result = rsp.run_script(script.script, given)
    assert result[0] == expected
    assert_equal("in pieces", in_pieces(script.script, image, Chance(str(script))), result)
    assert_equal("by the program", by_program(program, script.script, image, folder), result)


def test_feed() -> None:
    session = rsp.Session(bytes(64))
    assert (session.rdram, len(rsp.Session().rdram)) == (bytes(64), 1 << 22)
    pieces = [session.feed("st"), session.feed(b"ep\nstep # 2"), session.feed(bytearray(b"")), session.end()]
    assert pieces == [b"", b"step Done pc 004\n", b"", b"step Done pc 008\n"]
    for call in (session.end, lambda: session.feed(b"step\n")):
        assert_raises(RspError, "the script has ended", call)
    assert rsp.run_script("", bytes(8) * 9) == (b"", bytes(72)), "a script without bytes"
    replies = rsp.Session(bytes(64)).iter_feed("step\n#\nasm 0\nnop\nend\nste")
    assert [*replies] == [b"step Done pc 004\n", b"", b"", b"", b"ok 1 words\n"], "one by one"


def test_image_is_copied_when_it_is_asked_for() -> None:
    with mock.patch.object(rsp.Session, "rdram", property(lambda it: pytest.fail("it is copied"))):
        ran = rsp.run_script("load rdram 0 0102\n", bytes(64))
        assert (ran.replies, ran[0], ran[-2], len(ran)) == (b"ok\n", b"ok\n", b"ok\n", 2)
        assert repr(ran) == "<rsp.Ran: 3 bytes of replies>"
    replies, image = ran
    assert (replies, image) == ran == (b"ok\n", b"\1\2" + bytes(62))
    assert (ran.image, ran[1], ran[-1]) == (image,) * 3 and ran != (b"ok\n", bytes(64)) and ran != 3
    assert_raises(IndexError, "", ran.__getitem__, 2)
    assert pickle.loads(pickle.dumps(ran)) == ran


def test_long_replies() -> None:
    """More replies than a session has room for, in one call."""
    reply = "".join(f"{at:06x}: {bytes(16).hex()}\n" for at in range(0, 256, 16))
    replies, _ = rsp.run_script("mem rdram 0 256\n" * 300, bytes(256))
    assert replies.decode() == reply * 300


# Scripts, and the line, its text, the fault and the reply at which a strict run ends.
STRICT: Dict[str, Tuple[int, str, int, str]] = {
    "step\nbrek 0\nback 9\n": (2, "brek 0", 30, "fault 30 BadCommand"),
    "step\nback 9": (2, "back 9", 27, "fault 27 ShortHistory"),
    "step\n\tasm 0 # a block\nnop\n x: foo $1\r\nend\n": (4, "x: foo $1", 11, "fault 11 UnknownName line 2"),
    "asm 0\nasm 4\nend\n": (2, "asm 4", 11, "fault 11 UnknownName line 1"),
    "asm 0\nnop\nend\nasm 8\nj x\nend": (5, "j x", 15, "fault 15 LabelMissing line 1"),
    "step\nasm 0\nnop\n": (4, "", 10, "fault 10 BadLine line 2"),
    "asm 0": (2, "", 10, "fault 10 BadLine line 1"),
    "asm 2\n": (1, "asm 2", 31, "fault 31 BadNumber"),
    "#\n\xff\n": (2, "\\xc3\\xbf", 33, "fault 33 NotText"),
}


@pytest.mark.parametrize("script", STRICT, ids=repr)
def test_strict(script: str) -> None:
    line, text, fault, reply = STRICT[script]
    with pytest.raises(rsp.ScriptError) as caught:
        rsp.run_script(script, bytes(64), strict=True)
    error = caught.value
    assert (error.line, error.text, error.fault, error.reply) == STRICT[script]
    assert str(error) == f"line {line}: {reply}" + (f": {text}" if text else "")
    copy = pickle.loads(pickle.dumps(error))
    assert (str(copy), copy.replies) == (str(error), error.replies)
    assert rsp.run_script(script, bytes(64)).replies.startswith(error.replies)
    assert error.replies.endswith(f"{reply}\n".encode())


def test_strict_without_a_fault() -> None:
    assert rsp.run_script("step\n", bytes(64), strict=True) == (b"step Done pc 004\n", bytes(64))


def test_strict_line_of_a_stranger() -> None:
    """The message has nothing that a terminal would obey; `text` is the line as it is."""
    with pytest.raises(rsp.ScriptError) as caught:
        rsp.run_script("foo\t\x1b]0;title\x07\n", bytes(64), strict=True)
    assert str(caught.value) == "line 1: fault 33 NotText: foo\t\\x1b]0;title\\x07"
    assert caught.value.text == "foo\t\x1b]0;title\x07"


def test_refused_calls() -> None:
    session = rsp.Session(bytes(64))
    assert_raises(TypeError, "Session: image is of type str", rsp.Session, "image")
    assert_raises(TypeError, "feed: script is of type int", session.feed, 3)
    assert_raises(TypeError, "run_script: script is of type int", rsp.run_script, 3, bytes(64), True)
    session.close()
    for gone in (session.end, lambda: session.feed("step\n"), lambda: session.rdram):
        assert_raises(RspError, "the session is closed", gone)
    copies: Tuple[Callable[..., object], ...] = (copy.copy, copy.deepcopy, pickle.dumps)
    for copied in copies:
        assert_raises(TypeError, "a session can't be copied or pickled", copied, rsp.Session(bytes(64)))


def test_longest_script() -> None:
    """The byte after the last one that a script may have."""
    script = b"step\n" + b"#" * (LONGEST - 5)
    assert rsp.run_script(script, bytes(64))[0] == b"step Done pc 004\nfault 32 LineTooLong\n"
    assert_refused(Status.TOO_LONG, rsp.run_script, script + b"#", bytes(64))
    session = rsp.Session(bytes(64))
    replies = session.iter_feed(script + b"#")
    assert next(replies) == b"step Done pc 004\n", "the replies before it"
    assert_refused(Status.TOO_LONG, next, replies)
    for call in (session.end, lambda: session.feed("")):
        assert_raises(RspError, "the script has more than 1048576 bytes", call)
    assert session.rdram == bytes(64)
