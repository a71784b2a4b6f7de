"""The replies to the repository's scripts, and what the program makes of files and of its command line.

They fail if a reply, an exit status or a file that is written differs from what is stored beside the script
(lib.script_cases) or listed here.
"""

import os
import re
import subprocess
import sys
import threading
from contextlib import contextmanager, suppress
from pathlib import Path
from typing import IO, Any, Iterator, List, Mapping, NamedTuple, Optional

import pytest

from lib import TOP
from lib.processes import run
from lib.program import Result, content, run_program
from lib.script_cases import ScriptCase, all_cases, faults_in

LONGEST_IMAGE = 8388608
LONGEST_SCRIPT = 1048576
STEP, STEPPED = b"step\n", b"step Done pc 004\n"
LACKS = b"rsp: this processor lacks a feature of x86-64-v2, such as SSE4.2 or POPCNT"


@contextmanager
def packets(script: bytes, size: int) -> Iterator[IO[bytes]]:
    """A pipe of which each read gives so many bytes of a script."""
    reading, writing = os.pipe2(os.O_DIRECT)

    def feed() -> None:
        with suppress(BrokenPipeError), open(writing, "wb", buffering=0) as pipe:
            for i in range(0, len(script), size):
                pipe.write(script[i : i + size])

    threading.Thread(target=feed, daemon=True).start()
    with open(reading, "rb", buffering=0) as pipe:
        yield pipe


@pytest.mark.parametrize("script", all_cases(), ids=str)
def test_stored(script: ScriptCase, rsp: Any, folder: Path) -> None:
    """Each script is answered alike however its bytes come."""
    words = script.words(folder)

    def check(how: str, result: Result) -> None:
        assert result == script.expected, how
        is_kept = not script.is_saved or content(folder / "saved") == script.image()
        assert is_kept, f"{how}: the saved image isn't the one that was read"

    check("as a whole", rsp(*words, script=script.script))
    (folder / "script").write_bytes(script.script)
    check("from a file", rsp(*words, "script", script=STEP))
    for size in (1, 2, 3, 7):
        with packets(script.script, size) as pipe:
            check(f"{size} bytes a read", rsp(*words, stdin=pipe))


@pytest.mark.parametrize("script", all_cases(), ids=str)
def test_strict(script: ScriptCase, rsp: Any, folder: Path) -> None:
    """`--strict` changes the status and standard error, if a stored reply is a fault, and nothing else."""
    expected = script.expected
    faults = [*faults_in(script.script, expected.output)]
    assert len(faults) == (b"\n" + expected.output).count(b"\nfault ")
    if faults and not expected.status:
        expected = Result(1, expected.output, b"rsp: %s\n" % strict(len(faults), *faults[0]))
    assert rsp(*script.words(folder), "--strict", script=script.script) == expected
    assert not script.is_saved or content(folder / "saved") == script.image()


@pytest.mark.parametrize("script", all_cases(), ids=str)
def test_explained(script: ScriptCase, rsp: Any, folder: Path) -> None:
    """`--explain` names the line of each fault among the replies, at most 20, and changes nothing else."""
    words, faults = script.words(folder), [*faults_in(script.script, script.expected.output)]
    (folder / "script").write_bytes(script.script)
    by_file, by_pipe = rsp(*words, "--explain", "script"), rsp(*words, "--explain", script=script.script)
    assert by_file[:2] == by_pipe[:2] == script.expected[:2]
    for errors, head in ((by_file.errors, rb"script:"), (by_pipe.errors, rb"line ")):
        found = re.findall(rb"(?m)^%s(\d+): (fault .*)$" % head, errors)
        assert dict((int(line), reply) for line, reply in found).items() >= dict(faults[:20]).items()
        assert (b".. and %d more\n" % (len(faults) - 20) in errors) == (len(faults) > 20)
    assert not script.is_saved or content(folder / "saved") == script.image()


def test_example(program: Path) -> None:
    """A program that answers late hangs it."""
    ended = run(sys.executable, TOP / "examples/check_row.py", program, stderr=subprocess.DEVNULL)
    assert ended.stdout == "VMULF: 1600 lanes agree with the model\n"


# Files that commands name. Each is written if a command names it.
TEXT = b"loop: addiu $1, $1, 1\nbne $1, $2, loop\r\nnop\nbreak"
WORDS = bytes.fromhex("242100011422fffe000000000000000d")
FILES = {
    "image": bytes(64),
    "longest": bytes(LONGEST_IMAGE),
    "longer": bytes(LONGEST_IMAGE + 8),
    "text": TEXT,
    "jump": b"j x\nnop\nx: break",
    "listed": b"go: j x # there\r\n\tnop\n\n# nothing\nx:\n  .word 1, x\nbreak\n",
    "unknown": b"nop\nfoo: bar\n",
    "empty": b"",
    "half": bytes(6),
    "many": bytes(4100),
    "latin": b"nop # \xc3\xbc\n \xc3\xbc \xfc\n",
    "branch": bytes.fromhex("1000fffe00000000"),
    "script": b"load rdram 0x3ffffe 0102\nfoo\nunbreak 0",
    "long": b"step\n" + b"#" * (LONGEST_SCRIPT - 4),
    "-x": STEP,
    "-": STEP,
    "code": bytes.fromhex("1000fffe1000fffe002000480020000800000000"),
}
LISTING = b"""ok 5 words
080 go:
080 08000022 j x # there
084 00000000 nop
088 x:
088 00000001 .word 1, x
08c 00000088 .word 1, x
090 0000000d break
"""
CODE_LISTED = b".word 0x1000fffe\nbeq $0, $0, 0x000\n.word 0x00200048\njr $1\nnop\n"
WORDS_LISTED = b"000 1000fffe .word 0x1000fffe\n004 00000000 nop\n"
LISTED_AT_FF8 = b"ff8 1000fffe beq $0, $0, 0xff4\nffc 00000000 nop\n"
AT_80 = {"words": bytes.fromhex("08000022000000000000000d")}
SAVED = {"saved": bytes(4194302) + b"\1\2"}
ENDS = b"mem rdram 8388607 1\nmem rdram 8388608 1\n"
FAULTY = b"load rdram 0x3ffffe 0102\nfoo\nunbreak 0\n"
REFUSED_TWICE = b"ok\nfault 30 BadCommand\nfault 22 NoBreak\n"
OPEN_BLOCK, LAST_LINE = b"fault 10 BadLine line 2", b"fault 30 BadCommand"
OVER = {"image": bytes(60) + bytes([1, 2, 3, 4])}
LINES_ALONE, LINE_ALONE = b"\n" * (LONGEST_SCRIPT + 1), b"x" * (LONGEST_SCRIPT + 1)
TOO_LONG = b"step\n" + b"#" * (LONGEST_SCRIPT - 4)
NO_SCRIPT = b"rsp: fault 42 ScriptTooLong\n"
NOBODY_HEARS = b"rsp: fault 41 WriteFault\n"
MISSING = b"\n  note: there is no such file or folder"
IMAGES = b" bytes\n  expected: a multiple of 8 bytes, from 64 to 8388608"
NO_UTF8 = b" is not UTF-8"
WORDS_AT_0 = b" bytes or more\n  expected: a multiple of 4 bytes, at most 4096"


def strict(count: int, line: int, first: bytes) -> bytes:
    """The message of a strict run about so many faults among its replies, the first in this line."""
    return b"faults in replies: %d, the first in line %d: %s" % (count, line, first)


class Case(NamedTuple):
    """A command on files and a script, and what it prints and leaves."""

    words: str
    output: bytes = b""
    script: bytes = STEP
    errors: bytes = b""
    left: Mapping[str, Optional[bytes]] = {}  # None: there is no such file


def fails(words: str, errors: bytes, **more: Any) -> Case:
    """A command that fails with one line on standard error."""
    return Case(words, errors=b"rsp: " + errors + b"\n", **more)


CASES = {
    # Files, and scripts of the greatest length.
    "missing image": fails("run --rdram missing", b"cannot read missing"),
    "image is a folder": fails("run --rdram .", b"cannot read ."),
    "longest image": Case("run --rdram longest", b"7fffff: 00\nfault 6 RangeFault\n", ENDS),
    "image too long": fails("run --rdram longer", b"fault 7 SizeFault"),
    "image without end": fails("run --rdram /dev/zero", b"fault 7 SizeFault"),
    "image onto itself": Case(
        "run --rdram image --save image", b"ok\n", b"load rdram 60 01020304\n", left=OVER
    ),
    "image can't be saved": fails("run --save no/saved", b"cannot write no/saved", output=STEPPED),
    "image is saved": Case("run --save saved", b"ok\n", b"load rdram 0x3ffffe 0102\n", left=SAVED),
    "script of LF alone too long": Case("run --save saved", b"", LINES_ALONE, NO_SCRIPT, {"saved": None}),
    "script of a line too long": Case("run --save saved", b"", LINE_ALONE, NO_SCRIPT, {"saved": None}),
    "script too long": Case("run --save saved", STEPPED, TOO_LONG, NO_SCRIPT, {"saved": None}),
    "longest script": Case("run", STEPPED + b"fault 32 LineTooLong\n", TOO_LONG[:-1]),
    # Scripts in files, which are read before the image, while standard input isn't.
    "script in a file": Case("run script --save saved", REFUSED_TWICE, left=SAVED),
    "script with the name of an option": Case("run -- -x", STEPPED),
    "script with the name of a dash": Case("run -", STEPPED, script=b"foo\n"),
    "script and image": fails("run none --rdram missing", b"cannot read none"),
    "script and no image": fails("run script --rdram missing", b"cannot read missing"),
    "script is a folder": fails("run .", b"cannot read ."),
    "script without end": fails("run /dev/zero", b"fault 42 ScriptTooLong"),
    "script in a file too long": fails(
        "run long --rdram missing --save saved", b"fault 42 ScriptTooLong", left={"saved": None}
    ),
    "strict run of a file": fails(
        "run script --strict --save saved", strict(2, 2, LAST_LINE), output=REFUSED_TWICE, left=SAVED
    ),
    # Runs that end with a fault if a reply is one, after the image is saved.
    "strict run": fails(
        "run --strict --save saved", strict(2, 2, LAST_LINE), script=FAULTY, output=REFUSED_TWICE, left=SAVED
    ),
    "strict run can't save": fails(
        "run --save no/saved --strict", b"cannot write no/saved", script=FAULTY, output=REFUSED_TWICE
    ),
    "strict run of an open block": fails(
        "run --strict", strict(1, 3, OPEN_BLOCK), script=b"asm 0\nnop", output=OPEN_BLOCK + b"\n"
    ),
    "strict run of a line without LF": fails(
        "run --strict", strict(1, 2, LAST_LINE), script=STEP + b"foo", output=STEPPED + LAST_LINE + b"\n"
    ),
    # Source texts, and their files.
    "text at an address": Case("asm --at 0x80 jump words", b"ok 3 words\n", left=AT_80),
    "text at an address in tens": Case("asm jump words --at 128", b"ok 3 words\n", left=AT_80),
    "text at an address by =": Case("asm jump --at=0x00000080 words", b"ok 3 words\n", left=AT_80),
    "text past the end": fails("asm jump words --at 4092", b"fault 16 PastEnd line 2"),
    "text listed": Case("asm listed words --listing --at 0x80", LISTING),
    "text at fault isn't listed": fails("asm --listing unknown words", b"fault 11 UnknownName line 2"),
    "text without end": fails("asm /dev/zero words", b"fault 42 ScriptTooLong"),
    "missing text": fails("asm missing words", b"cannot read missing"),
    "words can't be written": fails("asm text no/words", b"cannot write no/words"),
    # Words, and their files.
    "words listed": Case("dis code", CODE_LISTED),
    "no words": Case("dis empty"),
    "half a word": fails("dis half", b"bad size"),
    "a word too many": fails("dis many", b"bad size"),
    "words at 080": Case("dis branch --at 0x80", b"beq $0, $0, 0x07c\nnop\n"),
    "words at ff8": Case("dis branch --at 4088", b"beq $0, $0, 0xff4\nnop\n"),
    "words listed with addresses": Case("dis branch --listing", WORDS_LISTED),
    "words at ff8 listed": Case("dis branch --at 0x0ff8 --listing", LISTED_AT_FF8),
    "words listed by the other name": Case("dis branch --places", WORDS_LISTED),
    "words past the end": fails("dis branch --at 4092", b"bad size"),
    "words past the end aren't listed": fails("dis branch --at 0xffc --listing", b"bad size"),
    "words without end": fails("dis /dev/zero", b"bad size"),
    "missing words": fails("dis none", b"cannot read none"),
    # Causes, in lines after that of the fault.
    "missing image, explained": fails("run --explain --rdram no", b"cannot read no" + MISSING),
    "no folder, explained": fails("asm text no/words --explain", b"cannot write no/words" + MISSING),
    "folder, explained": fails("dis . --explain", b"cannot read .\n  note: it is a folder"),
    "no name for the cause": fails("dis /proc/self/mem --explain", b"cannot read /proc/self/mem"),
    "half, explained": fails("run --rdram half --explain", b"fault 7 SizeFault\n  note: half has 6" + IMAGES),
    "too long, explained": fails("dis many --explain", b"bad size\n  note: many has 4097" + WORDS_AT_0),
    "no text, explained": fails(
        "asm latin words --explain", b"fault 33 NotText\n  note: line 2, column 4" + NO_UTF8
    ),
    # Devices that are read and written: nothing is overwritten.
    "words to the device of the text": Case("asm /dev/null /dev/null", b"ok 0 words\n"),
    "image to the device of the script": Case("run /dev/null --save /dev/null"),
    "words to a stream": Case("asm /dev/stdin /dev/stdout", b"\0\0\0\rok 1 words\n", b"break\n"),
}


def split(words: str, folder: Path) -> List[str]:
    """Splits a command into words, and writes the files that it names."""
    for name in FILES.keys() & {*words.split()}:
        (folder / name).write_bytes(FILES[name])
    return words.split()


@pytest.mark.parametrize("case", CASES.values(), ids=CASES)
def test_files(case: Case, rsp: Any, folder: Path) -> None:
    result = rsp(*split(case.words, folder), script=case.script)
    assert result == (int(case.errors != b""), case.output, case.errors)
    wrong = [name for name, expected in case.left.items() if content(folder / name) != expected]
    assert not wrong, "these aren't what they should be"


@pytest.mark.parametrize("words", ("run", "--version", "asm text words", "dis branch"))
def test_output_is_full(words: str, rsp: Any, folder: Path) -> None:
    with open("/dev/full", "wb") as full:
        assert rsp(*split(words, folder), script=STEP, stdout=full) == (1, b"", NOBODY_HEARS)
    assert content(folder / "words") == (WORDS if "asm" in words else None)


LONGEST_LABEL = b"a" * 32
LABELS = b"".join(b"%x:\n" % (0xA00000 + i) for i in range(130000))
# Source texts with the words that they become, or their fault.
SOURCES = {
    "text assembled": (TEXT, WORDS),
    "empty text": (b"", b""),
    "text at fault": (b"nop\nfoo\n", "11 UnknownName line 2"),
    "label in a later line": (b"j a\nfoo\n", "11 UnknownName line 2"),
    "text too long": (b"\xff" + b"\n" * LONGEST_SCRIPT, "42 ScriptTooLong"),
    "longest text": (b"\n" * LONGEST_SCRIPT, b""),
    "many labels": (LABELS + b".word a00000, affff", "15 LabelMissing line 130001"),
    "many labels, one twice": (LABELS + b"a00000: foo", "14 LabelTwice line 130001"),
    "many labels, each found": (LABELS + b".word a00000, a1fbcf", bytes(8)),
    "labels with names of statements": (b"nop: j end\nend: j nop", b"\x08\0\0\1\x08\0\0\0"),
    "longest label": (b"j %s\n%s:" % (LONGEST_LABEL, LONGEST_LABEL), b"\x08\0\0\1"),
    "label too long": (b"%sa: nop" % LONGEST_LABEL, "10 BadLine line 1"),
    "label too long in an operand": (b"j %sa" % LONGEST_LABEL, "12 BadOperand line 1"),
    "label after the last word": (b"nop\n" * 1023 + b".word x\nx:", bytes(4092) + b"\0\0\x10\0"),
    "jump after the last word": (b"nop\n" * 1023 + b"j x\nx:", "13 OutOfRange line 1024"),
}


@pytest.mark.parametrize("source, made", SOURCES.values(), ids=SOURCES)
def test_text(source: bytes, made: Any, rsp: Any, folder: Path) -> None:
    (folder / "source").write_bytes(source)
    result, words = rsp("asm", "source", "words"), content(folder / "words")
    if isinstance(made, bytes):
        assert (result, words) == ((0, b"ok %d words\n" % (len(made) // 4), b""), made)
    else:
        assert (result, words) == ((1, b"", f"rsp: fault {made}\n".encode()), None)


NO_COMMANDS = """
walk|asm|asm a|asm a b c|asm a b --at|asm a b --at=|asm a b --at 0 --at 0|asm a b --places
asm a b --listing --listing|asm a b --listing=yes|asm --help|dis|dis a b|dis a --places --places
run a b|run a --strict b|run -x|run --fast|run --rdram|run --rdram=|run --rdram a --rdram b
run --save a --save b|run --at 0|run --explain --explain|run --explain=yes
run --version|run --help|--help|help|help run|run --labels|run --strict --strict|run --strict=yes
asm a b --strict|dis a --strict|asm a b --labels|asm a b --explain --explain|asm a b --explain=yes
dis a --labels --labels|dis a --labels=1|dis a --explain=yes|dis a --listing --places
"""
NO_ADDRESSES = "3 4096 0xffe 0X10 x -4 +4 0x 0x000000004 00000000004 4#".split()
REFUSED: List[str] = ["", *NO_COMMANDS.strip().replace("\n", "|").split("|")]
REFUSED += [f"{verb} --at={address}" for address in NO_ADDRESSES for verb in ("asm a b", "dis a")]


@pytest.mark.parametrize(
    "line",
    [*map(str.encode, REFUSED), b"run --save \xff", b"run ''"],
    ids=lambda it: it.decode(errors="replace"),
)
def test_refused(line: bytes, rsp: Any) -> None:
    result = rsp(*[word.replace(b"''", b"") for word in line.split()], script=STEP)
    assert (result.status, result.output) == (2, b"") and result.errors
    assert result.errors.startswith(b"error: ") == (b"help" not in line)


def test_tip(rsp: Any) -> None:
    """A file in the place of a subcommand: the subcommands that take it. For another word there is none."""
    assert re.findall(rb"'rsp (\w+) a/b.s", rsp("a/b.s").errors) == [b"run", b"asm"]
    assert b"tip" not in rsp("walk").errors


KEPT = """
asm text text|asm text ./text|asm text soft|asm soft text|asm text hard|asm text hard --explain
run text --save text|run soft --save hard|run --save text|run --save soft --rdram text --strict
"""


@pytest.mark.parametrize("words", KEPT.strip().replace("\n", "|").split("|"))
def test_input_is_kept(words: str, rsp: Any, folder: Path) -> None:
    """What would overwrite the text or the script that it reads, by any name, reads and writes nothing."""
    (folder / "text").write_bytes(TEXT)
    (folder / "soft").symlink_to("text")
    os.link(folder / "text", folder / "hard")
    with open(folder / "text", "rb") as script:
        result = rsp(*words.split(), stdin=script)
        assert os.lseek(script.fileno(), 0, os.SEEK_CUR) == 0
    assert (result.status, result.output) == (2, b"")
    assert re.match(rb"error: invalid value '(\./)?\w+' for '[^']*': it would overwrite", result.errors)
    assert content(folder / "text") == TEXT and {*os.listdir(folder)} == {"text", "soft", "hard"}


@pytest.mark.needs("qemu-x86_64")
def test_older_processor(program: Path) -> None:
    """A Core 2 has no SSE4.2 and no POPCNT."""
    if program.read_bytes()[:4] != b"\x7fELF":
        pytest.skip("the program is no binary")
    if program.name.startswith("rsp_main"):
        pytest.skip("the kit links this program, with a sentence of its own")
    result = run_program("qemu-x86_64", ["-cpu", "core2duo", program, "run"], STEP)
    assert result == (127, b"", LACKS + b", without which rsp can't run\n")
