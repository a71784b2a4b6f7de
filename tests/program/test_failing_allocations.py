"""Each allocation and growth of the program, and of the crates' tests, fails in turn, and the stack is small.

They fail if an answer isn't the right one, or if the answers don't come in the order of the work.

The program, or a test of the files out_of_memory.rt in rsp_tests_script, rsp_tests_machine and rsp_tests_cli,
is run again and again: the first time its first allocation fails, the next time its second, and so on, until
a run has no more of them. LD_PRELOAD puts the failing allocator before the C library's. The crates' tests
(`-k crates`) are those that `rt ci`, or `rt test` in a crate, has built.
"""

import re
import resource
import tempfile
from pathlib import Path
from typing import Iterator, Optional, Sequence

import pytest

from lib import TOP, failing
from lib.pages import page
from lib.program import Result, need_binary, run_program
from lib.script_cases import SCRIPTS, ScriptCase

pytestmark = pytest.mark.needs("cc")

CODE = bytes.fromhex("242100011422fffe000000000000000d")
TEXT = b"loop: addiu $1, $1, 1\nbne $1, $2, loop\nnop\nbreak\n"
BLOCK = b"step\nasm 0\n" + TEXT + b"end\nmem imem 0 16\n"
BLOCK_REPLIES = b"step Done pc 004\nok 4 words\n000000: 242100011422fffe000000000000000d\n"
LISTING = b"addiu $1, $1, 1\nbne $1, $2, 0x000\nnop\nbreak\n"
TASK = ScriptCase(SCRIPTS / "registers/task-run.script")

# The answers while the program reads its command line and its files. One allocation there only saves later
# ones (for the list of arguments).
READING = r"(17 after 0;)+whole;(17 after 0;)+"

# The answers of a session that is made and asked line by line.
SESSION = (
    r";(no session;)+(no memory for loop: [^;]*;)+(no memory for bne [^;]*;)*(no memory for nop [^;]*;)*"
    r"(no memory for break;)*(no memory for end;)+"
)

# What the tests of each crate print if an allocation fails, in the order of the work. An allocation of the
# test's own prints nothing. Tests that do their work twice print it for each time.
ANSWERS = {
    "rsp_tests_script": {
        "a_text_is_assembled_when_memory_is_there": (
            r"((no memory at line 2;)+(no memory at line ([1-4][02468]|[468]);)+){2}"
        ),
        "a_text_is_explained_when_memory_is_there": r"(no memory for a label;)+",
        "labels_are_listed_when_memory_is_there": r"((no memory for a label;)+(no memory for the list;)+){2}",
        "labels_are_added_when_memory_is_there": (
            r"(no memory for a label at 0;)+(no memory for a label at 12;)*"
        ),
        "a_block_is_assembled_when_memory_is_there": (
            r"(no memory for loop: [^;]*;)+(no memory for nop;)*(no memory for end: [^;]*;)*"
            r"((no memory at line 1;)+(no memory at line 3;)*){2}"
        ),
        "a_session_goes_on_when_memory_is_there": SESSION,
        "a_line_is_answered_when_memory_is_there": SESSION,
        # The end of input ends a block without labels, which takes no memory.
        "a_bench_goes_on_when_memory_is_there": r";(no session;)+(no memory for a piece;)+",
        "a_script_in_pieces_is_answered_when_memory_is_there": r"(;(no memory for the script;)+){2}",
        "a_script_is_answered_when_memory_is_there": (
            r"(;(no session;)+(no sink;)+(no memory after 17 bytes;)+){2}"
        ),
        "a_run_is_whole_when_memory_is_there": (
            r"(no sink;;(no memory after 0 bytes;)+(no memory after 17 bytes;)+){2}"
        ),
    },
    "rsp_tests_machine": {
        "a_listing_is_assembled_when_memory_is_there": r"(no memory for a listing;)+",
        "a_machine_comes_back_when_there_is_no_memory": "".join(
            rf";(no debugger of depth {n};)+" for n in (0, 1, 256, 4096)
        ),
    },
    "rsp_tests_cli": {
        "work_is_done_when_memory_is_there": (
            r";+((17 after 0;|;)+(43 after 0;)+(43 after 17;)+){2};+(17 after 0;|;)+"
        ),
        "arguments_are_read_when_memory_is_there": r";+(no memory for arguments;|;)+",
        "a_file_is_read_when_memory_is_there": r"(no memory for a file;)+",
    },
}


@pytest.fixture
def binary(program: Path) -> Path:
    need_binary(program)
    return program


@pytest.fixture(scope="module")
def calls() -> Iterator[Path]:
    """The failing allocator."""
    with tempfile.TemporaryDirectory() as folder:
        yield failing.library(Path(folder), "allocations")


def answers_of(
    calls: Path, words: Sequence[object], script: bytes, output: bytes, written: Optional[Path] = None
) -> str:
    """The program's answers as its allocations fail. `written` is a file that only a whole run writes."""
    answers = ""
    for is_failed, ended in failing.runs(calls, words, script):
        result = Result(ended.returncode, ended.stdout, ended.stderr)
        is_whole = result == (0, output, b"")
        if not is_whole:
            fault = re.fullmatch(rb"rsp: fault (17|43) OutOfMemory\n", result.errors)
            assert is_failed and fault and result.status == 1 and output.startswith(result.output)
            answers += f"{fault[1].decode()} after {len(result.output)};"
        elif is_failed:
            answers += "whole;"
        if written:
            assert written.exists() == is_whole, f"after `{answers}`"
            written.unlink(missing_ok=True)
    return answers


@pytest.mark.parametrize(
    "script, output, first",
    ((BLOCK, BLOCK_REPLIES, "(43 after 17;)+"), (TASK.script, TASK.expected.output, "")),
    ids=("a block", "a task"),
)
def test_run(script: bytes, output: bytes, first: str, binary: Path, calls: Path, folder: Path) -> None:
    image, saved = folder / "image", folder / "saved"
    image.write_bytes(bytes(128))
    words = [binary, "run", "--rdram", image, "--save", saved]
    answers = answers_of(calls, words, script, output, saved)
    assert re.fullmatch(rf"{READING}(43 after 0;)+{first}(17 after {len(output)};)+", answers)


def test_asm(binary: Path, calls: Path, folder: Path) -> None:
    (folder / "text").write_bytes(TEXT)
    made = folder / "made"
    answers = answers_of(calls, [binary, "asm", folder / "text", made], b"", b"ok 4 words\n", made)
    assert re.fullmatch(READING, answers)


def test_dis(binary: Path, calls: Path, folder: Path) -> None:
    (folder / "words").write_bytes(CODE)
    assert re.fullmatch(READING, answers_of(calls, [binary, "dis", folder / "words"], b"", LISTING))


@pytest.mark.parametrize(
    "words, script, output",
    (
        ("run --save {}", BLOCK, BLOCK_REPLIES),
        ("asm {0} {0}.words", b"", b"ok 4 words\n"),
        ("dis {}", b"", LISTING),
    ),
)
def test_small_stack(words: str, script: bytes, output: bytes, binary: Path, folder: Path) -> None:
    """The size that SECURITY.md says is enough."""
    size = 1024 * int(re.findall(r"`rsp` needs (\d+) KiB", page("SECURITY.md"))[0])
    (folder / "file").write_bytes(TEXT if "asm" in words else CODE)
    arguments = [word.format(folder / "file") for word in words.split()]
    limit = {"preexec_fn": lambda: resource.setrlimit(resource.RLIMIT_STACK, (size, size))}
    assert run_program(binary, arguments, script, **limit) == (0, output, b"")


@pytest.mark.parametrize(
    "crate, name",
    [(crate, name) for crate, named in ANSWERS.items() for name in named],
    ids=str,
)
def test_crates(crate: str, name: str, calls: Path) -> None:
    tests, answers = TOP / f"crates/{crate}/out/{crate}_tests", ""
    path = "program::out_of_memory" if crate == "rsp_tests_cli" else "out_of_memory"
    if not tests.is_file():
        pytest.skip(f"{crate} has no built tests: `rt ci` builds them, or `rt test` in its folder")
    for is_failed, ended in failing.runs(calls, [tests, f"{path}::{name}"]):
        printed, mark, _ = ended.stdout.decode().partition("\ntest result: ok")
        assert (ended.returncode, bool(mark)) == (0, True), (ended.stdout[-200:], ended.stderr[-200:])
        assert is_failed or not printed.strip(), "it prints something though nothing fails"
        answers += f"{printed.strip()};" * is_failed
    assert re.fullmatch(ANSWERS[crate][name], answers)
