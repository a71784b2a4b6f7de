"""What Windows has and Linux hasn't, as rsp.exe meets it under wine: devices, streams, drives, quoting, code
pages, attributes, files that are open elsewhere, full disks. test_posix.py ends it while it saves."""

import os
from pathlib import Path
from typing import Any, Dict, Optional

import pytest

from lib import TESTS
from lib.pages import tables
from lib.processes import run
from lib.program import Result, run_program
from lib.systems.target_params import on

OLD, NEW = bytes(range(256)) * 16, b"\0\0\0\1" * 1024
ON_WINDOWS = on("windows-x86_64")
SAVED = (0, b"ok 1024 words\n", b"")
# More than the 260 characters that Windows' older calls allow a path.
DEEP = "\\".join(("n" * 120, "\u00fc" * 60, "\U0001f600" * 20))
HIDDEN = "user.DOSATTRIB", b"0x2"  # how wine keeps the attribute of a file


@pytest.fixture
def own(folder: Path) -> Path:
    """A folder with a source, and with the old bytes in the file `file`."""
    made = folder / "own"
    made.mkdir()
    (made / "source").write_text(".word 1\n" * 1024)
    (made / "file").write_bytes(OLD)
    return made


@pytest.fixture
def rsp_exe(runner: Any, folder: Path, own: Path) -> Any:
    """Runs rsp.exe there."""
    program = runner.started(folder)
    return lambda *words, env=None: run_program(program, words, cwd=own, env=env)


def contents(folder: Path) -> Dict[str, bytes]:
    return {str(it.relative_to(folder)): it.read_bytes() for it in folder.rglob("*") if it.is_file()}


# Names of devices whose bytes Windows may wait for. A file can have the last four under wine.
DEVICES = "CON con.txt no\\COM1 COM9: C:aux CONOUT$ COM0 lpt0.a.b Com\u00b9 LPT\u00b3.bin".split()
DEVICES.insert(0, "PRN .x")


@ON_WINDOWS
@pytest.mark.parametrize("name", DEVICES)
def test_device(name: str, rsp_exe: Any, own: Path) -> None:
    if name in DEVICES[-4:]:
        (own / name).write_bytes(bytes(64))
    said = name.replace("\\", "/").encode()
    for words, action in (("run --rdram", b"read"), ("dis", b"read"), ("run --save", b"write")):
        assert rsp_exe(*words.split(), name) == (1, b"", b"rsp: cannot %s %s\n" % (action, said))


# Paths, and the file that a save to each writes: "" for none, None for a refusal. `{}` is the folder with its
# drive. Windows ignores a dot or a space at a name's end, and `Z:file` is in the drive's current folder.
OF_FILE = r"file FILE file. .\file none\..\file link Z:file {}/file \\?\{}\file \\?\{}\link".split()
WRITTEN: Dict[str, Optional[str]] = {
    **dict.fromkeys((*OF_FILE, "file "), "file"),
    **{it: it.replace("\\", "/") for it in ("none\\new", "file:stream", f"{DEEP}\\file")},
    "Z:new": "new",
    **dict.fromkeys(("NUL", "no\\..\\nul.txt"), ""),
    **dict.fromkeys(("no\\file", "none\\", "new\\", "a<b", "a*b", "a?b", "..", "none", "n" * 256)),
}


@ON_WINDOWS
@pytest.mark.parametrize("path", WRITTEN, ids=lambda it: it[:20])
def test_path(path: str, rsp_exe: Any, own: Path) -> None:
    """Nothing else is changed or left, no second time either, and a file that is replaced is another one."""
    (own / "none").mkdir()
    (own / "link").symlink_to("file")
    (own / DEEP.replace("\\", "/")).mkdir(parents=True)
    expected, written = contents(own), WRITTEN[path]
    path = path.format(f"Z:{own}".replace("/", "\\"))
    refused = (1, b"", f"rsp: cannot write {path}\n".replace("\\", "/").encode())
    with (own / "file").open("rb") as old:
        for _ in range(2):
            assert rsp_exe("asm", "source", path) == (refused if written is None else SAVED)
        assert os.fstat(old.fileno()).st_nlink == (written != "file")
    expected.update({it: NEW for it in [written, "link" if written == "file" else None] if it})
    assert contents(own) == expected and (own / "link").is_symlink()


@ON_WINDOWS
def test_hidden(rsp_exe: Any, own: Path) -> None:
    """A file that is replaced keeps its attributes."""
    os.setxattr(own / "file", *HIDDEN)
    assert rsp_exe("asm", "source", "file") == SAVED and (own / "file").read_bytes() == NEW
    assert os.getxattr(own / "file", HIDDEN[0]) == HIDDEN[1]


@ON_WINDOWS
def test_full_disk(runner: Any, own: Path, folder: Path) -> None:
    """The old bytes stay, and nothing is left beside them. A wine server of its own sees the mount."""
    if os.geteuid() or run("unshare", "-m", "true").returncode:
        pytest.skip("this machine lets nobody mount")
    (own / "full").mkdir()
    script = f"""
    mount -t tmpfs -o size=4k tmpfs full && cp file full/file && cd full || exit 99
    {runner.started(folder)} asm ../source file; echo $?
    cmp file ../file && ls -A
    """
    runner.release()
    ended = run("unshare", "-m", "sh", "-c", script, cwd=own)
    assert ended.stdout == "rsp: cannot write file\n1\nfile\n"


@pytest.fixture
def by_line(runner: Any, own: Path) -> Any:
    """Starts rsp.exe by a command line, as Windows passes it on, with a file that is open meanwhile."""
    helper = runner.at / "started_windows.exe"
    if not helper.exists():
        runner.compile(TESTS / "systems/started_windows.c", library=[])
    program = runner.started(own.parent, helper)

    def run_line(line: str, *words: str, env: Optional[Dict[str, str]] = None) -> Result:
        script = line.encode("utf-16-le", "surrogatepass")
        return run_program(program, [runner.rsp, *words], script, cwd=own, env=env)

    return run_line


LINES = {
    r'rsp dis "a b"': "a b",
    r'"r s p" dis "a ""b"': 'a "b',
    r"rsp dis a\"b": 'a"b',
    r'rsp dis "a\\" ': "a/",
    r"rsp dis a\\\"b": 'a/"b',
    r"rsp dis a\\b": "a//b",
    "rsp dis  \t'a'": "'a'",
    "rsp dis *": "*",
    "rsp dis \u00fc\u8868\U0001f600": "\u00fc\u8868\U0001f600",
}


@ON_WINDOWS
@pytest.mark.parametrize("line", LINES)
def test_words(line: str, by_line: Any) -> None:
    """The words are those that Microsoft's rules make of a line in UTF-16, and `*` names no files, whichever
    code page the system has: here the Japanese one, which has `\\` in the second byte of one of these."""
    env = {**os.environ, "LC_ALL": "ja_JP.UTF-8"}
    assert by_line(line, env=env) == (1, b"", f"rsp: cannot read {LINES[line]}\n".encode())


@ON_WINDOWS
def test_argument_that_is_no_text(by_line: Any) -> None:
    """Half of a pair in UTF-16."""
    assert by_line("rsp run --save x\ud800") == (2, b"", b"error: an argument isn't UTF-8\n")


@ON_WINDOWS
@pytest.mark.parametrize(
    "shared, is_saved", (("", False), ("r", False), ("rd", False), ("rw", True), ("rwd", True))
)
def test_open_elsewhere(shared: str, is_saved: bool, by_line: Any, own: Path) -> None:
    """Who has the file open says who else may write it. Nobody else loses a byte."""
    left = {**contents(own), "file": NEW if is_saved else OLD}
    said = SAVED if is_saved else (1, b"", b"rsp: cannot write file\n")
    assert by_line("rsp asm source file", "file", shared) == said and contents(own) == left


DIFFERENCES = [it[1:] for it in tables("docs/SYSTEMS.md", "## What differs") if it[1]]


@ON_WINDOWS
@pytest.mark.parametrize("command, on_linux, here", DIFFERENCES, ids=[it[0] for it in DIFFERENCES])
def test_what_differs(command: str, on_linux: str, here: str, rsp_exe: Any, program: Path, own: Path) -> None:
    """SYSTEMS shows what the program prints on Linux, and what it prints here."""
    (own / "source").write_text("nop\n")
    words = command.strip("`").split()[1:]
    for said, result in (here, rsp_exe(*words)), (on_linux, run_program(program, words, cwd=own)):
        assert (result.output + result.errors).decode() == (f"{said.strip('`')}\n" if said else "")
