"""What `run --save` and `asm` leave of a file that they write, whatever happens meanwhile.

A write that fails, or a run that is killed while it saves, leaves the old bytes whole; a link stays a link;
permissions are preserved; and what no new file can replace is written in place.
"""

import os
import re
import resource
import shutil
import signal
import stat
import subprocess
import tempfile
import threading
from pathlib import Path
from typing import Any, Callable, Iterator, List, NamedTuple, Optional, Tuple

import pytest

from lib import TOP, devices, failing
from lib.program import Result, need_binary, run_program

SIZE = 4096
OLD = bytes(i % 251 for i in range(SIZE))
NOBODY = 65534
IS_ROOT = os.geteuid() == 0
# Gives up root's rights, where they are.
AS_NOBODY: Any = {"user": NOBODY, "group": NOBODY, "extra_groups": []} if IS_ROOT else {}
ROOT_ALONE = pytest.mark.skipif(not IS_ROOT, reason="root alone can make files of another owner, and mounts")


@pytest.fixture(scope="module")
def binary(program: Path) -> Iterator[Path]:
    """A copy of the program, since another user may not reach it where it is."""
    need_binary(program)
    with tempfile.TemporaryDirectory() as name:
        Path(name).chmod(0o755)
        yield Path(shutil.copy(program, name))


class Writer(NamedTuple):
    """A command that writes a file: its arguments without the file's name, its script, reply and bytes."""

    arguments: Tuple[object, ...]
    script: bytes
    reply: bytes
    new: bytes
    reply_if_refused: bytes


@pytest.fixture(params=["run --save", "asm"])
def writer(request: pytest.FixtureRequest, binary: Path, folder: Path) -> Writer:
    image, source = folder / "image", folder / "source"
    image.write_bytes(bytes(SIZE))
    source.write_text(".word 1\n" * (SIZE // 4))
    if request.param == "asm":
        return Writer((binary, "asm", source), b"", b"ok 1024 words\n", b"\0\0\0\1" * (SIZE // 4), b"")
    arguments = (binary, "run", "--rdram", image, "--save")
    return Writer(arguments, b"load rdram 1 0102\n", b"ok\n", b"\0\1\2" + bytes(SIZE - 3), b"ok\n")


class Trial:
    """A writer with a file of the old bytes in a folder of its own, and its last run.

    Each assertion returns the trial, so that they can be chained.
    """

    def __init__(self, writer: Writer, folder: Path, mode: int = 0o644, name: str = "file") -> None:
        self.writer, self.folder = writer, Path(tempfile.mkdtemp(dir=folder))
        self.folder.chmod(0o755)
        self.file = self.folder / name
        self.file.write_bytes(OLD)
        self.file.chmod(mode)

    def run(self, out: object = None, before: Optional[Callable[[], object]] = None, **how: Any) -> "Trial":
        """Runs the writer on the file, or on another, after a call in the new process."""
        self.out, (program, *arguments) = out or self.file, self.writer.arguments
        how = {"preexec_fn": before, "restore_signals": False, **how}
        self.result = run_program(program, [*arguments, self.out], self.writer.script, **how)
        return self

    def assert_ended(self, output: Optional[bytes], status: int = 0, errors: bytes = b"") -> "Trial":
        """The run has printed exactly this, or anything if it is None."""
        assert self.result == (status, self.result.output if output is None else output, errors)
        return self

    def assert_saved(self, file: Optional[Path] = None) -> "Trial":
        """The run has written the file, or another, whole."""
        self.assert_ended(self.writer.reply)
        assert (file or self.file).read_bytes() == self.writer.new
        return self

    def assert_refused(self) -> "Trial":
        """The run has said that it can't write."""
        return self.assert_ended(self.writer.reply_if_refused, 1, f"rsp: cannot write {self.out}\n".encode())

    def assert_kept(self) -> "Trial":
        assert self.file.read_bytes() == OLD
        return self

    def assert_files(self, *names: str) -> "Trial":
        """The folder has exactly these files."""
        assert sorted(path.name for path in self.folder.iterdir()) == sorted(names)
        return self

    def assert_mode(self, mode: int, file: Optional[Path] = None) -> "Trial":
        assert f"{stat.S_IMODE((file or self.file).stat().st_mode):o}" == f"{mode:o}"
        return self


NewTrial = Callable[..., Trial]


@pytest.fixture
def new_trial(writer: Writer, folder: Path) -> NewTrial:
    return lambda *more, **named: Trial(writer, folder, *more, **named)


@pytest.fixture
def trial(new_trial: NewTrial) -> Trial:
    return new_trial()


def limited(is_ignored: bool = True) -> None:
    """As `ulimit -f`: a write past 1024 bytes fails, or ends the process if its signal isn't ignored."""
    signal.signal(signal.SIGXFSZ, signal.SIG_IGN if is_ignored else signal.SIG_DFL)
    resource.setrlimit(resource.RLIMIT_FSIZE, (1024, 1024))


# Writes that fail.


def test_no_room(trial: Trial) -> None:
    trial.run(before=limited).assert_refused().assert_kept().assert_files("file")


@pytest.fixture
def ignoring(trial: Trial, program: Path, request: pytest.FixtureRequest) -> Trial:
    """A trial with ./rsp in place of the program that rt links, which can't ignore a signal by itself."""
    if not request.config.getoption("--program"):
        trial.writer = trial.writer._replace(arguments=(TOP / "rsp", *trial.writer.arguments[1:]))
    return trial


def test_limit_of_a_file(ignoring: Trial) -> None:
    ignoring.run(before=lambda: limited(False)).assert_refused().assert_kept().assert_files("file")


def test_limit_of_a_file_with_two_names(ignoring: Trial) -> None:
    """The file is written in place: a part of the bytes may be there, and nothing is left beside it."""
    os.link(ignoring.file, ignoring.folder / "other")
    ignoring.run(before=lambda: limited(False)).assert_refused().assert_files("file", "other")
    assert ignoring.writer.new.startswith(ignoring.file.read_bytes())
    assert ignoring.file.samefile(ignoring.folder / "other")


def test_limit_of_standard_output(ignoring: Trial) -> None:
    """Of the replies there are as many bytes as the limit allows."""
    replies, script, program = ignoring.folder / "replies", b"vregs\n", ignoring.writer.arguments[0]
    how = {"preexec_fn": lambda: limited(False), "restore_signals": False}
    with open(replies, "wb") as output:
        result = run_program(program, ["run"], script, stdout=output, **how)
    assert result == (1, b"", b"rsp: fault 41 WriteFault\n")
    assert replies.read_bytes() == run_program(program, ["run"], script).output[:1024]


def test_left_by_a_killed_run(trial: Trial) -> None:
    """The file that a killed run has begun stays, and is in no later run's way."""
    beside = ".file.rsp-save-0"
    (trial.folder / beside).write_bytes(OLD[:1024])
    trial.run().assert_saved().assert_files("file", beside)
    trial.run(trial.folder / "free", limited).assert_refused().assert_files("file", beside)


def link_to_itself(folder: Path) -> Path:
    (folder / "around").symlink_to("around")
    return folder / "around"


@pytest.mark.parametrize(
    "make",
    (devices.full, lambda folder: folder / "missing/file", link_to_itself),
    ids=("full", "no folder", "link to itself"),
)
def test_name_that_is_refused(make: Callable[[Path], Path], trial: Trial, folder: Path) -> None:
    trial.run(make(folder)).assert_refused()


# Names and modes.


@pytest.mark.parametrize("mode", (0o644, 0o600, 0o755, 0o664, 0o666), ids=oct)
def test_mode(mode: int, new_trial: NewTrial) -> None:
    new_trial(mode).run().assert_saved().assert_mode(mode).assert_files("file")


@pytest.mark.needs("strace")
def test_file_that_is_being_written(new_trial: NewTrial) -> None:
    """The new file is made for its owner only, because it may have the wrong group at first."""
    trial = new_trial(0o664)
    log = trial.folder.parent / "log"
    tracing = ["-f", "-e", "trace=open,openat,creat", "-o", log]
    if run_program("strace", [*tracing, "true"], b"").status:
        pytest.skip("strace may not trace a process here")
    trial.result = run_program("strace", [*tracing, *trial.writer.arguments, trial.file], trial.writer.script)
    trial.assert_saved().assert_mode(0o664)
    made = re.findall(r'"[^"]*\.file\.rsp-save-0", (\S+), (\d+)\)', log.read_text())
    assert [int(mode, 8) for flags, mode in made if "O_CREAT" in flags] == [0o600], log.read_text()


@pytest.mark.parametrize("mask", (0o022, 0o077), ids=oct)
def test_new_file(mask: int, trial: Trial) -> None:
    free = trial.folder / "free"
    trial.run(free, lambda: os.umask(mask)).assert_saved(free).assert_mode(0o666 & ~mask, free)
    trial.assert_files("file", "free").assert_kept()


@pytest.mark.parametrize("name", ("n" * 255, "\u00fc" * 127, ".hidden", "a.b.c"), ids=lambda it: it[:9])
def test_name(name: str, new_trial: NewTrial) -> None:
    new_trial(name=name).run().assert_saved().assert_files(name)


def test_name_without_a_folder(trial: Trial) -> None:
    trial.run("file", cwd=trial.folder).assert_saved().assert_files("file")


# Links.


def make_link(trial: Trial, is_far: bool) -> Path:
    """Makes a link beside the file, or one elsewhere to that link."""
    near, far = trial.folder / "near", trial.folder.parent / "far"
    near.symlink_to("file")
    far.symlink_to(os.path.relpath(near, far.parent))
    return far if is_far else near


NEAR_AND_FAR = pytest.mark.parametrize("is_far", (False, True), ids=("near", "far"))


@NEAR_AND_FAR
def test_link(is_far: bool, new_trial: NewTrial) -> None:
    trial = new_trial(0o640)
    link = make_link(trial, is_far)
    trial.run(link).assert_saved().assert_mode(0o640).assert_files("file", "near")
    assert link.is_symlink()


@NEAR_AND_FAR
def test_link_no_room(is_far: bool, trial: Trial) -> None:
    trial.run(make_link(trial, is_far), limited).assert_refused().assert_kept()


def test_link_to_nothing(trial: Trial, folder: Path) -> None:
    bare = folder / "bare"
    bare.symlink_to("free")
    trial.run(bare).assert_saved(folder / "free")
    assert bare.is_symlink()


# What no new file can replace.


def test_file_with_two_names(trial: Trial) -> None:
    other, number = trial.folder / "other", trial.file.stat().st_ino
    os.link(trial.file, other)
    trial.run().assert_saved(other).assert_files("file", "other")
    assert trial.file.stat().st_ino == number == other.stat().st_ino


def test_named_pipe(trial: Trial) -> None:
    pipe, received = trial.folder / "pipe", []
    os.mkfifo(pipe)
    receiver = threading.Thread(target=lambda: received.append(pipe.read_bytes()), daemon=True)
    receiver.start()
    trial.run(pipe).assert_ended(trial.writer.reply)
    receiver.join(10)
    assert received == [trial.writer.new]
    assert stat.S_ISFIFO(pipe.stat().st_mode)


def test_stdout_to_a_pipe(trial: Trial, folder: Path) -> None:
    parts = [trial.writer.new, trial.writer.reply]
    trial.run(devices.stdout(folder)).assert_ended(
        b"".join(parts if "asm" in trial.writer.arguments else parts[::-1])
    )


def test_stdout_to_a_file(trial: Trial, folder: Path) -> None:
    """Who has the file open sees the bytes, except those that the reply has overwritten."""
    with open(trial.file, "r+b") as output:
        trial.run(devices.stdout(folder), stdout=output).assert_ended(None)
        content = os.pread(output.fileno(), 2 * SIZE, 0)
    overwritten = len(trial.writer.reply) if "asm" in trial.writer.arguments else 0
    assert content[overwritten:] == trial.writer.new[overwritten:]
    trial.assert_files("file")


@pytest.mark.parametrize("is_removed", (False, True), ids=("open", "removed"))
def test_open_file(is_removed: bool, trial: Trial) -> None:
    with open(trial.file, "r+b") as held:
        if is_removed:
            trial.file.unlink()
        trial.run(f"/dev/fd/{held.fileno()}", pass_fds=[held.fileno()]).assert_ended(trial.writer.reply)
        assert os.pread(held.fileno(), 2 * SIZE, 0) == trial.writer.new


# Other users.


def give_away(*paths: Path) -> None:
    """Makes the user nobody the owner of these files, if root does it."""
    for path in paths:
        os.chown(path, *[NOBODY if IS_ROOT else -1] * 2)


def test_folder_without_rights(trial: Trial) -> None:
    give_away(trial.file)
    trial.folder.chmod(0o555)
    number = trial.file.stat().st_ino
    trial.run(**AS_NOBODY).assert_saved()
    assert trial.file.stat().st_ino == number
    trial.run(trial.folder / "free", **AS_NOBODY).assert_refused()


def test_file_without_rights(new_trial: NewTrial) -> None:
    trial = new_trial(0o444)
    give_away(trial.file, trial.folder)
    trial.run(**AS_NOBODY).assert_refused().assert_kept().assert_files("file")


@ROOT_ALONE
@pytest.mark.parametrize("user, mode", ((NOBODY, 0o644), (0, 0o664)), ids=("owner", "group"))
def test_file_of_another(user: int, mode: int, new_trial: NewTrial) -> None:
    trial = new_trial(mode)
    os.chown(trial.file, user, NOBODY)
    trial.run().assert_saved().assert_mode(mode)
    assert (trial.file.stat().st_uid, trial.file.stat().st_gid) == (user, NOBODY)


@ROOT_ALONE
def test_folder_that_gives_its_group(new_trial: NewTrial) -> None:
    """A new file there has the folder's group. The old one's stays."""
    trial = new_trial(0o640)
    os.chown(trial.folder, -1, NOBODY)
    trial.folder.chmod(0o2755)
    trial.run().assert_saved().assert_mode(0o640).assert_files("file")
    assert trial.file.stat().st_gid == os.getegid()


@ROOT_ALONE
def test_link_of_another_in_a_folder_for_all(trial: Trial, folder: Path) -> None:
    if Path("/proc/sys/fs/protected_symlinks").read_text().strip() != "1":
        pytest.skip("this system follows them: fs.protected_symlinks isn't 1")
    shared = Path(tempfile.mkdtemp(dir=folder))
    link = shared / "link"
    link.symlink_to(trial.file)
    os.chown(link, NOBODY, NOBODY, follow_symlinks=False)
    shared.chmod(0o1777)
    trial.run(link).assert_refused().assert_kept()


# Mounts, runs, and leaves the file's bytes and the names of the files there. The mounts end with the shell.
MOUNTED = """
eval "$1" && { [ ! -f seed ] || cp seed at/file; } && shift || exit 99
"$@"
code=$?
cp at/file left
ls -A at >names
exit $code
"""
MOUNTS = {
    "disk without room for both": ("mount -t tmpfs -o size=4k tmpfs at", True),
    "disk with room for both": ("mount -t tmpfs -o size=64k tmpfs at", False),
    "disk without room for a name": ("mount -t tmpfs -o size=64k,nr_inodes=2 tmpfs at", True),
    "disk that is read alone": (
        "mount -t tmpfs -o size=64k tmpfs at && mv seed at/file && mount -o remount,ro at",
        True,
    ),
    "file that is a mount": ("mount --bind other at/file", False),
}


@ROOT_ALONE
@pytest.mark.parametrize("mount, is_refused", MOUNTS.values(), ids=MOUNTS)
def test_mount(mount: str, is_refused: bool, new_trial: NewTrial, folder: Path) -> None:
    if run_program("unshare", ["-m", "mount", "-t", "tmpfs", "tmpfs", folder]).status:
        pytest.skip("this machine lets nobody mount")
    trial = new_trial(name="other")
    (trial.folder / "at").mkdir()
    for file in ("at/file", *["seed"] * ("tmpfs" in mount)):
        (trial.folder / file).write_bytes(OLD)
    arguments = ("unshare", "-m", "sh", "-c", MOUNTED, "sh", mount, *trial.writer.arguments)
    trial.writer = trial.writer._replace(arguments=arguments)
    trial.run("at/file", cwd=trial.folder)
    trial.assert_refused() if is_refused else trial.assert_ended(trial.writer.reply)
    assert (trial.folder / "left").read_bytes() == (OLD if is_refused else trial.writer.new)
    assert (trial.folder / "names").read_text().split() == ["file"]


@pytest.mark.needs("cc")
@pytest.mark.parametrize("is_lasting", (False, True), ids=("one", "all from one on"))
def test_calls_of_the_system_fail(is_lasting: bool, trial: Trial, folder: Path) -> None:
    """Each call of the system fails, alone or with all after it: the old bytes stay, or the new come."""
    calls, count = failing.library(folder, "writes"), 0
    trial.out = trial.folder / "link"
    trial.out.symlink_to("file")
    arguments = [*trial.writer.arguments, trial.out]
    for is_failed, ended in failing.runs(calls, arguments, trial.writer.script, is_lasting):
        trial.result = Result(ended.returncode, ended.stdout, ended.stderr)
        trial.assert_refused().assert_kept() if ended.returncode else trial.assert_saved()
        if not is_lasting:
            trial.assert_files("file", "link")
        count += is_failed
        for beside in trial.folder.glob(".file.*"):
            beside.unlink()
        trial.file.write_bytes(OLD)
    assert count >= 6


@pytest.mark.needs("cc")
@pytest.mark.parametrize("is_new", (False, True), ids=("replaced", "new"))
@pytest.mark.parametrize("is_far", (False, True), ids=("here", "elsewhere"))
def test_folder_is_synced(is_new: bool, is_far: bool, trial: Trial, folder: Path) -> None:
    """The new file's bytes are on the disk before it takes the name, and its folder after that."""
    calls = failing.library(folder, "synced")
    if is_new:
        trial.file.unlink()
    reading, writing = os.pipe()
    env = {**os.environ, "LD_PRELOAD": str(calls), "TOLD": str(writing)}
    where = folder if is_far else trial.folder
    trial.run(trial.file if is_far else "file", cwd=where, env=env, pass_fds=(writing,)).assert_saved()
    os.close(writing)
    with open(reading, "rb") as calls_made:
        assert calls_made.read() == b"file synced, renamed, folder %d synced, " % trial.folder.stat().st_ino


# Runs at once, and runs that are killed while they save.


def start(number: int, command: List[object]) -> "subprocess.Popen[bytes]":
    """Starts a run whose script sets the first and last byte of an image of 64 KiB, and waits for more."""
    run = subprocess.Popen([*map(str, command)], stdin=subprocess.PIPE, stdout=subprocess.DEVNULL)
    assert run.stdin
    run.stdin.write(b"load rdram 0 %02x\nload rdram 65535 %02x\n" % (number, number))
    return run


@pytest.mark.parametrize("turn", range(10))
def test_four_at_once(turn: int, binary: Path, folder: Path) -> None:
    """The file has the bytes of one of them, whole, and nothing is left beside it."""
    own, image = folder / "own", folder / "image"
    own.mkdir()
    image.write_bytes(bytes(65536))
    (own / "file").write_bytes(OLD)
    runs = [start(n, [binary, "run", "--rdram", image, "--save", own / "file"]) for n in range(1, 5)]
    for run in runs:
        assert run.stdin
        run.stdin.close()
    assert [run.wait(60) for run in runs] == [0] * 4
    assert (own / "file").read_bytes() in [b"%c%s%c" % (n, bytes(65534), n) for n in range(1, 5)]
    assert os.listdir(own) == ["file"]


@pytest.mark.needs("strace")
@pytest.mark.parametrize("sent", ("SIGTERM", "SIGKILL"))
@pytest.mark.parametrize("call, number", (("write", 2), ("fsync", 1)))
def test_killed_while_it_saves(call: str, number: int, sent: str, binary: Path, folder: Path) -> None:
    """The old file is unchanged, whether nothing or all of the new one is beside it."""
    own, image = folder / "own", folder / "image"
    own.mkdir()
    image.write_bytes(bytes(8388608))
    (own / "file").write_bytes(OLD)
    if run_program("strace", ["-o", os.devnull, "true"], b"").status:
        pytest.skip("strace may not trace a process here")
    when = f"inject={call}:signal={sent}:when={number}"
    killed = ["-f", "-o", os.devnull, "-e", f"trace={call}", "-e", when, binary, "run", "--rdram", image]
    assert run_program("strace", [*killed, "--save", own / "file"], b"load rdram 0 ff\n").status != 0
    assert (own / "file").read_bytes() == OLD
    assert sorted(os.listdir(own)) == [".file.rsp-save-0", "file"]
