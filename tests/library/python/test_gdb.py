"""`rsp.gdb` in sessions of a real GDB, on an ELF of make_elf.py, and on packets that are wrong.

They fail if GDB doesn't show what the microcode does, forwards or backwards, or if a packet or Ctrl-C ends,
hangs or misleads the stub.
"""

import fcntl
import os
import pty
import random
import re
import select
import socket
import struct
import subprocess
import sys
import termios
import time
from contextlib import contextmanager, suppress
from pathlib import Path
from typing import Any, Callable, Dict, Iterator, List, Union

import pytest

import rsp
from lib import TOP
from lib.library import module
from lib.library.module import loaded
from lib.overlay import link
from lib.pages import block_with, page
from lib.processes import run, succeeds
from rsp.gdb import Stub, after_script
from rsp.gdb_wire import Wire

STUB = (sys.executable, "-m", "rsp.gdb")
ENV = {**module.ENV, "TERM": "dumb", "LC_ALL": "C"}
with_gdb = pytest.mark.needs("gdb-multiarch", "mips-linux-gnu-gcc")
# Doubles 72 samples, one turn too many: the last store but one is in the limit at 0x80.
TEXT = """start: ori $16, $0, 0; ori $17, $0, 0x80; jal scale; ori $8, $0, 1; bgezal $0, check; nop
ori $20, $0, last; jalr $31, $20; nop; break
scale: lqv $v1[0], 0($16); vadd $v4, $v1, $v1; sqv $v4[0], 0($16); slt $9, $17, $16; beq $9, $0, scale
addiu $16, $16, 16; jr $31; nop
check: lh $10, 0($17); ori $21, $31, 0; jal inner; nop; jr $21; sh $10, 0x90($17)
inner: jr $31; nop
last: mtc0 $0, $c0; ori $20, $0, 0; mtc0 $0, $c1; ori $4, $0, 255; mtc0 $4, $c2; lh $5, 0($0)
jr $31; sh $4, 0x92($17)
"""
SCALE = TEXT.replace("; ", "\n").replace("last: m", 196 * "\n" + "last: m")
# Runs two steps, which leave 7 in $11.
SCRIPT = """load dmem 0x80 0064\nload rdram 0 0001\nasm 0\nori $11, $0, 7\nbreak\nend
run 5\nwrite 4 5\npc 0\n"""


def made(folder: Path) -> List[str]:
    """The words that start GDB on SCALE, up to its commands."""
    (folder / "script.rsp").write_text(SCRIPT)
    (folder / "text.s").write_text(SCALE)
    make = TOP / "examples/python/make_elf.py"
    succeeds(sys.executable, make, "text.s", "text.elf", cwd=folder, env=ENV)
    (folder / "rsp-gdb").write_text(f'#!/bin/sh\nexec {" ".join(STUB)} "$@"\n')
    (folder / "rsp-gdb").chmod(0o755)
    side = run(*STUB, "--side", env=ENV).stdout.strip()
    stub = "target remote | ./rsp-gdb --script script.rsp"
    return ["gdb-multiarch", "-nx", "-q", "-x", side, "text.elf", "-ex", stub, "-ex", "load"]


def assert_parts(output: str, parts: List[str]) -> None:
    """That the parts are in a text, in this order."""
    at = 0
    for part in parts:
        found = output.find(part, at)
        assert found >= 0, f"{part!r} isn't in its place in:\n{output}"
        at = found + len(part)


# Commands, and in the lines after them what GDB says, part by part.
SESSIONS = {
    "the last store to the limit, backwards": """
break check; continue; p $v04.s[0]; p $vcc = 0x1234; watch *(short*)0x80; reverse-continue; x/i $pc
    check () at text.s:19 | = 0 | Old value = 200 | New value = 100 | sqv $v4[0], 0($16)
reverse-stepi; p $vcc; stepi; x/2i $pc; reverse-continue; p $r11
    12\t | = 0 | 13\t | sqv | slt $9, $17, $16 | No more reverse-execution history | start () | = 7
""",
    "stores in delay slots and by a DMA": """
watch *(short*)0x110; watch *(short*)0x112; watch *(short*)0; continue; continue; continue
    New value = 200 | start () at text.s:7 | New value = 1 | last () at text.s:228 | New value = 255
reverse-continue; reverse-continue; reverse-continue; monitor goto 0; p *(char[2]*)0x80000000
    New value = 0 | last () at text.s:230 | New value = 0 | last () at text.s:227 | check () | "\\000\\001"
""",
    "a halt and a reserved word": """
break 10; continue; stepi; stepi; monitor waits; reverse-continue
    10\t | halted after 88 steps | SIGSTOP | machine is halted | halted, so nothing follows | 10\t
monitor goto 99; p $sp_status; set var *(int*)0x04001028 = -1; monitor write 4 5; continue; reverse-stepi
    step 88, the last one | [ halted broke ] | ok | SIGILL | word at pc is reserved | 10\t
p $sp_status; set $acc[7] = -5; set $v31.b[3] = 9; set $r9 = $pc; stepi; p $acc[7]; p $v31.s[1]; p/x $r9
    [ ] | halted after 88 | = -5 | = 9 | = 0x4001024
""",
    "callers by JAL, BGEZAL and JALR": """
break scale; continue; backtrace; delete; finish; next; next; next; reverse-next
    #0  scale () | #1  0x04001010 in start () at text.s:4 | 5\t | 7\t | 8\t | 10\t | 9
step; p/x $ra; stepi; stepi; backtrace; finish; up; set $pc = 0x04001008; p/x $npc
    last () at text.s:223 | = 0x24 | #0  last () at text.s:225 | #1  0x04001024 in start () at text.s:9
    10\t | Initial frame selected | = 0x400100c
tbreak check; reverse-continue; backtrace; next; next; next; next; up; tbreak 100
    #0  check () | #1  0x04001018 in start () at text.s:6 | 20\t | 21\t | 23\t | start () at text.s:7
    Initial frame selected | line 223.
""",
    "conditions, until, reverse steps and finishes": """
break scale if $r16 == 0x20; continue; until 17; reverse-step; reverse-next; reverse-finish; info breakpoints
    scale () at text.s:11 | scale () at text.s:17 | 16\t | 15\t | 16\t | breakpoint already hit 1 time
tbreak inner; continue; reverse-finish; disassemble /s start,+8; x/i 0x04001008
set debug remote 1; stepi; next; detach
    inner () | check () at text.s:22 | text.s: | 1\tstart: | ori $16, $0, 0 | 2\tori | jal 0x028 <scale>
    vCont;c | vCont;c | detached
""",
    "registers and memories": """
tbreak last; continue; set $v01.s[3] = -5; info registers v01 vcc $acc sp_status npc; x/2xh 0x04000080
    v01            {0, 0, 0, -5 | vcc | acc            {0, 0 | [ ] | npc            0x400106c | 0x00c8
p $v04.u[1] = 65535; p $v04.s[1]; p/x $v04.b[2]; set var *(char*)0x80000123 = 5; x/bx 0xa0000123; x/xw 0x1000
    = 65535 | = -1 | = 0xff | 0xa0000123:\t0x05 | 0x34100000
python print([it for it in sys.modules if it in ("rsp", "ctypes")]); x/xw 0x20000000
    [] | Cannot access memory at address 0x20000000
""",
    "a change in the past": """
break check; continue; monitor goto 20; set $r8 = 5; monitor goto 30; monitor goto 10; set var *(int*)0 = 5
    step 20 | [rsp] steps 21 to 68 are forgotten | step 30 | step 10 | [rsp] steps 11 to 30 are forgotten
monitor goto 12; monitor goto 11; monitor load dmem 0 00; monitor goto 13; monitor goto 0; load; x/i $pc
    step 11 | ok\n[rsp] steps 12 to 12 are | step 13 | step 0 | [rsp] steps 1 to 13 are | ori $16, $0
""",
    "an overlay, s15.16, and what is refused": """
tbreak last; continue; set var *(int*)0x04001068 = 0x40910000; x/i $pc; set $r17 = 0x1f00
    last () | mtc0 $17, $c0
display/i 0x04001f00; stepi 5; reverse-stepi 2; set $v02.s[0] = -2; set $v03.u[0] = 32768; p $fix(2, 3)
    sll $0, $1, 0 | nop | = {-1.5,
p $fix(2); p $fix(2, 32); break *0x80001000; continue; monitor why; delete 2; detach; info registers
    $fix takes | $fix takes | Cannot access | only IMEM, which | detached | The program has no registers
""",
    "monitor": """
monitor; tbreak check; continue; monitor counts; monitor counts 66; monitor why
    monitor task ADDR | 10 028 lqv $v1[0], 0($16) | 1 040 jr | 1 010 bgezal | 1 014 | nothing was refused
monitor waits
    07c: lh $5, 0($0): loads | 024: break: ends before the end of the transfer of 078 | looked at: | the halt
monitor when; monitor task 1; monitor task; monitor foo; monitor read 4; monitor goto x
    step 68 | start_task: 1 | task has other operands | foo isn't a command\nmonitor when | c4 0000 | x isn't
monitor goto -1; monitor load imem 0x20 zz; monitor load disk 0 00; monitor load dmem 0x84 0a0B; monitor sp
    monitor when | fault: | fault: BANK | ok | c4 00000000 | interrupt 0
monitor mem dmem 0x80 6; monitor mem dmem 4000 0x61; monitor dis 0x10 1; monitor pc 8; monitor regs
    000080: 00c800000a0b | fault: memory | 010 0411000d bgezal $0, 0x048 | ok | pc 008 npc 00c | r08 00000001
watch *(int*)0x80800000; continue; monitor why; monitor vregs; monitor flags; monitor write 7 1 2
    Could not insert | only bytes of DMEM, IMEM and RDRAM can | v01 0000 | vco 0000 vcc 0000 | monitor when
""",
}


@with_gdb
@pytest.mark.parametrize("name", SESSIONS)
def test_session(name: str, folder: Path) -> None:
    lines = SESSIONS[name].strip().split("\n")
    commands = [part for it in lines if it[0] != " " for part in it.split("; ")]
    words = [*made(folder), "-batch", *(word for it in commands for word in ("-ex", it))]
    output = run(*words, cwd=folder, env=ENV).stdout.partition("Transfer rate")[2]
    assert_parts(output, [part for it in lines if it[0] == " " for part in it.strip(" ").split(" | ")])
    # A stop that GDB doesn't expect; and what comes only after a change of IMEM, in a session with packets.
    assert not re.search("identical|corrupt|SIGTRAP|qrsp.texts|m4001000,1000", output)


def check_page(name: str, command: str, begin: str, folder: Path, before: str = "") -> None:
    """GDB, started by a command of the page, replies to the session that begins so what the page shows."""
    path = f"{folder}:{Path(sys.executable).parent}:{os.environ['PATH']}"
    session = block_with(name, f"(gdb) {begin}")
    typed = before + "\n".join(re.findall(r"(?m)^\(gdb\) (.*)$", session))
    words = "sh", "-ec", block_with(name, command)
    output = succeeds(*words, cwd=folder, env={**ENV, "PATH": path}, input=typed)
    assert_parts(output, [it for it in session.splitlines() if it and not it.startswith("(gdb)")])


@with_gdb
@pytest.mark.parametrize(
    "text, begin",
    (
        ("python3 examples/python/make_elf.py scale.s scale", "| rsp-gdb --script"),
        ("python3 examples/python/make_elf.py names.s", "| rsp-gdb\n"),
        ("for name in double clear", "| rsp-gdb --rdram image --overlay"),
    ),
)
def test_page(text: str, begin: str, folder: Path) -> None:
    """The sessions of the page, typed as they stand."""
    made(folder)
    name = "docs/GDB.md"
    (folder / "scale.s").write_text(block_with(name, "# Doubles the samples"))
    (folder / "names.s").write_text("start: ori $17, $0, limit\nbreak\n")
    (folder / "data.s").write_text(block_with(name, "# DMEM: the samples"))
    (folder / "data.rsp").write_text(re.findall("`(load dmem .*?)`", page(name))[0])
    for written, first in (
        ("main", "# Calls two overlays"),
        ("double", "double: lqv"),
        ("clear", "clear:  lqv"),
    ):
        (folder / f"{written}.s").write_text(block_with(name, first))
    (folder / "examples").symlink_to(TOP / "examples")
    (folder / "rsp").symlink_to(TOP / "rsp")
    check_page(name, text, f"target remote {begin}", folder)


@with_gdb
@pytest.mark.parametrize("begin, before", (("target", ""), ("set var", "target remote | rsp-gdb\nload\n")))
def test_page_for_libdragon(begin: str, before: str, folder: Path) -> None:
    """The sessions of the page, on an ELF with libdragon's addresses."""
    made(folder)
    link(folder)
    check_page("docs/FROM_LIBDRAGON.md", "gdb-multiarch", begin, folder, before)


@with_gdb
def test_without_an_elf(folder: Path) -> None:
    """Registers have the right order of their bytes, though no ELF names it."""
    *words, _, _ = (it for it in made(folder) if it != "text.elf")
    assert "= 0x7\n" in run(*words, "-batch", "-ex", "p/x $r11", cwd=folder, env=ENV).stdout


@with_gdb
def test_typed(folder: Path) -> None:
    """Code is new after `load`, also if it is typed, and after `monitor`; and why a read isn't watched."""
    typed = "target remote | ./rsp-gdb\nload\nx/i $pc\nmonitor load imem 0 4b0a2d10\nx/i $pc\n"
    typed += "rwatch *(int*)0\ncontinue\nmonitor why\n"
    output = run(*made(folder)[:-4], cwd=folder, env=ENV, input=typed).stdout
    assert_parts(output, ["ori $16, $0, 0x0000", "vadd $v20, $v5, $v10[0]", "only writes can be watched"])


@contextmanager
def terminal(folder: Path, term: str = "dumb") -> Iterator[Callable[[str, Union[str, Path]], str]]:
    """GDB in a terminal, where Ctrl-C is a key. The call types, and returns what is shown up to a text or a
    file."""
    at, inside = pty.openpty()
    fcntl.ioctl(at, termios.TIOCSWINSZ, struct.pack("4H", 40, 100, 0, 0))
    own: Dict[str, Any] = {"stdin": inside, "stdout": inside, "stderr": inside, "cwd": folder}
    begun = lambda: fcntl.ioctl(0, termios.TIOCSCTTY, 0)  # noqa: E731
    env = {**ENV, "TERM": term}
    gdb = subprocess.Popen(made(folder), start_new_session=True, preexec_fn=begun, env=env, **own)

    def typed(text: str, until: Union[str, Path]) -> str:
        os.write(at, text.encode())
        screen = ""
        for _ in range(2000):
            if until in screen if isinstance(until, str) else until.exists():
                return screen
            assert gdb.poll() is None, f"after {text!r} GDB has ended:\n{screen}"
            if select.select([at], [], [], 0.1)[0]:
                screen += os.read(at, 4096).decode(errors="replace")
        pytest.fail(f"after {text!r} GDB hangs:\n{screen[:4096]}")

    with gdb:
        try:
            typed("", "144")  # the bytes that are loaded
            yield typed
        finally:
            gdb.kill()
            os.close(at)
            os.close(inside)


@with_gdb
@pytest.mark.parametrize("layout", ("asm", "split", "src", "regs", "rsp"))
def test_screen(layout: str, folder: Path) -> None:
    """GDB doesn't crash in full screen, where it asks for texts and frames while it draws."""
    changes = "set $v04.u[3] = 7", "set var *(int*)0 = 5", "set var *(int*)0x0400104c = 0", "monitor goto 9"
    with terminal(folder, "xterm") as typed:
        shown = typed(f"tbreak check\ncontinue\nlayout {layout}\n", "lh $10, 0($17)")
        for window in "vector", "general", "system", "float", "all":
            for commands in ("stepi", "next", "reverse-stepi"), (*changes, "stepi"):
                done = folder / f"{window} {commands[0]}"
                lines = f"tui reg {window}", *commands, f"python open({str(done)!r}, 'w')", ""
                shown += typed("\n".join(lines), done)
        assert "v00" in shown and "sp_mem_addr" in shown


@with_gdb
def test_refused_search(folder: Path) -> None:
    """After one GDB runs on, also if the user types so slowly that a search would have been interrupted."""
    with terminal(folder) as typed:
        typed("monitor wrote $s9\n", "fault: $s9 isn't a register")
        time.sleep(0.6)
        shown = typed("stepi\ncontinue\nmonitor wrote $s1\noutput 40+2\n", "42(gdb) ")
        assert "SIGINT" not in shown
        assert_parts(shown, ["2\tori $17, $0, 0x80", "halted after 88 steps", "step 1: 004 34110080 ori"])


@with_gdb
def test_hint(folder: Path) -> None:
    """Of one digit in the name of a vector register, once, and not of the names of `monitor wrote`."""
    with terminal(folder) as typed:
        hint = "[rsp] vector registers have two digits: "
        typed("print $v4.u[1]\n", f"not a structure.\r\n{hint}$v04.u\r\n(gdb)")
        shown = typed("print $v1\nprint $v04.u[1]\nmonitor wrote $v4\noutput 40+2\n", "42(gdb) ")
        assert "digits" not in shown
        typed("print $v1.s\n", f"{hint}$v01.s\r\n(gdb)")


MI = """-interpreter-exec console "monitor when"
monitor goto 20
-exec-continue
-interpreter-exec console "monitor wrote $r16"
-enable-pretty-printing
-data-evaluate-expression $v04
-var-create v * $v04
-var-list-children v
monitor goto 60
"""
# What a front end reads, in this order: `~` is the console, and a stop moves its arrow.
SHOWN = [
    '~"step 0 (text.s:1)', '~"step 20', '*stopped,reason="end-stepping-range"', 'line="15"',
    '~"[rsp] halted after 88 steps', '*stopped,reason="signal-received"',
    '26100010 addiu $16, $16, 16 (text.s:16)', '*stopped,reason="end-stepping-range"', 'line="16"',
    'value="0000 0000 0000 0000 0000 0000 0000 0000"', 'numchild="3"', 'exp="s",numchild="8"', '*stopped',
]  # fmt: skip


def read_until(at: int, end: str) -> str:
    """What a front end reads, up to a text."""
    shown = ""
    while end not in shown:
        assert select.select([at], [], [], 60)[0], shown
        shown += os.read(at, 4096).decode()
    return shown


@with_gdb
def test_front_end(folder: Path) -> None:
    """GDB/MI alone, as Emacs has it, and beside a console in a terminal, as vim has it."""
    output = run(*made(folder), "-i=mi", cwd=folder, env=ENV, input=MI).stdout
    assert_parts(output, SHOWN)
    assert '@"' not in output  # GDB's stream for the target's output, which front ends drop
    at, inside = pty.openpty()
    with terminal(folder) as typed:
        typed(f"new-ui mi {os.ttyname(inside)}\nmonitor goto 20\n", "15\t")
        assert 'line="15"' in read_until(at, '*stopped,reason="end-stepping-range"')
        assert "[rsp] halted after 88 steps" in typed("continue\n", "text.s:11")
        os.write(at, b'-interpreter-exec console "monitor when"\n')
        read_until(at, '~"step 88 (text.s:11)')
    os.close(at)
    os.close(inside)


# A loop whose every read may find its transfer under way, for ever: `waits` looks at each way.
DMAS = b"".join(it.to_bytes(4, "big") for it in rsp.assemble("""ori $1, $0, 7
loop: mtc0 $0, $c0
mtc0 $0, $c1
mtc0 $1, $c2
mfc0 $2, $c6
mfc0 $2, $c5
mfc0 $2, $c4
sw $2, 0x100($0)
j loop
nop""")).hex()  # fmt: skip
# What only Ctrl-C ends. Before the last three GDB is at work between short runs for most of the time.
ENDLESS = {
    "condition": ("break *0x04001000 if $r20 == 5", "continue"),
    "register": ("watch $r20", "continue"),
    "steps back": ("monitor goto 1000000", "reverse-stepi 100000"),
    "goto": ("", "monitor goto 9999999999999"),
    "run": ("", "continue"),
    "waits": (f"monitor load imem 0 {DMAS}", "monitor waits"),
}


@with_gdb
@pytest.mark.parametrize("name", ENDLESS)
def test_interrupts(name: str, folder: Path) -> None:
    """Each Ctrl-C counts, whenever it comes, and ends neither GDB's connection nor what it has found."""
    first, endless = ENDLESS[name]
    chance = random.Random(name)
    with terminal(folder) as typed:
        typed(f"set confirm off\nset var *(int*)0x04001000 = 0x08000000\n{first}\n", "(gdb)")  # j 0x000
        typed(f"define endless\necho begun\\n\n{endless}\nend\noutput 40+2\n", "42(gdb) ")
        for _ in range(3 if name == "waits" else 20):
            typed("endless\n", "begun\r\n")
            time.sleep(chance.uniform(0, 0.4))
            assert "Traceback" not in typed("\3", "(gdb) ")
        typed("delete\nreverse-continue\n", "No more reverse-execution history")


def assert_received(link: socket.socket, sent: bytes, expected: bytes) -> None:
    """That what comes back has this."""
    link.sendall(sent)
    result = b""
    while expected not in result:
        result += link.recv(65536) or pytest.fail(f"it ends after {result!r}")


# What a web page can have a browser send, with packets that write DMEM, detach, and end the stub.
POST = b"POST / HTTP/1.1\r\nHost: localhost\r\n\r\n$M4000000,4:deadbeef#b3$D#44$k#6b"
WRONG_BYTES = POST, b"\x16\3\1$k#6b", b"$" + 1000000 * b"a" + b"$k#6b", 1000 * b"$m0,4#00" + b"\0$k#6b"


def test_port(folder: Path) -> None:
    """One client at a time, at 127.0.0.1, whose port nobody else gets. After one that is gone or detached the
    next has the history; `kill` ends the stub. A client that isn't a GDB changes nothing."""
    task = bytes(8) + b"\0\0\1\0\0\0\0\x10" + bytes(48)
    (folder / "image").write_bytes(bytes(64) + task + bytes(128) + 4 * b"\x24\2\0\7")
    words = [*STUB, "--port", "0", "--rdram", "image", "--task", "0x40"]
    with subprocess.Popen(words, stderr=subprocess.PIPE, text=True, env=ENV, cwd=folder) as stub:
        try:
            assert stub.stderr
            first = stub.stderr.readline()
            here = "127.0.0.1", int(first.rpartition(":")[2])
            assert "in use" in run(*STUB, "--port", here[1], env=ENV).stdout
            pytest.raises(ConnectionRefusedError, socket.create_connection, ("127.0.0.2", here[1]))
            with socket.create_connection(here) as link:
                assert_received(link, b"$m4001000,4#22", b"$24020007#")
                pytest.raises(ConnectionRefusedError, socket.create_connection, here)
                assert "in use" in run(*STUB, "--port", here[1], env=ENV).stdout
                assert_received(link, b"+$Z0,4001000,4#0f+$s#73", b"25:04001004")
            assert stub.stderr.readline() == first
            for sent in WRONG_BYTES:
                with socket.create_connection(here) as link:
                    with suppress(ConnectionError):
                        link.sendall(sent)
                        while link.recv(65536):  # up to the end of the connection
                            pass
                assert stub.stderr.readline() == first, sent[:20]
            with socket.create_connection(here) as link:
                assert_received(link, b"$m4000000,4#21", b"$00000000#")
                for sent, expected in (b"$?#3f", b"$T05"), (b"+$c#63\3", b"$T02"), (b"+$D#44", b"$OK#"):
                    assert_received(link, sent, expected)
            assert stub.stderr.readline() == first
            with socket.create_connection(here) as link:
                assert_received(link, b"$bc#c5", b"replaylog:begin;25:04001000")
                link.sendall(b"+$k#6b")
                assert stub.wait() == 0
        finally:
            stub.kill()


FAULTS = {
    "--port x": "x isn't a number",
    "--port 65536": "bind(): port must be 0-65535.",
    "--task 1": "start_task: 1 isn't a multiple of 8",
    "--rdram /dev/zero": "Machine: image has 8388609 bytes, not a multiple of 8 from 64 to 8388608",
    "--script wrong": "line 2: fault 30 BadCommand: nonsense",
    "--script open": "line 3: fault 10 BadLine",
    "--script /dev/zero": "the script has more than 1048576 bytes",
}


@pytest.mark.parametrize("words", FAULTS)
def test_fault(words: str, folder: Path) -> None:
    """A sentence, and status 1."""
    (folder / "wrong").write_text("regs\nnonsense\n")
    (folder / "open").write_text("regs\nasm 0\n")
    ended = run(*STUB, *words.split(), cwd=folder, env=ENV)
    assert ended.returncode == 1 and ended.stdout.startswith("rsp-gdb: ") and ended.stdout.count("\n") == 1
    assert FAULTS[words] in ended.stdout


def test_script() -> None:
    """After a script the machine is what the steps of its program make of it."""
    text = """lqv $v1[0], 0($0)\nvmudh $v2, $v1, $v1\nvch $v3, $v1, $v2\nvrcph $v4[0], $v1[1]\nmtc0 $1, $c0
mfc0 $5, $c7\nvaddc $v5, $v1, $v1\nlui $6, 0x8123\nmtc0 $6, $c1\njr $6\naddiu $7, $0, -1\nbreak"""
    data, expected = random.Random(3).randbytes(16), loaded(text)
    script = f"load dmem 0 {data.hex()}\nasm 0\n{text}\nend\nrun 10\nload rdram 8 01\n"
    machine = after_script(script.encode(), bytes(4096))
    expected.load(rsp.DMEM, 0, data)
    expected.run(10)
    expected.load(rsp.RDRAM, 8, b"\1")
    assert machine.get() == expected.get() and machine.regs().npc != machine.regs().pc + 4
    for bank in rsp.Bank:
        assert machine.memory(bank, 0, 4096) == expected.memory(bank, 0, 4096)


def stub() -> Stub:
    return Stub(rsp.Timeline(loaded(SCALE)), lambda: False)


def test_packets() -> None:
    """Wrong ones change nothing; limits have a message; and others have a reply."""
    asked, chance = stub(), random.Random(1)
    before = asked.reply(b"g"), asked.reply(b"m4000000,1f00")
    wrong = (
        b"m1 m80001000,4 m20000000,4 M0,2:00 M4000fff,2:0000 X0,1: P0 P26=00000000 P25=00 P999=00 Z Z0,x,4"
        b" Z0,80000000,4 Z2,0,0 Z2,4000fff,2 Z2,0,ffffffff qRcmd,0 vCont;t Z3,0,4 bx m-1,4 m0,-1 m4000000,"
        b" m0,0x4 mffffffffffffffffffffffff,4 M0,100000000: P100000000=00 Z2,100000000,4 Z0,4001000,4,4"
        b" qXfer:features:read:target.xml:-1,5 qRcmd,zz qrsp.text P81=00000001 vCont;x z9,0,4"
    )
    for packet in wrong.split():
        reply = asked.reply(packet)
        assert reply is not None and (not reply or reply.startswith(b"E")), packet
    assert (asked.reply(b"g"), asked.reply(b"m4000000,1f00")) == before
    replies = [asked.reply(b"Z0,400%x,4" % n) for n in range(0x1000, 0x1044, 4)]
    most = b"E.there are at most sixteen breakpoints, one of them GDB's own"
    assert replies == [b"OK"] * 16 + [most]
    replies = [asked.reply(it) for it in (b"Z2,0,1c1", b"Z2,8,40", b"z2,0,1c1", b"Z2,0,200", b"Z2,0,201")]
    many = b"E.there are at most eight watches of at most 64 bytes"
    assert replies == [b"OK", many, b"OK", b"OK", many]
    assert asked.reply(b"M4001ff8,4:0d00040a") == b"OK"  # a linker's word
    assert bytes.fromhex((asked.reply(b"qrsp.texts") or b"").decode()).endswith(b"\nff8 0d00040a jal 0x028")
    for _ in range(3000):
        packet = bytes(
            chance.choice(b"0123456789abf,;:=gmMXPpZzqQvbT?H\xff") for _ in range(chance.randrange(12))
        )
        assert isinstance(asked.reply(packet), bytes), packet
    asked = stub()
    asked.line.goto(60)
    asked.asked = lambda: True  # Ctrl-C
    replies = [(asked.reply(it) or b"")[:3] for it in (b"Z2,0,4", b"bc", b"bs", b"c", b"s")]
    assert replies == [b"OK", *4 * [b"T02"]]


def replied(asked: Stub, *words: str) -> List[str]:
    """Where a command of `monitor` was, again and again, and its reply."""
    done, reply = asked.monitor.begin(*words)
    replies = [reply]
    while not done:
        done, reply = asked.monitor.more()
        replies.append(reply)
    return replies


def test_wrote(monkeypatch: pytest.MonkeyPatch) -> None:
    """`monitor wrote` finds in COOKBOOK's loop what the page says. It stays if there is nothing, however long
    it has searched, and if it is refused, the next run isn't over before it begins."""
    begin = "        ori   $1, $0, 4\n        lqv"
    command, reply = block_with("docs/COOKBOOK.md", begin, 1).strip().split("\n")
    line = rsp.Timeline(loaded(block_with("docs/COOKBOOK.md", begin)), 4)
    line.run_to(18)
    asked = Stub(line, lambda: False)
    assert replied(asked, *command.split()[2:]) == [f"{reply}\n"] and line.step == 17
    line.goto(18)
    assert replied(asked, "wrote", "$r9") == ["no step from 0 to 18 has changed $r9\n"] and line.step == 18
    monkeypatch.setattr(rsp.gdb_monitor, "SLICE", -1)  # each search has taken too long at once
    parts = replied(asked, "wrote", "$v02")
    assert len(parts) > 2 and parts[-1] == "no step from 0 to 18 has changed $v02\n" and line.step == 18
    line.goto(5)
    assert replied(asked, "wrote", "$v32")[0].startswith("fault: $v32 isn't a register")
    assert (asked.reply(b"s") or b"").startswith(b"T05") and line.step == 6


WRITES = """ori $17, $0, 5
mtc2 $17, $v3[4]
sqv $v3[0], 0($0)
vadd $v3, $v3, $v3
break"""
# Which step the machine is at, what is asked, and what the reply has: the values are 5, and 5 + 5.
EXPLAINED = (
    (
        1,
        "$s1",
        ["ori $17, $0, 0x0005: r17 is 00000005 after it", "ScalarRules.antt", "immediate_result Ori s imm"],
    ),
    (2, "$v3.2", ["mtc2 $17, $v3[4]: v3.2 is 0005 after it", "Moves.antt", "value = 5 (r17)"]),
    (3, "0x04000005", ["dmem.005 is 05 after it", "Stores.antt", "store_pairs Sqv vt e a"]),
    (4, "acc.2", ["a2 is 00000000000a after it", "Adds.antt", "vadd a b f", "a = 5 (v3.2), b = 5 (v3.2)"]),
    (4, "carry.2", ["carry.2 is 0 after it", "vco_cleared"]),
    (4, "$s1", ["No clause writes it"]),
    (5, "c4", ["break: c4 is 00000003 after it", "after_break s = record s { halted = true; broke = true"]),
    (0, "$s1", ["fault: no step was made"]),
    (4, "$v32.0", ["fault: why: v has a number from 0 to 31"]),
    (4, "0x05000000", ["fault: why: '0x05000000' is no value"]),
)


@pytest.mark.parametrize("step, name, parts", EXPLAINED)
def test_why(step: int, name: str, parts: List[str]) -> None:
    """`monitor why` explains what the last step put there."""
    asked = Stub(rsp.Timeline(loaded(WRITES)), lambda: False)
    asked.line.goto(step)
    assert_parts(replied(asked, "why", name)[-1], parts)
    assert asked.line.step == step


def test_why_of_the_writing_step() -> None:
    """After `monitor wrote`, `monitor why` explains the step that it has found; alone it tells refusals."""
    asked = Stub(rsp.Timeline(loaded(WRITES)), lambda: False)
    asked.line.goto(5)
    assert replied(asked, "wrote", "$v3[2]")[0].startswith("step 3: ")
    assert_parts(replied(asked, "why", "$v3.2")[-1], ["vadd $v3, $v3, $v3: v3.2 is 000a after it"])
    assert replied(asked, "why") == ["nothing was refused\n"]


NAMES = """at a0 a1 a2 a3 t0 t1 t2 t3 t4 t5 t6 t7 s0 s1 s2 s3 s4 s5 s6 s7
t8 t9 k0 k1 gp sp fp s8 ra""".split()


def test_names() -> None:
    """`wrote` takes the assembler's names of scalar registers, with `$` and without."""
    line = rsp.Timeline(loaded("\n".join(f"addiu ${n}, $0, 1" for n in range(1, 32))))
    for name in NAMES:
        number = rsp.assemble(f"mtc0 ${name}, $c0")[0] >> 16 & 31
        for written in name, f"${name}", f"$r{number}":
            line.run_to(31)
            assert line.wrote(written) == (rsp.Reason.WATCH, number - 1, None), written
    line.run_to(31)
    assert line.wrote("$zero") == line.wrote("zero") == (rsp.Reason.LIMIT, 0, None)
    for name in "$$t0", "t$0", "$t0[0]", "$s9", "T0":
        pytest.raises(ValueError, line.wrote, name)


def test_semaphore() -> None:
    """A read by `monitor` takes it, which going back and forth doesn't undo."""
    asked = stub()
    asked.line.goto(10)
    assert asked.reply(b"qRcmd," + b"read 7".hex().encode()) == b"c7 00000000\n".hex().encode()
    assert (asked.line.goto(5), asked.line.goto(10), asked.line.machine.peek(7)) == (5, 10, 1)


def test_wire() -> None:
    """A wrong sum, a packet in parts, one that is sent again, one that is too long, and Ctrl-C, whose byte is
    data in a packet."""
    source, to = os.pipe()
    sent: List[bytes] = []
    wire = Wire(source, sent.append)
    wire.send(b"a#")
    os.write(to, b"+$g#66-$?#3")
    os.write(to, b"f\3")
    assert wire.packet(lambda: True) == b"?" and sent == [b"$a}\3#e1", b"-", sent[0], b"+"]
    assert wire.interrupted() and not wire.interrupted()
    os.write(to, b"\3$s#73")  # Ctrl-C before a run is for this run
    assert wire.packet(lambda: False) == b"s" and wire.interrupted() and not wire.interrupted()
    os.write(to, b"$c#63$X0,1:\3#22")
    assert wire.packet(lambda: False) == b"c" and not wire.interrupted()
    assert wire.packet(lambda: False) == b"X0,1:\3" and not wire.interrupted()
    os.write(to, b"$" + 0x5000 * b"a" + b"$m#6d")
    assert wire.packet(lambda: False) is None
    os.close(to)
    assert wire.packet(lambda: True) is None and wire.interrupted()
    os.close(source)
