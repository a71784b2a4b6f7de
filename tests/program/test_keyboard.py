"""What helps those who type: the greeting of a terminal, and what `rsp run --explain` says of faults.

They fail if a terminal isn't greeted, or anything else is; if the greeting lacks a command; if an explanation
names another line or form than docs/data has; or if standard error that takes nothing changes a run.
"""

import os
import pty
import re
import subprocess
from pathlib import Path
from typing import Any, Dict, List

import pytest

from lib.pages import data
from lib.program import Result, run_program

STEP, STEPPED = b"step\n", b"step Done pc 004\n"
COMMANDS = [row["Command"] for row in data("commands")]
PIPES: Dict[str, Any] = {"stdout": subprocess.PIPE, "stderr": subprocess.PIPE}


def type_step(program: Path, *words: str, script: bytes = STEP, **streams: Any) -> Result:
    """Runs the program in a terminal, which is the streams that aren't named; `step` and Ctrl-D are typed.

    The errors are what the terminal shows after what was typed, if standard error is there.
    """
    terminal, inside = pty.openpty()
    os.write(terminal, script + b"\4")
    streams = {name: streams.get(name, inside) for name in ("stdin", "stdout", "stderr")}
    result = run_program(program, words, **streams)
    os.close(inside)
    if streams["stderr"] == inside:
        shown = os.read(terminal, 65536).replace(b"\r\n", b"\n")
        result = result._replace(errors=shown.rpartition(b"\b\b")[2])
    os.close(terminal)
    return result


def after_greeting(errors: bytes) -> List[str]:
    """The lines after the greeting: each command's name, the help, how to end. All of them fit a terminal."""
    last = "'rsp help run' shows their operands. Ctrl-D ends the script.\n"
    greeting, _, rest = errors.decode().partition(last)
    assert {*re.findall(r"\w+", greeting.partition(":")[2])} == {command.split()[0] for command in COMMANDS}
    assert max(map(len, errors.splitlines())) <= 80
    return rest.splitlines()


def test_greeting(program: Path) -> None:
    """A terminal that is standard input is greeted, and told of `--explain` if that isn't on."""
    status, output, errors = type_step(program, "run", **PIPES)
    assert (status, output) == (0, STEPPED) and "--explain" in after_greeting(errors)[0]
    assert after_greeting(type_step(program, "run", "--explain", **PIPES).errors) == []


SESSION = b"help\nstep 5\nasm 0\n  lqv $v1, 4 ($2)\n  foo\nend\n"


def test_session(program: Path) -> None:
    """If standard error is a terminal, too, faults are explained, without what replies have said there."""
    lines = after_greeting(type_step(program, "run", script=SESSION).errors)
    heads = [line for line in lines if re.match(r"fault|line|  (line:|\|) ", line)]
    assert heads[:2] == ["fault 30 BadCommand"] * 2 and lines[-1] not in heads
    assert heads[2] == "fault 12 BadOperand line 1" and heads[3].endswith(" lqv $v1, 4 ($2)")
    assert heads[4] == "line 5: fault 11 UnknownName line 2" and heads[5].endswith(" foo") and not heads[6:]
    apart = type_step(program, "run", script=SESSION, stdout=subprocess.PIPE)
    assert apart.output == run_program(program, ["run"], SESSION).output
    assert after_greeting(apart.errors)[0] == "line 1: fault 30 BadCommand"


def test_long_session(program: Path) -> None:
    """There is no most number of faults that are explained, as there is for a file."""
    lines = after_greeting(type_step(program, "run", script=b"regs 5\n" * 25).errors)
    assert lines[::2] == ["fault 30 BadCommand"] * 25 and {*lines[1::2]} == {lines[1]} != {lines[0]}


def test_no_greeting(program: Path, folder: Path) -> None:
    """No other standard input is greeted, nor a terminal of which no script is read."""
    (folder / "script").write_bytes(STEP)
    assert type_step(program, "run", str(folder / "script"), **PIPES) == (0, STEPPED, b"")
    missing = b"rsp: cannot read missing\n"
    assert type_step(program, "run", "--rdram", "missing", **PIPES) == (1, b"", missing)
    with open(folder / "script", "rb") as script:
        assert type_step(program, "run", stdin=script, stderr=subprocess.PIPE).errors == b""
    assert run_program(program, ["run"], STEP) == (0, STEPPED, b"")


def test_greeting_that_fails(program: Path) -> None:
    with open("/dev/full", "wb") as full:
        assert type_step(program, "run", stdout=subprocess.PIPE, stderr=full)[:2] == (0, STEPPED)


NAMES = """expected: load asm step run break unbreak watch unwatch back pc read write
            task regs vregs acc flags sp mem dis"""
# Lines that are refused, with the advice after the text of the line.
REFUSED = {
    "mem dmem 0x200": "expected: mem BANK ADDR LEN, and BANK is dmem, imem or rdram",
    "mem rom 0 4": "expected: mem BANK ADDR LEN, and BANK is dmem, imem or rdram",
    "step 5  # five": "expected: step\n  help: run 5 makes 5 steps",
    "step x": "expected: step",
    "STEP": "expected: step\n  help: write commands and banks in lower case",
    "mem DMEM 0": "expected: mem BANK ADDR LEN, and BANK is dmem, imem or rdram\n"
    "  help: write commands and banks in lower case",
    "load dmem 0 12 34": "expected: load BANK ADDR HEX, and BANK is dmem, imem or rdram\n"
    "  help: HEX has no 0x and no blanks",
    "disassemble 0": "help: is `dis ADDR N` meant?",
    "info regs": "help: is `regs` meant?",
    "C": "help: is `run N` meant?",
    "stpe": "help: is `step` meant?",
    "unwacth 0": "help: is `unwatch K` meant?",
    **dict.fromkeys(("end", "END"), "help: end comes only after asm ADDR and the lines of its block"),
    **dict.fromkeys(
        ("addiu $1, $0, 1", "li $1, 5", ".half 1", "nop", "loop: nop"),
        "help: write asm ADDR, then lines of assembly text, then end",
    ),
    **dict.fromkeys(
        ("quit", "exit", "q"), "help: Ctrl-D ends the script if you type it; from a file, leave the line out"
    ),
    **dict.fromkeys(("help", "?"), f"{NAMES}\n  help: Ctrl-D ends the script"),
    "xyzzy": NAMES,
}


@pytest.mark.parametrize("line", REFUSED)
def test_refused_command(line: str, rsp: Any) -> None:
    errors = f"line 2: fault 30 BadCommand\n  | {line}\n  {REFUSED[line]}\n".encode()
    result = rsp("run", "--explain", script=f"step\n{line}\n".encode())
    assert result == (0, STEPPED + b"fault 30 BadCommand\n", errors)


@pytest.mark.parametrize("command", [it for it in COMMANDS if "ADDR" in it or it.split()[-1] in "NK"])
def test_refused_number(command: str, rsp: Any) -> None:
    """Each command that takes a number is explained by its form and its range in the table."""
    line = re.sub(r" [A-Z]+", " x", command.replace("BANK", "dmem"))
    errors = rsp("run", "--explain", script=line.encode()).errors.decode()
    ranges = {row["Command"].split()[0]: row["Range of its numbers"] for row in data("commands")}
    range_ = ranges[command.split()[0].replace("unbreak", "break")]
    assert errors.startswith(f"line 1: fault 31 BadNumber\n  | {line}\n  expected: {command}: {range_}\n")


# Lines with the last line that is said of them.
LAST = {
    "break 010": "help: 010 is 10 in decimal; write 0x010 if it is hexadecimal, as in replies",
    "break 01 02": "expected: break ADDR",
    "mem 010 4": "help: 010 is 10 in decimal; write 0x010 if it is hexadecimal, as in replies",
    "mem dmem 04095 4": "help: 04095 is 4095 in decimal; write 0x04095 if it is hexadecimal, as in replies",
    "unbreak 0012": "help: 0012 is 12 in decimal; write 0x0012 if it is hexadecimal, as in replies",
    "watch 0100 65": "help: 0100 is 100 in decimal; write 0x0100 if it is hexadecimal, as in replies",
    "watch 010 0": "help: 010 is 10 in decimal; write 0x010 if it is hexadecimal, as in replies",
    "load dmem 4095 0102": "help: DMEM and IMEM have 4096 bytes, RDRAM as many as the file of --rdram",
    "load dmem 010 012": "help: 010 is 10 in decimal; write 0x010 if it is hexadecimal, as in replies",
    "load dmem 10 012": "help: numbers are decimal, or 0x and hexadecimal",
    "break 09": "help: numbers are decimal, or 0x and hexadecimal",
    "step 012  # 034": "help: 012 is 12 in decimal; write 0x012 if it is hexadecimal, as in replies",
    "run 0": "note: N isn't 1 to 1,000,000",
    "load dmem 0 0x12": "help: HEX has no 0x and no blanks",
    "mem dmem 0 0x1000": "help: numbers are decimal, or 0x and hexadecimal",
    "read SP_STATUS": "help: SP_STATUS is SP register 4: read 4",
    "asm 0\nEnd": "help: write end in lower case, alone in line 2, which is: End",
    "watch 0 0": "note: LEN isn't 1 to 64, or the bytes aren't all inside DMEM",
    "\ufeffstep": "help: save the file without a byte-order mark",
}
FAULTS = [it for it in data("faults") if re.match(r"([456]|2\d) ", it["Fault"]) and it["Example"][0] != "$"]


@pytest.mark.parametrize("fault", FAULTS, ids=lambda it: it["Fault"])
def test_other_fault(fault: Any, rsp: Any) -> None:
    """It is explained by the words of the table, without the marks of its page."""
    lines = fault["Example"].split(" / ")
    errors = rsp("run", "--explain", script="\n".join(lines).encode()).errors.decode()
    head = f"line {len(lines)}: fault {fault['Fault']}\n  | {lines[-1]}\n  note: "
    assert errors.startswith(head) and errors.count("\n") == 4
    cells = (re.sub(r"\[([^]]*)\]\([^)]*\)", r"\1", fault[it]) for it in ("Cause", "What helps"))
    cause, what_helps = (cell.replace("`", "") for cell in cells)
    note, help_ = re.findall(r"(?m)^  (?:note|help): (.*)$", errors)
    assert cause.endswith(note) and help_ == what_helps


@pytest.mark.parametrize("line, advice", LAST.items())
def test_last_advice(line: str, advice: str, rsp: Any) -> None:
    errors = rsp("run", "--explain", script=f"{line}\n".encode()).errors.decode()
    assert errors.splitlines()[-1] == f"  {advice}"


BLOCKS = b"""step
asm 0
  lw $1, 4 ($2)
  foo
end
asm 8
  j x
end
asm 0
nop
end # done
regs
"""
IN_BLOCKS = """\
script:3: fault 12 BadOperand line 1
  | lw $1, 4 ($2)
  operand 2: 4 ($2)
  expected: a number or a label, -32768 to 65535, and a scalar register in parentheses
  try: 4($2)
script:4: fault 11 UnknownName line 2
  | foo
  name: foo
script:7: fault 15 LabelMissing line 1
  | j x
  operand 1: x
  expected: the label of a line, or 0 to 4092, a multiple of 4
script:13: fault 10 BadLine line 4
  | (none)
  expected: end, for the block of line 9
  help: write end in lower case, alone in line 11, which is: end # done
"""


def test_blocks(rsp: Any, folder: Path) -> None:
    """A fault of a block names the line of the script; all faults of a block's first pass are explained."""
    (folder / "script").write_bytes(BLOCKS)
    assert rsp("run", "script", "--explain").errors.decode() == IN_BLOCKS


def test_more_than_twenty(rsp: Any) -> None:
    result = rsp("run", "--explain", "--strict", script=b"foo\n" * 23)
    assert result.status == 1 and result.errors.count(b": fault 30 BadCommand\n  | foo\n") == 20
    ending = b".. and 3 more\nrsp: faults in replies: 23, the first in line 1: fault 30 BadCommand\n"
    assert result.errors.endswith(ending)


@pytest.mark.parametrize("words", (["run", "--explain"], ["run", "--explain", "--strict"]), ids=" ".join)
def test_errors_that_fail(words: List[str], rsp: Any) -> None:
    with open("/dev/full", "wb") as full:
        result = rsp(*words, script=b"foo\nstep\n", stderr=full)
    assert result[:2] == (int("--strict" in words), b"fault 30 BadCommand\n" + STEPPED)


def test_reply_comes_first(rsp: Any) -> None:
    """In one file the explanation follows its reply."""
    output = rsp("run", "--explain", script=b"foo\nstep\n", stderr=subprocess.STDOUT).output
    assert re.fullmatch(rb"fault 30 BadCommand\nline 1: (?s:.*)\n" + STEPPED, output)
