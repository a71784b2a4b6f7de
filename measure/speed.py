"""Prints what steps and lines of scripts cost.

These are host instructions, as valgrind's callgrind counts them, for each step of three loops: scalar
instructions, vector computing instructions, and both mixed with loads and stores. The last three instructions
of each loop, an addition, a branch and its delay slot, count as steps too. The steps are made by calls of the
library for C (measure/speed.c), without a history and with one of 100 states, and by the program's
`run`, which records its steps too: with nothing to stop at, with a breakpoint that is never reached, and with
a watch of bytes that never change. Then follow calls without a step, single instructions, each in a loop of
602 words that repeats it, and lines of a script: what the program takes to read one, to carry it out and to
write its reply. --write measures the tables of calls and of single instructions, writes them into docs/data,
and makes the tables of docs/SPEED.md of them.

A figure is the difference between a long and a short run, divided by the difference of their steps or lines.
The figure of a call includes some five host instructions for the loop that makes the calls. callgrind counts
a `rep stosb`, by which memory is cleared, once for each byte.

A change of one line can cost each step some 60 host instructions. After a change of the decoder, run
`nm crates/rsp_main/out/rsp | grep Machine::perform`: if this lists a function, LLVM doesn't inline the
execution of an instruction, and steps are slower.

With --time, `run` and the plugin z64 take turns, and the least time counts, so that other work disturbs
little. --stalls compares the times of VMOV and VAND in the same way, because no count shows how long a
processor waits for what it has just written. It needs library/c/build, cc and valgrind, and for --z64 and
--time Debian's mupen64plus-rsp-z64.
"""

import os
import re
import resource
import subprocess
import sys
import tempfile
from concurrent.futures import ThreadPoolExecutor
from pathlib import Path
from typing import Callable, Dict, Iterable, Iterator, List, Sequence, Tuple

from lib import z64
from lib.processes import STRICT, compiled, succeeds
from measure import LIBRARY, PROGRAM, need, parser_of
from rsp_tools import page_tables

SHORT, LONG = 20_480, 61_440  # in steps: multiples of the 1,024 that one call of brsp_trace makes
SHORT_SCRIPT, LONG_SCRIPT = 2_000, 4_000  # in lines
TURNS = 9
SHORT_TIME, LONG_TIME = 1_000_000, 21_000_000  # in steps
MOST_STEPS = 1_000_000  # of one line `run`

# $20 at the data, four registers loaded; then the loop.
PROLOGUE = "34140200 ca812000 ca822001 ca832002 ca842003"
# addiu $2, $2, -1; bne $2, $0, loop; nop
LOOPS = {
    "scalar": """
        24630001 00832026 00032880 00a43021 ac060100 8c070100 00c7402a 34c90055 2442ffff 1440fff6 00000000""",
    "vector": """
        4a020946 4b22098d 4a4419cf 4a030a04 4aa20a40 4b841a88 4a050ad0 4a073314 4a694351 4a0b53a5 4a0d63e4
        4a020c27 4a041c60 4a1184a8 4b2004dd 4b230d30 2442ffff 1440ffee 00000000""",
    "mixed": """
        24630001 4a020946 ca952004 00832026 4a4419cf ea852008 00032880 4aa20a40 ca961c03 00a43021 4a050ad0
        ea860928 ac060100 4a694351 ca973005 8c070100 4a0d63e4 ea87380c 00c7402a 4a041c60 ca982804 34c90055
        4b2004dd ea881806 2442ffff 1440ffe6 00000000""",
}
BREAK = "0000000d"
DATA = bytes((i * 37 + 11) % 256 for i in range(4096))

# How speed.c makes steps, and what a script has before its line `run`.
CALLS = {
    "`brsp_run`, all steps in one call": "run",
    "`brsp_run_until_move`, all steps in one call": "until",
    "`brsp_event`, all steps in one call": "event",
    "`brsp_step`": "step",
    "`brsp_trace` of 1,024 steps": "trace",
    "`brsp_run` of one step": "run1",
    "`brsp_step_changes`": "changes",
    "`brsp_event` of one step": "event1",
}
STOPS = {
    "`run` in a script, which has a history of 256 states": "",
    "the same, while a breakpoint is set": "break 4092",
    "the same, while four bytes are watched": "watch 4000 4",
}
OTHER_CALLS = ("reg", "get", "set", "read", "write")
# Instructions in a long `brsp_run`: how speed.c makes it, and the line of the text.
SINGLE = {
    "LW": ("run", "lw $1, 4($20)"),
    "SW": ("run", "sw $1, 4($20)"),
    "SH": ("run", "sh $1, 4($20)"),
    "SW, while other bytes are watched": ("run+watch", "sw $1, 4($20)"),
    "MFC2": ("run", "mfc2 $1, $v2[4]"),
    "MFC0 of SP_STATUS": ("run", "mfc0 $1, $c4"),
    "MTC0 of SP_STATUS": ("run", "mtc0 $0, $c4"),
}
VMOV, VAND = "vmov $v1[1], $v2[1]", "vand $v1, $v2, $v3"
# The columns of the two tables in docs/data, whose names with `.tsv` these are.
COLUMNS = {
    "speed": [
        "By",
        "Scalar code",
        "Vector code",
        "Mixed code",
        "With a history of 100 states, add",
        "Commit",
    ],
    "speed_single": ["What", "Host instructions", "Commit"],
}
# Lines of a script. They are carried out while IMEM has a loop of two words, `j 0` and `nop`.
COMMANDS = "step|run 1|pc 0|read 4|write 4 0|regs|vregs|acc|flags|sp|mem dmem 0 256|dis 0 64"
LINES = {
    **{f"`{line}`": line for line in COMMANDS.split("|")},
    "`load dmem 0` with 100 bytes": f"load dmem 0 {DATA[:100].hex()}",
    "no bytes": "",
    "`# a comment line`": "# a comment line",
}
Command = Tuple[Sequence[object], bytes]  # a command, and its standard input
CommandOf = Callable[[int], Command]  # the command for a number of steps, lines or calls


def code(name: str, rounds: int = 0x7FFFFFFF, ending: str = "") -> bytes:
    """A loop's code, with a counter in $2. No run uses up the default count."""
    counter = f"3c02{rounds >> 16:04x} 3442{rounds & 0xFFFF:04x}"
    return bytes.fromhex(" ".join((counter, PROLOGUE, LOOPS[name], ending)))


def host_instructions(command: Command, options: Sequence[str] = ()) -> int:
    """How many host instructions a command executes."""
    valgrind = ["valgrind", "--tool=callgrind", "--callgrind-out-file=/dev/null", *options]
    env = {**os.environ, "PYTHONHASHSEED": "0"}  # because Python's start is the same with the same hashes
    words = [*valgrind, *map(str, command[0])]
    messages = subprocess.run(words, input=command[1], capture_output=True, env=env).stderr
    counted = re.search(rb"Collected : (\d+)", messages)
    if not counted:
        sys.exit(f"valgrind counted nothing: {messages[-600:].decode(errors='replace')}")
    return int(counted[1])


def figure(command_of: CommandOf, short: int = SHORT, long: int = LONG) -> float:
    """Host instructions a step, a line or a call."""
    with ThreadPoolExecutor(2) as pool:
        more, fewer = pool.map(host_instructions, map(command_of, (long, short)))
    return (more - fewer) / (long - short)


def script(imem: bytes, *commands: str) -> bytes:
    """A script that loads code and the data, and gives further commands."""
    lines = [
        f"load {bank} {at} {data[at : at + 64].hex()}"
        for bank, data in (("imem", imem), ("dmem", DATA))
        for at in range(0, len(data), 64)
    ]
    return "\n".join([*lines, *commands, ""]).encode()


def by_calls(caller: Path, how: str, name: str, depth: int = 0) -> CommandOf:
    """The steps of a loop, made by calls of the library."""
    text = "".join(f".word 0x{word}\n" for word in code(name).hex(" ", 4).split())
    return lambda steps: ([caller, how, depth, steps, text], b"")


def by_line(caller: Path, how: str, line: str) -> CommandOf:
    """The steps of a loop of 600 times the same instruction, made by calls of the library."""
    text = "\n".join(["ori $20, $0, 0x80", "start:", *[line] * 600, "j start", "nop", ""])
    return lambda steps: ([caller, how, 0, steps, text], b"")


def by_script(name: str, before: str = "") -> CommandOf:
    """The steps of a loop, made by lines `run`: one, or as many of MOST_STEPS as they take."""

    def command(steps: int) -> Command:
        runs = [f"run {min(steps, MOST_STEPS)}"] * -(-steps // MOST_STEPS)
        return [PROGRAM, "run"], script(code(name), before, *runs)

    return command


def on_z64(name: str) -> CommandOf:
    """The steps of a loop on z64, which ends after a number of rounds."""
    length, words = len(LOOPS[name].split()), [sys.executable, z64.__file__]
    return lambda steps: (words, code(name, steps // length, BREAK).ljust(4096, b"\0") + DATA)


def compile_caller(folder: Path, library: Path = LIBRARY) -> Path:
    """The program that makes steps by calls of a library."""
    return compiled(folder / "speed", *STRICT, Path(__file__).with_suffix(".c"), library)


def seconds(command: Command) -> float:
    """The seconds of a processor that a command takes."""
    before = resource.getrusage(resource.RUSAGE_CHILDREN).ru_utime
    subprocess.run([*map(str, command[0])], input=command[1], stdout=subprocess.DEVNULL, check=True)
    return resource.getrusage(resource.RUSAGE_CHILDREN).ru_utime - before


def nanoseconds(*commands: CommandOf) -> Sequence[float]:
    """Nanoseconds a step of commands that take turns."""
    times = [
        [seconds(command_of(steps)) for command_of in commands for steps in (SHORT_TIME, LONG_TIME)]
        for _ in range(TURNS)
    ]
    least = [min(column) for column in zip(*times)]
    return [1e9 * (long - short) / (LONG_TIME - SHORT_TIME) for short, long in zip(least[::2], least[1::2])]


def texts_of(figures: Iterable[float]) -> List[str]:
    return [f"{it:,.1f}" if it < 1000 else f"{it:,.0f}" for it in figures]


def print_row(title: str, figures: Iterable[float]) -> None:
    print(f"| {title} | {' | '.join(texts_of(figures))} |", flush=True)


def print_heading(title: str, names: Iterable[str] = LOOPS) -> None:
    print(f"| {title} | {' | '.join(names)} |\n|---|{'---|' * len([*names])}", flush=True)


def steps_of(caller: Path, title: str) -> Callable[[str], CommandOf]:
    """How the steps of a row are made, of the loop with a name."""
    if title in STOPS:
        return lambda name: by_script(name, STOPS[title])
    return lambda name: by_calls(caller, CALLS[title], name)


def row_of_steps(caller: Path, title: str) -> List[str]:
    """The figures of a row for all loops, and what a history adds to them."""
    figures = [figure(steps_of(caller, title)(name)) for name in LOOPS]
    if title in STOPS:
        return [*texts_of(figures), ""]
    more = [figure(by_calls(caller, CALLS[title], name, 100)) - it for name, it in zip(LOOPS, figures)]
    return [*texts_of(figures), f"{min(more):.0f} to {max(more):.0f}"]


def single_of(caller: Path, title: str) -> CommandOf:
    """How the calls or the steps of a row are made that has one figure."""
    return by_line(caller, *SINGLE[title]) if title in SINGLE else by_calls(caller, title[6:-1], "scalar")


def measured_tables(caller: Path) -> Iterator[Tuple[str, List[str]]]:
    """Each row of the two tables, without its commit, after the table's name."""
    for title in (*CALLS, *STOPS):
        yield "speed", [title, *row_of_steps(caller, title)]
    for title in (*(f"`brsp_{it}`" for it in OTHER_CALLS), *SINGLE):
        yield "speed_single", [title, *texts_of([figure(single_of(caller, title))])]


def print_steps() -> Dict[str, List[List[str]]]:
    """Prints the rows of both tables, and returns them."""
    rows: Dict[str, List[List[str]]] = {name: [] for name in COLUMNS}
    with tempfile.TemporaryDirectory() as folder:
        for table, row in measured_tables(compile_caller(Path(folder))):
            if not rows[table]:
                print_heading(COLUMNS[table][0], COLUMNS[table][1:-1])
            rows[table].append(row)
            print(f"| {' | '.join(row)} |", flush=True)
    return rows


def write_tables(rows: Dict[str, List[List[str]]]) -> None:
    """Writes both tables, and the page that has them."""
    commit = succeeds("git", "rev-parse", "--short=8", "HEAD").strip()
    for name, lines in rows.items():
        text = "".join("\t".join(line) + "\n" for line in [COLUMNS[name], *([*it, commit] for it in lines)])
        (page_tables.DATA / f"{name}.tsv").write_text(text)
    page_tables.write()


def print_lines(lines: Dict[str, str] = LINES) -> None:
    print_heading("Host instructions a line", [""])
    for title, line in lines.items():

        def repeated(count: int) -> Command:
            return [PROGRAM, "run"], "\n".join(["load imem 0 08000000", *[line] * count, ""]).encode()

        print_row(title, [figure(repeated, SHORT_SCRIPT, LONG_SCRIPT)])


def print_z64() -> None:
    print_heading("Host instructions a step")
    print_row("z64", [figure(on_z64(name)) for name in LOOPS])


def print_stalls() -> None:
    with tempfile.TemporaryDirectory() as folder:
        caller = compile_caller(Path(folder))
        vmov, vand = nanoseconds(*(by_line(caller, "run", line) for line in (VMOV, VAND)))
    print_heading("Times as long", [""])
    print_row("VMOV / VAND", [vmov / vand])


def print_times() -> None:
    print_heading("Nanoseconds a step")
    ours, others = zip(*(nanoseconds(by_script(name), on_z64(name)) for name in LOOPS))
    print_row("`run`", ours)
    print_row("z64", others)
    print_row("z64 / `run`", [b / a for a, b in zip(ours, others)])


def main() -> None:
    parser = parser_of(__doc__)
    group = parser.add_mutually_exclusive_group()
    group.add_argument("--z64", action="store_true", help="steps of the same loops on z64")
    text = "the nanoseconds of a processor that a step takes, ours and z64's"
    group.add_argument("--time", action="store_true", help=text)
    group.add_argument("--line", metavar="LINE", help="this line of a script alone")
    group.add_argument("--stalls", action="store_true", help="how many times as long as a VAND a VMOV takes")
    group.add_argument("--write", action="store_true", help="the tables in docs, which it writes")
    arguments = parser.parse_args()
    need(
        *["valgrind"] * (not arguments.time and not arguments.stalls),
        *[z64.PLUGIN] * (arguments.z64 or arguments.time),
    )
    if arguments.line:
        print_lines({f"`{arguments.line}`": arguments.line})
    elif arguments.z64 or arguments.time:
        (print_z64 if arguments.z64 else print_times)()
    elif arguments.stalls:
        need("cc")
        print_stalls()
    else:
        need("cc")
        rows = print_steps()
        if arguments.write:
            write_tables(rows)
        else:
            print()
            print_lines()


if __name__ == "__main__":
    main()
