"""Prints what the plugin takes, beside Debian's z64.

These are host instructions, as valgrind's callgrind counts them: of each emulated instruction of the three
loops of measure.speed; of a loop with one stop of the run; and of a task, also in check mode. A figure is the
difference between a long and a short run, divided by that of their counts. It needs library/c/build, valgrind
and z64, and with --rom mupen64plus and a compiler for MIPS.
"""

import re
import tempfile
from pathlib import Path
from typing import List, Sequence

from lib.plugin import CORE, HEADERS, Z64, Bench, speed_task, start_lines
from measure import PROGRAM, need, parser_of
from measure.speed import DATA, LOOPS, PROLOGUE, host_instructions, print_heading, print_row

# Signals of check mode need exact registers under valgrind.
EXACT = ("--px-default=allregs-at-mem-access", "--px-file-backed=allregs-at-mem-access")
TURN = "addiu $2, $2, -1\nbne $2, $0, loop\nnop\nbreak\n"
SETTING = "lw $2, 0xff0($0)\nori $3, $0, %d\nlui $5, 2\nori $6, $0, 0x100\nloop: mtc0 $6, $c0\nmtc0 $5, $c1\n"
STOPS = {
    f"{length} bytes {way}": SETTING % (length - 1) + f"mtc0 $3, $c{register}\n{TURN}"
    for length in (8, 256)
    for way, register in (("in", 2), ("out", 3))
}
for name, register in (("SP_STATUS", 4), ("SP_DMA_BUSY", 6)):
    STOPS[f"a read of {name}"] = SETTING % 0 + f"mfc0 $4, $c{register}\n{TURN}"


def driven(bench: Bench, plugin: Path, lines: Sequence[str], rounds: int, tasks: int) -> int:
    """Host instructions of tasks whose rounds are as many as ff0 says."""
    script = [*lines, f"put dmem ff0 {rounds:x} 128000", f"tasks {tasks}", ""]
    return host_instructions(([bench.driver, plugin], "\n".join(script).encode()), EXACT)


def per_round(bench: Bench, plugin: Path, lines: Sequence[str], short: int = 500, long: int = 1500) -> float:
    costs = [driven(bench, plugin, [*start_lines(), *lines], rounds, 1) for rounds in (short, long)]
    return (costs[1] - costs[0]) / (long - short)


def per_task(bench: Bench, plugin: Path, lines: Sequence[str], options: Sequence[str]) -> float:
    costs = [driven(bench, plugin, [*start_lines(*options), *lines], 3, tasks) for tasks in (10, 30)]
    return (costs[1] - costs[0]) / 20


def print_steps(bench: Bench) -> None:
    print_heading("Host instructions a step")
    for title, plugin in (("the plugin", bench.plugin), ("z64", Z64)):
        figures = []
        for words in LOOPS.values():
            code = f"put imem 0 8c020ff0 {PROLOGUE} {' '.join(words.split())} 0000000d"
            lines = [code, f"put dmem 0 {DATA[:0xF00].hex(' ', 4)}"]
            figures.append(per_round(bench, plugin, lines, 2000, 8000) / len(words.split()))
        print_row(title, figures)


def print_stops(bench: Bench) -> None:
    """Turns of a loop: four instructions and a DMA, or a read of a register."""
    codes = [bench.words(code) for code in STOPS.values()]
    print_heading("Host instructions of six instructions, one of them", STOPS)
    for title, plugin in (("the plugin", bench.plugin), ("z64", Z64)):
        print_row(title, [per_round(bench, plugin, [f"put imem 0 {words}"]) for words in codes])


def print_tasks(bench: Bench) -> None:
    print_heading("Host instructions a task", ["an empty one", "680 instructions, 1.5 KB by DMA"])
    tasks: List[List[str]] = [["put imem 0 0000000d"], speed_task(bench)]
    check = (f"CheckAgainst {Z64}", "CheckAddresses 0")
    print_row("the plugin", [per_task(bench, bench.plugin, lines, ()) for lines in tasks])
    print_row("in check mode, beside z64", [per_task(bench, bench.plugin, lines, check) for lines in tasks])
    print_row("z64", [per_task(bench, Z64, lines, ()) for lines in tasks])


def print_seconds(bench: Bench) -> None:
    """The least of three times each, in turns of both plugins."""
    rom = bench.rom("speed", "-DWAITS=0", "-DBLOCKS=300", "-DTASKS=1000")

    def seconds(plugin: Path) -> float:
        return float(re.findall(r"front done ([\d.]+)", bench.play(rom, plugin, 2)[0])[0])

    turns = [(seconds(bench.plugin), seconds(Z64)) for _ in range(3)]
    ours, others = (min(times) for times in zip(*turns))
    print(f"the plugin {ours:.2f} s, z64 {others:.2f} s: z64 takes {others / ours:.2f} times as long")


def main() -> None:
    parser = parser_of(__doc__)
    rom = "print the seconds from the emulator's start to the ROM's end, 1,000 tasks of 67,000 instructions"
    parser.add_argument("--rom", action="store_true", help=rom)
    arguments = parser.parse_args()
    need("valgrind", Z64, *((HEADERS, CORE, "mips-linux-gnu-gcc") if arguments.rom else ()))
    with tempfile.TemporaryDirectory() as folder:
        bench = Bench(Path(folder), PROGRAM)
        for print_part in [print_seconds] if arguments.rom else [print_steps, print_stops, print_tasks]:
            print_part(bench)
            print()


if __name__ == "__main__":
    main()
