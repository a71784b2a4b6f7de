"""The plugin of mupen64plus under test: its driver, microcode, an emulator's ROM, and plugins with a fault.

`tools/python lib.plugin FOLDER [PROGRAM]` makes what the hunt of tests/plugin/HUNT.md needs: the plugin,
one with a fault, and the ROM, whole and without the tasks that wait for the CPU.
"""

import os
import re
import struct
import sys
from itertools import takewhile
from pathlib import Path
from typing import Iterator, List, Optional, Sequence, Tuple

from lib import TESTS, TOP, z64
from lib.processes import STRICT, compiled, run, succeeds

HERE = TESTS / "plugin"
ROM = HERE / "rom"
LIBRARY = TOP / "library/c/libbrsp.a"
HEADERS = Path("/usr/include/mupen64plus")
CORE = Path("/usr/lib/x86_64-linux-gnu/libmupen64plus.so.2")
FRONT_END = Path("/usr/games/mupen64plus")
GRAPHICS = Path("/usr/lib/x86_64-linux-gnu/mupen64plus/mupen64plus-video-z64.so")
Z64 = Path(z64.PLUGIN)
FLAGS = ("-std=gnu11", *STRICT, f"-I{TOP}/plugin")
MIPS = (
    "-march=vr4300 -mabi=32 -mno-abicalls -fno-pic -G0 -O2 -ffreestanding -nostdlib "
    "-fno-tree-loop-distribute-patterns -fno-builtin -msoft-float"
).split()
# Where a task of the ROM has its code, if not at 0.
PLACES = {"task_add": "0x80", "overlay_one": "0x400", "overlay_two": "0x400"}
HEADER = struct.pack(">IIII16x20s7x4sx", 0x80371240, 0xF, 0x80002000, 0, b"PROVED RSP TEST     ", b"NPRE")


def start_lines(*options: str) -> List[str]:
    """The driver's lines that start the plugin with these options, and a ROM."""
    return [*(f"option {option}" for option in ("Version 1", *options)), "start", "initiate"]


def halves(numbers: Sequence[int]) -> str:
    """Halves of words as words in hexadecimal."""
    return " ".join(f"{a & 0xFFFF:04x}{b & 0xFFFF:04x}" for a, b in zip(numbers[::2], numbers[1::2]))


class Bench:
    """The plugin under test in a folder of its own, and the program that assembles microcode."""

    def __init__(self, folder: Path, program: Path, plugin: Optional[Path] = None) -> None:
        self.folder, self.program = folder, program
        self.plugin = plugin or folder / "rsp-proved.so"
        if not plugin:
            succeeds(TOP / "plugin/build", self.plugin, env={**os.environ, "CFLAGS": "-Werror"})
        parts = ("-rdynamic", HERE / "driver.c", "-ldl", "-lpthread")
        self.driver = compiled(folder / "driver", *FLAGS, *parts)

    def drive(self, lines: Sequence[str], under: Sequence[str] = ()) -> List[str]:
        """The lines that the driver prints, and at the end its status, if that isn't 0."""
        script = "".join(f"{line}\n" for line in lines)
        ended = run(*under, self.driver, self.plugin, input=script, cwd=self.folder)
        return ended.stdout.splitlines() + [f"status {ended.returncode}"] * (ended.returncode != 0)

    def words(self, text: str) -> str:
        """The words of an assembly text, in hexadecimal."""
        source, out = self.folder / "text.s", self.folder / "text.bin"
        source.write_text(text)
        succeeds(self.program, "asm", source, out)
        return out.read_bytes().hex(" ", 4)

    def words_of(self, name: str) -> str:
        """The words of a task of the ROM, of a script's microcode, or of a text."""
        files = [path for path in (ROM / f"{name}.s", HERE / f"calls/{name}.s") if path.exists()]
        return self.words(files[0].read_text() if files else name)

    def faulty(self, fault: int) -> Path:
        """A plugin with a planted fault."""
        made = self.folder / f"faulty-{fault}.so"
        calls = ("brsp_step", "brsp_run_until_move", "rows_out", "malloc", "calloc", "realloc", "free")
        wraps = "-Wl" + "".join(f",--wrap={it}" for it in calls)
        flags = (*FLAGS, f"-DFAULT={fault}", "-fPIC", "-fvisibility=hidden", "-shared", wraps)
        parts = (HERE / "faulty.c", *sorted((TOP / "plugin").glob("*.c")), LIBRARY, "-ldl")
        return made if made.exists() else compiled(made, *flags, *parts)

    def rom(self, name: str, *defines: str) -> Path:
        """The ROM as a file: a header, the boot code, and the program from 1000 on."""
        at, out = self.folder / "rom", self.folder / f"{name}.z64"
        at.mkdir(exist_ok=True)
        for source in sorted(ROM.glob("*.s")):
            place = PLACES.get(source.stem, "0")
            succeeds(self.program, "asm", source, at / f"{source.stem}.bin", "--at", place)
        for file in "boot.S", "cpu.c":
            flags = (*MIPS, *defines, f"-Wa,-I{at}", "-c", ROM / file)
            compiled(at / f"{file}.o", *flags, compiler="mips-linux-gnu-gcc")
        script = ("-EB", "-T", ROM / "rom.ld", "--defsym=_gp=0")
        compiled(at / "rom.elf", *script, at / "boot.S.o", at / "cpu.c.o", compiler="mips-linux-gnu-ld")
        for section in "boot", "text":
            copy = ("mips-linux-gnu-objcopy", "-O", "binary", "-j", f".{section}")
            succeeds(*copy, at / "rom.elf", at / section)
        image = (HEADER + (at / "boot").read_bytes()).ljust(0x1000, b"\0") + (at / "text").read_bytes()
        out.write_bytes(image.ljust(0x101000, b"\0"))
        return out

    def play(self, rom: Path, plugin: Path, mode: int, *options: str) -> Tuple[str, bytes]:
        """Plays a ROM to its end by front.c, and returns the output and the RDRAM then."""
        front, out = self.folder / "front", self.folder / "rdram"
        if not front.exists():
            compiled(front, *FLAGS, f"-I{HEADERS}", HERE / "front.c", "-ldl", "-lpthread")
        out.unlink(missing_ok=True)
        ended = run(front, CORE, rom, plugin, out, mode, 240, *options, cwd=self.folder)
        return ended.stdout, out.read_bytes() if out.exists() else b""


def results(rdram: bytes) -> Iterator[Tuple[int, ...]]:
    """The ROM's results: (number, whether it is right, found, expected), up to one whose number is 0."""
    return takewhile(lambda found: found[0] != 0, struct.iter_unpack(">IIII", rdram[0x100000:0x110000]))


def tasks_of_rom(bench: Bench) -> List[List[str]]:
    """The lines that set up each of the ROM's tasks."""
    list_at, registers_at = "put dmem ff0 123000", "put dmem ff0 124000 124100"
    vector, vectors = f"put imem 0 {bench.words_of('vector')}", halves([i * 977 % 65536 for i in range(256)])
    return [
        [f"put imem 0 {bench.words_of('scalar')}"],
        speed_task(bench),
        [f"put imem 0 {bench.words_of('many')}", "put dmem ff0 5 127000"],
        [f"put imem 0 {bench.words_of('registers')}", registers_at, "set SP_SEMAPHORE 0"],
        ["rdp", f"put imem 0 {bench.words_of('list')}", list_at],
        ["put dmem ff0 124000"],
        [vector, f"put rdram 120000 {vectors}", "put dmem ff0 120000 121000"],
    ]


def speed_task(bench: Bench) -> List[str]:
    """The lines of the task whose speed is measured."""
    return [
        f"put imem 0 {bench.words_of('speed')}",
        f"put rdram 128000 {halves([(i * 2311 + 77) % 65536 for i in range(256)])}",
        "put dmem fe0 20003000 34587890 48a0c0e0 5ce90930 2 128000",
    ]


def check_tasks(bench: Bench, folder: Path, other: object, tasks: Sequence[Sequence[str]]) -> List[str]:
    """The messages of check mode about tasks, each given by the lines that set it up."""
    lines = start_lines(f"CheckAgainst {other}", f"CheckFolder {folder}")
    for task in tasks:
        lines += ["set SP_PC 0", "set SP_STATUS 0", *task, "cycles 100000000"]
    return [line.split("check: ")[1] for line in bench.drive([*lines, "close"]) if "check: " in line]


def assert_plays(bench: Bench, folder: Path, task: int) -> None:
    """Asserts that a difference's script ends with our registers before and after it, and our DMEM."""
    text = (folder / f"rsp-task-{task}.txt").read_text()
    script = (folder / f"rsp-task-{task}.script").read_text()
    output = run(bench.program, "run", input=script).stdout
    expected = re.findall(r"\nOur [^\n]*:\n(.*?)(?=\n\n|\Z)", text.rstrip("\n"), re.S)
    assert len(expected) in (2, 3), text
    replies = f"{expected[0]}\nstep Done pc {expected[1][3:6]}\n" + "\n".join(expected[1:]) + "\n"
    assert "fault" not in output and output.endswith(replies)


def main() -> None:
    if len(sys.argv) not in (2, 3) or sys.argv[1].startswith("-"):
        sys.exit(__doc__)
    folder = Path(os.path.abspath(sys.argv[1]))
    folder.mkdir(parents=True, exist_ok=True)
    bench = Bench(folder, Path(os.path.abspath(sys.argv[2])) if sys.argv[2:] else TOP / "rsp")
    bench.faulty(1)
    bench.rom("short", "-DWAITS=0")  # z64 doesn't come back from the tasks that wait for the CPU
    bench.rom("all")


if __name__ == "__main__":
    main()
