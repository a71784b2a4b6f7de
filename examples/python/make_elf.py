"""make_elf.py [--at ADDR] TEXT ELF [DATA]: makes an ELF of a text for `rsp asm`, for GDB.

The ELF has the labels and lines. ADDR is the address of the code in IMEM, in hexadecimal, such as 0x400;
without it the code is at 0. DATA is a text of `.word` lines for DMEM. Its labels are symbols
in TEXT and in GDB.

It needs GNU as and ld for MIPS, which are in Debian's package binutils-mips-linux-gnu.
"""

import subprocess
import sys
from pathlib import Path

import rsp

IMEM = 0x04001000
# Where gdb's `load` puts the sections; the others of GNU as are for Linux.
SECTIONS = """SECTIONS { .data 0x04000000 : { *(.data) } .text 0x%x : SUBALIGN(4) { *(.text) }
/DISCARD/ : { *(.reginfo .MIPS.abiflags .gnu.attributes) } }"""


def labels(section: str, words: rsp.Words, origin: int = 0) -> str:
    """The labels for GNU as."""
    return "".join(f".set {name}, {section} + {it - origin}\n" for name, it in words.labels.items())


def listing(text: str, path: str, data: rsp.Words, origin: int) -> str:
    """The words for GNU as, with the labels. After .loc_mark_labels it notes a line at each label."""
    lines, mark, words = text.splitlines(), "L", rsp.assemble(text, origin, data.labels)
    while mark in text:
        mark += "_"
    numbered = "".join(f"{mark}{n}:\n{it}\n" for n, it in enumerate([*lines, ""], 1))
    marked = rsp.assemble(numbered, origin, data.labels).labels
    at = [(it - origin) // 4 for name, it in marked.items() if name not in words.labels]
    made = "".join([".data\n", labels(".data", data), *(f".word {it}\n" for it in data)])
    made += f".text\n{labels('.text', words, origin)}.loc_mark_labels 1\n"
    for n, (begin, end) in enumerate(zip(at, at[1:]), 1):
        if begin < end:
            made += f'# {n} "{path}"\n.L{n}: .word {", ".join(map(str, words[begin:end]))}\n'
    return made


def run(*words: str, given: str) -> None:
    subprocess.run(words, input=given, text=True, check=True)


operands, at = sys.argv[1:], "0"
if operands[:1] == ["--at"] and len(operands) > 1:
    at, operands = operands[1], operands[2:]
if len(operands) not in (2, 3):
    sys.exit(__doc__)
source, elf, *more = operands
path, data = source, rsp.assemble("")
try:
    origin = int(at, 16)
    for path in more:
        data = rsp.assemble(Path(path).read_text())
    path = source
    words = listing(Path(source).read_text(), source, data, origin)
except rsp.AssemblyError as error:
    sys.exit(f"{path}:{error.line}: {error}")
except (OSError, ValueError, rsp.RspError) as error:  # such as a label that is in both texts
    sys.exit(f"make_elf.py: {error}")
run("mips-linux-gnu-as", "-EB", "--gdwarf-4", "-o", f"{elf}.o", given=words)
run("mips-linux-gnu-ld", "-EB", "-T", "/dev/stdin", "-o", elf, f"{elf}.o", given=SECTIONS % (IMEM + origin))
