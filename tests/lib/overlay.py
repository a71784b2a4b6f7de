"""An ELF at the addresses of libdragon's, with lines, by GNU's compiler and linker for MIPS."""

from pathlib import Path

from lib.processes import succeeds

# What begins at 0 adds two words of data, and a command at 040 stores a part of its first word.
OVERLAY = """
        .set noreorder
        .text
        .globl _start
_start: lw    $a0, 0($0)
        jal   add
        lw    $a1, 4($0)
        sw    $v0, %lo(sum)($0)
        break
add:    jr    $ra
        addu  $v0, $a0, $a1
        .org  0x40
command:
        andi  $t0, $a0, 0xff
        jr    $ra
        sw    $t0, 12($0)
        .data
        .word 30, 12
sum:    .word 0, 0
"""
# The load addresses are others than the addresses.
SCRIPT = """MEMORY {
    code_to_load : ORIGIN = 0x1000, LENGTH = 0x1000
    data_to_load : ORIGIN = 0x2000, LENGTH = 0x1000
    imem : ORIGIN = 0x04001000, LENGTH = 0x1000
    dmem : ORIGIN = 0x04000000, LENGTH = 0x1000
}
ENTRY(_start)
SECTIONS {
    .text : { *(.text) } > imem AT > code_to_load
    .data : { *(.data) } > dmem AT > data_to_load
    /DISCARD/ : { *(.reginfo .MIPS.abiflags .gnu.attributes) }
}
"""
FLAGS = "-g -mabi=32 -march=vr4300 -mno-abicalls -fno-pic -G0"
LINKED = "-nostdlib -static -Tscript.ld -Wl,--build-id=none"


def link(folder: Path, text: str = OVERLAY) -> None:
    """Makes the ELF build/rsp_mine.elf of a text, which is rsp_mine.S."""
    (folder / "build").mkdir(exist_ok=True)
    (folder / "rsp_mine.S").write_text(text)
    (folder / "script.ld").write_text(SCRIPT)
    words = *FLAGS.split(), *LINKED.split(), "-o", "build/rsp_mine.elf", "rsp_mine.S"
    succeeds("mips-linux-gnu-gcc", *words, cwd=folder)
