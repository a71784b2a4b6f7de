"""A task that waits for the CPU is found, and no other task is taken for one.

They fail if a loop that only the CPU can end isn't suspended, or one that counts isn't made to its end.
"""

from typing import Dict, List, Tuple

import pytest

from lib.plugin import Bench, start_lines

pytestmark = [pytest.mark.needs("cc"), pytest.mark.xdist_group("plugin")]

TURNS = 20000
MOST = 2_000_000  # more instructions than any of the counting loops makes
TO = f"addiu $1, $0, {TURNS}"  # counts down from there, or up to it
UNTIL = f"addiu $2, $2, -{TURNS}; bne $2, $0, loop; addiu $2, $0, 0"  # ends a turn with $2 as it was
IN, OUT = "mtc0 $0, $c0; mtc0 $5, $c1; mtc0 $6, $c2", "mtc0 $0, $c0; mtc0 $5, $c1; mtc0 $6, $c3"
AT = "ori $5, $0, 0x8000; addiu $6, $0, 7"  # where IN and OUT have 8 bytes in RDRAM
READ = "mfc0 $2, $c4"
COUNT_WORD = "lw $2, 4($0); addiu $2, $2, 1; sw $2, 4($0)"
OF_IMEM = ("mtc0 $7, $c0; mtc0 $5, $c1; mtc0 $6, $c3", "mtc0 $7, $c0; mtc0 $5, $c1; mtc0 $6, $c2")
ONES = "addiu $3, $0, 1; mtc2 $3, $v1[0]; addiu $3, $0, 0"

# Loops that count: the instructions before a loop, and those of a turn. Where a register isn't what counts,
# all registers are the same at the read of each turn.
COUNTING = {
    "a register": (TO, f"{READ}; addiu $1, $1, -1; bne $1, $0, loop; nop"),
    "a register in the delay slot": (
        f"addiu $1, $0, {TURNS - 1}",
        f"{READ}; bne $1, $0, loop; addiu $1, $1, -1",
    ),
    "a register up to a limit": (TO, f"{READ}; addiu $31, $31, 1; bne $31, $1, loop; nop"),
    "a register, with the semaphore": (TO, "mfc0 $2, $c7; addiu $1, $1, -1; bgtz $1, loop; nop"),
    "a register, with SP_DMA_BUSY": (TO, "addiu $1, $1, -1; mfc0 $2, $c6; bne $1, $0, loop; nop"),
    "a register, with DPC_STATUS": (TO, "mfc0 $2, $c11; addiu $1, $1, -1; bne $1, $0, loop; nop"),
    "a register, with many reads": (TO, f"{f'{READ}; ' * 12}addiu $1, $1, -1; bne $1, $0, loop; nop"),
    "a lane": (ONES, f"{READ}; vaddc $v2, $v2, $v1; mfc2 $2, $v2[0]; {UNTIL}"),
    "an accumulator": (
        ONES,
        f"{READ}; vmadn $v2, $v1, $v1; vsar $v2, $v2, $v2[2]; mfc2 $2, $v2[0]; " f"mtc2 $0, $v2[0]; {UNTIL}",
    ),
    "VCC": ("nop", f"{READ}; cfc2 $2, $vcc; addiu $2, $2, 1; ctc2 $2, $vcc; {UNTIL}"),
    "VCO": ("nop", f"{READ}; cfc2 $2, $vco; addiu $2, $2, 1; ctc2 $2, $vco; {UNTIL}"),
    "SP_DRAM_ADDR": ("nop", f"{READ}; mfc0 $2, $c1; addiu $2, $2, 8; mtc0 $2, $c1; srl $2, $2, 3; {UNTIL}"),
    "a word of DMEM": ("nop", f"{READ}; {COUNT_WORD}; {UNTIL}"),
    "a half of DMEM": ("nop", f"{READ}; lh $2, 4($0); addiu $2, $2, 1; sh $2, 4($0); {UNTIL}"),
    "the last word of DMEM": ("nop", f"{READ}; lw $2, -4($0); addiu $2, $2, 1; sw $2, -4($0); {UNTIL}"),
    "a quadword of DMEM": (
        ONES,
        f"{READ}; lqv $v2[0], 16($0); vaddc $v2, $v2, $v1; sqv $v2[0], 16($0); mfc2 $2, $v2[0]; "
        f"vxor $v2, $v2, $v2; {UNTIL}",
    ),
    "RDRAM, by a DMA": (AT, f"{READ}; {IN}; {COUNT_WORD}; {OUT}; sw $0, 4($0); {UNTIL}"),
    "RDRAM, by a DMA with many reads": (
        AT,
        f"{IN}; {COUNT_WORD}; {OUT}; sw $0, 4($0); {'mfc0 $3, $c6; ' * 9}{UNTIL}",
    ),
    "IMEM, by a DMA": (
        f"{AT}; addiu $7, $0, 0x1800",
        f"{READ}; {OF_IMEM[0]}; {IN}; {COUNT_WORD}; {OUT}; {OF_IMEM[1]}; sw $0, 4($0); {UNTIL}",
    ),
    "a DPC register": ("nop", f"{READ}; mfc0 $2, $c8; addiu $2, $2, 8; mtc0 $2, $c8; srl $2, $2, 3; {UNTIL}"),
}

# Loops that only the CPU can end: the instructions before a loop, and those of a turn.
END = "beq $0, $0, loop; nop"
WAITING = {
    **{f"SP register {n}": ("nop", f"mfc0 $2, $c{n}; {END}") for n in range(16)},
    "with work before it": (f"{TO}; work: bgtz $1, work; addiu $1, $1, -1", f"{READ}; {END}"),
    "with a register that comes round": ("nop", f"{READ}; addiu $1, $1, 1; andi $1, $1, 255; {END}"),
    "with a byte that comes round": ("nop", f"{READ}; lb $1, 0($0); addiu $1, $1, 1; sb $1, 0($0); {END}"),
    "with 40 reads": ("nop", f"{f'{READ}; mfc0 $3, $c5; ' * 20}{END}"),
    "with the semaphore given back": ("nop", f"mfc0 $2, $c7; mtc0 $0, $c7; {END}"),
    "with a signal that is set and cleared": (
        "addiu $1, $0, 0x400; addiu $3, $0, 0x200",
        f"{READ}; mtc0 $1, $c4; mtc0 $3, $c4; {END}",
    ),
    "with the same store each turn": ("nop", f"{READ}; sw $2, 0($0); {END}"),
    "after a DMA": (f"{AT}; {OUT}; {IN}", f"mfc0 $2, $c6; {END}"),
    "after a list": ("addiu $2, $0, 8; mtc0 $2, $c8; mtc0 $2, $c9", f"mfc0 $2, $c11; {END}"),
    "with a reserved word": ("nop", f"{READ}; .word 0x4c000000; {END}"),
}


# Loops that stop the run so often, or for DMAs so large, that they would take hours: the instructions before
# a loop, those of a turn, and a number of instructions before which the task is suspended.
LARGEST = "ori $5, $0, 0x8000; lui $6, 0x008f; ori $6, $6, 0xffff"
SLOW: Dict[str, Tuple[str, str, int]] = {
    "the largest DMA from RDRAM": (LARGEST, f"{IN}; {END}", 100_000),
    "the largest DMA to RDRAM": (LARGEST, f"{OUT}; {END}", 100_000),
    "DMAs of 8 bytes": (AT, f"{IN}; {END}", 100_000_000),
    "reserved words": ("nop", f".word 0x4c000000; {END}", 100_000_000),
}


def steps_of(before: str, turn: str) -> int:
    """How many instructions a loop makes with TURNS turns, and with the BREAK after it."""
    return len(before.split("; ")) + TURNS * len(turn.split("; ")) + 1


def drive(bench: Bench, before: str, turn: str, *commands: str) -> List[str]:
    """What the driver prints of these commands on a task: a loop that BREAK follows."""
    text = "\n".join([*before.split("; "), f"loop: {turn}".replace("; ", "\n"), "break", ""])
    return bench.drive([*start_lines(), f"put imem 0 {bench.words(text)}", *commands])


@pytest.mark.parametrize("name", COUNTING)
def test_counting(name: str, bench: Bench) -> None:
    """The task ends by its BREAK, after all its instructions."""
    steps = steps_of(*COUNTING[name])
    assert steps < MOST and drive(bench, *COUNTING[name], f"cycles {MOST}") == ["start 0", f"cycles {steps}"]


@pytest.mark.parametrize("name", WAITING)
def test_waiting(name: str, bench: Bench) -> None:
    assert drive(bench, *WAITING[name], f"ends {MOST}")[-1] == "ends waiting"


@pytest.mark.parametrize("name", SLOW)
def test_slow_stops(name: str, bench: Bench) -> None:
    """Such a loop is suspended too, and earlier than one that doesn't stop."""
    *loop, most = SLOW[name]
    assert 0 < int(drive(bench, *loop, f"cycles {1 << 31}")[-1].split()[1]) < most


def test_slow_task_to_its_end(bench: Bench) -> None:
    """20,000 largest DMAs take two calls: the second one continues where the first one stopped."""
    loop = f"{LARGEST}; {TO}", f"{OUT}; addiu $1, $1, -1; bne $1, $0, loop; nop"
    lines = drive(bench, *loop, *["cycles 4294967295"] * 3)
    first, second, third = (int(line.split()[1]) for line in lines[1:])
    assert first and second and first + second == steps_of(*loop) and not third
