"""`rsp.Timeline` beside a plain machine that makes single steps, on a program with DMAs both ways.

They fail if a step that is reached again is another one, on whatever way, or if a search finds another place
than a search among the single steps.
"""

import random
import re
from collections import Counter
from typing import Any, List, Tuple

import pytest

import rsp
from lib.library.module import loaded
from lib.pages import block_with, page
from rsp import Found, Reason
from rsp.dmas import DmaWatch, run_until_dma
from rsp_conformance.table import ROWS

# 160 turns. Each stores at changing places; every 32nd sends bytes to RDRAM and brings others, lets go of the
# semaphore, and calls one of two overlays, which it brings to f00.
PROGRAM = """turn: addiu $1, $1, 1; addiu $5, $5, 16; andi $5, $5, 0x7f0; sw $1, 0($5); lqv $v1[0], 0($5)
vadd $v2, $v1, $v2; sqv $v2[0], 16($5); andi $2, $1, 31; bne $2, $0, turn; sw $2, 0x10($0); mtc0 $5, $c0
sll $3, $1, 11; mtc0 $3, $c1; addiu $4, $0, 127; mtc0 $4, $c3; addiu $6, $5, 256; mtc0 $6, $c0
addiu $3, $3, 64; mtc0 $3, $c1; mtc0 $4, $c2; mtc0 $0, $c7; ori $3, $0, 0x1f00; mtc0 $3, $c0; andi $3, $1, 32
addiu $3, $3, 0x200; mtc0 $3, $c1; ori $3, $0, 15; mtc0 $3, $c2; jal 0xf00; mfc0 $8, $c7
addiu $7, $0, 160; bne $1, $7, turn; sw $8, 0x14($0); break"""
OVERLAYS = "addiu $9, $9, 1; jr $31; sw $9, 0x18($0)", "mfc0 $9, $c7; jr $31; sh $9, 0x1c($0)"
PLACES = [4 * n for n in range(34)]
EVER = 1 << 40
outside = pytest.mark.outside("1,000 programs take a minute")
Seen = Tuple[int, int, bytes]  # a hash of the whole machine, pc, DMEM


def seen(machine: rsp.Machine) -> Seen:
    state, dmem = machine.get(), machine.memory(rsp.DMEM, 0, 4096)
    rest = machine.memory(rsp.IMEM, 0, 4096) + machine.memory(rsp.RDRAM, 0, machine.image_length)
    return hash(bytes(state) + dmem + rest), state.pc, dmem


def words(text: str) -> bytes:
    return b"".join(it.to_bytes(4, "big") for it in rsp.assemble(text.replace("; ", "\n")))


def change(machine: rsp.Machine, task: bool) -> None:
    """Changes a register and RDRAM, or starts a task, which is the program again, as a user does."""
    if task:
        machine.start_task(0x100)
    else:
        machine.set_reg(3, 77)
        machine.load(rsp.RDRAM, 8, b"changed")


def both(chance: random.Random) -> Tuple[rsp.Timeline, List[Seen]]:
    """A timeline at its end, which was changed in its middle, and all its steps."""
    machine, code = rsp.Machine(chance.randbytes(1 << 17)), words(PROGRAM)
    task = bytes(8) + (0x1000).to_bytes(4, "big") + len(code).to_bytes(4, "big") + chance.randbytes(48)
    for at, data in (0x100, task), (0x200, words(OVERLAYS[0])), (0x220, words(OVERLAYS[1])), (0x1000, code):
        machine.load(rsp.RDRAM, at, data)
    machine.load(rsp.IMEM, 0, code)
    line = rsp.Timeline(machine, chance.choice((40, 300, 5000)), chance.choice((3, 8, 32)))
    steps, at, task_starts = [seen(machine)], chance.randrange(500, 1500), chance.random() < 0.5
    while machine.step() is rsp.Status.OK:
        if len(steps) == at:
            assert line.run_to(at) == (Reason.LIMIT, at, None)
            assert line.run_to(at + 90).step > at and line.goto(at) == at  # what comes then is forgotten
            for one in machine, line.machine:
                change(one, task_starts)
            line.changed()
        steps.append(seen(machine))
    assert line.run_to(EVER) == (Reason.HALT, len(steps) - 1, None)
    assert line.counts() == Counter(pc for _, pc, _ in steps[:-1])  # over the change
    return line, steps


def found(line: rsp.Timeline, steps: List[Seen], at: int, forwards: bool) -> Found:
    """What a search from a step should find."""
    parts = [(it, slice(it[0], sum(it))) for it in sorted(line.watches)]
    for n in range(at + 1, len(steps)) if forwards else range(at, 0, -1):
        (_, _, old), (_, pc, new) = steps[n - 1 : n + 1]
        watch = next((it for it, part in parts if old[part] != new[part]), None)
        if pc in line.breaks and (not watch if forwards else n < at):
            return Found(Reason.BREAK, n)
        if watch:
            return Found(Reason.WATCH, n, watch)
    return Found(Reason.HALT, len(steps) - 1) if forwards else Found(Reason.LIMIT, 0)


@pytest.mark.parametrize("seed", range(6))
def test_steps_and_searches(seed: int) -> None:
    chance = random.Random(seed)
    line, steps = both(chance)
    for _ in range(60):
        at, more = chance.randrange(len(steps)), chance.choice((1, 30, 900))
        assert line.goto(at) == line.step == at and seen(line.machine) == steps[at]
        end = min(at + more, len(steps) - 1)
        assert line.run_to(end).step == end and seen(line.machine) == steps[end]
        assert line.goto(max(end - more, 0)) == max(end - more, 0) and seen(line.machine) == steps[line.step]
    assert line.counts() == Counter(pc for _, pc, _ in steps[: line.step])
    for _ in range(60):
        line.breaks = {*chance.sample(PLACES, chance.randrange(3))}
        starts = (16, 20, 4 * chance.randrange(512), 8 * chance.randrange(256))
        line.watches = {(it, chance.choice((4, 64))) for it in chance.sample(starts, chance.randrange(3))}
        begin = chance.randrange(len(steps))
        for forwards in (False, True):
            line.goto(begin)
            result = line.run_to(EVER) if forwards else line.back()
            assert result == found(line, steps, begin, forwards)
            assert line.step == result.step and seen(line.machine) == steps[result.step]


# Names for `wrote`, and the parts of a `diff` that they mean.
NAMES = {
    "$r{n}": r"\${n}", "${n:02}": r"\${n}", "$v{n:02}": r"\$v{n} .*", "v{n}[{lane}]": r"\$v{n} .* {lane}",
    "$acc": "acc.*", "$acc[{lane}]": "acc.* {lane}", "$div_in": "in", "$div_out": "out",
    "$div_loaded": "loaded", **{f"$vc{it}{lane}": f"vc{it}" for it in "oce" for lane in ("", "[{lane}]")},
}  # fmt: skip


def walked(number: int) -> Tuple[rsp.Timeline, List[Tuple[Found, rsp.Difference]]]:
    """A timeline of a random program, and what each step of a plain machine and the user have changed."""
    from rsp_conformance.campaign.random_programs import program_of

    chance = random.Random(number)
    program, _ = program_of([it for it in ROWS if it != "break"], "wrote", number)
    machine = rsp.Machine(bytes(program.memories[0x2000:]))
    machine.load(rsp.DMEM, 0, bytes(program.memories[:0x1000]))
    machine.load(rsp.IMEM, 0, bytes(program.memories[0x1000:0x2000]))
    machine.set(program.state)
    line, made, at = rsp.Timeline(machine, chance.choice((7, 90, 5000)), 4), [], chance.randrange(300)
    for n in range(300):
        before = machine.get()
        if n == at == line.run_to(n).step:
            state = machine.get()
            for it in range(32):
                state.words[it], state.vectors[it] = it, range(8)
            machine.set(state)
            line.machine.set(state)
            line.changed()
            made.append((Found(Reason.LIMIT, n), before.diff(machine.get())))
            before = machine.get()
        if machine.step() is rsp.Status.OK:
            made.append((Found(Reason.WATCH, n), before.diff(machine.get())))
    line.run_to(300)
    return line, made


@pytest.mark.needs("python:numpy")
@pytest.mark.parametrize("first", (0, *(pytest.param(n, marks=outside) for n in range(20, 1000, 20))))
def test_wrote(first: int, monkeypatch: pytest.MonkeyPatch) -> None:
    """Each search is equal to a walk back through the steps of a random program."""
    for number in range(first, first + 20):
        chance, (line, made) = random.Random(number), walked(number)
        monkeypatch.setattr(rsp.timeline, "_TRACED", chance.choice((30, 1 << 16)))
        for name, part in NAMES.items():
            n, lane, at = chance.randrange(32), chance.randrange(8), chance.randrange(line.last + 1)
            least, bits = chance.choice((0, at // 2)), 0x101 << lane if part + "[{lane}]" == name[1:] else -1
            name, form = (it.format(n=n, lane=lane) for it in (name, part))
            expected = Found(Reason.LIMIT, least)
            for found, parts in made:
                if least <= found.step < at + (found.reason is Reason.LIMIT):
                    named = (it for it in parts if re.fullmatch(form, it.name))
                    expected = found if any((it.value ^ it.other) & bits for it in named) else expected
            assert line.goto(at) == at
            assert line.wrote(name, least) == expected and line.step == expected.step, (number, name, at)
    for name in "$v32", "$r1[0]", "$v1[8]", "$vce[8]", "$pc", "$v", "", "$r1 ":
        with pytest.raises(ValueError, match="isn't a register"):
            line.wrote(name)


@pytest.mark.parametrize("single, reason", ((0x40, Reason.HALT), (0, Reason.RESERVED)))
def test_change_before_an_end(single: int, reason: Reason) -> None:
    """A watched change is found also if the machine makes single steps, or if a reserved word follows."""
    line = rsp.Timeline(loaded("sw $1, 8($0)\n.word 0xffffffff\n"))
    line.machine.set_reg(1, 5)
    line.machine.write(4, single)
    line.changed()
    line.watches = {(8, 4)}
    assert line.run_to(9) == (Reason.WATCH, 1, (8, 4)) and line.run_to(9) == (reason, 1, None)
    assert line.back() == (Reason.WATCH, 1, (8, 4)) and line.goto(0) == 0
    assert line.back() == (Reason.LIMIT, 0, None)


@pytest.mark.parametrize("way", ("goto", "run_to", "back"))
def test_interrupted(way: str) -> None:
    """It ends soon, and a whole machine is there."""
    machine = loaded("loop: addiu $1, $1, 1\nj loop\nnop\n")
    line, answers = rsp.Timeline(machine, 1 << 17, 4), iter(4 * [False] + 9 * [True])
    here = line.goto(3000000 if way == "back" else 0)
    assert line._gap > here >> 4  # so there are few marks
    line.watches = {(0, 4)}
    line.is_interrupted = lambda: next(answers)
    result = getattr(line, way)(*[] if way == "back" else [EVER])
    assert result in ((Reason.LIMIT, line.step, None), line.step) and 0 < line.step != here
    assert line.machine.reg(1) == (line.step + 2) // 3


def test_continued_search() -> None:
    """One that is ended after its first window each time comes to the first step after a few of them."""
    line = rsp.Timeline(loaded("loop: j loop\nnop"))
    line.goto(1000000)
    line.is_interrupted = lambda: True
    steps = [line.wrote("0x80000010").step for _ in range(3)]
    assert steps == [1000000 - 4096, 1000000 - 65 * 4096, 0]


def test_runs_with_dmas(monkeypatch: pytest.MonkeyPatch) -> None:
    """After the first DMA to RDRAM none that writes no watched byte stops a run: if each did, a watch would
    make it many times slower. Of those that do, 10,000 are made before it asks whether to end, and `goto`
    stops at none."""
    line = rsp.Timeline(loaded("turn: mtc0 $0, $c0\nmtc0 $0, $c1\nmtc0 $0, $c3\nj turn\nnop\n"))
    line.dma_watches = {DmaWatch(rsp.RDRAM, 8, 8), DmaWatch(rsp.IMEM, 0, 4096)}
    runs: List[int] = []

    def counted(*given: Any) -> rsp.Stop:
        runs.append(line.step)
        return run_until_dma(*given)

    monkeypatch.setattr("rsp.timeline.run_until_dma", counted)
    assert line.run_to(100000) == (Reason.LIMIT, 100000, None) and runs == [0, 0]
    line.dma_watches = {DmaWatch(rsp.RDRAM, 7, 8)}
    asked: List[int] = []
    line.is_interrupted = lambda: asked.append(line.step) is not None  # type: ignore[func-returns-value]
    assert line.run_to(200000) == (Reason.LIMIT, 200000, None) and asked == [100000, 149998, 199998]
    assert line.goto(300000) == 300000 and asked[3:] == [200000]


# Changes eight bytes in each 64 KiB of RDRAM, over and over, so that no two marks have a piece in common.
GREEDY = """lui $7, 1; ori $9, $0, 7; lui $2, 0x80; turn: ori $1, $0, 0; sw $3, 0($0); next: mtc0 $0, $c0
mtc0 $1, $c1; mtc0 $9, $c3; addu $1, $1, $7; bne $1, $2, next; nop; j turn; addiu $3, $3, 1"""


def test_memory() -> None:
    """Marks keep at most 40 MiB, whatever the microcode does: then a process takes some 80 MB."""
    machine = rsp.Machine(bytes(8 << 20))
    machine.load(rsp.IMEM, 0, words(GREEDY))
    line = rsp.Timeline(machine, 1 << 17)
    line.run_to(5000000)
    kept = {id(piece): len(piece) for mark in line._marks for piece in mark.rdram}
    assert 8 << 20 < sum(kept.values()) <= 40 << 20


def test_example(capsys: pytest.CaptureFixture[str]) -> None:
    """That of EMBEDDING finds the store."""
    name = "docs/EMBEDDING.md"
    exec(block_with(name, "import rsp\n\ntext ="))
    assert f"It prints `{capsys.readouterr().out.strip()}`" in page(name)
