"""What a routine's text is: straight code, a routine that returns, or a loop; and what it may change."""

from __future__ import annotations

from dataclasses import dataclass

from rsp_conformance.table import signed

from . import stop
from .instructions import Instruction, instruction_of
from .pieces import Piece, bases_of, listing, pieces_of

RETURN_REGISTER = 31
QUIET = (5, 6)  # the SP registers of a DMA that is full or busy, which no DMA here is
STEP = 16  # bytes of a vector


@dataclass(frozen=True)
class Counter:
    """What counts the rounds of a loop: what one adds to a register, and what the branch compares it with."""

    register: int
    step: int  # what a round adds: below 0 if it counts down
    other: int  # the register that BNE compares it with
    branch: str
    is_late: bool  # whether the step is in the delay slot, so the branch compares the number before it

    @property
    def entered(self) -> str:
        """What the register holds at the start of n rounds."""
        low = f"register s.registers {self.register}"
        high = f"register s.registers {self.other}" if self.other else ""
        if self.step < 0:
            low, high = high, low
        late = f" + {abs(self.step)}" if self.is_late else ""
        return f"{high}{late} ≡ {low}{' + ' if low else ''}{times(abs(self.step), 'n')}"

    def held(self, now: str, start: str) -> str:
        """What it holds after k rounds."""
        moved = times(abs(self.step), "k")
        if self.step > 0:
            return f"{now} ≡ {start} + {moved}"
        return f"({now} + {moved}) % 2 ^ 32 ≡ {start}" if self.is_late else f"{now} + {moved} ≡ {start}"

    @property
    def small(self) -> str:
        """The bound of the numbers that it counts through, if there has to be one."""
        counted = times(abs(self.step), "n")
        if self.step > 0:
            return f"register s.registers {self.register} + {counted} < 2 ^ 32"
        return f"{counted} < 2 ^ 31" if self.branch == "bgtz" else ""


@dataclass(frozen=True)
class Wait:
    """A loop that reads an SP register until a bit of it is clear, or until one is set. Nothing but an
    instruction changes that register here, so the wait ends in its first round or never.
    """

    number: int  # of the SP register
    mask: int | None  # the bits that an ANDI keeps
    tested: int  # the scalar register that the branch compares with 0
    until_set: bool

    @property
    def is_quiet(self) -> bool:
        """Whether the register always reads 0."""
        return self.number in QUIET

    @property
    def given(self) -> str:
        """The argument of the premise, if there is one."""
        return "" if self.is_quiet else " ready"

    def value(self, state: str) -> str:
        """What the branch compares."""
        word = f"read_value {self.number} {state}.sp"
        return word if self.mask is None else f"bit_and ({word}) {self.mask}"

    def ready(self, state: str) -> str:
        """The premise: with it the wait ends at once."""
        return f"{self.value(state)} {'≢' if self.until_set else '≡'} 0"


@dataclass(frozen=True)
class Text:
    """A text: its name, its lines, its instructions, and their comments in the source."""

    name: str
    lines: list[str]
    comments: list[str]
    code: list[Instruction]

    @property
    def module(self) -> str:
        return module_of(self.name)

    @property
    def words(self) -> list[int]:
        return [it.word for it in self.code]

    @property
    def listed_words(self) -> str:
        return listing([f"0x{word:08x}" for word in self.words])

    @property
    def numbers(self) -> str:
        """The scalar registers that it writes, as a list."""
        return listed({it.scalar for it in self.code} - {0})

    @property
    def vectors(self) -> str:
        """The vector registers that it writes, as a list."""
        return listed({number for it in self.code for number in it.vectors})

    @property
    def parts(self) -> list[str]:
        """The other parts of the state that it may change."""
        found = {part for it in self.code for part in it.parts}
        return [part for part in ("accumulators", "flags", "divider", "dmem") if part in found]


@dataclass(frozen=True)
class Routine(Text):
    """Straight code, a routine that returns, or a loop."""

    pieces: list[Piece]
    counter: Counter | None
    far: dict[int, int]  # the base registers that stay aligned, and how much a round adds to each
    returns: bool
    wait: Wait | None = None

    @property
    def rounds(self) -> Counter:
        """The counter of a loop."""
        assert self.counter
        return self.counter

    @property
    def bases(self) -> list[int]:
        return bases_of(self.pieces)

    @property
    def target(self) -> int | None:
        """The base register of the buffer that a loop fills, if it fills one and all bases are buffers."""
        puts = [it for it in self.pieces if it.kind == "puts"]
        stores = [it for it in self.code if "dmem" in it.parts]
        members = [it for piece in self.pieces if piece.bases for it in piece.members]
        steps_on = all(self.far[base] == STEP for base in self.bases) and all(
            it.split()[-2] == "0" for it in members
        )
        return puts[0].bases[0] if self.counter and len(puts) == len(stores) == 1 and steps_on else None

    @property
    def sources(self) -> list[int]:
        """The base registers of the vectors that it loads, in order."""
        return [base for piece in self.pieces if piece.kind == "takes" for base in piece.bases]


@dataclass(frozen=True)
class Joined(Text):
    """A loop with straight code before it or after it. The code after it may return."""

    front: Routine | None
    loop: Routine
    back: Routine | None

    @property
    def returns(self) -> bool:
        return bool(self.back and self.back.returns)

    @property
    def straight_bases(self) -> list[int]:
        blocks = [block for block in (self.front, self.back) if block]
        return bases_of([piece for block in blocks for piece in block.pieces])

    @property
    def counter(self) -> Counter | None:
        return self.loop.counter

    @property
    def wait(self) -> Wait | None:
        return self.loop.wait

    @property
    def steps(self) -> tuple[int, int, int]:
        """The instructions before the loop, in it, and after it."""
        before, after = (len(it.code) if it else 0 for it in (self.front, self.back))
        return before, len(self.loop.code), after

    @property
    def later_steps(self) -> str:
        """The steps of n rounds, and those after them."""
        _, each, after = self.steps
        rounds = f"{each}" if self.wait else f"n * {each}"
        return f"{rounds} + {after}" if after else rounds

    @property
    def all_steps(self) -> str:
        return f"{self.steps[0]} + ({self.later_steps})" if self.front else self.later_steps

    @property
    def entry(self) -> str:
        """The state that the loop's premises are about: the first, if no code before it writes their
        registers. Those of a wait are about SP registers, which no code here writes.
        """
        if self.wait:
            return "s"
        read = {*self.loop.bases, self.loop.rounds.register, self.loop.rounds.other} - {0}
        written = {it.scalar for it in self.front.code} if self.front else set()
        return f"(steps_of {self.steps[0]} s)" if read & written else "s"


def times(amount: int, count: str) -> str:
    return count if amount == 1 else f"{amount} * {count}"


def module_of(name: str) -> str:
    return "".join(part.capitalize() for part in name.split("_"))


def listed(numbers: set[int]) -> str:
    return f"({listing([*map(str, sorted(numbers))])})" if numbers else "[]"


def routine_of(name: str, lines: list[str], words: list[int], disassembly: list[str]) -> Routine | Joined:
    """The routine of these words. Their disassembly is used if the text hasn't one line for each word."""
    code = [instruction_of(word) for word in words]
    written = [line for line in lines if not line.endswith(":")]
    text = Text(name, lines, written if len(written) == len(code) else disassembly, code)
    turns = [number for number, it in enumerate(code) if it.is_branch]
    back = [number for number in turns if code[number].form.startswith("branch")]
    if not turns or turns == [len(code) - 2] and not back:
        return straight(text, code)
    if has_two_exits(code, back):
        stop(
            "the loop has two exits, and which one it takes depends on your data: give the code up to each"
            " branch, with its delay slot, as a block of the law `exits_run`, as `find_zero` does"
        )
    first = back[0] + 1 - (0x10000 - code[back[0]].fields["imm"]) if len(back) == 1 else -1
    end = back[0] + 2 if back else 0
    if not 0 <= first < end - 1 or {*turns} - {back[0], len(code) - 2} or end - 1 in turns:
        stop(
            "the text has to be straight code with one loop at most, and `jr $31` only before the last"
            " instruction"
        )
    if (first, end) == (0, len(code)):
        return loop_of(text, code)
    front = code[:first]
    loop = loop_of(text, code[first:end])
    unchanged = dict.fromkeys({*range(1, 32)} - {it.scalar for it in code[:end]}, 0)
    after = straight(text, code[end:], unchanged) if code[end:] else None
    return Joined(name, lines, text.comments, code, straight(text, front) if front else None, loop, after)


def has_two_exits(code: list[Instruction], branches: list[int]) -> bool:
    """Whether these are a branch out of a loop, and the loop's own branch back."""
    if len(branches) != 2:
        return False
    out, back = branches
    begin, end = (number + 1 + signed(code[number].fields["imm"]) for number in (back, out))
    return 0 <= begin <= out and end >= back + 2


def straight(text: Text, code: list[Instruction], steady: dict[int, int] | None = None) -> Routine:
    """Straight code, which may return. Its base registers are `steady` where it begins, or all are."""
    turns = [it for it in code if it.is_branch]
    returns = bool(turns) and turns[0].name == "jr" and turns[0].fields["s"] == RETURN_REGISTER
    if turns and not returns:
        stop("a branch or a jump has to be the loop's, or `jr $31`")
    far = dict.fromkeys(range(1, 32), 0) if steady is None else steady
    pieces = pieces_of(code[:-2] if returns else code, far)
    return Routine(text.name, text.lines, text.comments, code, pieces, None, far, returns)


def loop_of(text: Text, code: list[Instruction]) -> Routine:
    wait = wait_of(code)
    far = {} if wait else steady_in_loop(code)
    counter = None if wait else counter_of(code)
    pieces = pieces_of(code[:-2], far)
    return Routine(text.name, text.lines, text.comments, code, pieces, counter, far, False, wait)


def wait_of(code: list[Instruction]) -> Wait | None:
    """The wait that a loop is, if it is MFC0, maybe ANDI, and BNE or BEQ with register 0."""
    branch, body = code[-2], [it for it in code[:-2] if it.word]  # NOP is the word 0
    if branch.form != "branch two" or not body or body[0].form != "from sp":
        return None
    tested, mask = body[0].fields["t"], None
    if len(body) == 2 and body[1].name == "andi" and body[1].fields["s"] == tested:
        tested, mask = body[1].fields["t"], body[1].fields["imm"]
    elif len(body) > 1:
        return None
    if not tested or {branch.fields["s"], branch.fields["t"]} != {0, tested}:
        return None
    wait = Wait(body[0].fields["c"], mask, tested, branch.name == "beq")
    if wait.is_quiet and wait.until_set:
        stop(f"the wait never ends: SP register {wait.number} reads 0")
    return wait


def counter_of(code: list[Instruction]) -> Counter:
    """What counts the rounds of a loop. Code that is none ends the script with a sentence."""
    branch, slot = code[-2:]
    if branch.name not in ("bne", "bgtz"):
        stop(
            "the branch of a loop has to be `bne $A, $B` or `bgtz $C`, or the loop a wait: `mfc0`, maybe"
            " `andi`, and `bne` or `beq` that compares with $0"
        )
    compared = [branch.fields["s"], branch.fields.get("t", 0)]
    moved = [it for it in compared if any(one.scalar == it for one in code) and it]
    steps = [it for it in code if len(moved) == 1 and it.scalar == moved[0]]
    amount = added(steps[0], moved[0]) if len(steps) == 1 else None
    if not amount:
        stop(
            "one register of the loop's branch has to be counted by one `addiu $C, $C, N`, and nothing else"
            " may write the registers of the branch"
        )
    other = sum(compared) - moved[0]
    counter = Counter(moved[0], signed(amount), other, branch.name, steps[0] is slot)
    if counter.step > 0 and not counter.other or counter.branch == "bgtz" and counter.is_late:
        stop(
            "a register that the branch compares with 0 has to be counted down, for `bgtz` before the branch"
        )
    return counter


def added(instruction: Instruction, register: int) -> int | None:
    """What an ADDIU adds to a register, from 0 to 65535. None of any other instruction."""
    is_step = instruction.name == "addiu" and instruction.fields["s"] == instruction.fields["t"] == register
    return instruction.fields["imm"] if is_step else None


def steady_in_loop(code: list[Instruction]) -> dict[int, int]:
    """Base registers that a loop keeps aligned, since it writes them at most once and adds a multiple of 16;
    and how much it adds.
    """
    far = {}
    for base in range(1, 32):
        steps = [added(it, base) for it in code if it.scalar == base] or [0]
        if len(steps) == 1 and steps[0] is not None and steps[0] % STEP == 0:
            far[base] = steps[0]
    return far
