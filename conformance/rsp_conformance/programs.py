"""`programs`: whole programs for machines that can only run microcode. Each has many cases of one
instruction, and stores their results. Each case has its own copy of the code that sets and saves the
registers: with a loop or a call, the cases of every instruction would depend on branches.

This file writes their text and their data, and run_programs.py runs them.
"""

import copy
from typing import Any, Callable, Dict, Iterator, List, Optional, Sequence, Tuple

from rsp_conformance import bench
from rsp_conformance.bench import ONES_DATA, accumulator_data, accumulator_program
from rsp_conformance.cases import WINDOW_LENGTH, WRAPPING, Case, make_case, paired_element, reached_windows
from rsp_conformance.seeded_random import Random
from rsp_conformance.table import Row, uses_memory, word_of

Layout = List[Tuple[str, int, int]]  # the fields that a case stores: what, offset, length

MEMORY = 4096
ONES = 16  # the address of the numbers with which a program sets its accumulators
FIRST_FREE = 32  # bytes 0 to 15 and those from WRAPPING on are the window of a case that wraps
REACHED = 17  # how many windows a program keeps for cases whose base is $0
LAST_WORD = 1016  # a case that would pass it goes to the next program

JUMPS = ("branch one", "branch two", "jump", "jump register", "link register")
SP_MOVES = ("from sp", "to sp")
DIVIDING = ("lane", "nothing")  # the forms whose programs set the divider, and show it
STATUS_BITS = 0x7FC0  # of SP_STATUS: the interrupt on BREAK, and the signals
# The bytes of RDRAM that a DMA moves, and the most of its rows; and where it may write to IMEM.
RDRAM_AREA, AREA, LONGEST, IMEM_END = 0x800, 320, 128, 0x1FA0
CONTROLS = ("vco", "vcc", "vce")


class Full(Exception):
    """A case for which a program has no room."""


class Program:
    """A program that is being written: the lines of its text, its data, and its cases.

    `reached` are the windows at both ends of DMEM that are reserved for the cases whose base is $0, the
    wrapping window first.
    """

    def __init__(self, reached: Sequence[int] = (WRAPPING,)) -> None:
        self.lines: List[str] = []
        self.words = 0  # that the lines make
        self.data = bytearray(MEMORY)
        self.data[ONES : ONES + 16] = bytes.fromhex(ONES_DATA)
        self.free, self.end = FIRST_FREE, min(window for window in reached if window >= MEMORY // 2)
        self.free += sum(WINDOW_LENGTH for window in reached if window < MEMORY // 2)
        self.cases: List[Dict[str, Any]] = []
        self.layouts: Dict[str, Layout] = {}
        self.reached = [*reached]

    def emit(self, *lines: str) -> None:
        self.lines += lines
        self.words += sum(1 for line in lines if not line.endswith(":"))

    def take(self, length: int, alignment: int) -> int:
        """Reserves bytes of DMEM, and returns their address."""
        at = (self.free + alignment - 1) // alignment * alignment
        if at + length > self.end:
            raise Full
        self.free = at + length
        return at

    def put(self, text: str, alignment: int = 4) -> int:
        """Puts bytes into the data, and returns their address."""
        at = self.take(len(text) // 2, alignment)
        self.data[at : at + len(text) // 2] = bytes.fromhex(text)
        return at

    def window(self, wrapping: bool, from_zero: bool) -> int:
        """The address of the memory of a case that loads or stores.

        Only one case of a program has the wrapping window.
        """
        if from_zero and not self.reached:
            raise Full
        if from_zero or wrapping and WRAPPING in self.reached:
            return self.reached.pop(0)
        return self.take(WINDOW_LENGTH, 16)

    def layout(self, fields: Layout) -> str:
        """The name of a layout, which is added if it is new."""
        known = next((name for name, layout in self.layouts.items() if layout == fields), None)
        name = known or f"L{len(self.layouts)}"
        self.layouts[name] = fields
        return name

    def test(self, case: Case, word: int) -> None:
        """Emits the word that a case tests."""
        case.pc, case.word = 4 * self.words, word
        self.emit(f".word 0x{word:08x}")

    def close(self, case: Case, at: int, fields: Layout, choice: str = "") -> None:
        """Adds a case, whose results are at an address, and show a choice."""
        entry = {"name": case.name, "pc": f"{case.pc:03x}", "word": f"{case.word:08x}", "text": ""}
        entry.update(at=f"{at:03x}", layout=self.layout(fields))
        # The programs don't show the choices of the other forms.
        if case.row.form not in (*JUMPS, *SP_MOVES, "break"):
            choice = case.choice or ""
        if choice:
            entry["choice"] = choice
        self.cases.append(entry)


class Saved:
    """The results of a case in DMEM: fields one after the other."""

    def __init__(self, program: Program, vectors: int = 0, halves: int = 0, words: int = 0) -> None:
        self.program, self.fields = program, []  # type: Program, Layout
        length = 16 * vectors + (2 * halves + 3) // 4 * 4 + 4 * words
        self.start = self.at = program.take(length, 16 if vectors else 4)

    def field(self, what: str, length: int) -> int:
        """Adds a field, and returns its address."""
        at = self.at
        self.fields.append((what, at - self.start, length))
        self.at += length
        return at

    def vector(self, what: str, register: str) -> None:
        self.program.emit(f"sqv ${register}[0], {self.field(what, 16) - self.start}($1)")

    def half(self, what: str) -> None:
        self.program.emit(f"sh $2, {self.field(what, 2)}($0)")

    def word(self, what: str, register: int) -> None:
        self.program.emit(f"sw ${register}, {self.field(what, 4)}($0)")

    def flags(self) -> None:
        for control in CONTROLS:
            self.program.emit(f"cfc2 $2, ${control}")
            self.half(control)


def keys(case: Case, letter: str) -> List[str]:
    """The keys of the scalar or vector registers that a case sets."""
    return [key for key in case.before if key[0] == letter and key[1:].isdigit()]


def set_up(program: Program, case: Case) -> None:
    """Sets the state of a case: flags, accumulators, the divider if it is stored too, then the registers."""
    before = {**bench.DEFAULT, **case.before}
    if "vco" in case.before:
        at = program.put(before["vco"] + before["vcc"] + "00" + before["vce"] + "0000")
        for number, control in enumerate(CONTROLS):
            program.emit(f"lhu $1, {at + 2 * number}($0)", f"ctc2 $1, ${control}")
    if "divided" in case.before and case.row.form in DIVIDING:
        loaded = before["in"] if before["loaded"] == "1" else "0000"
        at = program.put(before["divided"] + loaded + "0" * 20, 16)
        program.emit(
            f"addiu $1, $0, {at}", "lqv $v1[0], 0($1)", "vrcph $v2[0], $v1[0]", "vrcpl $v2[0], $v1[1]"
        )
        if before["loaded"] == "1":
            program.emit("vrcph $v2[0], $v1[2]")
    if "a0" in case.before:
        at = program.put("".join(accumulator_data(before[f"a{lane}"] for lane in range(8))), 16)
        program.emit(f"addiu $1, $0, {at}", *accumulator_program("$v1", "$v3", "$1", "$0", 0, ONES))
    if registers := keys(case, "v"):
        at = program.put("".join(before[key] for key in registers), 16)
        program.emit(
            f"addiu $1, $0, {at}", *(f"lqv ${key}[0], {16 * i}($1)" for i, key in enumerate(registers))
        )
    set_scalars(program, case)


def set_scalars(program: Program, case: Case) -> None:
    for key in keys(case, "r"):
        program.emit(f"lw ${key[1:]}, {program.put(case.before[key])}($0)")


def begun(program: Program, case: Case, vectors: int = 0, halves: int = 0, words: int = 0) -> Saved:
    """Sets up a case, executes its word, and reserves DMEM for its results. $1 has the address of vectors."""
    for address, text in case.before.get("dmem", {}).items():
        program.data[int(address, 16) : int(address, 16) + len(text) // 2] = bytes.fromhex(text)
    saved = Saved(program, vectors, halves, words)
    set_up(program, case)
    program.test(case, case.word)
    if vectors:
        program.emit(f"addiu $1, $0, {saved.start}")
    return saved


def add_computing(program: Program, case: Case) -> None:
    """A case of a computing instruction: its result, accumulators, flags, and the divider if it divides."""
    has_result, is_vector = case.row.form != "nothing", case.row.form == "vector"
    saved = begun(program, case, 3 + has_result, 3 if is_vector else 5)
    if has_result:
        saved.vector("result", f"v{case.fields['vd']}")
    for element, part in enumerate(("high", "middle", "low")):
        program.emit(f"vsar $v1, $v0, $v0[{element}]")
        saved.vector(f"accumulator {part}", "v1")
    saved.flags()
    if not is_vector:
        save_divider(program, case, saved)
    program.close(case, saved.start, saved.fields)


def save_divider(program: Program, case: Case, saved: Saved) -> None:
    """Stores what shows of the divider: DIV_OUT by VRCPH, or the loaded half by VRCPL of 1."""
    program.emit("addiu $2, $0, 1", "mtc2 $2, $v2[0]")
    if int(case.name[-1]) % 2 == 0:
        program.emit("vrcph $v1[0], $v2[0]", "mfc2 $2, $v1[0]")
        saved.half("DIV_OUT")
    else:
        program.emit("vrcpl $v1[0], $v2[0]", "vrcph $v1[1], $v2[0]", "mfc2 $2, $v1[2]")
        saved.half("next VRCPL of 1, high")
        program.emit("mfc2 $2, $v1[0]")
        saved.half("next VRCPL of 1, low")


def add_register(program: Program, case: Case) -> None:
    """A case whose result is one scalar register."""
    saved = begun(program, case, words=1)
    name = "d" if case.row.form in ("shift", "three") else "t"
    saved.word(f"register r{name}", case.fields[name])
    program.close(case, saved.start, saved.fields)


def add_to_control(program: Program, case: Case) -> None:
    saved = begun(program, case, halves=3)
    saved.flags()
    program.close(case, saved.start, saved.fields)


def add_store(program: Program, case: Case) -> None:
    begun(program, case)
    program.close(case, case.window, [("memory", 0, WINDOW_LENGTH)])


def add_vectors(program: Program, case: Case) -> None:
    """A case whose result is in the vector registers that it sets."""
    registers = keys(case, "v")
    saved = begun(program, case, vectors=len(registers))
    for number, register in enumerate(registers):
        saved.vector("register" if len(registers) == 1 else f"register {number} of the group", register)
    program.close(case, saved.start, saved.fields)


def is_older(case: Case) -> bool:
    """Whether a case of a jump, MFC0 or MTC0 is of the older kinds: four of each 24 aren't."""
    return int(case.name[-3:]) % 24 < 20


def begun_jump(program: Program, case: Case) -> int:
    """Begins a case of a branch or jump. Returns the register in which the executed words add up a number."""
    fields = case.fields
    if is_by_register(case) and fields["s"] == 0:
        fields["s"] = 5  # register 0 can't hold the target
    used = {fields.get("s"), fields.get("t"), fields.get("d"), 31, 0}
    path = next(number for number in range(1, 32) if number not in used)
    program.emit(f"addiu ${path}, $0, 0")
    return path


def is_by_register(case: Case) -> bool:
    return case.row.form in ("jump register", "link register")


def set_for_jump(program: Program, case: Case, words: int) -> int:
    """Sets the registers of a branch or jump, and returns its target's address, which is some words after
    those that set the registers.
    """
    setting = {*keys(case, "r")} | ({f"r{case.fields['s']}"} if is_by_register(case) else set())
    target = 4 * (program.words + len(setting) + words)
    if is_by_register(case):
        key = f"r{case.fields['s']}"
        case.before[key] = f"{int(case.before.get(key, '0'), 16) & 0xFFFFF003 | target:08x}"
    set_scalars(program, case)
    return target


def add_jump(program: Program, case: Case) -> None:
    """A branch or jump, forward or backward. The words that are executed add up a number, which is stored."""
    if not is_older(case):
        return add_jump_in_slot(program, case)
    backward, label = int(case.name[-1]) % 2 == 1, case.name.lower().replace("-", "")
    path = begun_jump(program, case)
    # Before the tested word come those that load, and those of a backward jump's target.
    target = set_for_jump(program, case, 2 if backward else 3)
    if backward:
        program.emit(f"beq $0, $0, {label}over", "nop", f"addiu ${path}, ${path}, 4")
        program.emit(f"beq $0, $0, {label}out", "nop", f"{label}over:")
    distance = -4 if backward else 2
    program.test(case, word_of(case.row, {**case.fields, "imm": distance, "target": target // 4}))
    program.emit(f"addiu ${path}, ${path}, 1", f"addiu ${path}, ${path}, 2", f"{label}out:")
    return save_jump(program, case, path)


def add_jump_in_slot(program: Program, case: Case) -> None:
    """A branch or jump in the delay slot of a taken branch. A branch counts from npc, which is the target of
    the first one. Counted from its own address, it comes to another branch, and out.
    """
    label = case.name.lower().replace("-", "")
    path = begun_jump(program, case)
    target = set_for_jump(program, case, 8)
    program.emit(f"beq $0, $0, {label}first")
    program.test(case, word_of(case.row, {**case.fields, "imm": 2, "target": target // 4}))
    steps = [f"addiu ${path}, ${path}, {1 << step}" for step in range(6)]
    program.emit(*steps[:2], f"beq $0, $0, {label}out", "nop", f"{label}first:", *steps[2:], f"{label}out:")
    save_jump(program, case, path)


def save_jump(program: Program, case: Case, path: int) -> None:
    """Stores the number of the executed words, and the link."""
    fields, row = case.fields, case.row
    links = row.name == "jal" or row.name.endswith("zal") or row.form == "link register"
    saved = Saved(program, words=1 + links)
    saved.word("path", path)
    if links:
        saved.word("link", fields["d"] if row.form == "link register" else 31)
    program.close(case, saved.start, saved.fields, "" if is_older(case) else "branch in a delay slot")


SP_WORDS = {0: "SP_MEM_ADDR", 1: "SP_DRAM_ADDR", 2: "SP_RD_LEN", 3: "SP_WR_LEN",
            4: "signals of SP_STATUS", 7: "SP_SEMAPHORE"}  # fmt: skip


def add_sp(program: Program, case: Case) -> None:
    """MFC0 and MTC0: a DMA's addresses, SP_STATUS, the semaphore, and DMAs."""
    number, random = int(case.name[-3:]), Random("sp", case.name)
    c, value, t = (0, 1, 4, 7)[number % 4], random.below(1 << 32), case.fields["t"] or 5
    if c != 4 and not is_older(case):
        return add_transfer(program, case)
    if c == 4:  # a clear and a set bit for each signal, and for the interrupt on BREAK
        value &= 0x1FFFE00 if is_older(case) else 0x1FFFF80
    word = word_of(case.row, {"c": c, "t": t})
    program.emit(f"lw ${t}, {program.put(f'{value:08x}')}($0)")
    if case.row.form == "to sp":
        program.test(case, word)
        program.emit(f"mfc0 ${t}, $c{c}")
    else:
        program.emit(f"mtc0 ${t}, $c{c}")
        if c == 7 and number % 8 == 7:
            program.emit("mfc0 $0, $c7")
        program.test(case, word)
    if c == 4:
        program.emit(f"andi ${t}, ${t}, 0x{STATUS_BITS:x}")
    saved = Saved(program, words=1)
    saved.word(SP_WORDS[c], t)
    if not is_older(case):  # BREAK is to raise no interrupt
        program.emit("addiu $1, $0, 0x80", "mtc0 $1, $c4")
    return program.close(case, saved.start, saved.fields)


def transfer(program: Program, inside: int, to: int, value: int, tested: Optional[Case] = None) -> None:
    """Starts a DMA of RDRAM_AREA by writing a value to SP register 2 or 3, and waits for its end."""
    for number, given in ((0, inside), (1, RDRAM_AREA), (to, value)):
        program.emit(f"lw $1, {program.put(f'{given:08x}')}($0)")
        if number == to and tested and tested.row.form == "to sp":
            program.test(tested, word_of(tested.row, {"c": to, "t": 1}))
        else:
            program.emit(f"mtc0 $1, $c{number}")
    program.emit("mfc0 $1, $c6", f"bne $1, $0, {4 * program.words - 4}", "nop")


def add_transfer(program: Program, case: Case) -> None:
    """MFC0 and MTC0 of a DMA of some rows: to RDRAM, to DMEM, or past the end of IMEM. Before it RDRAM_AREA
    is written, and after it read back; SP registers are read between them.
    """
    number, random, which = int(case.name[-3:]), Random("dma", case.name), case.fields["c"] % 4
    skip, count, length = (random.below(it) for it in random.pick(((72, 4, 25), (16, 16, 8))))
    value = skip << 20 | count << 12 | length
    source = program.put(random.bytes(AREA), 8)
    saved = Saved(program, AREA // 16, words=4)
    result = saved.field("transferred", AREA)
    inside = (source + 16, result, 0, IMEM_END)[number % 4]
    transfer(program, source, 3, AREA - 1)
    transfer(program, inside, 2 if number % 2 else 3, value, case)
    for register in range(4):
        if case.row.form == "from sp" and register == which:
            program.test(case, word_of(case.row, {"c": register, "t": 2}))
        else:
            program.emit(f"mfc0 $2, $c{register}")
        saved.word(SP_WORDS[register], 2)
    if inside == IMEM_END:
        transfer(program, IMEM_END, 3, LONGEST - 1)
    if inside != result:
        transfer(program, result, 2, AREA - 1)
    program.close(case, saved.start, saved.fields, "skip of the last row" if skip > 7 else "")


def add_break(program: Program, case: Case) -> None:
    """BREAK ends its program. In the second program it is in a delay slot."""
    saved = Saved(program, words=2)
    program.emit("addiu $2, $0, 1", "addiu $3, $0, 2")
    saved.word("before", 2)
    if int(case.name[-3:]) % 2:
        program.emit("beq $0, $0, target")
    program.test(case, case.word)
    program.emit("nop", "target:")
    saved.word("behind, not stored", 3)
    program.close(case, saved.start, saved.fields)


ADDERS: Dict[str, Callable[[Program, Case], None]] = {
    **dict.fromkeys(("vector", "lane", "nothing"), add_computing),
    **dict.fromkeys(
        ("shift", "three", "immediate", "upper", "from vector", "from control", "load"), add_register
    ),
    **dict.fromkeys(("to vector", "vector load"), add_vectors),
    "to control": add_to_control,
    **dict.fromkeys(("store", "vector store"), add_store),
    **dict.fromkeys(JUMPS, add_jump),
    **dict.fromkeys(SP_MOVES, add_sp),
    "break": add_break,
}


def with_case(program: Program, row: Row, seed: str, number: int) -> Program:
    """A copy of the program with another case. Raises Full if it has no room."""
    program, from_zero = copy.deepcopy(program), paired_element(row, number) is not None
    window = program.window(number % 4 == 3, from_zero) if uses_memory(row) else 0
    case = make_case(row, seed, number, window)
    case.window = window
    ADDERS[row.form](program, case)
    if program.words > LAST_WORD:
        raise Full
    return program


def begun_program(row: Row) -> Program:
    """A program without cases."""
    return Program(reached_windows(row)[:REACHED]) if "vector" in row.form and uses_memory(row) else Program()


def programs_of(row: Row, seed: str, numbers: range) -> Iterator[Program]:
    """The programs with these cases. Each BREAK begins a new one."""
    program = begun_program(row)
    for number in numbers[:2] if row.form == "break" else numbers:
        try:
            if row.form == "break" and program.cases:
                raise Full
            program = with_case(program, row, seed, number)
        except Full:
            yield program
            program = with_case(begun_program(row), row, seed, number)
    yield program
