"""Drives `rsp run` over pipes: sets a state of the machine by microcode, and queries it.

A state is a dict of texts, all in hexadecimal, as in the vectors:
  pc npc          three digits
  r0 .. r31       eight digits
  v0 .. v31       32 digits, the register's bytes in order
  a0 .. a7        twelve digits, the accumulator of a lane
  vco vcc vce     four, four, two digits
  in out loaded   the divider: four, four, one digit
  c0 .. c15       eight digits, the SP registers, and `interrupt`, one digit
  dmem imem rdram {address: bytes}; all other bytes are 0, except the word of IMEM at pc
  divided         not part of the state: the number that was divided last, from which `out` can be made
"""

import itertools
import subprocess
from typing import Any, Callable, Dict, Iterable, Iterator, List, Optional, Sequence, Tuple

from steps import DEFAULT  # the values that the vectors leave out

from rsp_conformance.states import Texts
from rsp_conformance.table import Row, uses_memory

Observed = Tuple[Row, int, Texts]  # a case: the instruction, its word, and the state before it
Observation = Dict[str, Any]  # of a case: the replies `text` and `step`, and the states `before` and `after`

LONGEST_SCRIPT = 1000000
# Of SP_STATUS: halted, broke, the interrupt, ..
ALL_CLEAR = sum(1 << bit for bit in (0, 2, 3, 5, 7, *range(9, 24, 2)))

# RDRAM contains what each case begins with: the setting program, its data, and zeros. A case's own bytes are
# at WINDOW, and at LOW those that a DMA reads which passes 2^24.
LOW, PROGRAM, DATA, ZEROS, WINDOW = 0x0000, 0x1000, 0x2000, 0x3000, 0x10000
WINDOW_LENGTH, LOW_LENGTH = 512, 64

# The data of the setting program, by their addresses in DMEM.
VECTORS, HIGH, ONES, DIVISOR, CONTROLS, SCALARS = 0x000, 0x200, 0x230, 0x240, 0x250, 0x280
LOADING = 12  # the address of the word that loads the divider, if it is to be loaded


def setting_program() -> Iterator[str]:
    """The text that sets the divider, the accumulators, the flags and all registers from its data.

    It has no branch, and doesn't end by BREAK.
    """
    yield f"lqv $v1[0], {DIVISOR}($0)"
    yield "vrcph $v2[0], $v1[0]    # the number's high half"
    yield "vrcpl $v2[0], $v1[1]    # and its low half: `out` is the reciprocal's high half"
    yield "nop                     # here `in` is loaded, if it is to be"
    yield from accumulator_program("$v1", "$v3", "$0", "$0", HIGH, ONES)
    for number, control in enumerate(("$vco", "$vcc", "$vce")):
        yield f"lhu $1, {CONTROLS + 2 * number}($0)"
        yield f"ctc2 $1, {control}"
    for number in range(32):
        yield f"lqv $v{number}[0], {VECTORS + 16 * number}($0)"
    for number in range(1, 32):
        yield f"lw ${number}, {SCALARS + 4 * number}($0)"


def accumulator_program(
    value: str, ones: str, base: str, ones_base: str, offset: int, ones_offset: int
) -> Iterator[str]:
    """The text that sets the accumulators to three vectors at `offset`: the high part plus the top bit of the
    middle part, the middle part, and the low part. No single instruction sets a high part, so high * 65536 is
    added as high * (7fff + 7fff + 2), with the factors and the 1 in `ones`.
    """
    yield f"lqv {ones}[0], {ones_offset}({ones_base})"
    yield f"lqv {value}[0], {offset}({base})"
    yield f"vmudh $v0, {value}, {ones}[0]"
    yield f"vmadh $v0, {value}, {ones}[0]"
    yield f"vmadh $v0, {value}, {ones}[1]"
    yield f"lqv {value}[0], {offset + 16}({base})"
    yield f"vmadh $v0, {value}, {ones}[2]"
    yield f"lqv {value}[0], {offset + 32}({base})"
    yield f"vmadn $v0, {value}, {ones}[2]"


ONES_DATA = "7fff0002000100000000000000000000"


def accumulator_data(accumulators: Iterable[str]) -> Tuple[str, str, str]:
    """The three vectors that `accumulator_program` makes these accumulators from."""
    values = [int(text, 16) for text in accumulators]
    high = "".join(f"{(value >> 32) + (value >> 31 & 1) & 0xFFFF:04x}" for value in values)
    middle = "".join(f"{value >> 16 & 0xFFFF:04x}" for value in values)
    low = "".join(f"{value & 0xFFFF:04x}" for value in values)
    return high, middle, low


def data_of(state: Texts) -> str:
    """The data of the setting program for a state: 768 bytes as text."""
    divided = state.get("divided", "0000ffff")
    loaded = state["in"] if state["loaded"] == "1" else "0000"
    vectors, scalars = ("".join(state[f"{letter}{n}"] for n in range(32)) for letter in "vr")
    accumulators = "".join(accumulator_data(state[f"a{i}"] for i in range(8)))
    flags = state["vco"] + state["vcc"] + "00" + state["vce"] + "0" * 84
    return vectors + accumulators + ONES_DATA + divided + loaded + "0" * 20 + flags + scalars


DEFAULT_DATA = data_of(DEFAULT)


class Script:
    """Lines for `rsp run`, with the number of reply lines that each of them has."""

    def __init__(self) -> None:
        self.lines: List[str] = []
        # The label of each line's reply, None if nobody reads the reply, and its number of lines.
        self.replies: List[Tuple[Any, int]] = []
        self.size = 0  # in bytes

    def add(self, line: str, reply_lines: int = 1, label: Any = None) -> None:
        self.lines.append(line)
        self.replies.append((label, reply_lines))
        self.size += len(line) + 1

    def assemble(self, address: int, lines: Iterable[str]) -> None:
        for line in (f"asm {address}", *lines):
            self.add(line, 0)
        self.add("end")

    def load(self, bank: str, address: int, text: str) -> None:
        """Loads bytes, given as text in hexadecimal."""
        for at in range(0, len(text), 200):
            self.add(f"load {bank} {address + at // 2} {text[at:at + 200]}")

    def copy(self, rdram: int, bank: str, to_rdram: bool = False) -> None:
        """Moves 4096 bytes between RDRAM and a memory of the processor."""
        self.add(f"write 0 {0x1000 if bank == 'imem' else 0}")
        self.add(f"write 1 {rdram}")
        self.add(f"write {3 if to_rdram else 2} 4095")

    def memory(self, bank: str, address: int, length: int, label: Any) -> None:
        for at in range(address, address + length, 256):
            count = min(256, address + length - at)
            self.add(f"mem {bank} {at} {count}", (count + 15) // 16, label)

    def append(self, other: "Script", number: int) -> None:
        """Appends the script of a case, whose labels then begin with the case's number."""
        self.lines += other.lines
        self.replies += [(label and (number, *label), count) for label, count in other.replies]
        self.size += other.size


class RspError(Exception):
    """Why a program doesn't answer as `rsp` does, or can't be brought into a state, as a sentence."""


def refusal_of(program: str) -> Optional[str]:
    """Why a program can't be used as `rsp`, or None. It is tried with a script of one line. The file rsp of a
    clone builds the program first, and what it says of that is shown."""
    try:
        ended = subprocess.run([program, "run"], input=b"pc 0\n", stdout=subprocess.PIPE)
    except FileNotFoundError:
        return f"{program} can't be started, because it isn't there: name another program"
    except OSError as fault:
        return f"{program} can't be started: {fault.strerror}"
    if ended.stdout == b"ok\n":
        return None
    if ended.returncode and not ended.stdout:
        return (
            f"{program} isn't built, or doesn't begin: it ended with status {ended.returncode} and no reply"
        )
    return f"{program} doesn't run scripts as rsp does: it answers `pc 0` by {ended.stdout[:40]!r}"


def run_script(program: str, script: Script) -> Iterator[Tuple[Any, List[str]]]:
    """Runs a script by one `rsp run` over pipes, and yields the replies with a label: (label, lines)."""
    text = "".join(line + "\n" for line in script.lines)
    ended = subprocess.run([program, "run"], input=text.encode(), capture_output=True)
    if ended.returncode != 0:
        raise RspError(f"rsp run ended with status {ended.returncode}: {ended.stderr.decode()}")
    replies = ended.stdout.decode().split("\n")[:-1]
    at = 0
    for line, (label, count) in zip(script.lines, script.replies):
        reply = replies[at : at + count]
        if len(reply) < count or any(text.startswith("fault") for text in reply[:1]):
            raise RspError(f"`{line}` was answered by {reply}")
        at += count
        if label is not None:
            yield label, reply
    if at != len(replies):
        raise RspError(f"more replies than were expected: {replies[at:]}")


def prelude(data: str = DEFAULT_DATA) -> Script:
    """The beginning of each script, which puts the setting program and its data into RDRAM."""
    script = Script()
    script.assemble(0, setting_program())
    script.copy(PROGRAM, "imem", to_rdram=True)
    script.load("dmem", 0, data)
    script.copy(DATA, "dmem", to_rdram=True)
    return script


SETTING_STEPS = sum(1 for _ in setting_program())


def set_state(script: Script, state: Texts, word: int, prelude_data: str = DEFAULT_DATA) -> None:
    """Brings the machine into a state by microcode, with `word` at pc."""
    script.add(f"write 4 {ALL_CLEAR}")
    script.copy(PROGRAM, "imem")
    script.copy(DATA, "dmem")
    data = data_of(state)
    for at in range(0, len(data), 8):
        if data[at : at + 8] != prelude_data[at : at + 8]:
            script.load("dmem", at // 2, data[at : at + 8])
    if state["loaded"] == "1":
        script.assemble(LOADING, ["vrcph $v2[0], $v1[2]"])
    script.add("pc 0")
    script.add(f"run {SETTING_STEPS}")
    if int(state["c4"], 16) & 2:  # only BREAK sets it
        script.assemble(0, ["break"])
        script.add("pc 0")
        script.add("step")
    script.copy(ZEROS, "imem")
    script.copy(ZEROS, "dmem")
    script.add(f"write 2 {int(state['c2'], 16) & ~4095}")  # zeros, with the skip that SP_RD_LEN shows
    for bank in ("dmem", "imem", "rdram"):
        for address, text in state.get(bank, {}).items():
            script.load(bank, int(address, 16), text)
    set_pc(script, state)
    script.load("imem", int(state["pc"], 16), f"{word:08x}")
    set_sp(script, state)


def set_pc(script: Script, state: Texts) -> None:
    """Sets pc and npc. If npc isn't pc + 4, a jump before pc is executed, and its word is then restored."""
    pc, npc = int(state["pc"], 16), int(state["npc"], 16)
    if npc == (pc + 4) % 4096:
        script.add(f"pc {pc}")
        return
    before = (pc - 4) % 4096
    old_word = state.get("imem", {}).get(f"{before:03x}", "00000000")[:8]
    script.assemble(before, [f"j {npc}"])
    script.add(f"pc {before}")
    script.add("step")
    script.load("imem", before, old_word)


def set_sp(script: Script, state: Texts) -> None:
    """Sets the SP registers except 2 and 3, and those bits of the status that a write can set."""
    for number in (0, 1, *range(8, 16)):
        script.add(f"write {number} {int(state[f'c{number}'], 16)}")
    script.add(f"write 4 {1 | pairs_of(int(state['c4'], 16), int(state['interrupt']))}")
    script.add("read 7" if state["c7"] == "00000001" else "write 7 0")


def pairs_of(status: int, interrupt: int) -> int:
    """The bits that a write of SP_STATUS has to have, to set the interrupt and what is set in a status."""
    pairs = interrupt << 4 | (status >> 5 & 1) << 6 | (status >> 6 & 1) << 8
    for signal in range(8):
        pairs |= (status >> 7 + signal & 1) << 10 + 2 * signal
    return pairs


def query_state(script: Script, banks: Sequence[str], label: str) -> None:
    """Shows all registers, and these memories."""
    for command, lines in (("regs", 9), ("vregs", 32), ("acc", 8), ("flags", 1), ("sp", 17)):
        script.add(command, lines, (label, command))
    for bank in banks:
        start, length = (WINDOW, WINDOW_LENGTH) if bank == "rdram" else (0, 4096)
        script.memory(bank, start, length, (label, bank))


def read_reply(state: Texts, kind: str, lines: List[str]) -> None:
    """Puts the reply to a command of `query_state` into a state.

    A memory becomes a list of texts, one for each line.
    """
    if kind == "regs":
        _, state["pc"], _, state["npc"] = lines[0].split()
        for number, words in enumerate(lines[1:]):
            state.update({f"r{4 * number + i}": word for i, word in enumerate(words.split()[1:])})
    elif kind == "vregs":
        state.update({f"v{n}": line[4:].replace(" ", "") for n, line in enumerate(lines)})
    elif kind == "acc":
        state.update({f"a{n}": line.split()[1] for n, line in enumerate(lines)})
    elif kind == "flags":
        flags = lines[0].split()
        state.update(dict(zip(flags[::2], flags[1::2])))
    elif kind == "sp":
        state.update(dict(line.split() for line in lines))
    else:
        state.setdefault(kind, []).extend(line.split(": ")[1] for line in lines)


def sparse(old: List[str], new: List[str], start: int = 0) -> Dict[str, str]:
    """The bytes of `new` that differ from those of `old`, as {address: bytes}.

    Both are lists of texts of 16 bytes.
    """
    found: Dict[str, str] = {}
    key, end = "", -1
    before, after = bytes.fromhex("".join(old)), bytes.fromhex("".join(new))
    for at, byte in enumerate(after):
        if before[at] == byte:
            continue
        if at != end:
            key = f"{start + at:0{6 if start else 3}x}"
        found[key], end = found.get(key, "") + f"{byte:02x}", at + 1
    return found


def differences(old: Texts, new: Texts) -> Texts:
    """The values of `new` that differ from those of `old`, as a state."""
    found: Texts = {}
    for key, value in new.items():
        if isinstance(value, list):
            changed = sparse(old[key], value, WINDOW if key == "rdram" else 0)
            if changed:
                found[key] = changed
        elif old[key] != value:
            found[key] = value
    return found


BANKS = ("dmem", "imem", "rdram")


def banks_of(row: Row, state: Texts) -> List[str]:
    """The memories that a case's instruction may change, and those that its state names."""
    changed = BANKS if row.name == "mtc0" else BANKS[:1] if uses_memory(row) else ()
    return [bank for bank in BANKS if bank in changed or bank in state]


def observe(program: str, cases: Iterable[Observed]) -> Iterator[Observation]:
    """Makes one step of each case, and yields what is seen of it."""
    for script, count in joined(itertools.starmap(script_of_case, cases), prelude):
        yield from observations(program, script, count)


def joined(scripts: Iterable[Script], begin: Callable[[], Script]) -> Iterator[Tuple[Script, int]]:
    """Joins scripts of cases to long ones, each of which begins with `begin()`: pairs of a script and the
    number of its cases.
    """
    joint, count = begin(), 0
    for script in scripts:
        if joint.size + script.size > LONGEST_SCRIPT:
            yield joint, count
            joint, count = begin(), 0
        joint.append(script, count)
        count += 1
    yield joint, count


def script_of_case(row: Row, word: int, state: Texts) -> Script:
    """Sets the state of a case, and queries it before and after the step."""
    script = Script()
    set_state(script, state, word)
    script.add(f"dis {int(state['pc'], 16)} 1", 1, ("text", "text"))
    banks = banks_of(row, state)
    query_state(script, banks, "before")
    script.add("step", 1, ("step", "step"))
    query_state(script, banks, "after")
    if "rdram" in banks:
        script.load("rdram", WINDOW, "00" * WINDOW_LENGTH)
        script.load("rdram", LOW, "00" * LOW_LENGTH)
    return script


def observations(program: str, script: Script, count: int) -> Iterator[Observation]:
    """Runs a script of cases, and yields what is seen of each."""
    found: List[Observation] = [{"before": {}, "after": {}} for _ in range(count)]
    for (number, when, kind), lines in run_script(program, script) if count else ():
        if when in ("before", "after"):
            read_reply(found[number][when], kind, lines)
        else:
            found[number][when] = lines[0]
    yield from found
