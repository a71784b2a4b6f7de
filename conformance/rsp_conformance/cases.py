"""Cases of each instruction: a word, and the state before it, on edge values and on random ones.

The same row, seed and number give the same case, on every version of Python. The small set in vectors/ was
chosen once, and is data: no module here makes it.
"""

from typing import Any, Callable, Dict, Iterator, List, Optional, Sequence, Tuple

from rsp_conformance.seeded_random import Random
from rsp_conformance.states import Texts
from rsp_conformance.table import FORMS, MPEG, SCALE, Row, destination, elements_of, ignored_bits, selected
from rsp_conformance.table import signed, uses_memory, word_of

Fields = Dict[str, int]
Made = Tuple[Fields, Texts]

WORDS = (0, 1, 2, 3, 0x7F, 0x80, 0xFF, 0x7FFF, 0x8000, 0xFFFF, 0x10000, 0x7FFFFFFF, 0x80000000, 0x80000001,
         0xFFFF8000, 0xFFFFFFFE, 0xFFFFFFFF)  # fmt: skip
HALVES = (0, 1, 2, 0x1F, 0x7F, 0x80, 0x7FFF, 0x8000, 0x8001, 0xFFFE, 0xFFFF)
FLAGS = (0x0000, 0xFFFF, 0x00FF, 0xFF00, 0x0F0F, 0xF0F0, 0x3333)
# Two lanes that each instruction meets: products and sums at their limits.
EXTREMES = ((0x8000, 0x8000), (0x8000, 0x7FFF), (0x7FFF, 0x7FFF), (0xFFFF, 0x8000), (0x8000, 0xFFFF),
            (0x7FFF, 0x8000), (0xFFFF, 0xFFFF), (0x0000, 0x8000), (0x0001, 0x8000),
            (0x8000, 0x0001))  # fmt: skip
# What is divided first, before random numbers: each edge of the divider's rules.
DIVISORS = (0, -32768, 1, -1, 3, -3, 0x7FFFFFFF, -0x80000000, -32769, 65536)
DIVIDED = (0, 1, -1, -32768, -32769, 32767, 32768, 65535, 65536, -65536)
SP_NUMBERS = (0, 1, 2, 3, 4, 4, 4, 7, 2, 3, 4, 5, 6, 8, 11, 15, 4, 2, 3, 4)
BORDERS = (0, 1 << 31, -1 << 31, 1 << 47)  # where an accumulator is clamped, or wraps
PLACES = (0x000, 0x004, 0x7FC, 0xFF4, 0xFF8, 0xFFC)
WRAPPING = 0xFE0  # the window of the cases that pass the end of DMEM
WINDOW_LENGTH = 48


class Case:
    """An instruction's fields, its word, and the values of the state before it that aren't the default."""

    window = 0  # the address of its memory in a program
    pc = 0  # the address of its word there

    def __init__(self, name: str, row: Row, fields: Fields, before: Texts, word: int) -> None:
        self.name, self.row, self.fields, self.before, self.word = name, row, fields, before, word
        self.choice = choice_of(row, self)


def text_of_lanes(lanes: List[int]) -> str:
    return "".join(f"{lane:04x}" for lane in lanes)


def near(random: Random, b: int) -> int:
    """A lane that is close to a limit of the comparisons with b: equal, opposite, or next to one of these."""
    return int(random.pick((b, b, -b, -b, ~b, b + 1, b - 1, -b + 1, -b - 2, b ^ 0x8000))) % 65536


def accumulator(random: Random) -> int:
    """Any accumulator, or one at any distance from where accumulators are clamped, or wrap."""
    if random.one_in(2):
        return random.accumulator()
    distance = random.below(1 << random.below(34))
    return (random.pick(BORDERS) + random.pick((distance, -distance))) % 2**48


def relate(random: Random, vs: List[int], vt: List[int], element: int) -> None:
    """Makes half of the lanes of vs close to the limits of a comparison with the selected lane."""
    for lane in range(8):
        b = vt[selected(element, lane)]
        if random.one_in(2):
            vs[lane] = near(random, b)


def flags(random: Random) -> Texts:
    vco, vcc, vce = (random.mixed(FLAGS, 16) for _ in range(3))
    return {"vco": f"{vco:04x}", "vcc": f"{vcc:04x}", "vce": f"{vce % 256:02x}"}


def vector_state(random: Random) -> Texts:
    """Accumulators and flags other than the default, which most instructions have to preserve."""
    state = {f"a{lane}": f"{accumulator(random):012x}" for lane in range(8)}
    return {**state, **flags(random)}


def word(random: Random) -> str:
    return f"{random.mixed(WORDS, 32):08x}"


def divisor(random: Random) -> int:
    """A signed number of 32 bits, as likely short as long, near a power of two, or an edge."""
    length = random.below(33)
    size = random.below(1 << length) | 1 << length >> 1
    return int(random.pick((size, -size, (1 << length) - 1, -(1 << length), *DIVIDED))) % 2**32


def divider(random: Random, number: int) -> Texts:
    """The divider: the number that was divided last, and whether another number is loaded."""
    divided = f"{divisor(random):08x}"
    loaded = f"{divisor(random) >> 16:04x}" if number % 2 else divided[:4]
    return {"divided": divided, "loaded": str(number % 2), "in": loaded}


# How many cases of an instruction, by its name or form, come before those of its pairs: of each element with
# a base $0, with equal registers, with the lane that is read and written, or with the divider's state.
UNPAIRED = {"vector": 32, "lane": 40, "ltv": 32, "stv": 32, "vector load": 20, "vector store": 20}


def unpaired(row: Row) -> int:
    return UNPAIRED.get(row.name, UNPAIRED.get(row.form, 20))


def paired_elements(row: Row) -> Sequence[int]:
    """The elements of the cases that test pairs."""
    return elements_of(row) if row.form in UNPAIRED else ()


def paired_element(row: Row, number: int) -> Optional[int]:
    """The element of a case that tests a pair; None for any other case."""
    first, elements = unpaired(row), paired_elements(row)
    index = number % (first + len(elements)) - first
    return elements[index] if index >= 0 else None


def element_of(row: Row, number: int) -> int:
    """The element of a case: in every other case each lane takes itself, and the others take turns.

    VSAR has three elements that read a part.
    """
    if row.name == "vsar":
        return 8 + number // 2 % 3 if number % 2 == 0 else number // 2 % 16
    return number // 2 % 2 if number % 2 == 0 else 2 + number // 2 % 14


def make_equal(row: Row, random: Random, element: int) -> Made:
    """A case of a computing instruction whose three registers are one."""
    register, lanes = random.below(32), random.lanes()
    if not row.name.startswith("vm"):
        relate(random, lanes, [*lanes], element)
    before = {**vector_state(random), f"v{register}": text_of_lanes(lanes)}
    return {"e": element, "vs": register, "vt": register, "vd": register}, before


def make_vector(row: Row, random: Random, number: int, window: int) -> Made:
    if (element := paired_element(row, number)) is not None:
        return make_equal(row, random, element)
    fields = {"e": element_of(row, number)}
    fields["vs"], fields["vt"], fields["vd"] = random.some(3, 32)
    if random.one_in(5):
        fields[random.pick(("vs", "vd")) if number % 2 else "vd"] = fields["vt"]
    vs, vt = random.lanes(), random.lanes()
    before = vector_state(random)
    if not row.name.startswith("vm") and not random.one_in(3):
        relate(random, vs, vt, fields["e"])
    lane = random.below(8)
    vs[lane], vt[selected(fields["e"], lane)] = EXTREMES[number // 2 % len(EXTREMES)]
    if random.one_in(4):
        before.update(divider(random, number))
    before[f"v{fields['vs']}"] = text_of_lanes(vs)
    before[f"v{fields['vt']}"] = text_of_lanes(vt)
    return fields, before


def dividend(random: Random, is_long: bool) -> int:
    """A number to divide: an edge of the divider's rules, or any."""
    x = random.pick(DIVISORS) if random.one_in(2) else signed(divisor(random), 32)
    return int(x if is_long else signed(x, 16))


# The numbers of the cases of `--entries`, which read each entry of a divide table. The first reads entry 0.
ENTRIES = range(1 << 20, (1 << 20) + 512)


def dividend_of(row: Row, entry: int) -> int:
    """A number whose leading zeros and nine bits below the leading one select an entry of the table."""
    return 2 * (512 + entry - 1) if row.name == "vrsq" and entry % 2 else 512 + entry


def make_lane(row: Row, random: Random, number: int, window: int) -> Made:
    fields = {"e": (number * 3 + number // 8) % 16, "de": number % 8}
    fields["vt"], fields["vd"] = random.some(2, 32)
    loaded = 1 if number // 8 % 6 == 4 else number + number // 8 + 1
    element = paired_element(row, number)
    if element is not None:  # of one register; and an odd element also with a loaded half
        fields, loaded = {**fields, "e": element, "de": element % 8}, element
    if random.one_in(5) or element is not None:
        fields["vd"] = fields["vt"]
    before = {**vector_state(random), **divider(random, loaded)}
    is_long = row.name[-1] == "l" and before["loaded"] == "1"
    number_divided = dividend(random, is_long)
    if number in ENTRIES:
        number_divided = dividend_of(row, ENTRIES.index(number))
    if is_long:
        before["in"] = f"{number_divided >> 16 & 0xFFFF:04x}"
    vt = random.lanes()
    vt[fields["e"] % 8] = number_divided % 65536
    before[f"v{fields['vd']}"] = text_of_lanes(random.lanes())
    before[f"v{fields['vt']}"] = text_of_lanes(vt)
    return fields, before


def make_move(row: Row, random: Random, number: int, window: int) -> Made:
    """MFC2 and MTC2."""
    fields = {"e": number % 16, "vd": random.below(32), "t": random.below(32)}
    before = {f"v{fields['vd']}": text_of_lanes(random.lanes())}
    if row.form == "to vector":
        before[f"r{fields['t']}"] = word(random)
    return fields, before


def make_control(row: Row, random: Random, number: int, window: int) -> Made:
    fields = {"c": number % 4, "t": random.below(32)}
    return fields, {**flags(random), f"r{fields['t']}": word(random)}


def make_shift(row: Row, random: Random, number: int, window: int) -> Made:
    fields = {"sa": (number * 13) % 32, "t": random.below(32), "d": random.below(32)}
    return fields, {f"r{fields['t']}": word(random)}


def make_three(row: Row, random: Random, number: int, window: int) -> Made:
    fields = {"s": random.below(32), "t": random.below(32), "d": random.below(32)}
    if random.one_in(6):
        fields["d"] = random.pick((fields["s"], fields["t"]))
    s, t = random.mixed(WORDS, 32), random.mixed(WORDS, 32)
    if random.one_in(4):
        s = random.pick((t, t + 1, t - 1)) % 2**32
    return fields, {f"r{fields['t']}": f"{t:08x}", f"r{fields['s']}": f"{s:08x}"}


def make_immediate(row: Row, random: Random, number: int, window: int) -> Made:
    fields = {"s": random.below(32), "t": random.below(32), "imm": random.mixed(HALVES, 16)}
    s = random.mixed(WORDS, 32)
    if random.one_in(4):
        s = (signed(fields["imm"], 16) + random.pick((-1, 0, 1))) % 2**32
    return fields, {f"r{fields['s']}": f"{s:08x}"}


def program_counters(random: Random) -> Texts:
    """Any pc and npc, and sometimes those of a delay slot, whose npc isn't pc + 4."""
    pc = random.pick(PLACES) if random.one_in(3) else 4 * random.below(1024)
    npc = 4 * random.below(1024) if random.one_in(4) else (pc + 4) % 4096
    return {"pc": f"{pc:03x}", "npc": f"{npc:03x}"}


def make_branch(row: Row, random: Random, number: int, window: int) -> Made:
    fields = {"s": random.below(32), "t": random.below(32), "imm": random.mixed(HALVES, 16)}
    s, t = random.mixed(WORDS, 32), random.mixed(WORDS, 32)
    if random.one_in(2):
        t = s
    if row.name.endswith("al") and number % 4 == 2:  # register 31 is tested before the link is written
        fields["s"], s = 31, random.below(1 << 31) | (number // 4 % 2) << 31
    before = program_counters(random)
    if row.form == "branch two":
        before[f"r{fields['t']}"] = f"{t:08x}"
    before[f"r{fields['s']}"] = f"{s:08x}"
    return fields, before


def make_jump_register(row: Row, random: Random, number: int, window: int) -> Made:
    fields = {"s": random.below(32), "d": random.pick((31, 31, 0, random.below(32)))}
    if random.one_in(4):
        fields["d"] = fields["s"]
    return fields, {**program_counters(random), f"r{fields['s']}": word(random)}


def status(random: Random) -> Texts:
    return {"c4": f"{random.below(1024) << 5:08x}", "interrupt": str(random.below(2))}


def sp_state(random: Random) -> Texts:
    before = {"c0": random.below(1 << 13) & ~7, "c1": random.below(1 << 24) & ~7, "c7": random.below(2)}
    texts = {**{key: f"{value:08x}" for key, value in before.items()}, **status(random)}
    return {**texts, **{f"c{number}": word(random) for number in range(8, 16)}}


def make_to_sp(row: Row, random: Random, number: int, window: int) -> Made:
    fields = {"c": SP_NUMBERS[number % len(SP_NUMBERS)], "t": 1 + random.below(31)}
    before = sp_state(random)
    value = random.mixed(WORDS, 32)
    if fields["c"] in (2, 3):
        value = transfer(random, before)
    elif fields["c"] == 4:
        value = random.below(1 << 25)
    before[f"r{fields['t']}"] = f"{value:08x}"
    return fields, before


def transfer(random: Random, before: Texts) -> int:
    """A DMA of few bytes, in separate rows, within the part of RDRAM that is compared."""
    value = random.below(9) << 23 | random.below(4) << 12 | random.below(25)
    inside = random.pick((0, 0x1000)) | random.pick((0xFF0, 0xFF8, 8 * random.below(512)))
    before["c0"], before["c1"] = f"{inside:08x}", f"{0x10000 + 8 * random.below(16):08x}"
    before["rdram"] = {f"{0x10000:06x}": random.bytes(512)}
    before["imem" if inside & 0x1000 else "dmem"] = memory_at(inside & 0xFF8, random.bytes(128))
    before["pc"], before["npc"] = ("800", "804") if inside & 0xFF8 < 0x700 else ("200", "204")
    return value


def memory_at(address: int, text: str) -> Dict[str, str]:
    """Bytes at an address of a memory that wraps, in the form of a state."""
    first = 2 * (4096 - address)
    return {f"{address:03x}": text[:first], **({"000": text[first:]} if text[first:] else {})}


def address_in(random: Random, number: int, window: int) -> int:
    """An address in the middle of a window: each byte of a quadword in turn, the last one in case 3."""
    return (window + 16 + (number * 7 + number // 16 + 10) % 16) % 4096


def base_of(random: Random, address: int, offset: int) -> str:
    """The value of a base register for an address, with any bits above the twelve of DMEM."""
    high = random.pick((0, 0, random.below(1 << 20)))
    return f"{(address + (high << 12) - offset) % 2**32:08x}"


def make_scalar_memory(row: Row, random: Random, number: int, window: int) -> Made:
    fields = {"s": random.below(32), "t": random.below(32), "imm": random.mixed(HALVES, 16)}
    address = address_in(random, number, window)
    before: Texts = {"dmem": memory_at(window, random.bytes(WINDOW_LENGTH))}
    offset = signed(fields["imm"], 16)
    if fields["s"] == 0:
        offset = fields["imm"] = address
    if row.form == "store":
        before[f"r{fields['t']}"] = word(random)
    before[f"r{fields['s']}"] = base_of(random, address, offset)
    return fields, before


def make_vector_memory(row: Row, random: Random, number: int, window: int) -> Made:
    base, vt, letter = 1 + random.below(31), random.below(32), row.name[1]
    fields = {"base": base, "vt": vt, "e": number % 16 if letter != "f" else 8 * (number % 2)}
    fields["off"] = random.pick((0, 1, 63, 64, 127, random.below(128)))
    address = address_in(random, number, window)
    if letter == "t" and number // 16 % 2:
        fields["e"], address = fields["e"] & ~1, address & ~15  # what isn't a choice
    if (element := paired_element(row, number)) is not None:
        address -= address % SCALE[letter]
        fields = {"base": 0, "vt": vt, "e": element, "off": signed(address, 12) // SCALE[letter] % 128}
    before: Texts = {"dmem": memory_at(window, random.bytes(WINDOW_LENGTH))}
    before[f"r{fields['base']}"] = base_of(random, address, signed(fields["off"], 7) * SCALE[letter])
    for register in range(vt & ~7, (vt & ~7) + 8) if letter == "t" else [vt]:
        before[f"v{register}"] = random.bytes(16)
    return fields, before


# The functions that make the fields of a case and the state before it, by the instruction's form.
MAKERS: Dict[str, Callable[[Row, Random, int, int], Made]] = {
    "shift": make_shift,
    "three": make_three,
    "immediate": make_immediate,
    "upper": lambda row, random, number, _: ({"t": random.below(32), "imm": random.mixed(HALVES, 16)}, {}),
    **dict.fromkeys(("load", "store"), make_scalar_memory),
    **dict.fromkeys(("branch one", "branch two"), make_branch),
    "jump": lambda row, random, number, window: (
        {"target": random.pick((0, 1, 0x3FF, random.below(1024)))},
        program_counters(random),
    ),
    **dict.fromkeys(("jump register", "link register"), make_jump_register),
    "break": lambda row, random, number, window: ({}, {**program_counters(random), **status(random)}),
    "from sp": lambda row, random, number, _: ({"c": number % 16, "t": random.below(32)}, sp_state(random)),
    "to sp": make_to_sp,
    **dict.fromkeys(("from vector", "to vector"), make_move),
    **dict.fromkeys(("from control", "to control"), make_control),
    "vector": make_vector,
    "lane": make_lane,
    "nothing": lambda row, random, number, window: ({}, {**vector_state(random), **divider(random, number)}),
    **dict.fromkeys(("vector load", "vector store"), make_vector_memory),
}


def reached_windows(row: Row) -> List[int]:
    """The windows whose middle a vector load or store reaches from base $0, those nearest to 0 first."""
    reach = 64 * SCALE[row.name[1]]
    ends = zip(range(32, reach - 31, WINDOW_LENGTH), range(4016, 4079 - reach, -WINDOW_LENGTH))
    return [WRAPPING, *(window for pair in ends for window in pair)]


def window_of(row: Row, seed: str, number: int) -> int:
    """The address of the memory of a case outside programs."""
    random = Random(seed, row.name, number, "window")
    if uses_memory(row) and paired_element(row, number) is not None:
        return int(random.pick(reached_windows(row)))
    return WRAPPING if number % 4 == 3 else 16 * random.below(250)


def choices(
    row: Row, fields: Dict[str, Any], pc: Any, npc: Any, address: Any, word: Any, value: Any
) -> Iterator[Tuple[str, Any]]:
    """The rules of an instruction that we chose ourselves, each with whether a case depends on it.

    All numbers may be arrays; `value` is that of register t.
    """
    if row.name in MPEG:
        yield "MPEG row", True
    if row.name in ("ltv", "stv"):
        yield "odd element", fields["e"] % 2 == 1
        yield "address not a multiple of 16", address % 16 != 0
    if row.form in ("from control", "to control"):
        yield "control register 3", fields["c"] == 3
        yield "register number", word >> 13 & 7 > 0
    if row.form in ("from sp", "to sp"):
        yield "DPC register as a stored word", fields["c"] >= 8
        yield "register number", word >> 15 & 1 > 0
    if row.form == "to sp":
        yield "skip of the last row", (fields["c"] & 14 == 2) & (value >> 20 & 0xFF8 > 0)
    if "branch" in row.form or "jump" in row.form or row.form == "link register":
        yield "branch in a delay slot", npc != (pc + 4) % 4096
    if row.name in ("jal", "jalr") or row.name.endswith("zal"):
        yield "link modulo 4096", pc >= 0xFF8
    if row.form == "break":
        yield "pc after BREAK", True


def choice_of(row: Row, case: Case) -> Optional[str]:
    """The first choice that a case depends on, or None."""
    pc, address = int(case.before.get("pc", "000"), 16), 0
    npc = int(case.before["npc"], 16) if "npc" in case.before else (pc + 4) % 4096
    if row.name in ("ltv", "stv"):
        base = int(case.before.get(f"r{case.fields['base']}", "0"), 16)
        address = base + signed(case.fields["off"], 7) * SCALE["t"]
    value = int(case.before.get(f"r{case.fields.get('t')}", "0"), 16)
    found = choices(row, case.fields, pc, npc, address, case.word, value)
    return next((name for name, holds in found if holds), None)


def make_case(row: Row, seed: str, number: int, window: Optional[int] = None) -> Case:
    """The case of an instruction with this seed and number. Its memory is at the window, if one is passed."""
    random = Random(seed, row.name, number)
    if window is None:
        window = window_of(row, seed, number)
    fields, before = MAKERS[row.form](row, random, number, window)
    if (to := destination(row)) and number % 5 == 1:
        fields[to] = 0
    before.pop("r0", None)  # it is always 0
    word = word_of(row, {name: fields[name] for name in FORMS[row.form]})
    if number % 10 == 9:
        word |= random.below(1 << 32) & ignored_bits(row)
    text = f"entry-{ENTRIES.index(number):03d}" if number in ENTRIES else f"{number:03d}"
    return Case(f"{row.name.upper()}-{text}", row, fields, before, word)
