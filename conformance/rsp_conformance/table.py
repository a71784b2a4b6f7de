"""The instruction table: the bits that select each instruction, and those of its fields, to make its words.

docs/INSTRUCTIONS.md lists them too.
"""

from typing import Any, Callable, Dict, Iterator, NamedTuple, Optional, Sequence, Tuple


class Row(NamedTuple):
    """An instruction: its name in lower case, the form of its fields, and the bits that select it."""

    name: str
    form: str
    mask: int
    value: int


# The fields of each form, each with the number of its lowest bit, and its count of bits.
T, D, S, IMM = (16, 5), (11, 5), (21, 5), (0, 16)
FORMS: Dict[str, Dict[str, Tuple[int, int]]] = {
    "shift": {"t": T, "d": D, "sa": (6, 5)},
    "three": {"s": S, "t": T, "d": D},
    "immediate": {"s": S, "t": T, "imm": IMM},
    "upper": {"t": T, "imm": IMM},
    "load": {"s": S, "t": T, "imm": IMM},
    "store": {"s": S, "t": T, "imm": IMM},
    "branch one": {"s": S, "imm": IMM},
    "branch two": {"s": S, "t": T, "imm": IMM},
    "jump": {"target": (0, 10)},
    "jump register": {"s": S},
    "link register": {"s": S, "d": D},
    "break": {},
    "from sp": {"t": T, "c": (11, 4)},
    "to sp": {"t": T, "c": (11, 4)},
    "from vector": {"t": T, "vd": (11, 5), "e": (7, 4)},
    "to vector": {"t": T, "vd": (11, 5), "e": (7, 4)},
    "from control": {"t": T, "c": (11, 2)},
    "to control": {"t": T, "c": (11, 2)},
    "vector": {"e": (21, 4), "vt": T, "vs": (11, 5), "vd": (6, 5)},
    "lane": {"e": (21, 4), "vt": T, "de": (11, 3), "vd": (6, 5)},
    "nothing": {},
    "vector load": {"base": (21, 5), "vt": T, "e": (7, 4), "off": (0, 7)},
    "vector store": {"base": (21, 5), "vt": T, "e": (7, 4), "off": (0, 7)},
}  # fmt: skip

FUNCTION = 0xFC00003F
OPCODE = 0xFC000000
MOVE = 0xFFE00000
COMPUTING = 0xFE00003F
MEMORY = 0xFC00F800
HALVES = 0xFC00FB80  # LFV and SFV, which have only the elements 0 and 8

SCALE = {"b": 1, "s": 2, "l": 4, "d": 8, "q": 16, "r": 16, "p": 8, "u": 8, "h": 16, "f": 16, "w": 16, "t": 16}
MPEG = ("vrndp", "vrndn", "vmulq", "vmacq")

FUNCTIONS = {
    "shift": {"sll": 0, "srl": 2, "sra": 3},
    "three": {
        "sllv": 4, "srlv": 6, "srav": 7, "add": 32, "addu": 33, "sub": 34, "subu": 35, "and": 36, "or": 37,
        "xor": 38, "nor": 39, "slt": 42, "sltu": 43,
    },
    "jump register": {"jr": 8},
    "link register": {"jalr": 9},
    "break": {"break": 13},
}  # fmt: skip
OPCODES = {
    "jump": {"j": 2, "jal": 3},
    "branch two": {"beq": 4, "bne": 5},
    "branch one": {"blez": 6, "bgtz": 7},
    "immediate": {"addi": 8, "addiu": 9, "slti": 10, "sltiu": 11, "andi": 12, "ori": 13, "xori": 14},
    "upper": {"lui": 15},
    "load": {"lb": 32, "lh": 33, "lw": 35, "lbu": 36, "lhu": 37, "lwu": 39},
    "store": {"sb": 40, "sh": 41, "sw": 43},
}
VECTOR = {
    "vmulf": 0x00, "vmulu": 0x01, "vrndp": 0x02, "vmulq": 0x03, "vmudl": 0x04, "vmudm": 0x05, "vmudn": 0x06,
    "vmudh": 0x07, "vmacf": 0x08, "vmacu": 0x09, "vrndn": 0x0A, "vmacq": 0x0B, "vmadl": 0x0C, "vmadm": 0x0D,
    "vmadn": 0x0E, "vmadh": 0x0F, "vadd": 0x10, "vsub": 0x11, "vabs": 0x13, "vaddc": 0x14, "vsubc": 0x15,
    "vsar": 0x1D, "vlt": 0x20, "veq": 0x21, "vne": 0x22, "vge": 0x23, "vcl": 0x24, "vch": 0x25, "vcr": 0x26,
    "vmrg": 0x27, "vand": 0x28, "vnand": 0x29, "vor": 0x2A, "vnor": 0x2B, "vxor": 0x2C, "vnxor": 0x2D,
}  # fmt: skip
LANE = {"vrcp": 0x30, "vrcpl": 0x31, "vrcph": 0x32, "vmov": 0x33, "vrsq": 0x34, "vrsql": 0x35, "vrsqh": 0x36}
MOVES = {"mfc0": (16, 0, "from sp"), "mtc0": (16, 4, "to sp"), "mfc2": (18, 0, "from vector"),
         "mtc2": (18, 4, "to vector"), "cfc2": (18, 2, "from control"),
         "ctc2": (18, 6, "to control")}  # fmt: skip
OPERATIONS = "bsldqrpuhfwt"


def all_rows() -> Iterator[Row]:
    for form, named in FUNCTIONS.items():
        for name, function in named.items():
            yield Row(name, form, FUNCTION, function)
    for name, number in {"bltz": 0, "bgez": 1, "bltzal": 16, "bgezal": 17}.items():
        yield Row(name, "branch one", 0xFC1F0000, 1 << 26 | number << 16)
    for form, named in OPCODES.items():
        for name, opcode in named.items():
            yield Row(name, form, OPCODE, opcode << 26)
    for name, (opcode, rs, form) in MOVES.items():
        yield Row(name, form, MOVE, opcode << 26 | rs << 21)
    for name, function in VECTOR.items():
        yield Row(name, "vector", COMPUTING, 0x4A000000 | function)
    for name, function in LANE.items():
        yield Row(name, "lane", COMPUTING, 0x4A000000 | function)
    for name, function in {"vnop": 0x37, "vnull": 0x3F}.items():
        yield Row(name, "nothing", COMPUTING, 0x4A000000 | function)
    for number, letter in enumerate(OPERATIONS):
        mask = HALVES if letter == "f" else MEMORY
        if letter != "w":
            yield Row(f"l{letter}v", "vector load", mask, 50 << 26 | number << 11)
        yield Row(f"s{letter}v", "vector store", mask, 58 << 26 | number << 11)


ROWS = {row.name: row for row in all_rows()}


def word_of(row: Row, fields: Dict[str, Any]) -> Any:
    """The canonical word with these fields, each taken modulo its width. They may be arrays."""
    word: Any = row.value
    for name, (low, width) in FORMS[row.form].items():
        word |= (fields[name] & (1 << width) - 1) << low
    return word


def ignored_bits(row: Row) -> int:
    """The bits that neither select the instruction nor belong to one of its fields."""
    known = row.mask
    for low, width in FORMS[row.form].values():
        known |= ((1 << width) - 1) << low
    return ~known & 0xFFFFFFFF


def row_of(word: int) -> Optional[Row]:
    """The instruction of a word, also if ignored bits are set; None for a reserved word."""
    return next((row for row in ROWS.values() if word & row.mask == row.value), None)


def destination(row: Row) -> Optional[str]:
    """The field that names the scalar register which an instruction writes, or None."""
    if row.form in ("shift", "three", "link register"):
        return "d"
    loads = ("immediate", "upper", "load", "from sp", "from vector", "from control")
    return "t" if row.form in loads else None


def fields_of(row: Row, word: int) -> Dict[str, int]:
    return {name: word >> low & (1 << width) - 1 for name, (low, width) in FORMS[row.form].items()}


def uses_memory(row: Row) -> bool:
    """Whether an instruction loads or stores."""
    return row.form in ("load", "store", "vector load", "vector store")


def elements_of(row: Row) -> Sequence[int]:
    """The elements of an instruction; none if it has no element."""
    if "e" not in FORMS[row.form]:
        return ()
    return (0, 8) if row.name in ("lfv", "sfv") else range(16)


def selected(element: int, lane: int) -> int:
    """The lane of vt that an element of a computing instruction selects for a lane."""
    if element < 2:
        return lane
    if element < 4:
        return lane // 2 * 2 + element - 2
    if element < 8:
        return lane // 4 * 4 + element - 4
    return element - 8


def signed(number: Any, bits: int = 16) -> Any:
    """The signed number with the same low bits. The number may be an array."""
    half = 1 << bits - 1
    return (number & 2 * half - 1 ^ half) - half


def address_of(row: Row, fields: Dict[str, Any], register_of: Callable[[str], Any]) -> Any:
    """The address of a load or a store. All numbers may be arrays."""
    if "off" in fields:
        return (register_of("base") + signed(fields["off"], 7) * SCALE[row.name[1]]) % 4096
    return (register_of("s") + signed(fields["imm"])) % 4096
