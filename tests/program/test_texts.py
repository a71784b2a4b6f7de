"""What helps those who edit microcode: labels, explanations, and blocks of pages that set up a run.

Labels and explanations are those that ASSEMBLY's rules give, and the blocks do what their pages say.
"""

import re
import struct
import subprocess
from operator import ge, gt, le, lt
from pathlib import Path
from random import Random
from typing import Any, Callable, Dict, List, Optional, Sequence
from unittest import mock

import pytest

from lib import TOP
from lib.fixed_point import clamp, read_halves
from lib.overlay import link
from lib.pages import block_with, page, tables

ASSEMBLY = "docs/ASSEMBLY.md"
FROM_LIBDRAGON = "docs/FROM_LIBDRAGON.md"
HEADER = Path("/usr/include/mupen64plus/m64p_plugin.h")
# Opcodes with a distance in words from the delay slot, and the codes of opcode 1 that have one.
BRANCHES = (4, 5, 6, 7)
SIGNS = (0, 1, 16, 17)
DISTANCES = {
    "j": 2 << 26,
    "jal": 3 << 26,
    "beq": 4 << 26 | 1 << 21 | 2 << 16,
    "bne": 5 << 26 | 3 << 21,
    "blez": 6 << 26 | 4 << 21,
    "bgtz": 7 << 26 | 5 << 21,
    "bltz": 1 << 26 | 6 << 21,
    "bgez": 1 << 26 | 7 << 21 | 1 << 16,
    "bltzal": 1 << 26 | 16 << 16,
    "bgezal": 1 << 26 | 31 << 21 | 17 << 16,
}


def target_of(word: int, address: int) -> Optional[int]:
    """Where a jump or branch leads, without ignored bits and to an address of IMEM; else None."""
    opcode, rt = word >> 26, word >> 16 & 31
    if opcode in (2, 3):
        return 4 * (word & 1023) if word & 0x3FFFC00 == 0 else None
    if opcode in BRANCHES and (opcode < 6 or rt == 0) or opcode == 1 and rt in SIGNS:
        distance = (word & 0xFFFF) - (word >> 15 & 1) * 65536
        target = address + 4 + 4 * distance
        return target if 0 <= target < 4096 else None
    return None


def pack_words(words: Sequence[int]) -> bytes:
    return struct.pack(f">{len(words)}I", *words)


def unpack_words(content: bytes) -> List[int]:
    return [word for (word,) in struct.iter_unpack(">I", content)]


class Files:
    """Runs the program on files of the test's folder."""

    def __init__(self, rsp: Callable[..., Any], folder: Path, program: Path) -> None:
        self.rsp, self.folder, self.program = rsp, folder, program

    def disassemble(self, words: Sequence[int], *options: str) -> List[str]:
        (self.folder / "words").write_bytes(pack_words(words))
        return str(self.rsp("dis", "words", *options).output, "ascii").splitlines()

    def assemble(self, lines: Sequence[str], *options: str) -> List[int]:
        (self.folder / "text").write_text("".join(f"{line}\n" for line in lines))
        self.rsp("asm", "text", "made", *options)
        return unpack_words((self.folder / "made").read_bytes())

    def explain(self, text: str) -> str:
        """The explanations of the faults of a text."""
        (self.folder / "text").write_text(text)
        return str(self.rsp("asm", "text", "made", "--explain").errors, "ascii")

    def run(self, script: str, *options: str) -> str:
        """The replies to a script."""
        return str(self.rsp("run", *options, script=script.encode()).output, "ascii")

    def run_shell(self, command: str) -> str:
        """Runs a command of a page, which has to succeed, and returns its output."""
        shell = ["sh", "-e", "-c", f'rsp() {{ "{self.program}" "$@"; }}\n{command}']
        return subprocess.run(shell, cwd=self.folder, check=True, stdout=subprocess.PIPE, text=True).stdout


@pytest.fixture
def files(rsp: Callable[..., Any], folder: Path, program: Path) -> Files:
    return Files(rsp, folder, program)


# `dis --labels`: the labels are computed here from the words.


def comment_of(word: int) -> str:
    """The comment of `--labels` after a jump with bits above its target."""
    plain, name = word & 0xFC0003FF, {2: "j", 3: "jal"}.get(word >> 26)
    if not name or plain == word:
        return ""
    return f" # executes as {name} {4 * (word & 1023):#05x}, which would be the word {plain:#010x}"


def labelled(words: Sequence[int], plain: List[str], origin: int, is_listed: bool) -> List[str]:
    """The lines of `--labels`, by the lines without it and by the targets of the words."""
    addresses = [origin + 4 * i for i in range(len(words))]
    targets = [target_of(word, at) for word, at in zip(words, addresses)]
    lines = []
    for word, at, line, target in zip(words, addresses, plain, targets):
        if at in targets:
            lines.append(f"{at:03x} " * is_listed + f"L{at:03x}:")
        if target is not None and target in addresses:
            line = line.replace(f"0x{target:03x}", f"L{target:03x}")
        lines.append(line + comment_of(word))
    return lines


def check_labels(files: Files, words: List[int], origin: int) -> None:
    at = ["--at", hex(origin)]
    for options in (at, [*at, "--listing"]):
        expected = labelled(words, files.disassemble(words, *options), origin, "--listing" in options)
        assert files.disassemble(words, *options, "--labels") == expected
    assert files.assemble(files.disassemble(words, *at, "--labels"), *at) == words


@pytest.mark.parametrize("name", DISTANCES)
def test_labels_of(name: str, files: Files) -> None:
    """Each kind of jump and branch, at each of 200 words, inside the text, at its ends and outside it."""
    random, count, first = Random(name), 200, DISTANCES[name]
    origin = 4 * random.randrange(1024 - count + 1)
    end = origin + 4 * count
    targets = [origin, end - 4, end, origin - 4, 0, 4092]
    targets += [4 * random.randrange(-64, 1100) for _ in range(count - 6)]
    if first >> 26 in (2, 3):
        fields = [target // 4 % 1024 for target in targets]
    else:
        fields = [(to - origin - 4 * i - 4) // 4 % 65536 for i, to in enumerate(targets)]
    words = [first | field for field in fields]
    check_labels(files, words, origin)
    assert {line.split()[0] for line in files.disassemble(words, "--at", hex(origin))} - {".word"} == {name}


def random_word(random: Random) -> int:
    """A word, often a jump or a branch to an address nearby."""
    opcode = random.choice((None, 1, 2, 3, 4, 5, 6, 7))
    if opcode is None:
        return random.randrange(1 << 32)
    if opcode in (2, 3):
        return opcode << 26 | random.randrange(1024) | random.choice((0, 0, 1 << 10, 1 << 25))
    return opcode << 26 | random.choice((0, 1, 17, 34)) << 16 | random.randrange(-20, 20) % 65536


@pytest.mark.parametrize("seed", range(60))
def test_labels_of_random_words(seed: int, files: Files) -> None:
    random = Random(seed)
    count = random.choice((1, 2, 10, 300, 1024))
    words = [random_word(random) for _ in range(count)]
    check_labels(files, words, 4 * random.randrange(1025 - count))


def test_labels_of_no_words(files: Files) -> None:
    assert files.disassemble([], "--labels") == []


# The sum of 1 to 10 in $2, by a call of a routine in a loop, with a jump over a word that is no instruction.
SUM = """
    ori $1, $0, 10
    next: jal add
    nop
    bne $1, $0, next
    nop
    j end
    nop
    .word 0x4a00001f
    add: addu $2, $2, $1
    jr $31
    addiu $1, $1, -1
    end: break
""".strip().splitlines()
WITH_SLOT = ("j", "jal", "jr", "bne")


def check_edited(files: Files, words: Sequence[int], at: int) -> None:
    """Asserts that SUM, disassembled with labels, does the same with lines put in anywhere."""
    random, text = Random(at), files.disassemble(words, "--at", hex(at), "--labels")
    for _ in range(5):
        edited = list(text)
        for _ in range(random.randrange(1, 8)):
            places = [i for i in range(2, len(edited) + 1) if edited[i - 1].split()[0] not in WITH_SLOT]
            edited.insert(random.choice([0, 1, *places]), "nop")
        replies = files.run("\n".join([f"asm {at}", *edited, "end", f"pc {at}", "run 1000", "regs"]))
        assert "stop Halted" in replies
        assert re.findall(r"(?m)^r00 \S+ \S+ (\S+)", replies) == [f"{55:08x}"]


@pytest.mark.parametrize("at", (0, 0x80, 4092 - 4 * len(SUM) - 80), ids=hex)
def test_lines_put_in(at: int, files: Files) -> None:
    check_edited(files, files.assemble(SUM, "--at", hex(at)), at)


@pytest.mark.parametrize("base, at", ((0x1000, 0x080), (0x04001000, 0xC80), (0x0FFFF000, 0x400)), ids=hex)
def test_linked_elsewhere(base: int, at: int, files: Files) -> None:
    """Code that was linked elsewhere has labels once its jumps are cleared, as the page clears them."""
    words = files.assemble(SUM, "--at", hex(at))
    linked = [word | base >> 2 if word >> 26 in (2, 3) else word for word in words]
    texts = [line for line in files.disassemble(linked, "--at", hex(at), "--labels") if line[0] != "L"]
    changed = [i for i, word in enumerate(linked) if word != words[i]]
    assert len(changed) == 2
    for i in changed:
        assert texts[i] == f".word {linked[i]:#010x}{comment_of(linked[i])}"
        assert f"{words[i]:#010x}" in texts[i]
    (files.folder / "linked.bin").write_bytes(pack_words(linked))
    files.run_shell(block_with(FROM_LIBDRAGON, "python3 -c 'code"))
    cleared = unpack_words((files.folder / "ucode.bin").read_bytes())
    assert cleared == words
    check_edited(files, cleared, at)


# `asm --explain`: lines that are refused, their faults, and the number and text of the first operand with
# what is expected and advised, as docs/ASSEMBLY.md says. Of an unknown name, the text; `-` is nothing, and
# ` / ` is between two lines of an advice.
REFUSED = [line.split("\t") for line in page("tests/program/explanations.tsv").splitlines()[1:]]
# The explanations of a line's other operands that are at fault, too.
OTHER_OPERANDS = r"(  operand \d: .*\n  expected: .*\n(  (try|help): .*\n)?)*"
SCALES = {
    1: "lbv sbv",
    2: "lsv ssv",
    4: "llv slv",
    8: "ldv sdv lpv spv luv suv",
    16: "lqv sqv lrv srv lhv shv lfv sfv ltv stv swv",
}


# Each vector load and store with offsets next to its range, and one between its steps.
for scale, names in SCALES.items():
    allowed = f"{-64 * scale} to {63 * scale}" + f", a multiple of {scale}" * (scale > 1)
    for offset in (-65 * scale, 64 * scale, *[scale + 1] * (scale > 1)):
        advice = "-"
        if scale > 1 and -64 <= offset <= 63:
            advice = f"help: {offset * scale}($2) if {offset} counts steps of {scale} bytes"
        operand = ["13 OutOfRange", "2", f"{offset}($2)", allowed, advice]
        REFUSED += [[f"{name} $v1[0], {offset}($2)", *operand] for name in names.split()]


@pytest.mark.parametrize("refusal", REFUSED, ids=lambda it: it[0][:40])
def test_explanation(refusal: List[str], rsp: Any, folder: Path) -> None:
    line, fault, number, text, allowed, advice = refusal
    first = "x: nop\n" if fault.startswith("14") else "nop # a comment\n"
    (folder / "text").write_text(first + f"\t{line}  # why not\r\n" + "nop\n")
    at = ["--at", "4000"] if fault.startswith("16") else []
    assert rsp("asm", "text", "made", *at) == (1, b"", f"rsp: fault {fault} line 2\n".encode())
    expected = f"text:2: fault {fault} line 2\n  | {line}  # why not\n"
    expected += f"  operand {number}: {text}\n  expected: {allowed}\n" if number != "-" else ""
    expected += f"  name: {text}\n" if number == "-" != text else ""
    expected += f"  {advice}\n".replace(" / ", "\n       ") if advice != "-" else ""
    result = rsp("asm", "text", "made", *at, "--explain")
    assert result[:2] == (1, b"") and result.errors.startswith(expected.encode())
    rest = result.errors[len(expected) :].decode()
    assert re.fullmatch(OTHER_OPERANDS, rest), f"{expected}is expected, and after it was said:\n{rest}"


# The lines of SEVERAL that `--explain` names: the head of each fault, the numbers of the operands at fault,
# and what to write.
SEVERAL = """
x: vadd $v1 , $5, v3
nop
    .word 1 2, 99999999999, x   # a comment
x: j 4096
lw $1, 4, $2
nop 1, 2
jalr $99
.text
1x: nop
addu
j nowhere
"""
EXPLAINED: tuple[tuple[str, list[int], list[str]], ...] = (
    ("2: fault 12 BadOperand line 2", [2, 3], ["$v3"]),
    ("4: fault 12 BadOperand line 4", [1, 2], ["write a number, a label, or a label + or - a number"]),
    ("5: fault 14 LabelTwice line 5", [], ["line 2 has the label x: rename one"]),
    ("6: fault 12 BadOperand line 6", [2], ["4($2)"]),
    ("7: fault 12 BadOperand line 7", [1], []),
    ("8: fault 12 BadOperand line 8", [1], [mock.ANY]),
    ("9: fault 11 UnknownName line 9", [], ["leave the line out"]),
    ("10: fault 10 BadLine line 10", [], [mock.ANY]),
    ("11: fault 12 BadOperand line 11", [1, 2, 3], [mock.ANY]),
)


def test_several_faults(files: Files) -> None:
    """All faults of the first pass are explained, those of the second only without them."""
    found = []
    for head, rest in re.findall(r"(?m)^text:(.*)\n((?:  .*\n)+)", files.explain(SEVERAL)):
        numbers, advice = (re.findall(form, rest) for form in (r"operand (\d+):", r"(?:try|help): (.*)"))
        found.append((head, [*map(int, numbers)], advice))
    assert found == [*EXPLAINED] and not (files.folder / "made").exists()


def test_more_than_twenty_faults(files: Files) -> None:
    errors = files.explain("foo\n" * 23)
    assert errors.count("fault 11 UnknownName") == 20 and errors.endswith("\n.. and 3 more\n")


def test_words_past_the_end(files: Files) -> None:
    """Only the first of them is a fault."""
    errors = files.explain("nop\n" * 1030 + "foo\n")
    assert re.findall(r"(?m)^text:(\d+): fault (\d+)", errors) == [("1025", "16"), ("1031", "11")]


# A line that isn't ASCII, and one that is too long, both with a label.
BAD_LINES = ("x: nop # é", f"x: nop # {'-' * 300}")


@pytest.mark.parametrize("number", (1, 2))
@pytest.mark.parametrize("line", BAD_LINES, ids=("not ASCII", "long"))
def test_bad_line_has_no_label(line: str, number: int, files: Files, rsp: Any) -> None:
    """Such a line is BadLine, and neither line is LabelTwice: each command names this one fault."""
    fault, text = f"fault 10 BadLine line {number}", f"{line}\nx: nop\n"
    if number == 2:
        text = f"x: nop\n{line}\n"
    (files.folder / "text").write_text(text, encoding="utf-8")
    assert rsp("asm", "text", "made").errors.decode() == f"rsp: {fault}\n"
    answered = rsp("run", "--explain", script=f"asm 0\n{text}end\n".encode())
    assert answered.output.decode() == f"{fault}\n"
    explained = rsp("asm", "text", "made", "--explain").errors
    for errors, head in ((explained, f"text:{number}"), (answered.errors, f"line {number + 1}")):
        assert re.findall(r"(?m)^(\S.*): (fault .*)$", errors.decode()) == [(head, fault)]


@pytest.mark.needs("/usr/include/mupen64plus")
def test_sp_names(files: Files) -> None:
    """The names of SP registers have the numbers of mupen64plus's header, which lists them in order."""
    header = HEADER.read_text().partition("} RSP_INFO;")[0]
    names = [name for name in re.findall(r"\b((?:SP|DPC)_\w+)_REG;", header) if name != "SP_PC"]
    rows = tables("docs/MACHINE.md", "## SP registers")
    assert len(names) == 16 and names == [name for row in rows for name in row[1].split(", ")]
    for number, name in enumerate(names):
        assert files.explain(f"mfc0 $1, {name}\n").endswith(f"\n  try: $c{number}\n")


def advised(files: Files, line: str) -> List[str]:
    """The statements that mean the same as a line, as `--explain` says."""
    (found,) = re.findall(r"\n  try: (.*(?:\n {7}.*)*)\n", files.explain(f"{line}\n"))
    return str(found).split("\n       ")


ORDERS = [it for it in REFUSED if it[5].startswith("try: ")]


def test_orders_assemble(files: Files) -> None:
    """What is advised as an order is a statement, or an operand with which the line has no fault there."""
    count = 0
    for line, _, number, text, _, advice in ORDERS:
        statements = advice[len("try: ") :].split(" / ")
        if statements[0].split()[0].isalpha() and "leave" not in statements[0]:
            count += len(files.assemble(["x: nop", "y: nop", *statements]))
        elif number != "-":
            name, _, operands = line.partition(" ")
            parts = [it.strip() for it in operands.partition("//")[0].split(",")]
            parts[int(number) - 1 :] = [statements[0], *([] if "ACC" in text else parts[int(number) :])]
            fault = files.explain(f"{name} {', '.join(parts)}\n")
            assert f"  operand {number}:" not in fault or "($" in statements[0], (line, fault)
    assert count > 60


def ends(files: Files, values: Sequence[int], statements: Sequence[str], register: int) -> int:
    """The value of a register after statements that begin with values in $t0 and $t1."""
    given = [
        f"lui $t{i}, {it >> 16 & 0xFFFF}\nori $t{i}, $t{i}, {it & 0xFFFF}" for i, it in enumerate(values)
    ]
    lines = ["asm 0", *given, *statements, "nop", "addiu $s0, $0, 1", "x: break", "end", "run 99", "regs"]
    row = re.findall(rf"(?m)^r{register // 8 * 8:02} (.*)$", files.run("\n".join(lines)))[0]
    return int(row.split()[register % 8], 16)


PAIRS = ((0, 0), (5, 5), (1, -1), (-1, 1), (1, 2), (0x7FFFFFFF, -0x80000000), (-0x80000000, 0x7FFFFFFF))
COMPARED: Dict[str, Callable[[int, int], bool]] = {"ge": ge, "gt": gt, "le": le, "lt": lt}


@pytest.mark.parametrize("name", COMPARED)
@pytest.mark.parametrize("modulus", (0, 1 << 32), ids=("signed", "unsigned"))
def test_meaning_of_branches(name: str, modulus: int, files: Files) -> None:
    """The advice branches if the comparison holds, by which $s0 stays 0, or sets a register to 1."""
    unsigned = "u" * (modulus > 0)
    statements = advised(files, f"b{name}{unsigned} $t0, $t1, x")
    with_five = advised(files, f"b{name}{unsigned} $t0, 5, x")
    for pair in (*PAIRS, (6, 5), (4, 5)):
        a, b = (it % modulus if modulus else it for it in pair)
        assert ends(files, pair, statements, 16) == (not COMPARED[name](a, b)), pair
        assert ends(files, pair, with_five, 16) == (not COMPARED[name](a, 5)), pair
        if name != "lt":
            setting = advised(files, f"s{name}{unsigned} $s1, $t0, $t1")
            assert ends(files, pair, setting, 17) == COMPARED[name](a, b), pair


@pytest.mark.parametrize(
    "number", (0, 5, -32768, 32767, 32768, 65535, 65536, -32769, 0xFFFFFFFF, -0x80000000)
)
def test_meaning_of_numbers(number: int, files: Files) -> None:
    assert ends(files, (3, 4), advised(files, f"li $t1, {number}"), 9) == number % (1 << 32)
    size = abs((number + (1 << 31)) % (1 << 32) - (1 << 31))
    assert ends(files, (number, 0), advised(files, "abs $s1, $t0"), 17) == size
    if -32768 < number <= 32768:
        for name in ("subi", "subu"):
            advice = advised(files, f"{name} $t1, $t0, {number}")
            assert ends(files, (3, 4), advice, 9) == (3 - number) % (1 << 32)


def test_nothing_to_explain(files: Files) -> None:
    assert files.explain("nop\n") == ""


BAD_LINE = "a line has at most 256 bytes, each a tab or 20 to 7e hexadecimal"


@pytest.mark.parametrize(
    "line, shown, advice",
    (
        (b"\x01bad \xc3\xbc\x1b[0m", ".bad ...[0m", BAD_LINE),
        (b"#" * 257, "#" * 256 + " ..", BAD_LINE),
        (b"\xef\xbb\xbfnop", "...nop", "save the file without a byte-order mark"),
    ),
)
def test_explanation_of_no_line(line: bytes, shown: str, advice: str, rsp: Any, folder: Path) -> None:
    (folder / "text").write_bytes(line + b"\n")
    expected = f"text:1: fault 10 BadLine line 1\n  | {shown}\n  help: {advice}\n"
    assert rsp("asm", "text", "made", "--explain").errors == expected.encode()


def test_explanation_of_size(rsp: Any, folder: Path) -> None:
    """Only so much of a text is read as shows that it is too long. The longest text has no such fault."""
    limit = 1_048_576
    (folder / "text").write_bytes(b"\n" * (limit + 1))
    errors = f"rsp: fault 42 ScriptTooLong\n  expected: at most {limit} bytes\n"
    assert rsp("asm", "text", "made", "--explain") == (1, b"", errors.encode())
    (folder / "text").write_bytes(b"\n" * limit)
    assert rsp("asm", "text", "made", "--explain") == (0, b"ok 0 words\n", b"")


# Blocks of pages.


@pytest.fixture
def overlay(files: Files) -> Files:
    """The files with an ELF, and what the page makes of it up to the cleared code."""
    link(files.folder)
    names = files.run_shell(block_with(FROM_LIBDRAGON, "mips-linux-gnu-objcopy -O binary -j .text"))
    for form in "04000008 . sum", "04001000 T _start", "04001014 t add", "04001040 t command":
        assert re.search(rf"(?m)^{form}$", names), names
    files.run_shell(block_with(FROM_LIBDRAGON, "python3 -c 'code"))
    return files


@pytest.mark.needs("mips-linux-gnu-gcc")
def test_elf_of_page(overlay: Files) -> None:
    """The text of the code has labels, by the ELF's names too, and is its bytes; and the code runs."""
    linked, code = ((overlay.folder / f"{name}.bin").read_bytes() for name in ("linked", "ucode"))
    assert ".word 0x0d000405" in overlay.disassemble(unpack_words(linked))
    output = overlay.run_shell(block_with(FROM_LIBDRAGON, "rsp dis ucode.bin --labels > ucode.s"))
    assert output == f"ok {len(code) // 4} words\n" and (overlay.folder / "ucode.bin").read_bytes() == code
    assert "\njal L014\n" in (overlay.folder / "ucode.s").read_text()
    overlay.run_shell(block_with(FROM_LIBDRAGON, "mips-linux-gnu-nm"))
    named = (overlay.folder / "ucode.s").read_text().splitlines()
    assert "jal add" in named and "add:" in named and overlay.assemble(named) == unpack_words(code)
    assert (overlay.folder / "data.bin").read_bytes() == pack_words([30, 12, 0, 0])
    output = overlay.run_shell(block_with(FROM_LIBDRAGON, "loads() {"))
    assert output.endswith("stop Halted steps 7 pc 014\n000000: 0000001e0000000c0000002a00000000\n")


@pytest.mark.needs("mips-linux-gnu-gcc")
def test_command_of_overlay(overlay: Files) -> None:
    """The page's caller calls the command, which returns to it."""
    loads = block_with(FROM_LIBDRAGON, "loads() {").replace("| rsp run", "")
    lines = overlay.run_shell(loads).partition("run")[0]
    output = overlay.run(lines + block_with(FROM_LIBDRAGON, "asm 0xf80"))
    assert output.endswith("stop Halted steps 8 pc f94\n000000: 0000001e0000000c0000000000000007\n")


def scalar_names() -> Dict[str, int]:
    """The names of scalar registers with their numbers, as ASSEMBLY lists them."""
    row = next(line for line in page(ASSEMBLY).splitlines() if line.startswith("| scalar register |"))
    found: Dict[str, int] = {}
    for part, digits in re.findall(r"((?:`\$\w+`(?: to | or | )?)+)\(([\d, to]+)\)", row):
        names, numbers = re.findall(r"\$(\w+)", part), [*map(int, re.findall(r"\d+", digits))]
        if " to " in part:
            numbers = list(range(numbers[0], numbers[1] + 1))
            names = [f"{names[0][0]}{index}" for index in range(len(numbers))]
        elif " or " in part:
            numbers *= len(names)
        found.update(zip(names, numbers))
    return found


@pytest.mark.needs("mips-linux-gnu-gcc")
def test_scalar_names(files: Files) -> None:
    """Each name of a scalar register is the register that it is for GNU's assembler, and that the page gives.

    No proof and no script shows an exchange of two names: the definition has the code's table once more, and
    disassembly shows numbers.
    """
    numbers = scalar_names()
    lines = [f"addu $1, ${name}, $0" for name in numbers]
    link(files.folder, "\n".join([".set noat", ".text", "_start: .globl _start", *lines, ""]))
    files.run_shell(block_with(FROM_LIBDRAGON, "mips-linux-gnu-objcopy -O binary -j .text").splitlines()[0])
    words = unpack_words((files.folder / "linked.bin").read_bytes())[: len(lines)]
    assert len(lines) == 31 and files.assemble(lines) == words
    assert [word >> 21 & 31 for word in words] == list(numbers.values())


def test_jump_of_page(files: Files) -> None:
    line = block_with(FROM_LIBDRAGON, ".word 0x09000402 #").rstrip("\n")
    assert files.disassemble([0x09000402], "--labels") == [line]


def test_task_of_page(files: Files) -> None:
    """The image of a task, as MACHINE.md makes it, of examples/task.rsp: the task adds two sounds."""
    texts = re.findall(r"(?ms)^asm \S+\n(.*?)^end$", (TOP / "examples/task.rsp").read_text())
    data = Random(8).randbytes(32)
    for name, text, at in (("ucode.bin", texts[0], "0x080"), ("boot.bin", texts[1], "0")):
        made = pack_words(files.assemble(text.splitlines(), "--at", at))
        (files.folder / name).write_bytes(made + bytes(-len(made) % 8))
    (files.folder / "data.bin").write_bytes(data)
    (files.folder / "boot.s").write_text(texts[1])
    (files.folder / "examples").symlink_to(TOP / "examples")
    assert "\nok\nstop Halted" in files.run_shell(block_with("docs/MACHINE.md", "rsp asm boot.s boot.bin"))
    sums = [clamp(a + b) for a, b in zip(read_halves(data, 0), read_halves(data, 16))]
    assert read_halves((files.folder / "image").read_bytes()[:0x8010], 0x8000) == sums
