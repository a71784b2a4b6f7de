"""A word as a term of the type `Inst`, by conformance/table.py, and what it writes."""

from __future__ import annotations

from dataclasses import dataclass

from rsp_conformance.table import ROWS, destination, fields_of

from . import stop

# The variants of `Inst` whose rows are of several forms of the table, or that share a form: the rows of each.
SHARED = {
    "ShiftBy": "sllv srlv srav",
    "Multiply": "vmulf vmulu vmudl vmudm vmudn vmudh vmacf vmacu vmadl vmadm vmadn vmadh",
    "Round": "vrndp vrndn",
    "MpegMultiply": "vmulq vmacq",
    "VectorAdd": "vadd vsub vabs vaddc vsubc",
    "ReadAccumulator": "vsar",
    "VectorSelect": "vlt veq vne vge",
    "VectorClip": "vcl vch vcr",
    "VectorMerge": "vmrg",
    "VectorLogic": "vand vnand vor vnor vxor vnxor",
}
VARIANT_OF_ROW = {row: variant for variant, rows in SHARED.items() for row in rows.split()}
VARIANT_OF_FORM = {
    "shift": "Shift", "three": "Register", "immediate": "Immediate", "upper": "LoadUpper", "load": "Load",
    "store": "Store", "branch one": "BranchSign", "branch two": "BranchEqual", "jump": "Jump",
    "jump register": "JumpRegister", "link register": "JumpLinkRegister", "from sp": "MoveSp",
    "from vector": "MoveVector", "to vector": "MoveVector", "from control": "MoveControl",
    "to control": "MoveControl", "lane": "Divide", "nothing": "Idle", "vector load": "VectorLoad",
    "vector store": "VectorStore",
}  # fmt: skip
# The type that names a variant's rows, by its module. The other variants have one row.
OPERATION = {
    "Shift": "scalar.ShiftOp", "ShiftBy": "scalar.ShiftVariableOp", "Register": "scalar.RegisterOp",
    "Immediate": "scalar.ImmediateOp", "Load": "scalar.LoadOp", "Store": "scalar.StoreOp",
    "BranchSign": "scalar.BranchSignOp", "BranchEqual": "scalar.BranchEqualOp", "Jump": "scalar.JumpOp",
    "MoveVector": "scalar.MoveOp", "MoveControl": "scalar.MoveOp", "MoveSp": "scalar.MoveOp",
    "Multiply": "vector.VectorMultiplyOp", "Round": "vector.VectorRoundOp",
    "MpegMultiply": "vector.VectorMpegOp", "VectorAdd": "vector.VectorAddOp",
    "VectorSelect": "vector.VectorSelectOp", "VectorClip": "vector.VectorClipOp",
    "VectorLogic": "vector.VectorLogicOp", "Divide": "vector.VectorDivideOp",
    "VectorLoad": "vector.VectorLoadOp", "VectorStore": "vector.VectorStoreOp", "Idle": "vector.VectorNopOp",
}  # fmt: skip
# A variant's values, by the fields of its form.
VALUES = {
    "shift": "{d} {t} {sa}",
    "three": "(record {{ rd = {d}; rs = {s}; rt = {t} }})",
    "immediate": "{t} {s} {imm}",
    "upper": "{t} {imm}",
    "load": "(record {{ rt = {t}; offset = {imm}; base = {s} }})",
    "store": "(record {{ rt = {t}; offset = {imm}; base = {s} }})",
    "branch one": "{s} {imm}",
    "branch two": "{s} {t} {imm}",
    "jump": "{target}",
    "jump register": "{s}",
    "link register": "{d} {s}",
    "from sp": "{t} {c}",
    "from vector": "{t} {vd} {e}",
    "to vector": "{t} {vd} {e}",
    "from control": "{t} {control}",
    "to control": "{t} {control}",
    "vector": "(record {{ vd = {vd}; vs = {vs}; vt = {vt}; element = {e} }})",
    "lane": "{vd} {de} {vt} {e}",
    "nothing": "",
    "vector load": "(record {{ vt = {vt}; element = {e}; offset = {off}; base = {base} }})",
    "vector store": "(record {{ vt = {vt}; element = {e}; offset = {off}; base = {base} }})",
}
CONTROLS = ("Vco", "Vcc", "Vce", "Vce")
SEMAPHORE = 7
BRANCHES = ("branch one", "branch two", "jump", "jump register", "link register")
RULED = {"VectorAdd", "VectorSelect", "VectorClip", "VectorMerge", "VectorLogic"}
ACCUMULATING = RULED | {"Multiply", "Round", "MpegMultiply", "Divide"}


@dataclass(frozen=True)
class Instruction:
    """A word of microcode: its name, form and fields in the table, and its variant of `Inst`."""

    word: int
    name: str
    form: str
    variant: str
    fields: dict[str, int]

    @property
    def row(self) -> str | None:
        """The constructor that names the row among those of its variant, if the variant has several."""
        if self.variant not in OPERATION:
            return None
        if self.variant.startswith("Move"):
            return "To" if self.form.startswith("to") else "From"
        return self.name.capitalize()

    @property
    def control(self) -> str:
        return CONTROLS[self.fields["c"] % 4]

    @property
    def values(self) -> str:
        control = self.control if self.variant == "MoveControl" else ""
        return VALUES[self.form].format(**self.fields, control=control)

    @property
    def term(self) -> str:
        return " ".join(filter(None, (self.variant, self.row, self.values)))

    @property
    def is_branch(self) -> bool:
        return self.form in BRANCHES

    @property
    def scalar(self) -> int:
        """The scalar register that it writes, or 0."""
        to = destination(ROWS[self.name])
        return self.fields[to] if to else 0

    @property
    def vectors(self) -> list[int]:
        """The vector registers that it writes."""
        if self.name == "ltv":
            first = self.fields["vt"] // 8 * 8
            return list(range(first, first + 8))
        if self.form == "vector load":
            return [self.fields["vt"]]
        return [self.fields["vd"]] if self.form in ("to vector", "vector", "lane") else []

    @property
    def parts(self) -> set[str]:
        """The other parts of the state that it may change."""
        found = set()
        if self.variant in ACCUMULATING:
            found.add("accumulators")
        if self.variant in RULED or self.form == "to control":
            found.add("flags")
        if self.variant == "Divide":
            found.add("divider")
        if self.form in ("store", "vector store"):
            found.add("dmem")
        return found


def instruction_of(word: int) -> Instruction:
    """The instruction of a word. One that no piece of code may hold ends the script with a sentence."""
    row = next((row for row in ROWS.values() if word & row.mask == row.value), None)
    if row is None:
        stop(f"{word:08x} is no instruction of the table")
    fields = fields_of(row, word)
    if row.name == "break":
        stop("a BREAK halts the machine: end the text before it")
    if row.form == "from sp" and fields["c"] == SEMAPHORE:
        stop("a read of the semaphore takes it, which no piece may: take the law `steps_over` for that step")
    if row.form == "to sp":
        stop(
            "a move to an SP register changes what no piece may change: give the code before and after a"
            " transfer by itself, and take the law `transfers` between"
        )
    variant = VARIANT_OF_ROW.get(row.name) or VARIANT_OF_FORM[row.form]
    return Instruction(word, row.name, row.form, variant, fields)


def uses(code: list[Instruction]) -> str:
    """The lines that bring the names of these instructions."""
    homes: dict[str, set[str]] = {"inst.Inst": {it.variant for it in code}}
    for instruction in code:
        if instruction.row:
            homes.setdefault(OPERATION[instruction.variant], set()).add(instruction.row)
        if instruction.variant == "MoveControl":
            homes.setdefault("vector.Control", set()).add(instruction.control)
    lines = (f"{home}.TheVariants.{{{', '.join(sorted(names))}}}" for home, names in sorted(homes.items()))
    return "".join(f"use Rattle.rsp_decode.specs.declared.{line}\n" for line in lines)
