"""Straight code as pieces, for the laws of rsp_microcode."""

from __future__ import annotations

from dataclasses import dataclass, field

from .instructions import Instruction


@dataclass
class Piece:
    """A piece: its kind, the text of each member, and the base registers that have to be aligned."""

    kind: str  # takes, sums, clips, puts or rows
    members: list[str] = field(default_factory=list)
    bases: list[int] = field(default_factory=list)
    moves: bool = False  # whether it writes a scalar register
    name: str = ""

    @property
    def text(self) -> str:
        if self.kind in ("puts", "clips"):
            return f"{self.kind} {self.members[0]}"
        return f"{self.kind} {self.name}" if self.name else f"{self.kind} ({listing(self.members)})"


def listing(members: list[str]) -> str:
    return " ∷ ".join([*members, "[]"])


def is_whole(instruction: Instruction) -> bool:
    """Whether it loads or stores a whole register, with an offset that keeps the base aligned."""
    fields = instruction.fields
    return instruction.name in ("lqv", "sqv") and fields["e"] == 0 and fields["off"] < 64


def pieces_of(code: list[Instruction], steady: dict[int, int]) -> list[Piece]:
    """The pieces of straight code. LQV and SQV of whole registers are pieces if their base is `steady` and
    no instruction before them writes it. Multiplies that add to one are a sum, if none reads what one before
    it wrote. VCH and the VCL after it are clip codes.
    """
    pieces: list[Piece] = []
    written: set[int] = set()
    summed: set[int] = set()  # the vector registers that the last sum wrote
    for before, instruction, after in zip([None, *code], code, [*code[1:], None]):
        if before and are_codes(before, instruction):
            continue
        if after and are_codes(instruction, after):
            pieces.append(Piece("clips", [f"{instruction.values} {after.values}"]))
            continue
        last = pieces[-1].kind if pieces else None
        kind, member = kind_of(instruction, last, summed, steady.keys() - written)
        if kind == "puts" or kind != last or kind == "sums" and not adds(instruction):
            pieces.append(Piece(kind))
            summed = set()
        if kind == "sums":
            summed.add(instruction.fields["vd"])
        piece = pieces[-1]
        piece.members.append(member)
        if kind in ("takes", "puts"):
            piece.bases.append(instruction.fields["base"])
        if instruction.scalar:
            written.add(instruction.scalar)
            piece.moves = True
    return named(pieces)


def are_codes(high: Instruction, low: Instruction) -> bool:
    """Whether VCH and the VCL after it compare numbers of 32 bits: they have one element, and VCL reads no
    register that VCH writes.
    """
    is_pair = (high.name, low.name) == ("vch", "vcl") and high.fields["e"] == low.fields["e"]
    return is_pair and high.fields["vd"] not in (low.fields["vs"], low.fields["vt"])


def adds(instruction: Instruction) -> bool:
    """Whether a multiply adds to the accumulator, and doesn't begin anew."""
    return instruction.name.startswith("vma")


def kind_of(
    instruction: Instruction, last: str | None, summed: set[int], steady: set[int]
) -> tuple[str, str]:
    """The kind of piece that an instruction is in, after one of the kind `last`, and its text there."""
    fields = instruction.fields
    if is_whole(instruction) and fields["base"] in steady:
        where = f"{fields['vt']} {fields['off']} {fields['base']}"
        return ("takes", f"load {where}") if instruction.name == "lqv" else ("puts", where)
    reads_sum = instruction.variant == "Multiply" and {fields["vs"], fields["vt"]} & summed
    if instruction.variant == "Multiply" and (not adds(instruction) or last == "sums" and not reads_sum):
        return "sums", f"term {instruction.row} {fields['vd']} {fields['vs']} {fields['vt']} {fields['e']}"
    return "rows", instruction.term


def named(pieces: list[Piece]) -> list[Piece]:
    """Gives the loads and the sums names, which a lemma about them can use."""
    for kind, name in ("takes", "loads"), ("sums", "terms"):
        for number, piece in enumerate((it for it in pieces if it.kind == kind), 1):
            piece.name = f"{name}_{number}"
    return pieces


def definitions(pieces: list[Piece]) -> str:
    """The definitions of the pieces that have names."""
    return "".join(
        f"abbrev {piece.name} : List {member}\n{piece.name} = {listing(piece.members)}\n\n"
        for kind, member in (("takes", "WholeLoad"), ("sums", "Term"))
        for piece in pieces
        if piece.kind == kind
    )


def pieces_text(pieces: list[Piece], indent: int) -> str:
    return ("\n" + " " * indent + "∷ ").join([*(it.text for it in pieces), "[]"])


def bases_of(pieces: list[Piece]) -> list[int]:
    return sorted({base for it in pieces for base in it.bases})


def aligned(pieces: list[Piece], where: str, state: str, ranges: str = "is", facts: str = "a") -> str:
    """The proof that the addresses of the pieces are aligned, from a fact a1, a2, .. for each base register.
    `where` names the pieces, and `state` what they begin in, with its `ranges`. If instructions before a
    piece write scalar registers, a listing of the registers shows what it reads.
    """
    before = [any(it.moves for it in pieces[:number]) for number in range(len(pieces))]

    def fact(number: int, base: int) -> str:
        if not before[number]:
            return f"{facts}{base}"
        after = f"after_pieces (take {number} {where}) (record {state} {{ registers = r }})"
        listed = f"listed {state}.registers {ranges}.registers.count"
        return f"ap (λ r. register ({after}).registers {base} % 16) ({listed}) ∙ {facts}{base}"

    proof = "tt"
    for number, piece in reversed([*enumerate(pieces)]):
        if piece.kind == "puts":
            proof = f"({fact(number, piece.bases[0])}, {proof})"
        elif piece.kind == "takes":
            group = "tt"
            for base in reversed(piece.bases):
                group = f"({fact(number, base)}, {group})"
            proof = f"({group}, {proof})"
    return proof
