"""What a loop over buffers fills: it loads a vector from each of some buffers, and stores one.

The lines begin with `--| `: they are comments until the author has written what a round stores.
"""

from .imports import OPENED
from .routine import Routine

MARK = "--| "


def marked(text: str) -> str:
    """Lines that are comments until the marks are taken away."""
    return "".join(f"{MARK}{line}\n" if line else "\n" for line in text.splitlines())


def result_use(routine: Routine) -> str:
    """The line that brings the result of a loop over buffers."""
    line = f"use Rattle.rsp_routines.specs.{routine.module}.{{result_of, result}}"
    return marked(line) if routine.target else ""


def loaded(routine: Routine, state: str, offset: str) -> list[str]:
    """The vectors that a round loads, in their order."""
    return [
        f"(lanes_at {state}.dmem (register {state}.registers {base} + 16 * {offset}))"
        for base in routine.sources
    ]


def stored(routine: Routine) -> str:
    """What one round stores: `?` is what the instructions between the loads and the store make of them."""
    if not routine.target:
        return ""
    before = routine.pieces[: [piece.kind for piece in routine.pieces].index("puts")]
    moves = any(piece.moves for piece in before)
    begun = "(round_of loop (record t { registers = r })).dmem"
    listed = f"ap (λ (r : List ℕ). {begun}) (listed t.registers is.registers.count)\n    ∙ " if moves else ""
    put = f"with_lanes t.dmem (register t.registers {routine.target} + 16 * 0)"
    known, proof = reads(routine, "(listing t.registers)" if moves else "t.registers")
    text = f"""-- what a round stores
stored : (t : State) → IsState t → (round_of loop t).dmem
    ≡ {put} (result_of {" ".join(loaded(routine, "t", "0"))})
unfolding {OPENED}
stored t is =
{known}    {listed}ap ({put}) ({proof})
"""
    return marked(text) + "\n"


def reads(routine: Routine, registers: str) -> tuple[str, str]:
    """Lines for the vector registers after the loads, and the proof of the one that is stored."""
    kinds = [piece.kind for piece in routine.pieces]
    if kinds[0] != "takes" or kinds.count("takes") > 1:
        return "", "?"
    vectors = [int(load.split()[1]) for load in routine.pieces[0].members]
    count = " ∙ ".join(f"length-with_vector _ {vector} _" for vector in reversed(vectors[1:]))
    count += f"{' ∙ ' if count else ''}length-with_vector t.vectors {vectors[0]} _ ∙ is.vectors.count"
    loads = f"loaded {routine.pieces[0].name} t.dmem {registers}"
    known = f"""    let file = after_writes with_vector ({loads}) t.vectors in
    let read = λ (n : ℕ). vector_reads ({loads}) t.vectors n is.vectors.count refl in
    let count = {count} in
"""
    number = next(number for number, one in enumerate(routine.code) if one.name == "sqv")
    writes = "".join(
        f"({vector}, _) ∷ " for one in routine.code[len(vectors) : number] for vector in one.vectors
    )
    put = routine.code[number].fields["vt"]
    same = ", ".join(f"read {vector}" for vector in vectors)
    return known, f"vector_reads ({writes}[]) file {put} count refl ∙ ? ∙ rw ({same}) refl"


def memory(routine: Routine) -> str:
    """The lines of one round that say which DMEM it leaves."""
    if not routine.target:
        return ""
    target = f"register s.registers {routine.target}"
    sources = [*dict.fromkeys(routine.sources)]
    lines = [same_vector(routine, base) for base in sources]
    lines.append(f"to : register t.registers {routine.target} + 16 * 0 ≡ {target} + 16 * k = omega arith")
    after = f"with_lanes t.dmem ({target} + 16 * k) (result s k)"
    names = ", ".join([*(f"v{base}" for base in sources), "to"])
    lines.append(f"memory : (round_of loop t).dmem ≡ {after} = stored t is ∙ rw ({names}) refl")
    return "".join(f"{MARK}    let {line} in\n" for line in lines)


def same_vector(routine: Routine, base: int) -> str:
    """The fact that a round loads what was there at the start."""
    spared = f"entered.spares_{base}" if base != routine.target else "(inl (omega arith))"
    now = f"lanes_at t.dmem (register t.registers {base} + 16 * 0)"
    then = f"lanes_at s.dmem (register s.registers {base} + 16 * k)"
    target = routine.target
    begins = f"(register s.registers {target}) (register s.registers {base})"
    buffers = f"{begins} n k f{target} f{base} {spared}"
    proof = f"ap (lanes_at t.dmem) (omega arith) ∙ filled_spares _ _ _ {buffers} h holds.filled"
    return f"v{base} : {now} ≡ {then} = {proof}"


def filled(routine: Routine) -> str:
    """The field of one round that says that one vector more is filled."""
    if not routine.target:
        return ""
    target = f"(register s.registers {routine.target})"
    known = f"n k f{routine.target} h is.dmem.count (length_each _) holds.filled"
    one = f"filled_one (result s) s.dmem t.dmem {target} {known}"
    goal = f"λ m. IsFilled (result s) s.dmem m {target} (k + 1)"
    return f"{MARK}        filled = subst ({goal}) (sym memory) ({one});\n"
