"""The proof of a loop: what holds after k rounds, what one round does, and whether one is left."""

import re

from .buffers import MARK, filled, marked, memory, result_use, stored
from .instructions import uses
from .imports import IMPORTS, OPENED
from .pieces import aligned
from .routine import Routine
from .straight import record_text


def wide(amount: int) -> int:
    """The 32 bits that an ADDIU of these 16 bits adds."""
    return amount if amount < 0x8000 else amount + 2**32 - 0x10000


def after_rounds(base: int, amount: int, count: str) -> str:
    """What base register `base` holds after some rounds, each of which adds so much to it."""
    start = f"register s.registers {base}"
    return f"({start} + {wide(amount)} * {count}) % 2 ^ 32" if amount else start


def loop_proof(routine: Routine) -> str:
    names = f"{routine.module}Entered, Does{routine.module}"
    return f"""-- {routine.name}.
{IMPORTS}{uses(routine.code)}use Rattle.rsp_routines.specs.{routine.module}.{{{names}}}
{result_use(routine)}
{lemmas(routine)}
{does(routine)}"""


def lemmas(routine: Routine) -> str:
    """The loop, and what one round does."""
    return f"""{record_text(routine, "Loop", "loop", "decoded")}\
{invariant_text(routine)}
{counted(routine)}
-- whether a round is left
{more(routine)}
{stored(routine)}{one_round(routine)}"""


def invariant_text(routine: Routine) -> str:
    """The invariant of the rounds."""
    count = routine.rounds.register
    bases = "".join(
        f"  base_{base} : register t.registers {base} ≡ {after_rounds(base, routine.far[base], 'k')}\n"
        for base in routine.bases
    )
    filled = f"  filled : IsFilled (result s) s.dmem t.dmem (register s.registers {routine.target}) k\n"
    return f"""-- what holds after k rounds
record Holds (s : State) (n k : ℕ) (t : State) : Type 0 where
  count : {routine.rounds.held(f"register t.registers {count}", f"register s.registers {count}")}
{bases}  -- TODO: what k rounds have done
{marked(filled) if routine.target else ""}"""


def counted(routine: Routine) -> str:
    """The registers after a round: the counter, the bases, and those that the branch reads."""

    def moved(register: int, amount: int) -> str:
        return f"(register r {register} + {amount}) % 2 ^ 32" if amount else f"register r {register}"

    count = routine.rounds.register
    counts = moved(count, routine.rounds.step % 2**32)
    sides = [("q", count, counts)]
    sides += [("q", base, moved(base, wide(routine.far[base]))) for base in routine.bases]
    sides.append(("p", count, f"register r {count}" if routine.rounds.is_late else counts))
    if routine.rounds.branch == "bne":
        sides.append(("p", routine.rounds.other, f"register r {routine.rounds.other}"))
    types = "\n    × ".join(f"(register {when} {register} ≡ {value})" for when, register, value in sides)
    proofs = ", ".join(f"ap ({when} {register}) e" for when, register, _ in sides)
    begun = "(record t { registers = r })"
    return f"""-- the scalar registers after a round (q), and those that the branch reads (p)
counted : (t : State) → length t.registers ≡ 32 →
    let r = t.registers in
    let q = (round_of loop t).registers in
    let p = (after_pieces loop.pieces t).registers in
    {types}
unfolding {OPENED}
counted t n =
    let e = listed t.registers n in
    let q = λ (i : ℕ) (r : List ℕ). register (round_of loop {begun}).registers i in
    let p = λ (i : ℕ) (r : List ℕ). register (after_pieces loop.pieces {begun}).registers i in
    ({proofs})
"""


def in_letters(routine: Routine, fact: str) -> str:
    """A fact of the start, with c for the counter and z for what it is compared with."""
    letters = {str(routine.rounds.register): "c", str(routine.rounds.other): "z"}
    return re.sub(r"register s\.registers (\d+)", lambda found: letters[found[1]], fact)


def more(routine: Routine) -> str:
    """The branch is taken exactly if a round is left. It reads `after`, of r at the start of a round."""
    counter = routine.rounds
    after = "r" if counter.is_late else f"(r + {counter.step % 2**32}) % 2 ^ 32"
    facts = ["k < n", "r < 2 ^ 32", counter.held("r", "c"), in_letters(routine, counter.entered)]
    small = in_letters(routine, counter.small)
    facts += [small] if small else []
    given = f"h w e l{' m' if small else ''}"
    if counter.branch == "bne":
        zero = "" if counter.other else " → z ≡ 0"
        return f"""\
more : (r c z n k : ℕ) → {" → ".join(facts)}{zero} → not ({after} == z) ≡ nat_lt (k + 1) n
more r c z n k {given}{"" if counter.other else " zero"} = elim (cases_lt (k + 1) n) [
  | inl lt ↦ rw (lt-ltb (k + 1) n lt, ne_eqb ({after}) z (omega arith)) refl
  | inr ge ↦ rw (le-ltb (k + 1) n ge, eq-eqb ({after}) z (omega arith)) refl
]
"""
    return f"""\
more : (r c n k : ℕ) → {" → ".join(facts)} → int_lt (pos 0) (s32 ({after})) ≡ nat_lt (k + 1) n
more r c n k {given} =
    let small : {after} < 2147483648 = omega arith in
    rw (s32_small ({after}) small) (elim (cases_lt (k + 1) n) [
      | inl lt ↦ rw (lt-ltb (k + 1) n lt) (lt-ltb 0 ({after}) (omega arith))
      | inr ge ↦ rw (le-ltb (k + 1) n ge) (le-ltb 0 ({after}) (omega arith))
    ])
"""


def taken(routine: Routine) -> str:
    """The proof in one round that the branch does as `more` says."""
    counter, last = routine.rounds, len(routine.bases) + 1
    count = f"(register t.registers {counter.register}) (register s.registers {counter.register})"
    facts = f"h (is.registers.words {counter.register}) e entered.count"
    facts += f" {small_fact(routine)}" if counter.small else ""
    if counter.branch == "bgtz":
        return f"ap (λ x. int_lt (pos 0) (s32 x)) q.{last} ∙ more {count} n k {facts}"
    if counter.other:
        other = f"register s.registers {counter.other}"
        same = f"spares.scalars {counter.other} refl"
        return f"rw (q.{last}, q.{last + 1}, {same}) (more {count} ({other}) n k {facts})"
    zero = f"(register t.registers 0) n k {facts} is.registers.zero"
    return f"rw (q.{last}, q.{last + 1}) (more {count} {zero})"


def needs_bound(routine: Routine) -> bool:
    """Whether the bound of the counted numbers is a premise: buffers inside DMEM bound what steps with
    them."""
    counts_buffer = routine.rounds.step < 0 or routine.rounds.register in routine.bases
    return bool(routine.rounds.small) and not (routine.target and counts_buffer)


def small_fact(routine: Routine) -> str:
    return "entered.small" if needs_bound(routine) else "(omega arith)"


def facts_of(routine: Routine) -> str:
    """The facts of one round about the base registers."""
    aligned = ["let s{0} = entered.aligned_{0} in"]
    buffer = ["let f{0} = entered.buffer_{0} in", "let s{0} = f{0}.aligned in", "let i{0} = f{0}.inside in"]
    forms = ["let b{0} = holds.base_{0} in", *(buffer if routine.target else aligned)]
    lines = [form.format(base) for base in routine.bases for form in forms]
    lines += [
        f"let a{base} : register t.registers {base} % 16 ≡ 0 = omega arith in" for base in routine.bases
    ]
    return "".join(f"    {line}\n" for line in lines)


def one_round(routine: Routine) -> str:
    bases = "".join(
        f"        base_{base} = let f = q.{number} in omega arith;\n"
        for number, base in enumerate(routine.bases, 1)
    )
    words = f"is.registers.words {routine.rounds.register}"
    small = "let m = entered.small in " if needs_bound(routine) else ""
    return f"""\
one_round : (s : State) (n : ℕ) → {routine.module}Entered s n → HandsOn loop s n (Holds s n)
unfolding {OPENED}
one_round s n entered k t h is spares holds =
    let q = counted t is.registers.count in
    let e = holds.count in
{facts_of(routine)}{memory(routine)}    (
      {aligned(routine.pieces, "loop.pieces", "t")},
      {taken(routine)},
      record {{
        count = let f = q.0 in let w = {words} in let c = entered.count in {small}omega arith;
{bases}{filled(routine)}      }},
    )

{ends(routine)}"""


def ends(routine: Routine) -> str:
    """The law of loops, with the invariant."""
    start = f"      count = omega (arith, is.registers.words {routine.rounds.register});\n"
    for base in routine.bases:
        proof = f"omega (arith, is.registers.words {base})" if routine.far[base] else "refl"
        start += f"      base_{base} = {proof};\n"
    target = f"(register s.registers {routine.target})"
    start += f"{MARK}      filled = filled_none (result s) s.dmem {target};\n" if routine.target else ""
    return f"""\
ends : SumsOfProducts → (s : State) → IsState s → IsAt loop.words s → (n : ℕ) → {routine.module}Entered s n
    → AfterLoop loop n (Holds s n) s (steps_of (n * {len(routine.code)}) s)
ends law s is at n entered =
    let start : Holds s n 0 s = record {{
{start}    }} in
    loops law loop decoded refl s is at n entered.some (Holds s n) start (one_round s n entered)
"""


def does(routine: Routine) -> str:
    results = "".join(
        f"      base_{base} = end.holds.base_{base};\n" for base in routine.bases if routine.far[base]
    )
    if routine.target:
        results += f"{MARK}      filled = end.holds.filled;\n"
    return f"""\
pub does : SumsOfProducts → Does{routine.module} loop.words
does law s is at n entered =
    let end = ends law s is at n entered in
    record {{
{results}      others = end.others {routine.numbers} {routine.vectors} refl;
    }}
"""
