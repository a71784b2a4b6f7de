"""The statement of a routine's theorem: specs/Name.antt."""

from __future__ import annotations

from .buffers import marked
from .loops import after_rounds, needs_bound
from .routine import Joined, Routine

IMPORTS = """\
use Rattle.std.specs.Prelude.{ℕ, ℤ, pos, ◌≡◌, ◌≢◌, ◌<◌, ◌+◌, ◌-◌, ◌*◌, ◌/◌, ◌%◌, ◌^◌, ◌+ℤ◌, ◌-ℤ◌, ◌*ℤ◌, ◌++◌}
use Rattle.std.specs.Prelude.{true, false, List, [], ◌∷◌, codes, slice_index}
use Rattle.std.specs.Int.Bits.{bit_and, bit_or, bit_xor}
use Rattle.rsp_numbers.specs.Numbers.{s16, s32, s48, bit_set, sixteen_bits, clamp16, floor_div}
use Rattle.rsp_memory.specs.Memory.{byte_at, word_at}
use Rattle.rsp_lanes.specs.Lanes.{each_lane, source_lane}
use Rattle.rsp_loadstore.specs.File.{vector, with_vector}
use Rattle.rsp_microcode.specs.Lanes.{lanes_at, IsOutside}
use Rattle.rsp_microcode.specs.Buffers.{IsBuffer, SparesBuffer, IsFilled}
use Rattle.rsp_microcode.specs.Fixed.{fixed, limited, fixed_product}
use Rattle.rsp_microcode.specs.Clips.{codes_of, is_below, is_above}
use Rattle.rsp_regs.specs.Sp.{read_value}
use Rattle.rsp_scalar.specs.Registers.{register}
use Rattle.rsp_machine.specs.State.{State, IsState}
use Rattle.rsp_machine.specs.Laws.{steps_of}
use Rattle.rsp_microcode.specs.Runs.{IsAt, address_after_words}
use Rattle.rsp_microcode.specs.Kept.{registers_but, vectors_but}
use Rattle.rsp_microcode.specs.Calls.{return_of}
use Rattle.rsp_scalar.specs.Flow.{address_after}
use Rattle.rsp_microcode.specs.Text.{line}
"""


def statement(routine: Routine | Joined) -> str:
    text = "\n    ++ ".join(f'line (codes "{line}")' for line in routine.lines)
    inner = routine.loop if isinstance(routine, Joined) else routine
    loop = inner if inner.counter else None
    what, rounds = ("all", " (n : ℕ)") if loop else (f"the {len(routine.code)}", "")
    start = routine.entry if isinstance(routine, Joined) else "s"
    filled = ""
    if loop and loop.target:
        target = f"(register {start}.registers {loop.target})"
        filled = f"  pub filled : IsFilled (result {start}) {start}.dmem t.dmem {target} n\n"
    return f"""-- {routine.name}.
{IMPORTS}
abbrev pub text : List ℕ
text =
    {text}

{result(loop)}{entered(loop)}-- what {what} steps from s to t do
pub record {routine.module}Does (words : List ℕ) (s t : State){rounds} : Type 0 where
  -- TODO: the result
{marked(filled)}{moved_bases(routine)}  -- nothing else changed
  pub others : t ≡ record s {{
    {(";" + chr(10) + "    ").join(changed_fields(routine))};
  }}

-- from each state that is about to execute the words
abbrev pub Does{routine.module} : List ℕ → Type 0
Does{routine.module} words = (s : State) → IsState s → IsAt words s → {claim(routine)}
"""


def result(loop: Routine | None) -> str:
    """What a loop over buffers fills."""
    if not loop or not loop.target:
        return ""
    letters = "vwxyz"[: len(loop.sources)]
    sources = " ".join(f"(lanes_at s.dmem (register s.registers {base} + 16 * k))" for base in loop.sources)
    text = f"""-- TODO: what a round stores, by the vectors that it loads
abbrev pub result_of : {"List ℕ → " * len(letters)}List ℕ
result_of {" ".join(letters)} = each_lane (λ i. ?)

-- vector k of the result
abbrev pub result : State → ℕ → List ℕ
result s k = result_of {sources}
"""
    return marked(text) + "\n"


def entered(loop: Routine | None) -> str:
    """What a loop is entered with."""
    if not loop:
        return ""
    facts = ["pub some : 0 < n", f"pub count : {loop.rounds.entered}"]
    facts += [f"pub small : {loop.rounds.small}"] if needs_bound(loop) else []
    for base in loop.bases:
        start = f"register s.registers {base}"
        buffer = f"pub buffer_{base} : IsBuffer ({start}) n"
        facts.append(buffer if loop.target else f"pub aligned_{base} : {start} % 16 ≡ 0")
    for base in dict.fromkeys(loop.sources if loop.target else []):
        if base != loop.target:
            target = f"register s.registers {loop.target}"
            facts.append(f"pub spares_{base} : SparesBuffer ({target}) (register s.registers {base}) n")
    return f"""-- what the loop is entered with: n rounds
pub record {loop.module}Entered (s : State) (n : ℕ) : Type 0 where
{"".join(f"  {fact}{chr(10)}" for fact in facts)}
"""


def moved_bases(routine: Routine | Joined) -> str:
    """What the base registers hold after a loop."""
    if isinstance(routine, Joined):
        return ""
    moved = [base for base in routine.bases if routine.counter and routine.far[base]]
    return "".join(
        f"  pub base_{base} : register t.registers {base} ≡ {after_rounds(base, routine.far[base], 'n')}\n"
        for base in moved
    )


def changed_fields(routine: Routine | Joined) -> list[str]:
    """The fields of the state after, which the routine may change."""
    end = "return_of s" if routine.returns else "address_after_words words s.pc"
    after_end = "address_after (return_of s)" if routine.returns else end.replace("s.pc", "s.npc")
    fields = [f"pc = {end}", f"npc = {after_end}"]
    if routine.numbers != "[]":
        fields.append(f"registers = registers_but {routine.numbers} s.registers t.registers")
    if routine.vectors != "[]":
        fields.append(f"vectors = vectors_but {routine.vectors} s.vectors t.vectors")
    return fields + [f"{part} = t.{part}" for part in routine.parts]


def claim(routine: Routine | Joined) -> str:
    does, steps = f"{routine.module}Does words s", len(routine.code)
    if isinstance(routine, Joined) and not routine.wait:
        rounds = f"(n : ℕ) → {routine.module}Entered {routine.entry} n"
        return f"{premises(routine)}{rounds} → {does} (steps_of ({routine.all_steps}) s) n"
    if routine.counter:
        return f"(n : ℕ) → {routine.module}Entered s n → {does} (steps_of (n * {steps}) s) n"
    return f"{premises(routine)}{does} (steps_of {steps} s)"


def premises(routine: Routine | Joined) -> str:
    """That the addresses of straight code are aligned, and that a wait ends."""
    bases = routine.straight_bases if isinstance(routine, Joined) else routine.bases
    facts = [f"register s.registers {base} % 16 ≡ 0" for base in bases]
    if routine.wait and not routine.wait.is_quiet:
        facts.append(routine.wait.ready("s"))
    return "".join(f"{fact} → " for fact in facts)
