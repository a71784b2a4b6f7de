"""The proof of a wait for an SP register: a block whose branch isn't taken."""

from .instructions import uses
from .imports import IMPORTS, OPENED
from .routine import Routine, Wait
from .straight import record_text

USES = """\
use Rattle.rsp_microcode.specs.Blocks.{Ran}
use Rattle.rsp_microcode.proofs.Branches.{block_runs}
"""


def wait_proof(routine: Routine, wait: Wait) -> str:
    sets = f"{routine.numbers} {routine.vectors}"
    return f"""-- {routine.name}.
{IMPORTS}{USES}use Rattle.rsp_microcode.proofs.Joins.{{ran_others}}
{uses(routine.code)}use Rattle.rsp_routines.specs.{routine.module}.{{Does{routine.module}}}

{wait_lemmas(routine, wait)}
pub does : SumsOfProducts → Does{routine.module} wait.words
does law s is at{wait.given} = record {{
  others = ran_others wait.words _ s _ is at.next (waits law s is at{wait.given}) {sets} refl;
}}
"""


def wait_lemmas(routine: Routine, wait: Wait) -> str:
    """The wait as a block, and that its branch isn't taken."""
    premise, ready = f"{wait.ready('s')} → ", "ready"
    if wait.is_quiet:
        premise, ready = "", "quiet s.sp"
        if wait.mask is not None:
            ready = f"ap (λ n. bit_and n {wait.mask}) (quiet s.sp)"
    if wait.until_set and routine.code[-2].fields["s"]:
        ready = f"ne_eqb ({wait.value('s')}) 0 {ready}"
    elif wait.until_set:
        ready = f"ne_eqb 0 ({wait.value('s')}) (λ e. {ready} (sym e))"
    ran = f"Ran wait.words (loop_code wait) s (steps_of {len(routine.code)} s)"
    listed = "register (after_pieces wait.pieces (record s { registers = r })).registers i"
    return f"""{record_text(routine, "Loop", "wait", "wait_decoded")}\
{quiet(wait)}-- the registers that the branch compares
compared : (s : State) → length s.registers ≡ 32 →
    let r = (after_pieces wait.pieces s).registers in
    (register r {wait.tested} ≡ {wait.value("s")}) × (register r 0 ≡ register s.registers 0)
unfolding {OPENED}
compared s n =
    let e = listed s.registers n in
    let p = λ (i : ℕ) (r : List ℕ). {listed} in
    (ap (p {wait.tested}) e, ap (p 0) e)

-- nothing but an instruction changes an SP register, so the wait ends in its first round or never
waits : SumsOfProducts → (s : State) → IsState s → IsAt wait.words s → {premise}{ran}
waits law s is at{wait.given} =
    let r = compared s is.registers.count in
    let zero = is.registers.zero in
    (block_runs law wait wait_decoded refl s is at tt).passed (rw (r.0, r.1, zero, {ready}) refl)
"""


def quiet(wait: Wait) -> str:
    if not wait.is_quiet:
        return ""
    return f"""-- what SP register {wait.number} reads: a DMA is done at once
quiet : (p : Sp) → read_value {wait.number} p ≡ 0
unfolding read_value
quiet p = refl

"""
