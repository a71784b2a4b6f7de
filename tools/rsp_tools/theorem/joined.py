"""The proof of a loop with straight code before it or after it, which may return."""

from .buffers import marked, result_use
from .instructions import uses
from .imports import IMPORTS, OPENED
from .loops import lemmas, needs_bound
from .pieces import aligned, bases_of
from .routine import Joined, Routine
from .straight import code_text, record_text
from .waits import USES as WAITS, wait_lemmas

JOINS = """\
use Rattle.std.specs.Prelude.{◌++◌}
use Rattle.rsp_microcode.specs.Calls.{Routine, routine_code}
use Rattle.rsp_microcode.proofs.Blocks.{steps_after, first_block}
use Rattle.rsp_microcode.proofs.Calls.{routine_run}
use Rattle.rsp_microcode.proofs.Joins.{blocks_join, ran_at, ran_others, ran_returns, pieces_ran, loop_ran}
"""


def joined_proof(joined: Joined) -> str:
    for block, name in (joined.front, "front"), (joined.back, "back"):
        for piece in block.pieces if block else []:
            piece.name = f"{name}_{piece.name}" if piece.name else ""
    names = f"{joined.module}Does, Does{joined.module}" + ("" if joined.wait else f", {joined.module}Entered")
    turns = wait_lemmas(joined.loop, joined.wait) if joined.wait else lemmas(joined.loop)
    blocks = code_text(joined.front, "front_words", "front", "front_decoded") if joined.front else ""
    if joined.back and joined.returns:
        blocks += record_text(joined.back, "Routine", "back", "back_decoded")
    elif joined.back:
        blocks += code_text(joined.back, "back_words", "back", "back_decoded")
    imports = f"{IMPORTS}{uses(joined.code)}{JOINS}{WAITS if joined.wait else ''}"
    return f"""-- {joined.name}.
{imports}use Rattle.rsp_routines.specs.{joined.module}.{{{names}}}
{result_use(joined.loop)}
{turns}
{blocks}abbrev words : List ℕ
words = {f"front_words ++ {rest(joined)}" if joined.front else rest(joined).strip("()")}

{moved(joined)}{does(joined)}"""


def does(joined: Joined) -> str:
    """The theorem: each block by its law, and all of them joined."""
    before, each, after = joined.steps
    facts = "".join(f" a{base}" for base in joined.straight_bases)
    cuts = [f"steps_after {before} ({joined.later_steps}) s"] if joined.front else []
    cuts += [f"steps_after {each if joined.wait else f'(n * {each})'} {after} u"] if joined.back else []
    given = joined.wait.given if joined.wait else " n entered"
    lines = [*front_lines(joined), *turn_lines(joined), *back_lines(joined)]
    results = marked(f"      filled = {filled(joined)};") if joined.loop.target else ""
    rounds = "" if joined.wait else " n"
    claimed = f"{joined.module}Does words s"
    return f"""\
pub does : SumsOfProducts → Does{joined.module} words
unfolding {OPENED}
does law s is at{facts}{given} =
{"".join(f"    {line}{chr(10)}" for line in lines)}    let done : {claimed} t{rounds} = record {{
{results}      others = {others(joined)};
    }} in
    subst (λ (x : State). {claimed} x{rounds}) (sym ({' ∙ '.join(cuts)})) done
"""


def moved(joined: Joined) -> str:
    """What the loop fills, as of the first state."""
    if not joined.loop.target or joined.entry != "s":
        return ""
    bases = [*dict.fromkeys([*joined.loop.sources, joined.loop.target])]
    names = dict(zip(bases, "abcdefgh"))
    equal = " → ".join(f"register u.registers {base} ≡ register s.registers {base}" for base in bases)
    vectors = " ".join(f"(lanes_at w ({names[base]} + 16 * k))" for base in joined.loop.sources)
    made = f"IsFilled (λ k. result_of {vectors}) w m {names[joined.loop.target]} n"
    numbers = [f"(register u.registers {base})" for base in bases]
    proof, facts = "f", [f"e{base}" for base in bases]
    for place, base in enumerate(bases):
        args = [f"(register s.registers {one})" for one in bases[:place]] + ["x"] + numbers[place + 1 :]
        proof = f"subst (λ x. made {' '.join(args)} u.dmem) e{base} ({proof})"
    last = " ".join(f"(register s.registers {base})" for base in bases)
    filled = "IsFilled (result {0}) {0}.dmem m (register {0}.registers {1}) n"
    text = f"""\
-- what the loop fills, as of the first state
moved : (s u : State) (m : List ℕ) (n : ℕ) → {equal} → u.dmem ≡ s.dmem
    → {filled.format("u", joined.loop.target)} → {filled.format("s", joined.loop.target)}
moved s u m n {" ".join(facts)} d f =
    let made = λ ({" ".join(names.values())} : ℕ) (w : List ℕ). {made} in
    subst (λ w. made {last} w) d ({proof})
"""
    return marked(text) + "\n"


def filled(joined: Joined) -> str:
    """The proof of what the whole fills."""
    stores = [block for block in (joined.front, joined.back) if block and "dmem" in block.parts]
    if stores:
        return "?"
    start, target = joined.entry, joined.loop.target
    proof = "mid.holds.filled"
    if joined.front and start == "s":
        bases = [*dict.fromkeys([*joined.loop.sources, target])]
        same = " ".join(f"(first.spares.scalars {base} refl)" for base in bases)
        proof = f"moved s u v.dmem n {same} (ap (λ (x : State). x.dmem) first.frame) {proof}"
    if not joined.back:
        return proof
    goal = f"IsFilled (result {start}) {start}.dmem m (register {start}.registers {target}) n"
    return f"subst (λ m. {goal}) (sym (ap (λ (x : State). x.dmem) last.frame)) ({proof})"


def middle(joined: Joined) -> str:
    """The name of the loop or the wait."""
    return "wait" if joined.wait else "loop"


def back_words(joined: Joined) -> str:
    return "back.words" if joined.returns else "back_words"


def rest(joined: Joined) -> str:
    """The words from the loop on."""
    return f"({middle(joined)}.words ++ {back_words(joined)})" if joined.back else f"{middle(joined)}.words"


def front_lines(joined: Joined) -> list[str]:
    """The code before the loop: u is the state after it."""
    if not joined.front:
        return ["let u = s in", "let at_u = at in", "let ok = is in"]
    return [
        f"let u = steps_of {joined.steps[0]} s in",
        "let first = pieces_run law front_words front front_decoded refl s is"
        f" (first_block front_words {rest(joined)} s at) {aligned(joined.front.pieces, 'front', 's')} in",
        "let ran_u = pieces_ran front_words front s u at.next first in",
        f"let at_u = ran_at front_words {rest(joined)} _ s u at ran_u in",
        "let ok = first.ranges in",
    ]


def turn_lines(joined: Joined) -> list[str]:
    """The loop or the wait: v is the state after it."""
    wait, words, lines = joined.wait, f"{middle(joined)}.words {back_words(joined)}", []
    at = f"(first_block {words} u at_u)" if joined.back else "at_u"
    steps, ran = f"(n * {joined.steps[1]})", "loop_ran loop n (Holds u n) u v at_u.next mid"
    if wait:
        steps, ran = f"{joined.steps[1]}", "mid"
        if joined.front and not wait.is_quiet:
            lines.append("let same : u.sp ≡ s.sp = ap (λ (x : State). x.sp) first.frame in")
            lines.append(f"let ready : {wait.ready('u')} = rw same ready in")
        lines.append(f"let mid = waits law u ok {at}{wait.given} in")
    else:
        lines.append(f"let entered_u : {joined.module}Entered u n = {entered(joined)} in")
        lines.append(f"let mid = ends law u ok {at} n entered_u in")
    lines += [f"let v = steps_of {steps} u in", f"let ran_v = {ran} in"]
    return [*lines, f"let at_v = ran_at {words} _ u v at_u ran_v in"] if joined.back else lines


def entered(joined: Joined) -> str:
    """The loop's premises, of the state after the code before it."""
    if not joined.front or joined.entry != "s":
        return "entered"
    loop = joined.loop
    names = ["some", "count", *(["small"] if needs_bound(loop) else [])]
    names += [f"{'buffer' if loop.target else 'aligned'}_{base}" for base in loop.bases]
    names += [f"spares_{base}" for base in dict.fromkeys(loop.sources) if loop.target and base != loop.target]
    fields = " ".join(f"{name} = {rewritten(name, loop)};" for name in names)
    return f"record {{ {fields} }}"


def rewritten(name: str, loop: Routine) -> str:
    """A premise of the first state, as one of the state after the code before the loop."""
    if name == "some":
        return "entered.some"
    if name in ("count", "small"):
        numbers = {loop.rounds.register} | ({loop.rounds.other} - {0} if name == "count" else set())
    elif name.startswith("spares"):
        numbers = {int(name.split("_")[1]), loop.target or 0}
    else:
        numbers = {int(name.split("_")[1])}
    facts = ", ".join(f"first.spares.scalars {number} refl" for number in sorted(numbers))
    return f"rw ({facts}) entered.{name}"


def back_lines(joined: Joined) -> list[str]:
    """The code after the loop: t is the state after it."""
    if not joined.back:
        return ["let t = v in"]
    kept = "mid.spares.scalars {0} refl" + (" ∙ first.spares.scalars {0} refl" if joined.front else "")
    bases = bases_of(joined.back.pieces)
    facts = [f"let c{base} = ap (λ x. x % 16) ({kept.format(base)}) ∙ a{base} in" for base in bases]
    law = "routine_run law back" if joined.returns else "pieces_run law back_words back"
    pieces = "back.pieces" if joined.returns else "back"
    proof = aligned(joined.back.pieces, pieces, "v", "mid.ranges", "c")
    return [
        *facts,
        f"let last = {law} back_decoded refl v mid.ranges at_v {proof} in",
        f"let t = steps_of {joined.steps[2]} v in",
    ]


def others(joined: Joined) -> str:
    """The frame of all blocks."""
    sets = f"{joined.numbers} {joined.vectors} refl"
    if joined.returns:
        ran, words = "ran_v", f"{middle(joined)}.words"
        if joined.front:
            ran = f"(blocks_join front_words {words} _ _ s u v ran_u ran_v)"
            words = f"(front_words ++ {words})"
        return f"ran_returns {words} _ back s v t is {ran} refl last {sets}"
    ran = "ran_v"
    if joined.back:
        last = "(pieces_ran back_words back v t at_v.next last)"
        ran = f"(blocks_join {middle(joined)}.words back_words _ _ u v t ran_v {last})"
    if joined.front:
        ran = f"(blocks_join front_words {rest(joined)} _ _ s u t ran_u {ran})"
    return f"ran_others words _ s t is at.next {ran} {sets}"
