"""The proofs of straight code, and of a routine that returns."""

from .imports import IMPORTS, OPENED
from .instructions import uses
from .pieces import aligned, definitions, pieces_text
from .routine import Routine


def straight_proof(routine: Routine) -> str:
    return f"""-- {routine.name}.
{IMPORTS}{uses(routine.code)}use Rattle.rsp_routines.specs.{routine.module}.{{Does{routine.module}}}

{code_text(routine, "words", "pieces", "decoded")}\
{does(routine, "words", "pieces", "pieces_run law words pieces")}"""


def routine_proof(routine: Routine) -> str:
    return f"""-- {routine.name}.
{IMPORTS}{uses(routine.code)}use Rattle.rsp_microcode.specs.Calls.{{Routine, routine_code}}
use Rattle.rsp_routines.specs.{routine.module}.{{Does{routine.module}}}
use Rattle.rsp_microcode.proofs.Calls.{{routine_run}}

{record_text(routine, "Routine", "routine", "decoded")}\
{does(routine, "routine.words", "routine.pieces", "routine_run law routine")}"""


def code_text(routine: Routine, words: str, pieces: str, fact: str) -> str:
    """Straight code by these names: its words, its pieces, and that they are the same."""
    return f"""\
{definitions(routine.pieces)}abbrev {words} : List ℕ
{words} = {routine.listed_words}

abbrev {pieces} : List Piece
{pieces} =
    {pieces_text(routine.pieces, 4)}

{same_text(fact, words, f"code_of {pieces}")}
"""


def record_text(routine: Routine, kind: str, name: str, fact: str) -> str:
    """A Routine or a Loop of this name, and that its words are its pieces."""
    branch = f"  branch = {routine.code[-2].term};\n" if routine.counter or routine.wait else ""
    return f"""\
{definitions(routine.pieces)}abbrev {name} : {kind}
{name} = record {{
  words = {routine.listed_words};
  pieces =
      {pieces_text(routine.pieces, 4)};
{branch}  slot = {routine.code[-1].term};
}}

{same_text(fact, f"{name}.words", f"{kind.lower()}_code {name}")}
"""


def same_text(fact: str, words: str, code: str) -> str:
    return f"""\
{fact} : map inst_of {words} ≡ map Some ({code})
unfolding inst_of row_of
{fact} = refl
"""


def does(routine: Routine, words: str, pieces: str, law: str) -> str:
    """The theorem: the law that runs the pieces, and the frame."""
    kinds = {piece.kind for piece in routine.pieces}
    is_opened = "rows" in kinds and (routine.bases or "clips" in kinds)
    facts = "".join(f" a{base}" for base in routine.bases)
    return f"""\
pub does : SumsOfProducts → Does{routine.module} {words}
{f"unfolding {OPENED}{chr(10)}" if is_opened else ""}does law s is at{facts} =
    let end = {law} decoded refl s is at {aligned(routine.pieces, pieces, "s")} in
    record {{ others = end.others {routine.numbers} {routine.vectors} refl }}
"""
