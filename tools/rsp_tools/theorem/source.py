"""The routine in Rattle, src/name.rt, and the answers that join it to its theorem."""

from .routine import Text


def source(text: Text) -> str:
    words = "".join(f"    0x{word:08x}, // {comment}\n" for word, comment in zip(text.words, text.comments))
    return f"""//! {text.name}.

ghost use Rattle.rsp_routines.specs.{text.module}.{{text, Does{text.module}}};
ghost use Rattle.rsp_microcode.specs.Text.{{Assembles}};

use rsp_multiply::laws::l4;

const WORDS: [u32; {len(text.words)}] = [
{words}];

// The theorem without the text: other words break it too, and not the text alone.
fn theorem()
    ensures {{ Does{text.module} WORDS }}
{{
    l4();
}}

/// TODO: what the words do, from which states, and what stays as it was.
pub fn words() -> [u32; {len(text.words)}]
    ensures text {{ Assembles text result }}
    ensures theorem {{ Does{text.module} result }}
{{
    theorem();
    WORDS
}}
"""


def theorem_answer(text: Text) -> str:
    return f"""use Rattle.rsp_routines.proofs.{text.module}Runs.{{does}}
use Rattle.rsp_routines.proofs.{text.name}.theorem.Goals as goal

pub returns : goal.returns
returns c = does c.l4.ensures
"""


def text_answer(text: Text) -> str:
    return f"""use Rattle.std.proofs.Common.{{refl}}
use Rattle.rsp_syntax.specs.SourceLine.{{label_of, line_size, first_fault, line_words}}
use Rattle.rsp_syntax.specs.Statement.{{row_named}}
use Rattle.rsp_routines.proofs.{text.name}.words.Goals as goal

pub returns-clause-text : goal.returns-clause-text
unfolding label_of line_size first_fault line_words row_named
returns-clause-text c = refl
"""
