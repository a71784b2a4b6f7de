"""tools/theorem NAME TEXT: begins a theorem about microcode.

Reads assembly text from the file TEXT, assembles it with the built program, and writes a routine NAME
(words_like_this) into crates/rsp_routines: src/NAME.rt, specs/Name.antt, proofs/NameRuns.antt, the answers in
proofs/NAME, and lines in lib.rt and both Lib.antt. The statement is proved as it is written:
the words are the text, and nothing changes that no instruction writes. Write what the routine does where it
says TODO. Then:

    cd crates/rsp_routines && rt check --only NAME

The text is straight code and at most one loop, with code before it and after it. `jr $31` and the delay slot
may end it. The branch of the loop is `bne $A, $B`, of which one `addiu` of the loop counts one, or `bgtz $C`.
Or the loop is a wait: `mfc0`, maybe `andi`, and `bne` or `beq` that compares with $0.
Of a loop over buffers, which stores one vector a round, the lines that begin with `--| ` say what it fills:
they are comments until you take these marks away.
"""

from __future__ import annotations

import argparse
import os
import re
import subprocess
import tempfile
from pathlib import Path

from rsp_tools import TOP, build
from rsp_tools.theorem import stop
from rsp_tools.theorem.joined import joined_proof
from rsp_tools.theorem.loops import loop_proof
from rsp_tools.theorem.routine import Joined, Routine, module_of, routine_of
from rsp_tools.theorem.source import source, text_answer, theorem_answer
from rsp_tools.theorem.statement import statement
from rsp_tools.theorem.straight import routine_proof, straight_proof
from rsp_tools.theorem.waits import wait_proof

CRATE = TOP / "crates" / "rsp_routines"
PROGRAM = os.environ.get("RSP_PROGRAM") or str(build.program() or build.LINKED)
RESERVED = set(
    """
    as break const continue crate dyn else enum extern false fn for ghost if impl in let loop match mod
    move mut pub ref return self static struct super trait true type unsafe use where async await
    abstract become box do final macro override priv try typeof unsized virtual yield union requires
    ensures result data record deriving module package open ruleset unfolding abbrev unfoldable elim
    absurd syntax ground assumption search grind omega simp rw std core words text line state
""".split()
)


def check_name(name: str) -> None:
    """Refuses a name that the language or the crate has already."""
    if not re.fullmatch(r"[a-z][a-z0-9]*(_[a-z0-9]+)*", name):
        stop(f"`{name}` is no name like `add_lanes`: small letters, digits, and single _ between them")
    if name in RESERVED:
        stop(f"`{name}` is a word of the language or of the script: take another name")
    module = module_of(name)
    folders = ("src", ".rt"), ("specs", ".antt"), ("proofs", ".antt")
    files = [file for folder, end in folders for file in (CRATE / folder).glob(f"*{end}")]
    mine = name, module, f"{module}Runs"
    for where in (file.relative_to(CRATE) for file in files if file.stem in mine):
        why = "take another name, or delete that routine's files and lines"
        stop(f"`{name}` is used already, by {where}: {why}")
    lower = {one.lower() for one in mine}
    for where in (file.relative_to(CRATE) for file in files if file.stem.lower() in lower):
        stop(f"`{name}` is too near to {where}: a file of it would differ from that in case alone")
    if re.search(rf"\b{name}\b", (CRATE / "src/lib.rt").read_text()):
        stop(f"lib.rt has the name `{name}` already")


def assembled(text: str) -> tuple[list[int], list[str]]:
    """The words of a text, and their disassembly."""
    if not os.access(PROGRAM, os.X_OK):
        stop(
            "the program that assembles the text isn't built: `./rsp run < /dev/null` builds it, or"
            " RSP_PROGRAM names one that is"
        )
    with tempfile.NamedTemporaryFile() as out:
        done = subprocess.run([PROGRAM, "asm", text, out.name], capture_output=True, text=True)
        if done.returncode:
            stop(f"the text isn't assembled: {done.stderr.strip()}")
        data = Path(out.name).read_bytes()
        listing = subprocess.run([PROGRAM, "dis", out.name], capture_output=True, text=True).stdout
    return [int.from_bytes(data[at : at + 4], "big") for at in range(0, len(data), 4)], listing.splitlines()


def lines_of(text: str) -> list[str]:
    """The lines of a text, without comments and needless blanks."""
    lines = (re.sub("[#;].*", "", line) for line in Path(text).read_text().splitlines())
    return [" ".join(line.split()) for line in lines if line.strip()]


def proof(routine: Routine | Joined) -> str:
    if isinstance(routine, Joined):
        return joined_proof(routine)
    if routine.counter:
        return loop_proof(routine)
    if routine.wait:
        return wait_proof(routine, routine.wait)
    return routine_proof(routine) if routine.returns else straight_proof(routine)


def declare(routine: Routine | Joined) -> None:
    """Adds the routine's lines to lib.rt and to both Lib.antt."""
    lib = CRATE / "src/lib.rt"
    code = lib.read_text().rstrip("\n")
    first = code.index("\npub mod ") + 1
    lib.write_text(f"{code[:first]}pub mod {routine.name};\n{code[first:]}\n")
    for path, module in ("specs/Lib.antt", routine.module), ("proofs/Lib.antt", f"{routine.module}Runs"):
        with (CRATE / path).open("a") as file:
            file.write(f"pub mod {module}\n")


def main(name: str, text: str) -> None:
    check_name(name)
    if not os.path.exists(text):
        stop(f"there is no file {text}")
    words, disassembly = assembled(text)
    if not words:
        stop("the text has no instruction")
    routine = routine_of(name, lines_of(text), words, disassembly)
    files = {
        f"src/{name}.rt": source(routine),
        f"specs/{routine.module}.antt": statement(routine),
        f"proofs/{routine.module}Runs.antt": proof(routine),
        f"proofs/{name}/theorem/Answers.antt": theorem_answer(routine),
        f"proofs/{name}/words/Answers.antt": text_answer(routine),
    }
    for path, contents in files.items():
        (CRATE / path).parent.mkdir(parents=True, exist_ok=True)
        (CRATE / path).write_text(contents)
        print("wrote", (CRATE / path).relative_to(TOP))
    declare(routine)
    print(f"now: cd crates/rsp_routines && rt check --only {name}")


if __name__ == "__main__":
    reader = argparse.ArgumentParser(
        prog="tools/theorem", description=__doc__, formatter_class=argparse.RawDescriptionHelpFormatter
    )
    reader.add_argument("name", metavar="NAME")
    reader.add_argument("text", metavar="TEXT")
    options = reader.parse_args()
    main(options.name, options.text)
