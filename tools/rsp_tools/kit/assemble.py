"""tools/assemble makes the files of compiled/ anew, of which cc makes the program and the library for C.
./prove makes them too, changes nothing, and compares each byte with what is there. tools/build CRATE makes
only this system's file of the program (rsp_main) or of the library (rsp_c), in crates/CRATE/out, and then
becomes the command that follows; ./rsp and library/c/build call it if a source isn't as it was when compiled/
was made.

All need the kit. They first prove what isn't proved here, one crate after the other, and print when each
begins and ends; a run that was stopped continues there. Then the kit compiles, several files at a time: to
assembly for each system, and the library to WebAssembly. Beside the proofs that takes some seven minutes of
processor time. The same kit makes the same bytes of the same sources in any folder.

tools/assemble also writes compiled/record, by what the proofs here have left and what the record said before
(record.py), and the kit's name in NOTICE. ./prove names each file that differs, and counts in its last line.

The status is 0 if all is made or the same, 1 if not, and 2 if the words are wrong. It is 3 if ./prove finds
files that differ, but they are of these sources, and the marks name another kit than the one that is here.
This alone is no fault, because another kit may compile the same sources to other bytes.
"""

import argparse
import os
import platform
import re
import signal
import sys
import tempfile
import time
from concurrent.futures import ThreadPoolExecutor
from pathlib import Path
from typing import Dict, List, Mapping, NoReturn, Sequence, Tuple

from rsp_tools import TOP
from rsp_tools.build import is_made, line_of, listed_sources, sources
from rsp_tools.crates import CRATES, with_below
from rsp_tools.packaging.install_tree import File, put_all
from rsp_tools.systems.toolchain import Refused
from rsp_tools.targets import CROSS, NATIVE, PROCESSORS, TARGETS

from . import toolchain, web
from .lowering import lowered, versions
from .modules import LIBRARY, PROGRAM, WEB, Crate, Module, module
from .objects import common, compiled, for_linux
from .proof import prove_below
from .record import made_of, new_text
from .rewriting import with_own_calls, with_unwind_tables, without_stack_probes
from .toolchain import LOGIC, version

COMPILED = TOP / "compiled"
ON_TOP = (PROGRAM, LIBRARY)
TOPS = [crate.name for crate in ON_TOP]
Files = Dict[str, bytes]  # by their names in compiled/


def triples(crate: Crate) -> Dict[str, Tuple[str, str]]:
    """The processor and clang's triple of each file of a crate, by the file's name. A Linux with another C
    library takes the file of the first Linux on its processor."""
    found: Dict[str, Tuple[str, str]] = {}
    for target in (NATIVE, *CROSS):
        for processor, triple in target.triples.items():
            name = f"{target.cmake[0]}-{triple.partition('-')[0]}-{crate.end}.s"
            found.setdefault(name, (processor, triple))
    return found


def for_other(made: Module, crate: Crate, processor: str, triple: str, at: Path) -> str:
    """For a system that the kit doesn't know. For Windows GNU's assembler can't read a section for each
    function."""
    flags = [*made.flags, "-fno-verbose-asm"]
    changes = [with_own_calls] if crate == PROGRAM else []
    if triple in TARGETS["windows-x86_64"].triples.values():
        flags = [it for it in flags if not it.endswith("-sections")]
        changes += [without_stack_probes, with_unwind_tables]
    return common(compiled(made._replace(flags=flags), processor, triple, at, changes, kind="-S"))


def assembly(crate: Crate, processor: str, triple: str) -> bytes:
    """A file."""
    made = module(processor, crate)
    with tempfile.TemporaryDirectory() as at:
        if triple == PROCESSORS[processor].triple:
            return for_linux(made, triple, Path(at)).encode()
        return for_other(made, crate, processor, triple, Path(at)).encode()


def for_web() -> Files:
    """The library as WebAssembly."""
    with tempfile.TemporaryDirectory() as at:
        web.link(Path(at, "rsp.wasm"), web.objects(Path(at)))
        return with_short_memory(Path(at, "rsp.wasm").read_bytes())


def with_short_memory(module: bytes) -> Files:
    """rsp.wasm with a 32-bit memory, and a file that says what lowered it, with the sum of the module that
    was lowered. Other versions of these tools may write other bytes, so with them the files that are there
    stay if they are of that module."""
    of = line_of("rsp.wasm with a 64-bit memory", module)
    there = {name: COMPILED / name for name in ("rsp.wasm", "lowering")}
    if all(path.is_file() for path in there.values()):
        tools, _, made_of = there["lowering"].read_text().partition("\n")
        if made_of == of and tools != versions():
            return {name: path.read_bytes() for name, path in there.items()}
    return {"rsp.wasm": lowered(module), "lowering": f"{versions()}\n{of}".encode()}


def make() -> Dict[Crate, Files]:
    """Makes all files side by side. Each has a thread, because most wait for a module at first."""
    with ThreadPoolExecutor(20) as pool:
        going = {
            crate: {name: pool.submit(assembly, crate, *it) for name, it in triples(crate).items()}
            for crate in ON_TOP
        }
        with_web = pool.submit(for_web)
        made = {crate: {name: it.result() for name, it in files.items()} for crate, files in going.items()}
        return {**made, WEB: with_web.result()}


def mark(crate: Crate, files: Files, folder: str = "compiled") -> str:
    """What tools/built.sh reads: of what these files in a folder are made, and first by which kit."""
    sums = [line_of(f"{folder}/{name}", data) for name, data in files.items()]
    for path in crate.parts:
        sums.append(line_of(str(path.relative_to(TOP)), path.read_bytes()))
    return f"{version()}\n{sources(crate.name)}{''.join(sums)}"


def differing(files: Files) -> List[str]:
    """The names of those that aren't there with these bytes."""
    paths = {name: COMPILED / name for name in files}
    return [name for name, path in paths.items() if not path.is_file() or path.read_bytes() != files[name]]


def listed() -> Files:
    """The list by which a message names the first source that is changed (tools/built.sh)."""
    return {"sources": listed_sources().encode()}


def marked(crate: Crate) -> Tuple[str, str]:
    """The kit that the mark names, and all else that the mark says; empty if there is none."""
    path = COMPILED / crate.made
    by, _, of_what = (path.read_text() if path.is_file() else "").partition("\n")
    return by, of_what


def stale() -> str:
    """A sentence if compiled/ isn't made of the sources as they are, otherwise empty."""
    is_right = all(is_made(f"compiled/{crate.made}") for crate in (*ON_TOP, WEB))
    return "" if is_right else "compiled/ isn't made of the sources as they are: tools/assemble makes it"


def compare(crate: Crate, files: Files) -> Tuple[List[str], List[str]]:
    """The names of what is wrong; and of files that differ, but whose mark is right and names another kit
    than the one that is here."""
    (by, of_what), others = marked(crate), differing(files)
    there = {name: (COMPILED / name).read_bytes() for name in files if (COMPILED / name).is_file()}
    if of_what != mark(crate, there).partition("\n")[2]:
        return [*others, crate.made], []
    return (others, []) if by == version() else ([], others)


def check(made: Mapping[Crate, Files]) -> int:
    """Names the files that would become others, and counts. The status."""
    compared = [compare(crate, files) for crate, files in made.items()]
    wrong, others = ([name for it in compared for name in it[number]] for number in (0, 1))
    wrong += differing(listed())
    for name in wrong:
        print(f"compiled/{name} isn't what `{version()}` makes of these sources: tools/assemble makes it")
    for name in others:
        print(
            f"compiled/{name} is made by another kit, and `{version()}` makes other bytes of the same sources"
        )
    if others:
        print("This alone is no fault, but only the kit that the mark names can check these files")
    count = sum(len(files) + 1 for files in made.values()) + 1 - len(wrong) - len(others)
    print(f"{count} passed, {len(wrong)} failed")
    return 1 if wrong else 3 if others else 0


def with_kit(notice: str, mark: str) -> str:
    """NOTICE with the name of the kit that a mark begins with."""
    return re.sub(r"rattle-kit-\w+", mark.split()[0], notice)


def renewed_record() -> Files:
    """The record, except if nothing here says what became of a crate."""
    try:
        return {"record": new_text().encode()}
    except Refused as reason:
        say(f"compiled/record stays as it is, because {reason}")
        return {}


def write(made: Mapping[Crate, Files]) -> int:
    """Writes the files that are new, with the record, and names them. A mark of the same sources and files
    stays, whichever kit it names."""
    new: Files = {}
    for crate, files in made.items():
        new.update((name, files[name]) for name in differing(files))
        if marked(crate)[1] != mark(crate, files).partition("\n")[2]:
            new[crate.made] = mark(crate, files).encode()
    new.update((name, listed()[name]) for name in differing(listed()))
    if PROGRAM.made in new:
        notice = (COMPILED / "NOTICE").read_text()
        new["NOTICE"] = with_kit(notice, new[PROGRAM.made].decode()).encode()
    kept = COMPILED / "record"
    if new or not kept.exists() or made_of(TOPS) not in kept.read_text():
        new.update(renewed_record())
    put(COMPILED, new)
    print(f"rsp: {', '.join(new) or 'nothing'} in compiled/ is new")
    return 0


def make_here(crate: Crate) -> Files:
    """This system's file, and then its mark."""
    triple, begun = PROCESSORS[platform.machine()].triple, time.time()
    say(f"{crate.name} begins")
    files = {name: assembly(crate, *of) for name, of in triples(crate).items() if of[1] == triple}
    say(f"{crate.name} is proved and compiled after {time.time() - begun:.0f} s")
    made = mark(crate, files, str(crate.out.relative_to(TOP)))
    return {**files, crate.made: made.encode()}


def put(folder: Path, files: Files) -> None:
    put_all(folder, [File(*it) for it in files.items()], fail)


def say(text: str) -> None:
    print(f"rsp: {text}", file=sys.stderr, flush=True)


def fail(text: str, status: int = 1) -> NoReturn:
    """Ends at once, and all that the kit is about with it."""
    toolchain.end_all()
    say(text)
    os._exit(status)


def stop(number: int, _: object) -> NoReturn:
    fail("stopped; the next run goes on from here", 128 + number)


def check_kit() -> None:
    if not version():
        fail("`rt`, the command of the Rattle kit, isn't on this machine (compiled/record names its version)")
    if not version().endswith(LOGIC):
        fail(f"the kit here is `{version()}`, and the proofs are for one of `{LOGIC}` (tools/logic)")


def check_edits(since: float) -> None:
    """Ends if a source was edited in the meantime: an edit that was taken back leaves the same sums, and may
    yet be part of what is made."""
    for name in dict.fromkeys(below for top in TOPS for below in with_below(top)):
        folders = [it for part in ("src", "specs", "proofs") for it in os.walk(CRATES / name / part)]
        if any(os.lstat(f"{at}/{it}").st_ctime >= since for at, _, files in folders for it in ["", *files]):
            fail(f"{name} was edited in the meantime, so nothing is written: type the command again")


def arguments() -> argparse.Namespace:
    form = argparse.RawDescriptionHelpFormatter
    parser = argparse.ArgumentParser("tools/assemble", description=__doc__, formatter_class=form)
    kinds = parser.add_mutually_exclusive_group()
    kinds.add_argument("--check", action="store_true", help="compare, as ./prove does")
    kinds.add_argument("--here", metavar="CRATE", choices=TOPS, help="as tools/build does")
    proved = "prove nothing below the program and the library, because `rt ci` has just done it"
    parser.add_argument("--proved", action="store_true", help=proved)
    parser.add_argument("command", nargs="*", metavar="COMMAND", help="what --here then becomes")
    return parser.parse_args()


def prove(crates: Sequence[Crate]) -> None:
    """Proves what is below these crates. Ends if one can't be proved."""
    if failed := prove_below([crate.name for crate in crates], say):
        log = f"crates/{failed}/out/proof.log"
        print(*(TOP / log).read_text(errors="replace").splitlines()[-25:], sep="\n", file=sys.stderr)
        fail(f"{failed} isn't proved, for the reason above; all that `rt` said is in {log}")


def build(crate: Crate, command: Sequence[str], since: float) -> int:
    """Makes this system's file of a crate, whose sources weren't edited since, and becomes a command."""
    prove([crate])
    files = make_here(crate)
    check_edits(since)
    put(crate.out, files)
    if command:
        os.execv(command[0], [*command])
    return 0


def main() -> int:
    options = arguments()
    since = time.time() - 0.02  # the system's clock of files is a little behind
    for number in (signal.SIGINT, signal.SIGTERM):
        signal.signal(number, stop)
    check_kit()
    try:
        if options.here:
            return build(ON_TOP[TOPS.index(options.here)], options.command, since)
        if not options.proved:
            prove(ON_TOP)
        made = make()
        check_edits(since)
        return check(made) if options.check else write(made)
    except (Refused, OSError) as reason:
        fail(str(reason))


if __name__ == "__main__":
    sys.exit(main())
