"""record FILE..: writes compiled/record, what the kit said of the crates, for readers who don't have the kit.
A FILE has what `rt ci` or tests/mutations/crates printed of the sources as they are.

record --check FILE: compares the record with the crates, and with what `rt ci` printed. It fails if the
record has other sources of the program or the library, other counts or other mutations, or if a mutation
wasn't refused. The last line is `N passed, M failed`.

Of a crate of which no FILE says anything, the record keeps its lines, with the sum of the sources of which
that was said. Without a line of its functions, the record isn't written. A crate whose mutations nothing says
were all tried has no line of them, and the record counts such crates, so that each line is what the kit said.
"""

import argparse
import datetime
import functools
import hashlib
import re
import sys
from pathlib import Path
from typing import Dict, List, NamedTuple, Optional, Sequence

from rsp_tools import TOP
from rsp_tools.build import BUILT, line_of, sources
from rsp_tools.crates import CRATES, LINES, rlib_folder, with_below
from rsp_tools.systems.toolchain import Refused

from . import modules, toolchain
from .said import REFUSED, WITH_TESTS, Proof, Said, proof, read

RECORD = TOP / "compiled/record"
FORM = """What the kit said of the crates, for readers who don't have it. tools/assemble wrote this, or
`tools/python rsp_tools.kit.record`. `rt ci` proves all again, and tests/mutations/crates tries the mutations.

day         {day}
kit         {kit}
sources     {sources}
axioms      {axioms}: contracts of C functions, which the kit assumes
functions   {functions}
mutations   {mutations}
earlier     {earlier}

The functions of each crate, all proved, and the first digits of the sum of its sources and of all below:

{proved}

The mutations of each crate, all refused, the sum of them, and that of the sources on which they were tried:

{tried}
"""
HELP = "tools/python rsp_tools.kit.record --help"
KNOWN = re.compile(r"(?m)^(rsp_\w+(?: with tests)?) +(\d+)(?:  ([0-9a-f]{16}))?  ([0-9a-f]{16})$")


class Line(NamedTuple):
    """How many functions a crate has, with the sum of the sources of which this was said; or how many
    mutations, also with the sum of them."""

    number: int
    sources: str
    edits: str = ""

    def __str__(self) -> str:
        return "  ".join(filter(None, (f"{self.number:>5}", self.edits, self.sources)))


class Record(NamedTuple):
    """The lines: of proofs by the name of the crate, also WITH_TESTS; and of mutations by that of the crate.
    And the axioms that the program and the library reach."""

    proved: Dict[str, Line]
    tried: Dict[str, Line]
    axioms: Dict[str, int]


def made_of(tops: Sequence[str]) -> str:
    """The sums of the sources of the crates on top with all below."""
    return ", ".join(f"{sources(top).split()[-2]} ({top})" for top in tops)


@functools.lru_cache(None)
def sum_of(name: str) -> str:
    """The first digits of the sum of the sources of a crate, also WITH_TESTS, with all below."""
    return sources(name.partition(" ")[0]).split()[-2][:16]


def edits(crate: str) -> List[Path]:
    """The mutations of a crate, without the gate's copies of those that it draws."""
    found = [it for folder in ("must-fail", "drawn") for it in (CRATES / crate / folder).glob("*.edit")]
    return sorted((it for it in found if not it.name.startswith("drawn.")), key=lambda it: it.name)


def sum_of_edits(crate: str) -> str:
    """The first digits of the sum of the mutations of a crate."""
    listed = "".join(line_of(it.name, it.read_bytes()) for it in edits(crate))
    return hashlib.sha256(listed.encode()).hexdigest()[:16]


def names() -> List[str]:
    """Of what there are proofs: the crates, each after those that it uses, and crates WITH_TESTS."""
    crates = dict.fromkeys(below for name in LINES for below in with_below(name))
    tested = [
        it for it in crates if any("#[test]" in at.read_text() for at in CRATES.glob(f"{it}/src/**/*.rt"))
    ]
    return [*crates, *(name + WITH_TESTS for name in tested)]


def below_tops() -> List[str]:
    """The crates of the program and of the library for C."""
    return [*dict.fromkeys(name for top in BUILT for name in with_below(top))]


def time_of(path: Path) -> float:
    """When the file was made; 0 if it is gone."""
    try:
        return path.stat().st_ctime
    except FileNotFoundError:
        return 0


def kept_proof(name: str) -> Optional[Proof]:
    """What a proof in this clone has left of a crate as it is; None if it has left nothing."""
    for crate in (modules.PROGRAM, modules.LIBRARY):
        folder = modules.KEPT / f"{name}-x86_64"
        if crate.name == name and modules.is_kept(folder, modules.mark(crate)):
            return proof((folder / "said").read_text(errors="replace"))
    log, stamp = CRATES / name / "out/proof.log", rlib_folder(name) / "stamp"
    return proof(log.read_text(errors="replace")) if time_of(log) >= time_of(stamp) > 0 else None


def known(text: str) -> Record:
    """The lines of a record. Of two of one crate, which a merge leaves, that of the sources as they are."""
    axioms = " ".join(re.findall(r"(?m)^axioms .*", text))
    record = Record({}, {}, {name: int(it) for it, name in re.findall(r"(\d+) \((rsp_\w+)\)", axioms)})
    for name, count, total, of in KNOWN.findall(text):
        lines = record.tried if total else record.proved
        if name not in lines or of == sum_of(name):
            lines[name] = Line(int(count), of, total)
    return record


def not_refused(said: Said) -> List[str]:
    """A sentence for each mutation that wasn't refused."""
    results = [
        (f"{crate}/{name}", it) for crate, found in said.mutations.items() for name, it in found.items()
    ]
    return [f"the mutation {name} wasn't refused: {it}" for name, it in results if not it.startswith(REFUSED)]


def line_of_proof(name: str, found: Optional[Proof], before: Optional[Line]) -> Optional[Line]:
    return Line(found.functions, sum_of(name)) if found else before


def line_of_mutations(crate: str, tried: Dict[str, str], before: Optional[Line]) -> Optional[Line]:
    """The line of the mutations of a crate; None if they weren't all tried as they are."""
    stored, total = [it.stem for it in edits(crate)], sum_of_edits(crate)
    if all(name in tried for name in stored):
        return Line(len(stored), sum_of(crate), total)
    return before if before and before.edits == total else None


def renewed(before: Record, said: Said) -> Record:
    """The record with what the kit has said since. Refused if nothing says what became of a crate."""
    if wrong := not_refused(said):
        raise Refused(wrong[0])
    found = {name: said.proofs.get(name) or kept_proof(name) for name in names()}
    proved = {name: line_of_proof(name, it, before.proved.get(name)) for name, it in found.items()}
    of_mutations = {
        it: line_of_mutations(it, said.mutations.get(it, {}), before.tried.get(it)) for it in LINES
    }
    if lacking := [name for name, line in proved.items() if not line]:
        raise Refused(f"nothing here says what became of {', '.join(lacking)} ({HELP})")
    return Record(
        {name: line for name, line in proved.items() if line},
        {crate: line for crate, line in of_mutations.items() if line},
        {top: it.axioms if (it := found[top]) else before.axioms[top] for top in BUILT},
    )


def functions(record: Record) -> str:
    """How many functions are proved."""
    below, others = below_tops(), [name for name in LINES if name not in below_tops()]
    counts = {name: record.proved.get(name + WITH_TESTS, record.proved[name]).number for name in others}
    of = sum(record.proved[name].number for name in below)
    return (
        f"{of} are proved, in the {len(below)} crates of the program and of the library for C, "
        f"and {sum(counts.values())} in {len(counts)} others, with their tests"
    )


def mutations(record: Record) -> str:
    """How many mutations were refused, and of how many crates not all were tried."""
    stored = [it for crate in LINES for it in edits(crate)]
    each_time = len([it for it in stored if it.parent.name == "must-fail"])
    total = sum(line.number for line in record.tried.values())
    others = len([crate for crate in LINES if edits(crate) and crate not in record.tried])
    return (
        f"{total} of {len(stored)} were tried, and all were refused; "
        f"those of {others} crates have no line here; "
        f"each run of the gate tries {each_time}, and draws others"
    )


def earlier(record: Record) -> str:
    """How many crates have lines of other sources than those that are there."""
    stale = [
        {name.partition(" ")[0] for name, it in of.items() if it.sources != sum_of(name)} for of in record[:2]
    ]
    return "the functions of {} crates and the mutations of {} crates are those of other sources".format(
        *map(len, stale)
    )


def text_of(record: Record, day: str, kit: str) -> str:
    """The file."""
    return FORM.format(
        day=day,
        kit=kit,
        sources=made_of(BUILT),
        axioms=", ".join(f"{record.axioms[top]} ({top})" for top in BUILT),
        functions=functions(record),
        mutations=mutations(record),
        earlier=earlier(record),
        proved="\n".join(f"{name:<28}{line}" for name, line in record.proved.items()),
        tried="\n".join(f"{name:<28}{line}" for name, line in record.tried.items()),
    )


def new_text(*outputs: Path) -> str:
    """The file with what the kit printed. What another kit said isn't kept."""
    before, kit = RECORD.read_text() if RECORD.exists() else "", toolchain.version()
    if not kit:
        raise Refused(toolchain.NONE)
    said = read("\n".join(path.read_text(errors="replace") for path in outputs))
    return text_of(renewed(known(before if kit in before else ""), said), str(datetime.date.today()), kit)


def fault_of_proof(name: str, line: Optional[Line], found: Optional[Proof]) -> str:
    """A sentence if the record has another line of a crate than there is."""
    if not line:
        return f"the record has no line of {name}"
    if line.sources != sum_of(name):
        return f"the record is of other sources of {name}" if name in below_tops() else ""
    if found and found.functions != line.number:
        return f"the record has {line.number} functions of {name}, and the kit says {found.functions}"
    return ""


def faults(text: str, said: Said) -> List[str]:
    """A sentence for each line of the record that isn't right."""
    record = known(text)
    found = [fault_of_proof(name, record.proved.get(name), said.proofs.get(name)) for name in names()]
    for crate in LINES:
        line = record.tried.get(crate)
        is_right = not line or (line.number, line.edits) == (len(edits(crate)), sum_of_edits(crate))
        found.append("" if is_right else f"the record has other mutations of {crate}")
    head = dict(re.findall(r"(?m)^(day|kit) +(.*)$", text))
    if not any(found) and text != text_of(record, head.get("day", ""), head.get("kit", "")):
        found.append("the record isn't as tools/assemble writes it")
    return [*filter(None, found), *not_refused(said)]


def check(output: Path) -> int:
    """Names what is wrong with the record, and counts. The status."""
    text = RECORD.read_text()
    found = faults(text, read(output.read_text(errors="replace")))
    print(*found, *re.findall(r"(?m)^earlier .*", text), sep="\n")
    print(f"{max(len(names()) + len(LINES) - len(found), 0)} passed, {len(found)} failed")
    return int(bool(found))


def main() -> int:
    form = argparse.RawDescriptionHelpFormatter
    parser = argparse.ArgumentParser(
        "tools/python rsp_tools.kit.record", description=__doc__, formatter_class=form
    )
    parser.add_argument("--check", metavar="FILE", type=Path, help="compare the record, and write nothing")
    parser.add_argument("output", metavar="FILE", type=Path, nargs="*", help="what the kit printed")
    options = parser.parse_args()
    try:
        if options.check:
            return check(options.check)
        text = new_text(*options.output)
        RECORD.write_text(text)
        print(f"compiled/record is of {text.partition('day')[2].split()[0]}")
    except Refused as reason:
        print(f"record: {reason}", file=sys.stderr)
    except OSError as reason:
        print(f"record: {reason.filename}: {reason.strerror}", file=sys.stderr)
    else:
        return 0
    return 1


if __name__ == "__main__":
    sys.exit(main())
