"""The tables of docs/data about contracts against the sources, and what docs/GUARANTEES.md says of both.

They fail if a table lacks a crate, a law, a precondition or a call that may need memory, or names one that
isn't there. They run nothing and prove nothing.

  docs/data/contracts.tsv         each clause is one of its call's contract
  docs/data/laws.tsv              each public function of each laws.rt
  docs/data/preconditions.tsv     each `requires` of each public function, and nothing else
  docs/data/allocations.tsv       each public function that takes an allocator, also by a runtime, or whose
                                  result may say that memory ran out; the tests are there
  docs/data/streams.tsv           each clause of run_bench
  docs/data/without_mutations.tsv   each crate without a file *.edit
  docs/data/unproved.tsv          each file that is linked into what we ship, or included from it, or changes
                                  it, and isn't proved, with its tests

Each part of what GUARANTEES has as proved has a contract or a law in the first two, and they have no other
part. GUARANTEES names each module of the kit whose definitions the main theorem cites, and READING the
definitions of which the contract of run_bench is made.
"""

import ast
import re
from itertools import product
from pathlib import Path
from typing import Dict, Iterator, List, NamedTuple, Optional, Set, Tuple

from lib import TESTS, TOP
from lib.definitions import MAIN_THEOREM, rests_on, used_by
from lib.pages import data, page
from lib.processes import run
from lib.same_items import assert_same_items
from rsp_tools.page_tables import crates
from rsp_tools import recipe
from rsp_tools.systems import helpers

GUARANTEES = "docs/GUARANTEES.md"
# What a source is read by: the beginning and the end of a block of methods, a function, a precondition, and a
# promise, which may have no name. Below are simpler forms, of which each must be found by it.
FOUND = re.compile(
    r"^(?:pub )?(?:unsafe )?(?P<kind>impl|trait)\b(?:<[^{]*?>)? ?(?P<met>[^{\n]*? for )?(?P<owner>\w+)"
    r"[^\n]*\{$"
    r"|^(?P<end>\})$"
    r"|^\s*(?P<seen>pub(?:\([^)]*\))? )?(?P<how>(?:const |unsafe |async |extern (?:\"C\" )?)*)"
    r"fn (?P<name>\w+)"
    r"|^\s*requires\*?\s*(?:\w+ )?\{ ?(?P<clause>.*?) ?\}[;,]?$"
    r"|^\s*(?P<ensures>ensures)\*?\s*(?:(?P<promise>\w+) )?\{",
    re.M | re.S,
)
FORMS = {"name": r"^[^/\"\n]*\bfn \w+[(<]", "clause": r"^\s*requires\b", "ensures": r"^\s*ensures\b"}
# Where the signature of a function ends, and what in it, or in the head of its block, says that the call may
# need memory, besides the faults of which one is OutOfMemory.
SIGNATURE_END = re.compile(r"\brequires\b|\bensures\b|\{\}?\n|;\n")
OF_MEMORY = ("Global", "AllocGlobal", "AllocError")
# The folders whose headers nobody gets, or of which the page speaks as a whole.
OTHER_HEADERS = ("tests/", "fuzz/", "plugin/", "conformance/")


class Part(NamedTuple):
    """A call that other crates can name, with its signature, and with one of its `requires`, with the name of
    one of its `ensures` (`-` for none), or with neither."""

    call: str
    signature: str
    clause: Optional[str] = None
    promise: Optional[str] = None


def exported(root: str) -> Dict[str, Optional[Set[str]]]:
    """The names that a crate's root exports, by their modules; None, which is all names, for a module that
    others can name."""
    public = ("lib", *re.findall(r"^pub mod (\w+);", root, re.M))
    names: Dict[str, Optional[Set[str]]] = {module: None for module in public}
    for module, listed_names in re.findall(r"^pub use (\w+)::(\{[^}]*\}|[\w:]+);", root, re.M):
        found = {
            name.split(" as ")[0].split("::")[-1].strip() for name in listed_names.strip("{}").split(",")
        }
        if module not in public:
            names[module] = (names.get(module) or set()) | found
    return names


def parts_of(path: Path, names: Optional[Set[str]], types: Set[str]) -> Iterator[Part]:
    """The public parts of a module, which exports these names; None is all.

    Only the promises of the calls of a type's traits count, because what they require is the trait's.
    """
    text = path.read_text().split("\nmod tests {")[0]
    found = [*FOUND.finditer(text)]
    for group, form in FORMS.items():
        read = sum(match[group] is not None for match in found)
        assert len(re.findall(form, text, re.M)) <= read, f"{path}: not each {group} can be read"
    kind = head = owner = call = signature = ""
    is_met = False
    for match in found:
        if match["kind"] or match["end"]:
            kind, owner, call, head = match["kind"] or "", match["owner"] or "", "", match[0]
            is_met = match["met"] is not None
        elif match["name"]:
            name = match["name"]
            by_owner = owner in (names or set()) | types
            is_named = names is None or (by_owner if owner else name in names or "extern" in match["how"])
            is_public = match["seen"] == "pub " or kind == "trait"
            call = f"{owner}::{name}".lstrip(":") if is_named and (is_public or is_met) else ""
            signature = "" if is_met else SIGNATURE_END.split(text[match.start() :], maxsplit=1)[0]
            signature += head if signature and "AllocGlobal" in head else ""
            if call and not is_met:
                yield Part(call, signature)
        elif call and match["ensures"]:
            yield Part(call, signature, promise=match["promise"] or "-")
        elif call and not is_met:
            yield Part(call, signature, clause=" ".join(match["clause"].split()))


def public_parts(with_inner: bool = False) -> Iterator[Tuple[str, Part]]:
    """The crates with their public parts, and those of types that they don't export; a program has none."""
    for crate in crates():
        source = TOP / "crates" / crate / "src"
        if (source / "lib.rt").exists():
            named = exported((source / "lib.rt").read_text())
            types = {name for names in named.values() for name in names or ()}
            for path in sorted(source.rglob("*.rt")):
                module = path.relative_to(source).with_suffix("").parts[0]
                names = None if with_inner else named.get(module, set())
                yield from ((crate, part) for part in parts_of(path, names, types))


def listed(name: str, *columns: str) -> List[Tuple[str, ...]]:
    """The cells of these columns of a table of docs/data, a line for each item of a cell that is a list."""
    return [cells for row in data(name) for cells in product(*(row[it].split("; ") for it in columns))]


Clause = Tuple[str, ...]  # a crate, a call, and what the call requires


def covers(written: Clause, found: Clause) -> bool:
    """Whether a line has a clause. There `T::*` is each call of T, and `A ..` each clause that begins so."""
    (crate, named, required), (name, call, clause) = written, found
    calls = named == call or (named.endswith("::*") and call.startswith(named[:-1]))
    clauses = required == clause or (required.endswith(" ..") and clause.startswith(required[:-2]))
    return crate == name and calls and clauses


def test_preconditions() -> None:
    """The table has each clause of the sources, and no other."""
    written = {*listed("preconditions", "Crate", "Call", "Precondition")}
    found = {(crate, it.call, it.clause) for crate, it in public_parts() if it.clause is not None}
    covering = {clause: {line for line in written if covers(line, clause)} for clause in found}
    lost = ["\t".join((*clause, "in words")) for clause in sorted(found) if not covering[clause]]
    assert found and not lost, "add these lines to the table"
    assert not written.difference(*covering.values()), "no public function requires these: take them out"


def section(heading: str) -> str:
    return page(GUARANTEES).partition(f"\n## {heading}\n")[2].partition("\n## ")[0]


def test_assumed() -> None:
    """GUARANTEES names which definitions of the kit run_bench's contract cites."""
    _, modules = rests_on(MAIN_THEOREM)
    expected = [name.replace("Rattle.std.specs.", "") for name in modules if ".declared." not in name]
    head = "**The definitions of the kit that the main theorem cites**"
    cited = section("Assumed").partition(head)[2].partition("\n- **")[0]
    assert_same_items({*re.findall(r"`([^`]*)`", cited)} - {"Rattle.std.specs"}, expected)


def linked() -> Set[str]:
    """The files of C that the modules of tools name."""
    folders = (
        "tools/rsp_tools",
        "tools/rsp_tools/systems",
        "tools/rsp_tools/kit",
        "tools/rsp_tools/packaging",
    )
    trees = [ast.parse(path.read_text()) for folder in folders for path in TOP.glob(f"{folder}/*.py")]
    texts = [it.value for tree in trees for it in ast.walk(tree) if isinstance(it, ast.Constant)]
    named = {str(text).rpartition("/")[2] for text in texts if re.fullmatch(r"[\w/]+\.c", str(text))}
    kernels = "linux", "windows", "darwin"
    named.update(path.name for kernel in kernels for path in helpers.sources(kernel))
    return named | {name for kernel in kernels for name in recipe.words(kernel, "start")}


def headers() -> Set[str]:
    """The headers of the program and the libraries in which a function has a body."""
    names = run("git", "ls-files", "-co", "--exclude-standard", "*.h", "*.hpp").stdout.split()
    return {it for it in names if not it.startswith(OTHER_HEADERS) and re.search(r"\)[\w ]*\s*\{", page(it))}


def test_unproved_files() -> None:
    """The table has each such file, and each header with code, with its tests, which are there."""
    rows = {row["File"]: row["Tested by"] for row in data("unproved")}
    files = {name for name in rows if name.endswith(".c")}
    assert {name.rpartition("/")[2] for name in files} == linked()
    # What changes the kit's module before or after clang compiles it.
    changing = {f"tools/rsp_tools/kit/{it}.py" for it in ("rewriting", "objects", "lowering")}
    assert {*rows} == files | headers() | changing
    tests = {name: re.findall(r"tests/[\w/.]*\w", cell) for name, cell in rows.items()}
    assert [name for name, paths in tests.items() if not paths] == []
    assert [it for it in (*rows, *sum(tests.values(), [])) if not (TOP / it).exists()] == []


def is_a_test(name: str) -> bool:
    """Whether a test in which allocations fail has this name."""
    tests = (TESTS / "program/test_failing_allocations.py").read_text()
    is_there = f'"{name}"' in tests or f"def {name}(" in tests
    return is_there or (TESTS / "library/c" / name).is_file()


def faults_of_memory() -> Iterator[str]:
    """The types of the faults of which one is OutOfMemory."""
    for path in TOP.glob("crates/*/src/**/*.rt"):
        for name, variants in re.findall(r"(?m)^pub enum (\w+)[^{]*\{\n((?: .*\n|\n)*)\}", path.read_text()):
            if re.search(r"(?m)^    OutOfMemory\b", variants):
                yield name


def test_allocations() -> None:
    """The table names each public call that may need memory, and no other.

    A line of `brsp_*` names each call that no other line names.
    """
    named = {*listed("allocations", "Crate", "Call")}
    of_memory = re.compile(rf"\b(?:{'|'.join([*OF_MEMORY, *faults_of_memory()])})\b")
    lost, used = [], set()
    for call in ((crate, part.call) for crate, part in public_parts() if of_memory.search(part.signature)):
        fitting = {call, (call[0], f"{call[1].split('_')[0]}_*")} & named
        lost += [] if fitting else [call]
        used |= {call} & fitting or fitting
    assert not lost, "add them to the table"
    assert used and not named - used, "no such public call may need memory: take it out"


def test_tests_of_allocations() -> None:
    """The test of each call that allocates is there; one that never does has none, and a reason."""
    rows = data("allocations")
    tests = [row["Test"] for row in rows if row["Allocates"] == "yes"]
    assert tests and not [name for name in tests if not is_a_test(name)]
    assert {(row["Allocates"], row["Test"]) for row in rows if row["Allocates"] != "yes"} == {("never", "-")}
    assert not [
        row for row in rows if (row["Allocates"] == "yes") != (row["Why its signature says so"] == "-")
    ]


def test_crates() -> None:
    """crates.txt says of each crate what it is, and so does the head of each crate's sources."""
    assert_same_items(crates(), {path.parent.name for path in TOP.glob("crates/*/src")})
    roots = [path for name in ("lib", "main") for path in TOP.glob(f"crates/*/src/{name}.rt")]
    assert len(roots) >= len(crates()) and not [it for it in roots if not it.read_text().startswith("//! ")]


def test_mutations() -> None:
    """The table names the crates that have none, and GUARANTEES says how many there are, rounded to tens."""
    count = {crate: len([*TOP.glob(f"crates/{crate}/*/*.edit")]) for crate in crates()}
    assert_same_items(
        [row["Crate"] for row in data("without_mutations")], [it for it in count if not count[it]]
    )
    tried = len([*TOP.glob("crates/*/must-fail/*.edit")])
    assert f"refuses some {round(tried, -1)} wrong bodies of {round(sum(count.values()), -1)}" in page(
        GUARANTEES
    )


def test_definitions() -> None:
    """GUARANTEES counts the files of definitions on which the main theorem rests, and those of types."""
    files, _ = rests_on(MAIN_THEOREM)
    lines = sum(len(path.read_text().splitlines()) for path in files)
    assert f"{len(files)} files of this repository with some {round(lines, -2):,} lines" in page(GUARANTEES)
    used = [
        name for it in (MAIN_THEOREM, *files) for passed in (False, True) for name, _ in used_by(it, passed)
    ]
    declared = {*re.findall(r"(?m)^Rattle\.rsp_\w+\.specs\.declared\.\w+", "\n".join(used))}
    assert f"types that {len(declared)} source files declare" in page(GUARANTEES)


def test_laws() -> None:
    """The table of laws has each public one."""
    laws = {
        path.parts[-3]: re.findall(r"(?m)^pub fn (\w+)", path.read_text())
        for path in TOP.glob("crates/*/src/laws.rt")
    }
    assert_same_items(
        [f"{row['Crate']} {row['Law']}" for row in data("laws")],
        [f"{crate} {law}" for crate, names in laws.items() for law in names],
    )


def promises(with_inner: bool = False) -> Set[Tuple[str, str, str]]:
    """Each clause of a public function, also of types that no crate exports: crate, call, and the clause's
    name."""
    parts = public_parts(with_inner)
    return {(crate, part.call, part.promise) for crate, part in parts if part.promise is not None}


def test_contracts() -> None:
    """Each clause of the table is one of its call, and of `brsp_*` one of some call of the library for C.

    The table has each clause of each such call, a line of `brsp_*` that of all calls.
    """
    written, found = {*listed("contracts", "Crate", "Call", "Clauses")}, promises()
    of_c = {clause for clause in found if clause[1].startswith("brsp_")}
    of_all = {(crate, "brsp_*", name) for crate, _, name in of_c}
    assert written and not written - found - of_all - promises(with_inner=True)
    assert of_c and not [it for it in of_c if not {it, (it[0], "brsp_*", it[2])} & written]


def test_streams() -> None:
    """The table has each clause of run_bench, by its first word, and READING what they use of Run.antt."""
    clauses = {name for _, call, name in promises() if call == "run_bench"}
    assert_same_items({row["Clause"].split()[0] for row in data("streams")}, clauses)
    (names,) = (names for module, names in used_by(MAIN_THEOREM) if module == "Rattle.rsp_bench.specs.Run")
    (listed,) = re.findall(r"`rsp_bench/specs/Run.antt`:\n\n((?:- .*\n)+)", page("docs/READING.md"))
    assert_same_items(re.findall(r"(?m)^- `(\w+)", listed), names)


def test_parts() -> None:
    """GUARANTEES has the parts of the tables of contracts and laws, and both have no other."""
    parts = re.findall(r"(?m)^- \*\*([^*]*)\*\*", section("Proved, part by part"))
    assert_same_items(parts, {row["Part"] for name in ("contracts", "laws") for row in data(name)})
