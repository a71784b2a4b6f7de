"""Counts the cases of test vectors, and the scripts, that use each clause and each value of its tests.

A test is what `if` and `cond` decide by, an operand of `&&` and `||`, and which of two numbers a minimum or a
maximum takes. Where a rule is by lane, the cases are counted for each lane.
"""

from typing import Any, Callable, Counter, Dict, Iterator, List, NamedTuple, Optional, Set, Tuple

from .bodies import Body
from .compiler import Compiler
from .kit import lines
from .modules import Global, Library
from .programs import IMAGE_BYTES, SESSION, SESSION_NAMES, Fault, Session, read_file, write_file
from .states import BadInput, Machine, before
from .steps import cases_of
from .syntax import Clause, Expression, text_of

LANES, NO_LANE = range(8), 8
SCRIPTS = "scripts"
EXTREMES = {"min": "<", "int_min": "<", "max": ">", "int_max": ">"}


class Site(NamedTuple):
    """A clause, or a test in a clause."""

    path: str
    line: int
    left: str  # the left side of the clause
    text: str  # of the test; empty for the clause


class Use(NamedTuple):
    """A value of a site in a lane, or in no lane."""

    site: int
    value: bool
    lane: int


class Recorder:
    """What is used while definitions are computed."""

    def __init__(self) -> None:
        self.sites: List[Site] = []
        self.used: Set[int] = set()
        self.lane = NO_LANE

    def add(self, site: Site) -> int:
        """The number of a site."""
        self.sites.append(site)
        return len(self.sites) - 1

    def seen(self, site: int, value: Any) -> Any:
        """Records a value of a test, and returns it."""
        self.used.add((site * 2 + bool(value)) * 9 + self.lane)
        return value

    def extreme(self, site: int, is_first: bool, a: Any, b: Any) -> Any:
        """Records which of two numbers is taken unless they are equal, and returns it."""
        if a != b:
            self.seen(site, is_first)
        return a if is_first else b

    def with_lane(self, lane: int, f: Callable[[int], Any]) -> Any:
        """The value of a function for a lane."""
        outer, self.lane = self.lane, lane
        try:
            return f(lane)
        finally:
            self.lane = outer

    def take(self) -> Iterator[Use]:
        """What was used since the last time."""
        used, self.used = self.used, set()
        for number in used:
            yield Use(number // 18, bool(number // 9 % 2), number % 9)


class CoveredBody(Body):
    """Writes a definition that records what is used of it."""

    compiler: "CoveredCompiler"

    left = ""  # the left side of the current clause

    def site(self, text: str = "") -> int:
        """The number of a new site of the current clause."""
        return self.compiler.recorder.add(Site(self.path, self.line, self.left, text))

    def begin(self, clause: Clause, pad: str) -> str:
        name = self.function.name if self.function else ""
        self.left = text_of(("app", ("var", name), clause.patterns)) if clause.patterns else name
        return f"{pad}seen({self.site()}, True)\n"

    def tested(self, e: Expression) -> str:
        return f"seen({self.site(text_of(e))}, {self.code(e)})"

    def special(self, found: Global, arguments: List[Expression]) -> Optional[str]:
        if found.name in EXTREMES and len(arguments) == 2:
            text = f"{found.name}: {text_of(arguments[0])} is taken"
            a, b = map(self.code, arguments)
            return f"(lambda x, y: extreme({self.site(text)}, x {EXTREMES[found.name]} y, x, y))({a}, {b})"
        return super().special(found, arguments)


class CoveredCompiler(Compiler):
    """Compiles definitions that record what is used of them."""

    def __init__(self, library: Library) -> None:
        super().__init__(library, CoveredBody)
        self.recorder = Recorder()
        self.space.update(
            seen=self.recorder.seen, extreme=self.recorder.extreme, with_lane=self.recorder.with_lane
        )

    def function(self, module: str, name: str) -> str:
        text = super().function(module, name)
        code = self.global_name(Global("function", module, name))
        if name == "each_lane":
            text += (
                f"\n{code}_raw = {code}\ndef {code}(f):\n    return {code}_raw(lambda i: with_lane(i, f))\n"
            )
        return text


class Coverage:
    """How many cases use what, by the names of their instructions. All scripts have the name SCRIPTS."""

    def __init__(self, library: Library) -> None:
        self.compiler = CoveredCompiler(library)
        self.recorder = self.compiler.recorder
        self.machine = Machine(self.compiler)
        self.of_step = self.compiled()
        for name in SESSION_NAMES:
            self.compiler.get(SESSION, name)
        self.all = self.compiled()
        self.counts: Counter[Tuple[str, Use]] = Counter()
        self.ran = 0

    def compiled(self) -> List[int]:
        """The sites of all that is compiled, in the order of the files."""
        return sorted(range(len(self.recorder.sites)), key=self.recorder.sites.__getitem__)

    def begin(self) -> None:
        """Lets a case compute anew what is kept, except constants."""
        for name, kept in self.compiler.space.items():
            if name.endswith("__kept") and isinstance(kept, dict):
                kept.clear()
        self.recorder.used.clear()

    def end(self, name: str) -> None:
        """Counts what a case has used."""
        self.counts.update((name, use) for use in self.recorder.take())
        self.ran += 1

    def case(self, case: Dict[str, Any]) -> None:
        """Counts what a case of the vectors uses."""
        self.begin()
        self.machine.step_of(self.machine.state(*before(case)))
        self.end(case["name"].rpartition("-")[0])

    def script(self, script: bytes, image: bytes = bytes(IMAGE_BYTES)) -> List[bytes]:
        """Counts what a script uses, and returns its replies."""
        self.begin()
        session = Session(self.compiler, image)
        replies = [session.answer(line) for line in lines(tuple(script))]
        replies.append(session.end())
        self.end(SCRIPTS)
        return replies

    def file(self, path: str) -> None:
        """Counts what the cases of a file of vectors use, or a script."""
        if path.endswith(".jsonl"):
            for case in cases_of(path):
                self.case(case)
        else:
            try:
                self.script(read_file(path))
            except Fault as fault:
                raise BadInput(str(fault)) from None

    def by_lane(self, name: Optional[str], site: int, value: bool) -> List[int]:
        """The cases of a name, or of all, that show a value: in each lane, and in none."""
        names = {name} if name is not None else {other for other, _ in self.counts}
        return [sum(self.counts[it, Use(site, value, lane)] for it in names) for lane in (*LANES, NO_LANE)]

    def lacking(self) -> Iterator[Tuple[Site, str]]:
        """What no case and no script uses, of a clause that they use: each with what it lacks."""
        shown = {(use.site, use.value) for _, use in self.counts}
        in_lanes = {(use.site, use.value, use.lane) for _, use in self.counts}
        of_lanes = {use.site for _, use in self.counts if use.lane != NO_LANE}
        for number in self.all:
            site = self.recorder.sites[number]
            for value in (False, True) if site.text else (True,):
                absent = [lane for lane in LANES if (number, value, lane) not in in_lanes]
                if (number, value) not in shown:
                    yield site, f"never {str(value).lower()}" if site.text else "not used"
                elif number in of_lanes and absent:
                    yield site, f"never {str(value).lower()} in lane {absent[0]}"

    def table(self) -> Iterator[str]:
        """The lines of a table: each clause, and for each instruction both values of its tests."""
        yield "Instruction\tClause\tTest\tValue\tCases by lane\n"
        names = sorted({name for name, _ in self.counts} - {SCRIPTS})
        used = {(name, use.site) for name, use in self.counts}
        for number in self.of_step:
            site = self.recorder.sites[number]
            place = f"{site.path[len('crates/') :]}:{site.line} {site.left}"
            if not site.text:
                yield f"-\t{place}\t\t\t{texts(self.by_lane(None, number, True))}\n"
                continue
            for name in names:
                for value in (False, True) if (name, number) in used else ():
                    count = texts(self.by_lane(name, number, value))
                    yield f"{name}\t{place}\t{site.text}\t{str(value).lower()}\t{count}\n"


def texts(counts: List[int]) -> str:
    """Eight numbers of cases, or one if none of them is of a lane."""
    *lanes, other = counts
    return " ".join(map(str, lanes)) if any(lanes) else str(other)


def report(coverage: Coverage, paths: List[str], table: Optional[str]) -> int:
    """Prints what the cases and scripts of files don't use, and writes the table."""
    for path in paths:
        coverage.file(path)
    lacking = [*coverage.lacking()]
    for site, what in lacking:
        print(f"{site.path}:{site.line}: {site.left}: {site.text and '`' + site.text + '` is '}{what}")
    clauses = sum(not coverage.recorder.sites[number].text for number in coverage.all)
    tests = len(coverage.all) - clauses
    print(f"{coverage.ran} cases and scripts, {clauses} clauses, {tests} tests, {len(lacking)} lacking")
    if table is not None:
        write_file(table, "".join(coverage.table()).encode())
    return 0
