"""Why a value is what it is: the clauses that led to it, with the values put in."""

import argparse
import json
import os
import re
from typing import Any, Dict, Iterator, List, NamedTuple, Sequence, Set, Tuple

from . import kit
from .modules import Library
from .places import Place, named, place_of
from .states import DEFAULT, SIZES, BadInput, Machine, before, check_keys
from .steps import cases_of
from .traced import Call, Found, Source, TracedCompiler, path_to
from .views import View, is_helper

DESCRIPTION = """Explains a value after an instruction by the clauses that led to it, with the values put in.

  tools/define why VADD-000 v9.1                                       after a test vector
  tools/define why 'vadd $v1, $v2, $v3' v1.0 v2=0005.. v3=fffd..       after an instruction

WHAT is v9.1, acc.2, carry.0, vco.3, r4, $s1, c4, pc, npc, in, out, loaded, interrupt or dmem.010. KEY is a
key of test vectors, or the address of bytes such as dmem.010; `..` repeats the digits before it."""
TEXTS = "Rattle.rsp_syntax.specs.SourceText"
ENDS = "Rattle.rsp_machine.specs.declared.step.StepEnd.TheVariants"
# Clauses on the way of each value, which say nothing of it.
SILENT = set(
    "step_of step_by executed after_single_step each_lane for_each all_flags flags_at results_of lows_of"
    " flags_after modulo floor_div".split()
)
MOST_STEPS = 40  # how many clauses are shown


class Step(NamedTuple):
    """A clause with its values."""

    of: str  # the part of a clause before it whose value this one gives; "" for the value that is explained
    file: str
    line: int
    comment: str
    source: str
    values: List[str]
    tests: List[str]
    forms: List[str]  # its right side with values put in


class Explanation(NamedTuple):
    """Why a value is what it is after an instruction."""

    text: str
    what: str
    before: str
    after: str
    note: str
    steps: List[Step]

    def __str__(self) -> str:
        return "\n".join(self.lines())

    def lines(self) -> Iterator[str]:
        """The explanation as lines of a text."""
        yield f"{self.text}: {self.what} is {self.after} after it, and {self.before} before (hexadecimal)"
        if self.note:
            yield f"  {self.note}"
        for step in self.steps:
            yield f"\n{step.of} above:" if step.of else ""
            yield f"{step.file}:{step.line}"
            yield from (f"  {line}" for line in [*step.comment.splitlines(), *step.source.splitlines()])
            if step.values:
                yield f"    with {', '.join(step.values)}"
            yield from (f"    {test}" for test in step.tests)
            yield from (f"    = {form}" for form in step.forms)


class Explainer:
    """Explains values after a step."""

    def __init__(self, library: Library) -> None:
        self.compiler = TracedCompiler(library)
        self.machine = Machine(self.compiler)
        self.texts: Dict[str, List[str]] = {}

    def word_of(self, text: str, pc: int) -> int:
        """The word of an instruction as assembly text."""
        meaning = self.compiler.get(TEXTS, "meaning_of_text")(tuple(text.encode()), pc)
        if isinstance(meaning, kit.Err):
            name = self.compiler.get("Rattle.rsp_syntax.specs.Faults", "kind_name")(meaning._0.kind)
            raise BadInput(f"{text[:60]!r} is no instruction: {bytes(name).decode()}")
        if len(meaning._0) != 1:
            raise BadInput(f"{text[:60]!r} is {len(meaning._0)} words, not one")
        return int(meaning._0[0])

    def explain(self, state: Any, place: Place, text: str) -> Explanation:
        """Why a value is what it is after a step."""
        bank, *path = place.path
        if bank in SIZES and int(path[0]) >= len(getattr(state, str(bank))):
            raise BadInput(f"{place.name} is outside of the memory")
        self.compiler.trace.clear()
        old = named(self.compiler, state)
        end, new = self.machine.step_of(old)
        before_, after = (self.value_at(it, place) for it in (state, new))
        calls = self.calls_at(new, place)
        note = self.note_on(end, calls, after)
        shown = [f"{it % (1 << 4 * place.digits):0{place.digits}x}" for it in (before_, after)]
        return Explanation(text, place.name, shown[0], shown[1], note, self.steps(calls))

    def note_on(self, end: Any, calls: List[Call], after: Any) -> str:
        """What is to be said of a value besides its clauses."""
        if end is not self.compiler.constructor(ENDS, "Done"):
            return (
                f"The step answers {end.name if hasattr(end, 'name') else 'Reserved'}, and changes nothing."
            )
        if not calls:
            return "No clause writes it: the step leaves it as it was."
        moved = isinstance(after, Found) and after.name
        return f"It is {after.name} from before the step, moved as it is." if moved else ""

    def value_at(self, state: Any, place: Place) -> Any:
        """The value at a place of a state."""
        value = state
        for step in place.path:
            value = getattr(value, step) if isinstance(step, str) else value[step]
        return self.machine.read_value(int(place.name[1:]), value) if place.path == ("sp",) else value

    def calls_at(self, state: Any, place: Place) -> List[Call]:
        """The calls that gave and moved the value at a place; none if the step left it."""
        if place.path == ("sp",):
            return self.calls_at_register(state, place)
        trace, holder, calls = self.compiler.trace, state, []
        for step in place.path:
            value = getattr(holder, step) if isinstance(step, str) else holder[step]
            writer = trace.writer_of(holder, step) if isinstance(step, str) else None
            calls.append(trace.call_of(value) or writer)
            holder = value
        if isinstance(holder, Found) and holder.name == place.name and holder.call is None:
            return []
        own = [holder, holder.earlier] if isinstance(holder, Found) else []
        return [it.call for it in own if it and it.call] or [call for call in calls[::-1] if call][:1]

    def calls_at_register(self, state: Any, place: Place) -> List[Call]:
        """The calls that wrote the fields of an SP register, and the one that reads it; none if none did."""
        trace = self.compiler.trace
        calls = [trace.writer_of(state.sp, field) for field in place.fields]
        written = [call for call in calls if call is not None]
        read = trace.call_of(self.value_at(state, place))
        return [*written, read] if written and read else written

    def steps(self, calls: Sequence[Call]) -> List[Step]:
        """The clauses on the way to calls, and then those of the values in them."""
        steps: List[Step] = []
        seen: Set[int] = set()
        shown: Set[Tuple[Any, ...]] = set()
        left = [("", call) for call in calls]
        while left and len(steps) < MOST_STEPS:
            of, call = left.pop(0)
            for one in self.path(call, not of, seen):
                step, view = self.step(one, of)
                key = (step.file, step.line, step.source, *step.values)
                if key not in shown:
                    is_new = all(it.comment != step.comment for it in steps)
                    steps.append(step if is_new else step._replace(comment=""))
                    shown.add(key)
                    of = ""
                    left += view.used
        return steps

    def path(self, call: Call, is_main: bool, seen: Set[int]) -> Iterator[Call]:
        """The calls on the way to a call that weren't seen and say something of it."""
        for one in path_to(call):
            if one.source is None or one.source.function.name in SILENT or id(one) in seen:
                continue
            seen.add(id(one))
            if is_main or one is call or not is_helper(one.source):
                yield one

    def step(self, call: Call, of: str) -> Tuple[Step, View]:
        """A clause as a step of the explanation."""
        view = View(self.compiler, call)
        source, values = view.source, view.values()
        about = of, source.path, source.line, self.comment(source), source.text
        return Step(*about, values, view.tests, view.forms()), view

    def comment(self, source: Source) -> str:
        """The comment above a definition."""
        if source.path not in self.texts:
            self.texts[source.path] = self.compiler.library.text(source.path).split("\n")
        lines, end = self.texts[source.path], source.function.line - 1
        start = end
        while start > 0 and lines[start - 1].startswith("--"):
            start -= 1
        return "\n".join(lines[start:end])


def arguments_of(words: Sequence[str]) -> Dict[str, Any]:
    """The keys before an instruction, from KEY=HEX."""
    keys: Dict[str, Any] = {}
    for word in words:
        key, sign, digits = word.partition("=")
        bank, _, address = key.partition(".")
        if not sign or (bank not in SIZES or not address) and key not in DEFAULT:
            raise BadInput(
                f"{word[:40]!r} is no KEY=HEX of test vectors, such as r4=12, v2=0005.. or dmem.010=0102"
            )
        if bank in SIZES:
            keys.setdefault(bank, {})[address] = digits
        else:
            keys[key] = filled(key, digits)
    check_keys(keys)
    pc = int(keys.get("pc", "0"), 16)
    keys.setdefault("npc", f"{(pc + 4) % 4096:03x}")
    if pc % 4 or int(keys["npc"], 16) % 4:
        raise BadInput("pc and npc are multiples of 4")
    return keys


def filled(key: str, digits: str) -> str:
    """The digits of a key: after HEX.. repeated, and a number with zeros in front."""
    count = len(DEFAULT[key])
    if digits.endswith("..") and len(digits) > 2 and count % len(digits[:-2]) == 0:
        return digits[:-2] * (count // len(digits[:-2]))
    return digits if key[0] == "v" and key[1:].isdigit() else digits.rjust(count, "0")


def case_of(library: Library, name: str) -> Dict[str, Any]:
    """A case of the test vectors by its name."""
    path = os.path.join(library.root, "conformance/vectors/steps", f"{name.rpartition('-')[0]}.jsonl")
    if not os.path.isfile(path):
        raise BadInput(f"there is no case {name}: {path} isn't there")
    for case in cases_of(path):
        if case["name"] == name:
            return case
    raise BadInput(f"there is no case {name} in {path}")


def add_words(parser: argparse.ArgumentParser) -> None:
    """Adds the arguments of the command to its parser."""
    parser.description, parser.formatter_class = DESCRIPTION, argparse.RawDescriptionHelpFormatter
    parser.add_argument("case", metavar="CASE|TEXT", help="a test vector, or an instruction")
    parser.add_argument("what", metavar="WHAT", help="the value")
    parser.add_argument(
        "keys", metavar="KEY=HEX", nargs="*", help="a register or bytes before an instruction"
    )
    parser.add_argument("--json", action="store_true", help="prints an object of JSON")


def why(library: Library, words: argparse.Namespace) -> int:
    """Prints why a value of a case, or after an instruction, is what it is."""
    place, explainer = place_of(words.what), Explainer(library)
    if re.fullmatch(r"[A-Z0-9]+-\d+", words.case):
        case = case_of(library, words.case)
        if words.keys:
            raise BadInput(f"a case has its own values, so it takes no {words.keys[0][:40]!r}")
    else:
        keys = arguments_of(words.keys)
        word = explainer.word_of(words.case, int(keys.get("pc", "0"), 16))
        case = {"text": words.case, "before": keys, "word": f"{word:08x}"}
    explanation = explainer.explain(explainer.machine.state(*before(case)), place, case["text"])
    print(json.dumps(as_json(explanation), ensure_ascii=False) if words.json else explanation)
    return 0


def as_json(explanation: Explanation) -> Dict[str, Any]:
    """An explanation as an object of JSON."""
    return {**explanation._asdict(), "steps": [step._asdict() for step in explanation.steps]}
