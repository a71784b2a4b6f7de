"""What a run of conformance/every found: the first differences of each test, and what was tried."""

from typing import Any, Dict, Iterator, List, Tuple

import rsp
from rsp_conformance.campaign import operands_read
from rsp_conformance.campaign.compare import differences, in_brief, named
from rsp_conformance.campaign.explaining import command_for, keys_of
from rsp_conformance.campaign.generator import memories_of
from rsp_conformance.campaign.stated import MEMORIES
from rsp_conformance.table import row_of

from .plan import Test
from .processes import MOST_FAULTS, Outcome

Line = Tuple[str, str]  # an instruction and a label
COLUMNS = ("instruction", "test", "cases", "of", "differ", "not shown", "faults", "seconds", "what")
ALONE = "the case alone agrees, so the difference depends on what ran before"


def case_text(name: str, word: int, state: rsp.State) -> str:
    """A case as `conformance/campaign --case` takes it."""
    return f"{rsp.text(word, state.pc)} {keys_of(name, word, state, memories_of(*MEMORIES).tobytes())}"


def state_of(case: Any) -> rsp.State:
    return rsp.State.from_buffer_copy(case["state"].tobytes())


def brief(found: Any) -> str:
    """A difference on one line: the case, what is expected and what the emulator left."""
    word, state = int(found["in"]["word"]), state_of(found["in"])
    lines = differences(found["expected"], found["got"]) or ["bytes of memories"]
    row = row_of(word)
    operands = operands_read.in_brief(row.name, word, state, lines[0]) if row else ""
    alone = "" if found["differs_alone"] else f"; {ALONE}"
    return f"  {named(word, state.pc)} at {state.pc:03x}{operands}: {in_brief(lines)}{alone}"


def commands_for(emulator: str, found: Any) -> Iterator[str]:
    """The commands that show a difference again, and explain what is expected."""
    word, state = int(found["in"]["word"]), state_of(found["in"])
    if row := row_of(word):
        yield f"  conformance/campaign {emulator} --case '{case_text(row.name, word, state)}'"
        lines = [*differences(found["expected"], found["got"]), ""]
        command = command_for(row.name, word, state, memories_of(*MEMORIES).tobytes(), lines[0])
        yield from [f"  {command}"] * bool(command)


def crash_lines(emulator: str, why: str, case: Any) -> Iterator[str]:
    """A case at which the emulator crashes or hangs."""
    word, state, memories = int(case["word"]), state_of(case), memories_of(*MEMORIES).tobytes()
    row = row_of(word)
    reads = operands_read.reads_of(row.name, word, state, memories) if row else ()
    operands = "".join(f"; {what} {value}" for what, value in reads)
    yield f"  {named(word, state.pc)} at {state.pc:03x}{operands}: {why}"
    if row:
        yield f"  conformance/campaign {emulator} --case '{case_text(row.name, word, state)}'"


def differ_lines(emulator: str, about: str, outcomes: List[Outcome]) -> Iterator[str]:
    """The first difference with its commands, and the second one."""
    counts = {name: sum(it.counts[name] for it in outcomes) for name in ("cases", "differ", "missing")}
    if not counts["differ"]:
        return
    yield f"{about}: {counts['differ']} of {counts['cases']} cases differ"
    if counts["missing"] == counts["cases"]:
        yield "  the emulator lacks the instruction, because it answers that each word is reserved"
        return
    first, *others = [found for outcome in outcomes for found in outcome.shown]
    yield from (brief(first), *commands_for(emulator, first), *map(brief, others[:1]))


def found_lines(emulator: str, tests: List[Test], outcomes: Dict[Test, Outcome]) -> Iterator[str]:
    """All that the tests found."""
    grouped: Dict[Line, List[Outcome]] = {}
    for test in (it for it in tests if it in outcomes):
        grouped.setdefault((test.instruction, test.label), []).append(outcomes[test])
    for (name, label), found in grouped.items():
        about = f"{name.upper()} {label}"
        yield from differ_lines(emulator, about, found)
        crashes = [both for outcome in found for both in zip(outcome.faults, outcome.crashes)]
        yield from [f"{about}: the emulator crashed or hung, {len(crashes)} times:"] * bool(crashes)
        yield from (line for both in crashes for line in crash_lines(emulator, *both))
        is_given_up = any(len(outcome.faults) >= MOST_FAULTS for outcome in found)
        yield from [f"  the rest is given up after {MOST_FAULTS} of them"] * is_given_up


def power(count: int) -> str:
    """A number, with a power of two if it has a large one: 2^32, 7 x 2^32, 123."""
    twos = (count & -count).bit_length() - 1
    times = f"{count >> twos} x " if count >> twos > 1 else ""
    return f"{times}2^{twos}" if twos > 10 else str(count)


def table_of(tests: List[Test], outcomes: Dict[Test, Outcome]) -> List[Dict[str, Any]]:
    """The lines of the table: the tests of an instruction with the same label are one."""
    lines: Dict[Line, Dict[str, Any]] = {}
    for test in tests:
        outcome = outcomes.get(test, Outcome())
        line = lines.setdefault((test.instruction, test.label), dict.fromkeys(COLUMNS, 0))
        line.update(instruction=test.instruction.upper(), test=test.label, what=test.what)
        line["cases"] += outcome.counts["positions"] * test.cases - outcome.counts["unshown"]
        line["of"] += test.positions * test.cases
        line["differ"] += outcome.counts["differ"]
        line["not shown"] += outcome.counts["unshown"]
        line["faults"] += len(outcome.faults)
        line["seconds"] = round(line["seconds"] + outcome.seconds, 1)
    return [*lines.values()]


def share(line: Dict[str, Any]) -> str:
    """How much of a test was run."""
    done, of = line["cases"], line["of"]
    return f"all {power(of)}" if done == of else f"{done} of {power(of)}, {100 * done / of:.1f} %"


def text_table(lines: List[Dict[str, Any]]) -> str:
    """The table, with what isn't 0."""
    texts = []
    for line in lines:
        wrong = [f"{line[name]} {name}" for name in ("differ", "not shown", "faults") if line[name]]
        name, found = f"{line['instruction']:8}{line['test']:15}", ", ".join(wrong) or "none differs"
        texts.append(f"{name}{share(line):28}{found:13} {line['what']}")
    return "\n".join(texts)


def tsv(lines: List[Dict[str, Any]], emulator: str, commit: str) -> str:
    """The table as data."""
    rows = [[emulator, commit, *(str(line[name]) for name in COLUMNS)] for line in lines]
    return "".join("\t".join(row) + "\n" for row in [["emulator", "commit", *COLUMNS], *rows])


def summary(lines: List[Dict[str, Any]]) -> str:
    total = {name: sum(line[name] for line in lines) for name in ("cases", "differ", "faults", "seconds")}
    return (
        f"{total['cases']} cases: {total['differ']} differ, {total['faults']} crashes or hangs;"
        f" {total['seconds']:.0f} seconds of processor"
    )
