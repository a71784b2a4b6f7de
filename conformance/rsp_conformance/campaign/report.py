"""The table of a campaign by instruction, as a text and as a page of HTML."""

import html
import json
from collections import Counter
from pathlib import Path
from typing import Any, Dict, Iterator, List, Optional, Tuple

from rsp_conformance.command_line import printable

from .known import Known, is_known, parts_of
from .protocol import NOT_THERE, PROGRAM, Result, Task, plural
from .supervise import add, nothing, number_in

HEADS = ("", "cases", "not shown", "differ", "choices", "faults", "first difference")
STYLE = """body { font: 15px/1.4 system-ui, sans-serif; margin: 2em; color: #222 }
table { border-collapse: collapse } code { font-size: 13px }
th, td { padding: .15em .7em; text-align: left; vertical-align: top; border-bottom: 1px solid #e4e4e4 }
td.n { text-align: right; font-variant-numeric: tabular-nums }
.bar { width: 12em; height: 1em; background: #d8ecd8 }
.bar i { display: block; height: 100%; background: #c0392b }"""


def results_in(out: Path) -> List[Result]:
    """The results in a campaign's folder, by instruction and number, with those of programs last."""
    found = [result for path in out.glob("*-*-*.json") if (result := result_in(path))]
    return sorted(found, key=lambda found: (found["instruction"] == PROGRAM, *task_of(found)))


def task_of(result: Result) -> Task:
    """The task that a result answers."""
    return result["instruction"], result["start"], result["size"]


def file_of(task: Task) -> str:
    """The name of the file of a task's result."""
    return f"{'-'.join(map(str, task))}.json"


def result_in(path: Path) -> Optional[Result]:
    """The result in a file; None if there is no file, or if it isn't whole, as a loss of power leaves it."""
    try:
        found: Result = json.loads(path.read_text())
        return found
    except (FileNotFoundError, ValueError):
        return None


def summary(results: List[Result], known: Known) -> Dict[str, Result]:
    """The sums of each instruction's results, and of those of programs, with the first difference, which is
    one that isn't known if there is one.
    """
    lines: Dict[str, Result] = {}
    for result in results:
        line = lines.setdefault(result["instruction"], {**nothing(), "given up": {}})
        add(line, result)
        if "given up" in result:
            line["given up"] = line["given up"] or result
    for name, line in lines.items():
        of_known = (count for kind, (count, _) in line["kinds"].items() if is_known(kind, name, known))
        first = first_of(name, line, known)
        line.update(known=sum(of_known), first=first, faults=len(line["faults"]))
        line["given up"] = given_up(line["given up"], first)
        del line["programs"], line["unseen"], line["processor"], line["shown"]
    return lines


def first_of(name: str, line: Result, known: Known) -> str:
    """The first difference of an instruction in words: that of a kind that isn't known, if there is one."""
    firsts = [
        (is_known(kind, name, known), number_in(first), f"{'known: ' * is_known(kind, name, known)}{first}")
        for kind, (_, first) in line["kinds"].items()
        if kind != NOT_THERE
    ]
    return min(firsts, default=("", "", ""))[2]


def is_as_known(results: List[Result], known: Known) -> bool:
    """Whether all differences are known."""
    lines = summary(results, known).values()
    return all(line["differ"] + line["missing"] == line["known"] for line in lines)


def given_up(result: Result, first: str) -> str:
    """Why a task was given up, in brackets, unless the first difference gives the reason already."""
    if not result:
        return ""
    faults = result["faults"]
    how = f"given up after {len(faults) + 1} faults" if faults else "given up"
    is_shown = any(why in first for _, _, why in faults)
    return f" ({how})" if is_shown else f" ({how}: {result['given up']})"


def rows_of(lines: Dict[str, Result]) -> Iterator[Tuple[Any, ...]]:
    """The cells of each instruction, in the order of HEADS."""
    for name, line in lines.items():
        compared = line["count"] - line["unshown"] - line["missing"]
        counts = (compared, line["unshown"], line["differ"], line["choices"], line["faults"])
        yield name.upper(), *counts, printable(line["first"] + line["given up"])


def not_there(results: List[Result]) -> str:
    """A sentence about the instructions that the emulator lacks, which comes before the table."""
    names: Dict[str, List[str]] = {}
    for name, line in summary(results, {}).items():
        if line["missing"]:
            share = f"{line['missing']} of {plural(line['count'], 'case')}"
            names.setdefault(share, []).append(name.upper())
    missing = [f"{','.join(them)} ({share}{' each' * (len(them) > 1)})" for share, them in names.items()]
    why = "Not there, because the emulator answers that the word is reserved: "
    return f"{why}{', '.join(missing)}. Programs leave them out by --without." if missing else ""


def last_line(results: List[Result], known: Known) -> str:
    """Sentences about dependences that programs met, and about what was done, which come after the table."""
    lines = summary(results, known)
    keys = ("count", "differ", "faults", "missing", "unshown", "known")
    count, differ, faults, *others = (sum(line[key] for line in lines.values()) for key in keys)
    apart = dict(zip(("not there", "not shown", "known"), others))
    more_counts = "".join(f", {number} {what}" for what, number in apart.items() if number)
    of_programs = lines.get(PROGRAM, nothing())
    programs, met = of_programs["count"] - of_programs["unshown"], of_programs["met"]
    kinds = ", ".join(f"{kind} {number}" for kind, number in met.items())
    seconds = plural(round(sum(result["processor"] for result in results)), "second")
    unseen = printable(", ".join(dict.fromkeys(part for result in results for part in result["unseen"])))
    done = f"Dependences that programs met: {kinds}.\n" if met else ""
    done += f"{plural(count - programs - others[0] - others[1], 'case')} and {plural(programs, 'program')}"
    more = f" Not compared, or not in all bits: {unseen}." if unseen else ""
    return f"{done}: {differ} differ, {faults} of them by faults{more_counts}; {seconds} of processor.{more}"


def text_table(results: List[Result], known: Known) -> str:
    form = "{:10}{:>11}{:>11}{:>10}{:>9}{:>7}  {}"
    rows = [form.format(*cells).rstrip() for cells in (HEADS, *rows_of(summary(results, known)))]
    return "\n".join(filter(None, [not_there(results), *rows, last_line(results, known)]))


def html_row(cells: Tuple[Any, ...], line: Result) -> str:
    """A row of the page's table, with a bar for the share of cases that differ."""
    name, *numbers, first = cells
    share = 100 * line["differ"] / max(numbers[0], 1)
    shares: Dict[str, int] = Counter()
    for kind, (count, _) in line["kinds"].items():
        shares.update(dict.fromkeys(parts_of(kind), count))
    most = sorted(shares.items(), key=lambda pair: -pair[1])[:6]
    parts = html.escape(printable(", ".join(f"{part} {count}" for part, count in most)))
    width = max(share, 1.5 * (share > 0))
    bar = f'<div class=bar title="{share:.4f} %"><i style="width:{width:.2f}%"></i></div>'
    counts = "".join(f"<td class=n>{value or ''}" for value in numbers)
    return f"<tr><th>{html.escape(name)}{counts}<td>{bar}<td>{parts}<td><code>{html.escape(first)}</code>"


def html_table(results: List[Result], title: str, known: Known) -> str:
    """The page table.html."""
    lines, title = summary(results, known), html.escape(title)
    rows = "".join(html_row(cells, line) for cells, line in zip(rows_of(lines), lines.values()))
    heads = "".join(f"<th>{head}" for head in (*HEADS[:-1], "share", "what differs", HEADS[-1]))
    head = f"<!doctype html><html lang=en><meta charset=utf-8><title>{title}</title><style>{STYLE}</style>"
    sentences = filter(None, (not_there(results), last_line(results, known)))
    paragraphs = "".join(f"<p>{html.escape(sentence)}</p>" for sentence in sentences)
    return f"{head}<h1>{title}</h1>{paragraphs}<table><tr>{heads}{rows}</table>"
