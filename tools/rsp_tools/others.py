"""The tables of conformance/OTHERS.md: how often other emulators differ from the library, and what they do.
They are made of conformance/others:

  NAME.tsv    the differences that are known, from conformance/campaign --write-known; the reasons are ours
  NAME.json   the counts of the campaign of which they are
  mame.tsv    the counts of an emulator that isn't run any more

`tools/python rsp_tools.others NAME OUT` writes the counts of the campaign in OUT, and rsp_tools.page_tables
writes the page.
"""

import argparse
import json
from pathlib import Path
from typing import Any, Dict, List, Tuple

from rsp_conformance.table import MPEG, ROWS
from rsp_tools import TOP

PAGE, FOLDER = "conformance/OTHERS.md", TOP / "conformance/others"
NAMES = ("z64", "cen64")
COUNTS = ("count", "unshown", "differ", "choices", "faults")
CHOICE = "choice: "
Counts = Dict[str, int]


def counts_in(name: str) -> Dict[str, Counts]:
    """The counts of each instruction in an emulator's campaign."""
    counts: Dict[str, Counts] = json.loads((FOLDER / f"{name}.json").read_text())["instructions"]
    return counts


def lines_in(name: str) -> List[List[str]]:
    """The cells of each line of a table, without its head."""
    return [line.split("\t") for line in (FOLDER / f"{name}.tsv").read_text().splitlines()[1:]]


def percent(part: int, whole: int) -> str:
    """A share, which is 0% and 100% only if it is exactly that."""
    share = 100 * part / whole
    if part in (0, whole) or 99.5 > share >= 10:
        return f"{share:.0f}%"
    return "99%" if share > 99 else f"{max(share, 0.1):.1f}%"


def shown(of: Counts) -> int:
    return of["count"] - of["unshown"]


def cell(of: Counts) -> str:
    """How an instruction agrees, in a cell of the board."""
    if not of["differ"]:
        return "agrees"
    others = of["differ"] - of["choices"]
    return percent(others, shown(of)) + (", choice" if of["choices"] else "") if others else "choice"


def board() -> str:
    """The lines of all instructions."""
    tables = [counts_in(name) for name in NAMES]
    mame = {name: result for name, _, result in lines_in("mame")}
    rows = (
        (name, *(cell(table[name]) for table in tables), mame.get(name.upper(), "agrees"))
        for name in sorted(ROWS)
    )
    return "".join(f"| {name.upper()} | {' | '.join(cells)} |\n" for name, *cells in rows)


def reasons_in(name: str) -> Dict[str, str]:
    """What an emulator does, by the instructions that differ: first without, then with a choice."""
    reasons: Dict[str, Dict[str, None]] = {}
    for who, what, reason in sorted(lines_in(name), key=lambda line: line[1].startswith(CHOICE)):
        text = f"*choice:* {reason}" if what.startswith(CHOICE) else reason
        reasons.setdefault(who.lower(), {})[text] = None
    return {who: "; ".join(texts) for who, texts in reasons.items()}


def shares(of: Counts) -> str:
    """How many cases differ, in words."""
    every, others = of["differ"], of["differ"] - of["choices"]
    without = f" ({percent(others, shown(of))} without choices)" if of["choices"] else ""
    return percent(every, shown(of)) + without


def differences(name: str) -> str:
    """The lines of the instructions that differ, the most frequent differences first."""
    counts, groups = counts_in(name), {}  # type: Dict[str, Counts], Dict[str, List[str]]
    for who, reason in reasons_in(name).items():
        groups.setdefault(reason, []).append(who)

    def order(group: Tuple[str, List[str]]) -> Tuple[float, float]:
        of = counts[group[1][0]]
        return (of["choices"] - of["differ"]) / shown(of), -of["differ"] / shown(of)

    lines = sorted(groups.items(), key=order)
    names = (", ".join(who.upper() for who in group) for _, group in lines)
    all_shares = (", ".join(shares(counts[who]) for who in group) for _, group in lines)
    return "".join(f"| {who} | {line[0]} | {it} |\n" for who, line, it in zip(names, lines, all_shares))


def unconfirmed() -> List[str]:
    """The instructions on which no emulator agrees, or differs only in choices."""
    of_mame = {who.lower() for who, _, result in lines_in("mame") if result not in ("agrees", "choice")}
    agree = {who for name in NAMES for who, of in counts_in(name).items() if of["differ"] == of["choices"]}
    return sorted(who.upper() for who in of_mame - agree)


def figures() -> Dict[str, str]:
    """The figures of each page, in its words."""
    found = {name: [*counts_in(name).values()] for name in NAMES}
    differ = [sum(of["differ"] > of["choices"] for of in found[name]) for name in NAMES]
    choice = [sum(of["differ"] == of["choices"] > 0 for of in found[name]) for name in NAMES]
    z64, cen64 = (sum(them) for them in zip(differ, choice))
    cases, count = f"{sum(map(shown, found['cen64'])):,} cases", len(ROWS)
    *names, last = unconfirmed()
    agree = count - len(names) - 1
    return {
        PAGE: f"z64 differs on {differ[0]} of {count} instructions, and on {choice[0]} more; "
        f"cen64 differs on {differ[1]}, and on {choice[1]} more; {agree} of the {count}; "
        f"on {agree - len(MPEG)} of them; the whole of {', '.join(names)} and {last}; {cases}",
        "README.md": f"differs on [{z64} of {count}]; cen64 on {cen64}",
        "docs/GUARANTEES.md": f"in {cases}; differ on {z64} and {cen64} of the {count}",
        "docs/PLUGIN.md": f"[{differ[0]} of {count} instructions]; on {choice[0]} more where",
        "conformance/README.md": f"in {cases}",
    }


def tables() -> Dict[str, str]:
    """The lines of each table of the page, by its head."""
    heads = {f"| Instruction | What {name} does | Cases that differ |": differences(name) for name in NAMES}
    return {"| Instruction | z64 | cen64 | MAME |": board(), **heads}


def write_counts(name: str, out: Path) -> None:
    from rsp_conformance.campaign.report import results_in, summary

    settings = json.loads((out / "campaign.json").read_text())
    found = summary(results_in(out), {})
    kept: Dict[str, Any] = {key: settings[key] for key in ("generator", "seed", "cases")}
    kept["instructions"] = {who: {key: found[who][key] for key in COUNTS} for who in ROWS}
    (FOLDER / f"{name}.json").write_text(json.dumps(kept, indent=1) + "\n")


if __name__ == "__main__":
    parser = argparse.ArgumentParser("tools/python rsp_tools.others", description=__doc__)
    parser.formatter_class = argparse.RawDescriptionHelpFormatter
    parser.add_argument("name", metavar="NAME", choices=NAMES)
    parser.add_argument("out", metavar="OUT", type=Path)
    write_counts(**vars(parser.parse_args()))
