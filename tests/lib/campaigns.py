"""Runs small campaigns (conformance/campaign), reads their results, and makes emulators with planted faults.
"""

import json
import shlex
import subprocess
from pathlib import Path
from typing import Any, Dict, List, Tuple

from lib import TESTS, TOP
from lib.processes import STRICT, Ended, compiled, run
from rsp_conformance import HERE
from rsp_conformance.campaign.build import built
from rsp_conformance.campaign.hashes import SOURCES as HEADERS

CAMPAIGN, SOURCES = TOP / "conformance/campaign", TESTS / "campaigns"
# The repository's path may have whitespace.
EMULATOR = shlex.join([str(TOP / "tools/python"), "campaigns.emulator"])
FEW = "lw,sqv,vadd,vmadh,vrcpl,beq,mtc0,ltv"
Counts = Dict[str, Tuple[int, int, int]]


def campaign(*words: object, **how: Any) -> "Ended[str]":
    """Runs a campaign to its end."""
    return run(CAMPAIGN, *words, **{"cwd": SOURCES, "stderr": subprocess.PIPE, **how})


def output_of(out: Path, *words: object) -> str:
    """The output of a campaign in one process. Its results are in `out`, and its status fits them."""
    ended = campaign(*words, "--here", out)
    differs = any(result.get("differ") or result.get("missing") for result in results_of(out).values())
    assert ended.returncode == int(differs), ended.stdout + ended.stderr
    return str(ended.stdout)


def faulty(fault: int, *flags: str) -> str:
    """The library with a planted fault."""
    return built("faulty", [f"-DFAULT={fault}", *flags], SOURCES / "faulty.c")


def core_with(bug: int, folder: Path) -> Path:
    """The second core with a bug of its table, or with none for 0."""
    words = ("-std=c11", *STRICT, "-march=x86-64-v2", "-shared", "-fPIC", f"-I{HEADERS}", f"-DPLANTED={bug}")
    return compiled(folder / "second.so", *words, HERE / "second/second.c")


def results_of(out: Path) -> Dict[str, Any]:
    """The results in a folder by their files, without times."""
    results = {path.name: json.loads(path.read_text()) for path in sorted(out.glob("*.json"))}
    for result in results.values():
        for key in ("seconds", "processor"):
            result.pop(key, None)
    return results


def counts_of(out: Path) -> Counts:
    """The numbers of cases, differences and faults of each instruction."""
    counts: Counts = {}
    for name, result in results_of(out).items():
        if name != "campaign.json":
            count, differ, faults = counts.get(result["instruction"], (0, 0, 0))
            sums = count + result["count"], differ + result["differ"], faults + len(result["faults"])
            counts[result["instruction"]] = sums
    return counts


def agreed(names: str, count: int, **more: Tuple[int, int, int]) -> Counts:
    """The counts of instructions without a difference, and other counts."""
    return {**dict.fromkeys(names.split(","), (count, 0, 0)), **more}


def programs_in(out: Path) -> List[Dict[str, Any]]:
    """The programs that were cut down, in the results of a folder."""
    results = (json.loads(path.read_text()) for path in out.glob("program-*.json"))
    return [program for result in results for program in result["programs"]]
