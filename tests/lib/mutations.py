"""tests/mutations/run [--drawn] [MODULE..]: tries the stored mutations of what isn't proved.

Each is made in a copy of the work tree, where its tests run. It is found if a test that passes without it
fails or doesn't end; a test that isn't collected, or whose fixture fails, finds nothing. A mutation whose
tests are skipped for want of a tool is skipped. The last line counts what was found and what wasn't, and the
status is 1 if anything wasn't.

tests/mutations/MODULE.txt has blocks with an empty line between them, of the lines `file:`; `old:`, which is
there exactly once; `new:`, in its place; `tests:`, the words of tests/all; `harm:`, what a user would suffer.
If no test can find a mutation, `equivalent:`, the reason, is in place of the last two.
"""

import argparse
import os
import random
import re
import resource
import shlex
import shutil
import signal
import subprocess
import sys
import tempfile
import time
from collections import Counter
from concurrent.futures import ThreadPoolExecutor
from pathlib import Path
from queue import SimpleQueue
from typing import Any, Counter as CounterOf, Dict, List, Tuple

from lib import TOP

FILES = {path.stem: path for path in sorted((TOP / "tests/mutations").glob("*.txt"))}
KEYS = [["module", "file", "old", "new", *more] for more in (["tests", "harm"], ["equivalent"])]
Mutation = Dict[str, str]  # its lines, and the module in whose file it is
MOST_DRAWN = 90  # processor seconds after which --drawn begins no other
KNOWN = ("found", "skipped", "not drawn")
OTHERS = ("macos-x86_64",)  # systems whose tests are outside the gate, so --drawn draws none
# Without the paths and options of whoever starts this.
ENV = {name: value for name, value in os.environ.items() if not name.startswith("PYTHON")}


def stored(module: str) -> List[Mutation]:
    """The mutations of a module, in their order."""
    blocks = FILES[module].read_text().strip("\n").split("\n\n")
    pairs = ([line.partition(":")[::2] for line in block.split("\n")] for block in blocks)
    return [{"module": module, **{key: value[1:] for key, value in it}} for it in pairs]


def mutated(mutation: Mutation, text: str) -> str:
    """The text of the file with a mutation. A ValueError if it can't be made."""
    if [*mutation] not in KEYS or text.count(mutation["old"]) != 1:
        raise ValueError(f"the old text isn't there exactly once, or the lines aren't {KEYS}: {mutation}")
    return text.replace(mutation["old"], mutation["new"])


def git(top: Path, *words: str) -> str:
    words = ("git", "-c", "user.name=mutations", "-c", "user.email=none", *words)
    return subprocess.run(words, cwd=top, check=True, capture_output=True, text=True).stdout


def copy_tree(to: Path) -> Path:
    """A clone with the changes of the work tree, committed because some tests make clones of it."""
    git(TOP, "clone", "-q", "--shared", str(TOP), str(to))
    changed = git(TOP, "diff", "--name-only", "HEAD") + git(TOP, "ls-files", "-o", "--exclude-standard")
    for name in changed.splitlines():
        (to / name).unlink(missing_ok=True)
        (to / name).parent.mkdir(parents=True, exist_ok=True)
        if (TOP / name).exists():
            shutil.copy(TOP / name, to / name)
    git(to, "add", "-A")
    git(to, "commit", "-q", "--allow-empty", "-m", "the work tree")
    return to


def outcome(top: Path, tests: str, limit: float) -> Tuple[str, str]:
    """Runs tests up to the first that fails: what became of them, and the last line of pytest."""
    words = ["tests/all", "-n", "0", "-x", "-q", "--tb=no", "--color=no", *shlex.split(tests)]
    how: Dict[str, Any] = {"cwd": top, "env": ENV, "stdin": subprocess.DEVNULL, "start_new_session": True}
    with tempfile.TemporaryFile("w+", errors="replace") as output:
        ended = subprocess.Popen(words, stdout=output, stderr=output, **how)
        try:
            status = ended.wait(limit)
        except subprocess.TimeoutExpired:
            os.killpg(ended.pid, signal.SIGKILL)
            return "fails", f"status {ended.wait()} after {limit:.0f} s"
        output.seek(0)
        said = output.read()
    last = said.strip().rpartition("\n")[2]
    if status == 0:
        return "passes" if " passed" in f" {last}" else "skipped", last
    is_failure = status == 1 and re.search(r"\d failed|Timeout", said) and "nothing to test: " not in said
    return "fails" if is_failure else "broken", last


def result(top: Path, mutation: Mutation, limit: float, before: str) -> str:
    path = top / mutation["file"]
    path.write_text(mutated(mutation, path.read_text()))
    git(top, "commit", "-qam", "a mutation")
    state, last = outcome(top, mutation["tests"], limit)
    git(top, "reset", "-q", "--hard", "HEAD~")
    escaped = "skipped" if "skipped" in before else f"escaped ({last}): {mutation['harm']}"
    return "found" if state == "fails" else escaped


def results(mutations: List[Mutation], copies: "SimpleQueue[Path]", most: float) -> List[str]:
    """What becomes of mutations that name the same tests: one of KNOWN, or how they escaped."""
    if sum(resource.getrusage(resource.RUSAGE_CHILDREN)[:2]) > most:
        return ["not drawn"] * len(mutations)
    top, begun = copies.get(), time.monotonic()
    state, last = outcome(top, mutations[0]["tests"], 900)
    limit = 60 + 4 * (time.monotonic() - begun)
    why = "skipped" if state == "skipped" else f"its tests don't pass without it: {last}"
    found = [result(top, it, limit, last) if state == "passes" else why for it in mutations]
    copies.put(top)
    return found


def main() -> int:
    form = argparse.RawDescriptionHelpFormatter
    parser = argparse.ArgumentParser("tests/mutations/run", description=__doc__, formatter_class=form)
    parser.add_argument("modules", metavar="MODULE", nargs="*", choices=[[], *FILES], help="all, without one")
    parser.add_argument("--drawn", action="store_true", help="two processor minutes, drawn by the commit")
    options = parser.parse_args()
    groups: Dict[str, List[Mutation]] = {}
    tried = [it for name in options.modules or FILES for it in stored(name) if "tests" in it]
    for it in (it for it in tried if not options.drawn or not any(name in it["tests"] for name in OTHERS)):
        groups.setdefault(str(it) if options.drawn else it["tests"], []).append(it)
    order, most = [*groups.values()], MOST_DRAWN if options.drawn else float("inf")
    if options.drawn:
        random.Random(git(TOP, "rev-parse", "HEAD")).shuffle(order)
    counts: CounterOf[Tuple[str, str]] = Counter()
    copies: "SimpleQueue[Path]" = SimpleQueue()
    with tempfile.TemporaryDirectory() as folder, ThreadPoolExecutor(4) as threads:
        for number in range(min(4, len(order))):
            copies.put(copy_tree(Path(folder, str(number))))
        for group, found in zip(order, threads.map(lambda group: results(group, copies, most), order)):
            for it, what in zip(group, found):
                counts[it["module"], what if what in KNOWN else "escaped"] += 1
                if what not in KNOWN:
                    print(f"{it['module']}: {it['file']}: {it['old'].strip()}: {what}", flush=True)
    for (module, what), number in sorted(counts.items()):
        print(f"{module}: {number} {what}")
    passed, failed = (sum(counts[name, what] for name in FILES) for what in ("found", "escaped"))
    print(f"{passed} passed, {failed} failed")
    return int(failed > 0)


if __name__ == "__main__":
    sys.exit(main())
