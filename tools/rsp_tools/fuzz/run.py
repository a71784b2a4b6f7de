"""fuzz/run [--seconds N] [TARGET..]: runs the targets that fuzz/build has made, each for N seconds (60).

The inputs begin with the seeds and with what earlier runs have kept in the folder OUT/found. An input for
which something doesn't hold is kept as OUT/TARGET-crash-.. or OUT/TARGET-timeout-.., and named. The number of
inputs is added to the target's line of docs/data/hostile.tsv, and SECURITY.md is made again: commit both.

OUT is fuzz/out, or what --out names. The status is 0 if all holds, 1 if not or if a target isn't made, and 2
if the arguments are wrong."""

import argparse
import os
import re
import subprocess
import sys
from pathlib import Path
from typing import Tuple

from rsp_tools import TOP, page_tables

from .targets import TARGETS

TABLE = page_tables.DATA / "hostile.tsv"


def try_inputs(name: str, out: Path, seconds: int) -> Tuple[int, str]:
    """Runs a target. Returns the number of inputs, and if something doesn't hold, the last lines of what was
    said."""
    found, words = out / "found" / name, out / f"{name}.dict"
    found.mkdir(parents=True, exist_ok=True)
    options = [f"-max_total_time={seconds}", "-timeout=30", "-rss_limit_mb=4096", "-print_final_stats=1"]
    options += [f"-artifact_prefix={out}/{name}-"] + [f"-dict={words}"] * words.exists()
    command = [out / name, *options, found, out / f"{name}_seed_corpus"]
    how = {**os.environ, "ASAN_OPTIONS": "detect_leaks=0"}  # the targets free nothing before they end
    ended = subprocess.run([*map(str, command)], capture_output=True, text=True, errors="replace", env=how)
    count = re.findall(r"stat::number_of_executed_units: *(\d+)", ended.stderr)
    return int(count[-1]) if count else 0, ended.stderr[-2000:] if ended.returncode else ""


def with_count(table: str, name: str, count: int) -> str:
    """The table with a number of inputs added to the line of a target."""
    line = rf"(?m)^(.*\t`fuzz/run {name}`\t)(\d+)"
    return re.sub(line, lambda it: f"{it[1]}{int(it[2]) + count}", table)


def record(name: str, count: int) -> None:
    """Adds a number of inputs to the table, and makes the page of it."""
    TABLE.write_text(with_count(TABLE.read_text(), name, count))
    page_tables.write()


def main() -> int:
    """Runs the targets, and returns the status."""
    form = argparse.RawDescriptionHelpFormatter
    parser = argparse.ArgumentParser(prog="fuzz/run", description=__doc__, formatter_class=form)
    parser.add_argument("--seconds", type=int, default=60, metavar="N")
    parser.add_argument("--out", type=Path, default=TOP / "fuzz/out")
    parser.add_argument("names", nargs="*", metavar="TARGET", choices=[[], *TARGETS])
    options = parser.parse_args()
    failed, out = 0, options.out.resolve()
    for name in options.names or TARGETS:
        try:
            count, fault = try_inputs(name, out, options.seconds)
            record(name, count)
        except OSError as reason:
            print(f"fuzz/run: {name} isn't run: {reason}; fuzz/build makes the targets", file=sys.stderr)
            return 1
        print(
            f"{name}: {count} inputs, {'a fault' if fault else 'nothing'} found\n{fault}".rstrip(), flush=True
        )
        failed |= bool(fault)
    return int(failed)


if __name__ == "__main__":
    sys.exit(main())
