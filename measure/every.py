"""Runs all pairs of operands on the library of each system: tools/python measure.every [SYSTEM ..].

SYSTEM is linux-x86_64 (all tests to their end), linux-aarch64 (in qemu) or wasm (in Node). The latter two run
all pairs of VMUDH, VMADN, VADD and VCH, all numbers of VRCPL, and the edges of all else. With --write, the
lines of the system in docs/data/every.tsv are written anew. All of it takes hours of processor; --limit ends
each system after so many seconds. The status is 0 without a difference, 1 with one, and 2 if something
couldn't be run.
"""

import argparse
import os
import subprocess
import sys
import tempfile
import time
from pathlib import Path
from typing import Any, Callable, Dict, List, Tuple

from rsp_conformance import TOP
from rsp_conformance.campaign import CampaignFault
from rsp_conformance.campaign.build import library_object
from rsp_conformance.every import build
from rsp_conformance.every.__main__ import Progress, commit
from rsp_conformance.table import ROWS
from rsp_tools.targets import TARGETS

TABLE = TOP / "docs/data/every.tsv"
WHOLE = ("vmudh", "vmadn", "vadd", "vch", "vrcpl")  # where an emulator runs the library
INCLUDES = (f"-I{TOP / 'library/c'}", f"-I{build.CASES}")
# What the worker's sources include of the C library, which WebAssembly hasn't.
LIBC = TOP / "tests/systems/wasm"
HEADERS = {"string": "", "stdlib": "void *calloc(size_t count, size_t size);\n"}
WASM = ("--target=wasm32", "-msimd128", "-mbulk-memory", "-nostdlibinc", "-nostdlib", "-fvisibility=hidden")
LINKED = "-Wl,--no-entry,--import-memory,--export-dynamic,--gc-sections,--global-base=1048576"


def made(*words: object) -> None:
    """Runs a compiler."""
    try:
        ended = subprocess.run([str(word) for word in words], stderr=subprocess.PIPE, text=True)
    except OSError as fault:
        raise CampaignFault(f"{words[0]} can't be run: {fault.strerror}") from None
    if ended.returncode:
        raise CampaignFault(f"{words[0]}: {ended.stderr.strip().splitlines()[0]}")


def native(folder: Path) -> Tuple[List[str], str]:
    """The words that start the worker, and the library's object."""
    return [build.worker()], library_object()


def arm(folder: Path) -> Tuple[List[str], str]:
    target = TARGETS["linux-aarch64"]
    worker, library = folder / "worker", folder / "library.so"
    sources = [*build.sources(), "-ldl"]
    made(target.compiler, "-std=gnu11", "-O3", *INCLUDES, *sources, "-o", worker)
    assembly = TOP / "compiled/Linux-aarch64-lib.s"
    made(
        target.compiler,
        "-O2",
        "-shared",
        "-fPIC",
        *INCLUDES,
        build.CASES / "library.c",
        assembly,
        "-o",
        library,
    )
    return [*target.emulator, str(worker)], str(library)


def wasm(folder: Path) -> Tuple[List[str], str]:
    worker = folder / "worker.wasm"
    for name, more in HEADERS.items():
        (folder / f"{name}.h").write_text(f'#include "libc.h"\n{more}')
    sources = [it for it in build.sources() if it.name != "main.c"]
    about = (*WASM, "-O3", f"-isystem{folder}", f"-I{LIBC}", *INCLUDES, LINKED)
    made("clang", *about, *sources, TOP / "measure/every_node.c", LIBC / "libc.c", "-o", worker)
    return ["node", str(TOP / "measure/every_node.mjs"), str(worker)], str(TOP / "compiled/rsp.wasm")


SYSTEMS: Dict[str, Callable[[Path], Tuple[List[str], str]]] = {
    "linux-x86_64": native,
    "linux-aarch64": arm,
    "wasm": wasm,
}


def lines_of(system: str, args: argparse.Namespace, folder: Path) -> List[Dict[str, Any]]:
    """Runs the tests of a system, and prints what they found."""
    from rsp_conformance.campaign.generator import memories_of  # here, because these need numpy
    from rsp_conformance.campaign.stated import MEMORIES
    from rsp_conformance.every import report
    from rsp_conformance.every.plan import WORDS, tests_of
    from rsp_conformance.every.processes import Emulator, Run, ordered

    program, library = SYSTEMS[system](folder)
    run = Run(program, Emulator(library, "", True), memories_of(*MEMORIES).tobytes())
    run.patience = 600.0
    tests = tests_of([*ROWS, WORDS], 1)
    whole = [it for it in tests if system == "linux-x86_64" or it.instruction in WHOLE]
    jobs = ordered(whole, args.edges)
    jobs += ordered([it for it in tests if it not in whole], True)
    run.run(jobs, args.jobs, time.time() + args.limit, Progress(jobs, args.jobs).update)
    for line in report.found_lines(system, tests, run.outcomes):
        print(line)
    table = report.table_of(tests, run.outcomes)
    print(f"{system}: {report.summary(table)}", flush=True)
    return table


def written(system: str, lines: List[Dict[str, Any]]) -> None:
    """Puts the lines of a system into the table."""
    from rsp_conformance.every import report

    first, *rows = report.tsv(lines, system, commit()).splitlines()
    old = TABLE.read_text().splitlines()[1:] if TABLE.exists() else []
    kept = [row for row in old if row.partition("\t")[0] != system]
    order = {name: at for at, name in enumerate(SYSTEMS)}
    rows = sorted([*kept, *rows], key=lambda row: order[row.partition("\t")[0]])
    TABLE.write_text("".join(f"{row}\n" for row in (first, *rows)))


def main() -> int:
    parser = argparse.ArgumentParser(
        description=__doc__, formatter_class=argparse.RawDescriptionHelpFormatter
    )
    parser.add_argument("systems", metavar="SYSTEM", nargs="*", help=f"{', '.join(SYSTEMS)} (all)")
    parser.add_argument("--jobs", type=int, default=len(os.sched_getaffinity(0)), help="workers at a time")
    parser.add_argument("--limit", type=float, default=float("inf"), help="seconds for each system")
    parser.add_argument("--edges", action="store_true", help="only edges")
    parser.add_argument("--write", action="store_true", help="writes docs/data/every.tsv")
    args, differs = parser.parse_args(), False
    if unknown := [it for it in args.systems if it not in SYSTEMS]:
        parser.error(f"there is no system {unknown[0]}: {', '.join(SYSTEMS)}")
    for system in args.systems or SYSTEMS:
        with tempfile.TemporaryDirectory() as folder:
            lines = lines_of(system, args, Path(folder))
        differs |= any(line["differ"] or line["faults"] for line in lines)
        if args.write:
            written(system, lines)
    return int(differs)


if __name__ == "__main__":
    try:
        sys.exit(main())
    except CampaignFault as fault:
        print(fault, file=sys.stderr)
        sys.exit(2)
