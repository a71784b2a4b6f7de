"""conformance/run [--program PROGRAM] [FOLDER] [NAME..]: runs test vectors on a program that answers scripts
as rsp does, and names what differs. It fails if a state does.

The default of PROGRAM is the file rsp in the folder above, which a clone has. FOLDER is one that
`conformance/generate` made (vectors/ beside this command). NAME is an instruction; without one all
instructions of FOLDER are run. The last line is `N passed, M failed`, of cases and of whole programs. The
status is 0 if none failed and one passed.
"""

import sys
from pathlib import Path
from typing import Any, Dict, Iterator, List, Sequence

from rsp_conformance import bench, complaints
from rsp_conformance.command_line import PROGRAM, Complaints, parser_of, print_checks, printable
from rsp_conformance.run_programs import results_in
from rsp_conformance.safe_files import FileFault
from rsp_conformance.states import Texts
from rsp_conformance.steps import Entry, observed_of
from rsp_conformance.vectors import MEMORIES, VECTORS, VectorsFault
from rsp_conformance.vectors import entries_in, manifest_in, memory_in, names_in


class Shown:
    """What a script showed after a case or a program, as the class Rsp of steps.py and programs.py.

    The script has set the state already. A memory that it didn't show is as it was before.
    """

    def __init__(self, after: Texts, step: str = "step Done") -> None:
        self.after, self.answer, self.loaded = after, step, {}  # type: Texts, str, Dict[str, bytes]

    def set(self, key: str, text: str) -> None:
        pass

    def get(self, key: str) -> str:
        return str(self.after[key])

    def load(self, bank: str, data: bytes) -> None:
        self.loaded[bank] = data

    def memory(self, bank: str) -> bytes:
        loaded, shown = self.loaded[bank], MEMORIES[bank]
        if bank not in self.after:
            return loaded
        return loaded[: shown.start] + bytes.fromhex("".join(self.after[bank])) + loaded[shown.stop :]

    def step(self) -> None:
        if not self.answer.startswith("step Done"):
            raise NotImplementedError(self.answer)

    def run(self) -> None:
        pass


def run_entries(program: str, entries: List[Entry]) -> Iterator[Complaints]:
    """Runs cases of `steps`, and yields the complaints of each."""
    for entry, seen in zip(entries, bench.observe(program, map(observed_of, entries))):
        yield complaints.of_case(entry, Shown(seen["after"], seen["step"]))


def run_manifest(program: str, manifest: Dict[str, Any], folder: Path) -> Iterator[Complaints]:
    """Runs the programs of a manifest in a folder, and yields the complaints of each."""
    entries = manifest["programs"]
    for entry, result in zip(entries, results_in(program, entries, folder)):
        images = (memory_in(folder / f"{entry['name']}.{kind}") for kind in ("imem", "dmem", "after"))
        yield complaints.of_program(entry, Shown({"dmem": [result["dmem"]]}), *images)


def run_row(program: str, folder: Path, name: str) -> Iterator[Complaints]:
    """The complaints of each case and each program of an instruction."""
    try:
        yield from run_entries(program, entries_in(folder, name))
        yield from run_manifest(program, manifest_in(folder, name), folder / "programs")
    except bench.RspError as fault:
        raise VectorsFault(f"{name}: {fault}") from None
    except OSError as fault:
        raise VectorsFault(f"{fault.filename or folder} can't be read: {fault.strerror}") from None


def run_rows(program: str, folder: Path, given: Sequence[str]) -> Iterator[Complaints]:
    """The complaints of the given instructions, or of all. The program is tried first."""
    names = names_in(folder, given)
    if refusal := bench.refusal_of(program):
        raise VectorsFault(refusal)
    for name in names:
        yield from run_row(program, folder, name)


def main() -> None:
    parser = parser_of("run", __doc__)
    parser.add_argument("--program", default=PROGRAM)
    parser.add_argument("folder", nargs="?", type=Path, default=VECTORS, metavar="FOLDER")
    parser.add_argument("names", nargs="*", metavar="NAME")
    args = parser.parse_args()
    try:
        sys.exit(print_checks(run_rows(args.program, args.folder, args.names)))
    except (VectorsFault, FileFault) as fault:
        sys.exit(printable(f"run: {fault}"))


if __name__ == "__main__":
    main()
