"""conformance/generate [--full] [--flat] [--hex] --cases N [--seed S] [--program PROGRAM] OUT [NAME..]: makes
test vectors of instructions. It fails if the program doesn't know one of them.
conformance/generate [--full] [--flat] [--hex] --entries [--seed S] [--program PROGRAM] OUT: makes a case of
VRCP or VRSQ for each of the 1,024 entries of the divide tables.
conformance/generate [--full] [--flat] [--hex] --of FOLDER OUT [NAME..]: makes these forms of the vectors that
FOLDER has, such as conformance/vectors. It needs no program.
conformance/generate --again [--program PROGRAM] FOLDER [NAME..]: runs the vectors of FOLDER again, and writes
what they do now. That is for conformance/vectors when a rule was corrected: its cases were chosen once.

NAME is an instruction; without one all instructions are meant. It makes N cases of each from the seed S (1),
on the program rsp (./rsp):
  OUT/steps/NAME.jsonl                 one instruction a case: state before, state after
  OUT/programs/NAME.json, NAME-K.imem, NAME-K.dmem, NAME-K.after   whole programs, with what they leave in
                                                                   DMEM
  OUT/full/NAME.json                   with --full: the cases of steps/, whole states of numbers before and
                                       after
  OUT/flat/NAME.bin                    with --flat: the cases of steps/, as brsp_state of brsp.h and bytes
  OUT/hex/NAME.hex, NAME-K.imem.hex .. with --hex: those cases of steps/ that touch no memory, and the
                                       memories of programs/; with brsp_state.svh, brsp_state.vhd and
                                       rsp_forms.svh
README.md beside this command says how they are read. The same words give the same files.
"""

import argparse
import sys
from concurrent.futures import Future, ThreadPoolExecutor
from pathlib import Path
from typing import Callable, Dict, Iterator, List, Optional, Sequence, Tuple

from rsp_conformance import bench, flat, full, hexadecimal, run_programs, steps
from rsp_conformance.cases import ENTRIES, make_case
from rsp_conformance.command_line import PROGRAM, parser_of, printable, write_output
from rsp_conformance.programs import programs_of
from rsp_conformance.safe_files import FileFault, make_folder, write_file
from rsp_conformance.table import ROWS, Row
from rsp_conformance.vectors import VectorsFault, entries_in, manifest_in, names_in

SEED = "1"
DIVIDES = ("vrcp", "vrsq")  # the instructions whose cases meet all entries of a table

# The forms that are made of `steps`: the suffix of a file, and its content.
FORMS: Dict[str, Tuple[str, Callable[[List[steps.Entry]], bytes]]] = {
    "full": ("json", lambda entries: full.full_text(entries).encode()),
    "flat": ("bin", flat.flat_bytes),
    "hex": ("hex", hexadecimal.hex_bytes),
}


def write_forms(name: str, entries: List[steps.Entry], of: Path, out: Path, more: Sequence[str]) -> None:
    """Writes more forms of an instruction's vectors, whose programs are in the folder `of`."""
    for form in more:
        suffix, content = FORMS[form]
        write_file(out / form / f"{name}.{suffix}", content(entries))
    if "hex" in more:
        hexadecimal.write_programs(of / "programs", name, out / "hex")
        hexadecimal.write_offsets(out / "hex")
        hexadecimal.write_instructions(out / "hex")


def write_row(program: str, row: Row, seed: str, numbers: range, out: Path, more: Sequence[str]) -> None:
    """Writes the files of an instruction, with the cases of these numbers."""
    name, cases = row.name.upper(), [make_case(row, seed, number) for number in numbers]
    files = run_programs.row_files(program, row, [*programs_of(row, seed, numbers)])
    text = write_vectors(name, steps.text_of(program, cases), files, out)
    write_forms(name, steps.read_row(text), out, out, more)


def write_again(program: str, row: Row, of: Path, out: Path) -> None:
    """Writes what the vectors of a folder do now."""
    name = row.name.upper()
    files = run_programs.files_again(program, row, manifest_in(of, name), of / "programs")
    write_vectors(name, steps.text_of(program, [*map(steps.case_of, entries_in(of, name))]), files, out)


def write_vectors(name: str, text: str, files: Dict[str, bytes], out: Path) -> str:
    """Writes `steps` of an instruction, and files of `programs`. Returns the text of `steps`."""
    write_file(out / "steps" / f"{name}.jsonl", text)
    for file, content in files.items():
        write_file(out / "programs" / file, content)
    return text


def faults_of(tasks: "Dict[Row, Future[None]]") -> Iterator[str]:
    """Waits for the tasks of instructions. Yields a line for each that the program doesn't know."""
    for row, task in tasks.items():
        try:
            task.result()
        except bench.RspError as fault:
            yield f"{row.name.upper()}: {fault}"


def generate(
    rows: List[Row], write: Callable[[Row], None], out: Path, more: Sequence[str] = ()
) -> Iterator[str]:
    """Writes the files of these instructions. Yields a line for each that the program doesn't know."""
    for name in ("steps", "programs", *more):
        make_folder(out / name)
    with ThreadPoolExecutor() as workers:
        tasks = {row: workers.submit(write, row) for row in rows}
        try:
            yield from faults_of(tasks)
        finally:
            for task in tasks.values():  # after a fault, or Ctrl-C, none begins
                task.cancel()


def write_all_forms(of: Path, names: Sequence[str], out: Path, more: Sequence[str]) -> int:
    """Writes forms of the vectors in a folder, and returns the number of instructions."""
    found = names_in(of, names)
    for form in more:
        make_folder(out / form)
    for name in found:
        write_forms(name, entries_in(of, name), of, out, more)
    return len(found)


def refusal_of(args: argparse.Namespace) -> Optional[str]:
    """Why these arguments are refused, as a sentence; None if they aren't."""
    if [args.cases is not None, args.entries, bool(args.of), args.again].count(True) != 1:
        return "one of --cases N, --entries, --of FOLDER and --again says what to make"
    if args.of and not args.more or args.again and args.more:
        return "--of is for --full, --flat or --hex, and --again for none of them"
    if unknown := [name for name in args.names if name.lower() not in ROWS]:
        return f"the instruction table has no {unknown[0]}"
    if args.cases is not None and args.cases < 1:
        return "--cases is 1 or more"
    if args.entries and {name.lower() for name in args.names} - {*DIVIDES}:
        return "--entries is for VRCP and VRSQ"
    if args.out.lower() in ROWS:
        how = f"write ./{args.out} for a folder of that name"
        return f"{args.out} is an instruction, and the first word is the folder OUT ({how})"
    return None if args.of else bench.refusal_of(args.program)


def writer(args: argparse.Namespace, numbers: range) -> Callable[[Row], None]:
    """What writes the files of an instruction."""
    out = Path(args.out)
    if args.again:
        return lambda row: write_again(args.program, row, out, out)
    return lambda row: write_row(args.program, row, args.seed, numbers, out, args.more)


def main() -> None:
    parser = parser_of("generate", __doc__)
    parser.add_argument("--full", action="append_const", const="full", dest="more", default=[])
    parser.add_argument("--flat", action="append_const", const="flat", dest="more")
    parser.add_argument("--hex", action="append_const", const="hex", dest="more")
    parser.add_argument("--cases", type=int)
    parser.add_argument("--entries", action="store_true")
    parser.add_argument("--again", action="store_true")
    parser.add_argument("--seed", default=SEED)
    parser.add_argument("--program", default=PROGRAM)
    parser.add_argument("--of", type=Path, metavar="FOLDER")
    parser.add_argument("out", metavar="OUT")
    parser.add_argument("names", nargs="*", metavar="NAME")
    args = parser.parse_args()
    if refusal := refusal_of(args):
        sys.exit(printable(f"generate: {refusal}"))
    out, numbers = Path(args.out), ENTRIES if args.entries else range(args.cases or 0)
    try:
        if args.of:
            count = write_all_forms(args.of, args.names, out, args.more)
            write_output(f"{count} instructions\n")
            return
        names = names_in(out, args.names) if args.again else args.names or (DIVIDES if args.entries else ROWS)
        rows = [ROWS[name.lower()] for name in names]
        faults = list(generate(rows, writer(args, numbers), out, args.more))
    except OSError as fault:
        sys.exit(printable(f"generate: {fault.filename or args.out} can't be written: {fault.strerror}"))
    except (FileFault, VectorsFault) as fault:
        sys.exit(printable(f"generate: {fault}"))
    write_output("".join(f"{printable(fault)}\n" for fault in faults))
    cases = f", {len(numbers)} cases each" if numbers else ""
    write_output(f"{len(rows) - len(faults)} of {len(rows)} instructions{cases}\n")
    sys.exit(1 if faults else 0)


if __name__ == "__main__":
    main()
