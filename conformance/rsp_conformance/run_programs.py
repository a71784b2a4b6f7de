"""Runs whole programs, to make their images and manifests, and to see DMEM at their ends."""

import json
from pathlib import Path
from typing import Any, Dict, Iterable, Iterator, List, Optional

from rsp_conformance import bench
from rsp_conformance.bench import RspError, Script, joined, run_script
from rsp_conformance.programs import MEMORY, Program
from rsp_conformance.table import Row
from rsp_conformance.vectors import memory_in

Entry = Dict[str, Any]  # a program of a manifest


def assemble_and_run(program: str, entries: Iterable[Program]) -> Iterator[Dict[str, Any]]:
    """Yields the IMEM image of each program, its steps, DMEM at its end, and the texts of its words."""
    for script, count in joined(map(script_of, entries), Script):
        yield from program_results(program, script, count)


def script_of(made: Program) -> Script:
    script = Script()
    script.copy(bench.ZEROS, "imem")
    script.assemble(0, [*made.lines, "break"])
    script.memory("imem", 0, MEMORY, ("imem",))
    run_images(script, None, bytes(made.data))
    for case in made.cases:
        script.add(f"dis {int(case['pc'], 16)} 1", 1, ("text",))
    return script


def run_images(script: Script, imem: Optional[bytes], dmem: bytes) -> None:
    """Runs a program from its images (or from the present IMEM) to its end, and shows DMEM."""
    if imem is not None:
        script.copy(bench.ZEROS, "imem")
        script.load("imem", 0, imem.rstrip(b"\0").hex() or "00")
    script.copy(bench.ZEROS, "dmem")
    script.load("dmem", 0, dmem.hex())
    for line in (f"write 4 {bench.ALL_CLEAR}", "pc 0"):
        script.add(line)
    script.add("run 100000", 1, ("stop",))
    script.memory("dmem", 0, MEMORY, ("dmem",))


def program_results(program: str, script: Script, count: int) -> Iterator[Dict[str, Any]]:
    """Runs a script of programs, and yields what is seen of each."""
    found: List[Dict[str, Any]] = [{"imem": "", "dmem": "", "stop": [], "text": []} for _ in range(count)]
    for (number, kind), lines in run_script(program, script):
        is_memory = kind in ("imem", "dmem")
        found[number][kind] += "".join(line.split(": ")[1] for line in lines) if is_memory else lines
    for result in found:
        if not (stop := result["stop"][0]).startswith("stop Halted"):
            raise RspError(f"a program didn't end: {stop}")
        yield {**result, "steps": int(stop.split()[3])}


def row_files(program: str, row: Row, programs: List[Program]) -> Dict[str, bytes]:
    """The files of an instruction with these programs, by their names."""
    files: Dict[str, bytes] = {}
    entries = []
    for number, (made, result) in enumerate(zip(programs, assemble_and_run(program, programs)), 1):
        name = f"{row.name.upper()}-{number}"
        for case, text in zip(made.cases, result["text"]):
            case["text"] = text.split(" ", 2)[2]
        files[f"{name}.imem"], files[f"{name}.dmem"] = bytes.fromhex(result["imem"]), bytes(made.data)
        files[f"{name}.after"] = bytes.fromhex(result["dmem"])
        entry = {"name": name, "steps": result["steps"], "layouts": made.layouts, "cases": made.cases}
        entries.append(entry)
    files[f"{row.name.upper()}.json"] = manifest_text(row, entries).encode()
    return files


def files_again(program: str, row: Row, manifest: Dict[str, Any], folder: Path) -> Dict[str, bytes]:
    """The files of an instruction that say what its programs do, which are run again."""
    entries, files = manifest["programs"], {}
    for entry, result in zip(entries, results_in(program, entries, folder, True)):
        for case, text in zip(entry["cases"], result["text"]):
            case["text"] = text.split(" ", 2)[2]
        entry["steps"] = result["steps"]
        files[f"{entry['name']}.after"] = bytes.fromhex(result["dmem"])
    return {**files, f"{row.name.upper()}.json": manifest_text(row, entries).encode()}


def short(value: object) -> str:
    """JSON without whitespace."""
    return json.dumps(value, separators=(",", ":"))


def manifest_text(row: Row, entries: List[Entry]) -> str:
    """A manifest, with a line for each case."""
    parts = []
    for entry in entries:
        cases = ",\n  ".join(short(case) for case in entry["cases"])
        head = short({key: entry[key] for key in ("name", "steps", "layouts")})[:-1]
        parts.append(f' {head},"cases":[\n  {cases}]}}')
    return f'{{"row":"{row.name.upper()}","programs":[\n' + ",\n".join(parts) + "]}\n"


def results_in(
    program: str, entries: List[Entry], folder: Path, is_shown: bool = False
) -> Iterator[Dict[str, Any]]:
    """Runs programs of a folder, and yields what is seen of each, with the texts of its cases if asked for.

    The registers have other values than when the programs were made, so that a program that depends on such a
    value fails.
    """

    def script_of_files(entry: Entry) -> Script:
        script = Script()
        bench.set_state(script, bench.DEFAULT, 0)
        imem, dmem = (memory_in(folder / f"{entry['name']}.{kind}") for kind in ("imem", "dmem"))
        run_images(script, imem, dmem)
        for case in entry["cases"] if is_shown else ():
            script.add(f"dis {int(case['pc'], 16)} 1", 1, ("text",))
        return script

    for script, count in joined(map(script_of_files, entries), bench.prelude):
        yield from program_results(program, script, count)
