"""The folder OUT of a campaign: its settings, its tasks, and a file for each result."""

import argparse
import json
from pathlib import Path
from typing import Any, Dict, List

from rsp_conformance.command_line import printable
from rsp_conformance.safe_files import MOST_JSON, read_file, write_file

from . import CampaignFault, stored
from .hashes import files_of, hashes, other_hashes
from .protocol import ALL_WORDS, PROGRAM, VERSION, VERSIONS, WORDS, Result, Task, plural
from .report import file_of, result_in, task_of

# The options that decide a campaign's cases and programs.
SETTINGS = (
    "emulator",
    "instructions",
    "seed",
    "cases",
    "size",
    "programs",
    "programs_size",
    "steps",
    "stored",
    "reserved",
)
MOST = 1 << 53  # the numbers of a campaign are smaller
# What it means that a campaign has another hash.
CHANGED = {
    "emulator": "the emulator's files have changed since, or --files names others",
    "library": "the library, or this command, has changed since",
}
LISTED = 8  # files that are named in a sentence


def settings_in(out: Path) -> Dict[str, Any]:
    """The settings of the campaign in a folder, of which instructions and steps can be used."""
    try:
        found = json.loads(read_file(out / "campaign.json", MOST_JSON))
        return {key: found[key] for key in ("generator", *SETTINGS, "hashes")}
    except (KeyError, ValueError):
        raise CampaignFault(f"{out}/campaign.json isn't what a campaign wrote") from None


class OutputFolder:
    """The folder OUT of a campaign."""

    def __init__(self, args: argparse.Namespace) -> None:
        self.out: Path = args.out
        self.files, self.earlier_results = files_of(args.emulator, args.files), 0
        self.settings: Dict[str, Any] = {"generator": [VERSION, *VERSIONS.values()]}
        self.settings.update({key: getattr(args, key) for key in SETTINGS})
        self.settings["stored"] = stored.mark_of(args.stored)
        self.settings["hashes"] = hashes(args.emulator, args.files)
        kinds = (
            (args.cases, args.size, args.instructions),
            (ALL_WORDS * args.reserved, args.size, [WORDS]),
            (args.programs, args.programs_size, [PROGRAM]),
        )
        self.tasks: List[Task] = [
            (name, first, min(size, count - first))
            for count, size, names in (stored.kinds_of(args) if args.stored else kinds)
            for first in range(0, count, size)
            for name in names
        ]

    def open(self) -> None:
        """Makes the folder. A folder of another campaign, or with another campaign's results, is refused."""
        self.out.mkdir(parents=True, exist_ok=True)
        if not (self.out / "campaign.json").exists():
            if any(not path.name.startswith(".") for path in self.out.iterdir()):
                raise CampaignFault(f"{self.out} isn't empty, and holds no campaign")
            write_file(self.out / "campaign.json", json.dumps(self.settings, indent=1) + "\n")
        found = settings_in(self.out)
        if other := [key for key in self.settings if self.settings[key] != found[key]]:
            how = "take another folder for OUT, or delete this one"
            difference = self.difference(other[0], found)
            raise CampaignFault(f"{self.out} holds another campaign: {difference}; {how}")
        self.earlier_results = len(self.tasks) - len(self.tasks_left())

    def difference(self, key: str, found: Dict[str, Any]) -> str:
        """What the campaign in the folder has for another setting, in a clause."""
        value = found[key]
        if key == "hashes":
            return CHANGED[(other_hashes(self.settings[key], value) or ["emulator"])[0]]
        text = ",".join(map(str, value)) if isinstance(value, list) else str(value)
        return f"its {key.replace('_', '-')} {'are' if key.endswith('s') else 'is'} {text[:200]}"

    def note_on_earlier_results(self) -> str:
        """Sentences about the results that an earlier run has left."""
        more = [f"{len(self.files) - LISTED} more"] if len(self.files) > LISTED else []
        files = printable(", ".join([*self.files[:LISTED], *more])) or "none"
        tasks = f"{self.earlier_results} of {plural(len(self.tasks), 'task')}"
        why = f"because these files of the emulator haven't changed since an earlier run: {files}"
        return f"Not run again: {tasks}, {why}. If it has others, name them by --files."

    def path_of(self, task: Task) -> Path:
        return self.out / file_of(task)

    def tasks_left(self) -> List[Task]:
        return [task for task in self.tasks if not result_in(self.path_of(task))]

    def save(self, result: Result) -> None:
        """Writes a result."""
        for program in result["programs"]:
            folder = self.out / "programs"
            folder.mkdir(exist_ok=True)
            for kind, key in (("s", "source"), ("script", "script"), ("hex", "image")):
                write_file(folder / f"{program['name']}.{kind}", program.pop(key))
        write_file(self.path_of(task_of(result)), json.dumps(result) + "\n")
