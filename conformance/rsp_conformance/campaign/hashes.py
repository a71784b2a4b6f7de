"""The hashes that a result belongs to: of the emulator's files, and of all that the emulator is compared
with.
"""

import functools
import hashlib
import importlib.util
import os
import shutil
import subprocess
import sys
from importlib.machinery import ModuleSpec, PathFinder
from pathlib import Path
from typing import Dict, Iterable, List, Optional

from rsp_conformance import BUILD, HERE, TOP, WITHOUT_LIBRARY

from . import CampaignFault, words_of

SOURCES = Path(__file__).resolve().parent  # in C, beside these modules
HEADER = TOP / "library/c/brsp.h"


@functools.lru_cache(None)
def library() -> Path:
    """The one that the repository makes of its sources."""
    if not BUILD.exists():
        raise CampaignFault(WITHOUT_LIBRARY)
    made = subprocess.run([BUILD, "--folder"], stdout=subprocess.PIPE, text=True)
    if made.returncode:
        raise CampaignFault("library/c/build has made no library")
    return Path(made.stdout.rstrip("\n"), "libbrsp.a")


def find_module(name: str) -> Optional[ModuleSpec]:
    """The module that EMULATOR names, from Python's path, or otherwise from the current folder; None if it
    has no file.

    The current folder may be a stranger's. So it is added to the path, for what the emulator imports from
    there, only if the module isn't elsewhere.
    """
    first, here = name.partition(".")[0], os.getcwd()
    try:
        if not importlib.util.find_spec(first) and PathFinder.find_spec(first, [here]):
            sys.path.append(here)
        return importlib.util.find_spec(name)
    except Exception as fault:  # of the module's package too, which is imported to find the module
        raise CampaignFault(f"there is no module {name!r}: {type(fault).__name__}: {fault}") from None


def hash_of(paths: Iterable[object], more: str = "") -> str:
    """One hash of files and a text."""
    try:
        found = [hashlib.sha256(Path(str(path)).read_bytes()).digest() for path in paths]
    except FileNotFoundError as fault:
        raise CampaignFault(f"there is no file {fault.filename}") from None
    return hashlib.sha256(b"/".join([more.encode(), *found])).hexdigest()


def sources() -> List[Path]:
    """The sources of what a campaign compares with: our own files, and the library."""
    folder = HERE / "rsp_conformance"
    own = [path for ending in ("py", "tsv", "[ch]") for path in folder.rglob(f"*.{ending}")]
    own += TOP.glob("plugin/*.[ch]")
    return [*sorted(own), HEADER, library()]


def named_by(spec: str) -> List[str]:
    """The files that EMULATOR names: the object, the module, or those of a command's words."""
    kind, _, rest = spec.partition(":")
    if kind == "python":
        module = find_module(rest.partition(":")[0])
        return [module.origin] if module and module.origin else []
    if kind == "console":
        return [str(SOURCES / "console/monitor.bin"), *filter(None, [shutil.which(rest)])]
    if kind == "plugin" or spec.endswith(".so"):
        return [rest or spec]
    words = words_of(rest if kind == "hex" else spec)
    found = (word if Path(word).is_file() else shutil.which(word) for word in words)
    return [path for path in found if path]


def files_below(path: str) -> List[str]:
    """A file, or all files below a folder except those that Python compiles."""
    if not Path(path).is_dir():
        return [path]
    below = (found for found in Path(path).rglob("*") if found.is_file())
    return sorted(str(found) for found in below if found.parent.name != "__pycache__")


def files_of(spec: str, others: Iterable[str]) -> List[str]:
    """The emulator's files: those that EMULATOR names, and the other files and folders."""
    return [*named_by(spec), *(file for path in others for file in files_below(path))]


def hashes(spec: str, others: Iterable[str]) -> Dict[str, str]:
    """The hashes of a result; `others` are files and folders of the emulator that EMULATOR doesn't name."""
    return {"emulator": hash_of(files_of(spec, others)), "library": hash_of(sources())}


def other_hashes(ours: Dict[str, str], theirs: Dict[str, str]) -> List[str]:
    """The names of our hashes that others don't have."""
    return [key for key in ours if theirs.get(key) != ours[key]]
