"""The files of definitions, specs/*.antt, and which of them a file rests on.

`tools/python lib.definitions` lists those on which the main theorem rests.
"""

import re
from pathlib import Path
from typing import Iterator, Optional

from lib import TOP

MAIN_THEOREM = TOP / "crates/rsp_bench/src/run.rt"
# A line `use MODULE.{NAME, NAME as OTHER}`, or of a module alone.
USED = re.compile(r"^(?:ghost |unfoldable )*(pub )?use ([\w.]+?)(?:\.\{(.*?)\}| as \w+)?;?$", re.M)


def file_of(module: str, user: Path) -> Optional[Path]:
    """The file of a module of definitions, by its whole name or by that inside the module that uses it.

    None for another module, and for a type that the sources declare.
    """
    found = re.fullmatch(r"Rattle\.(rsp_\w+)\.specs\.(?!declared\.)([\w.]+)", module)
    inside = user.with_suffix("") / f"{module}.antt"
    if found:
        return TOP / "crates" / found[1] / "specs" / (found[2].replace(".", "/") + ".antt")
    return inside if inside.exists() else None


def used_by(file: Path, is_exported: bool = False) -> Iterator[tuple[str, set[str]]]:
    """The modules of a file's `use` lines with their names: those for itself, or those that it exports."""
    for public, module, names in USED.findall(file.read_text()):
        if bool(public) == is_exported:
            yield module, {name.split(" as ")[-1].strip() for name in names.split(",")}


def rests_on(file: Path) -> tuple[set[Path], set[str]]:
    """The files of definitions that a file rests on, and the modules of the kit that it and they name."""
    files, kit = set(), set()
    left = [(file, *used) for used in used_by(file)]
    while left:
        user, module, names = left.pop()
        found = file_of(module, user)
        if found:
            left += [(found, other, names) for other, exported in used_by(found, True) if exported & names]
            left += [(found, *used) for used in used_by(found)] if found not in files else []
            files.add(found)
        elif not module.startswith("Rattle.rsp_"):
            kit.add(module)
    return files, kit


if __name__ == "__main__":
    print(*sorted(path.relative_to(TOP) for path in rests_on(MAIN_THEOREM)[0]), sep="\n")
