"""What measures, and is no test: `tools/python measure.NAME`, whose --help says what it prints and needs."""

import argparse
import sys
from pathlib import Path
from typing import Optional

from lib import TOP
from lib.packages import is_here, without
from rsp_tools import build

PROGRAM = build.program() or build.LINKED
LIBRARY = TOP / "library/c/libbrsp.a"


def parser_of(doc: Optional[str]) -> argparse.ArgumentParser:
    """A parser of the command line, whose --help shows the module's text."""
    form = argparse.RawDescriptionHelpFormatter
    name = f"tools/python measure.{Path(sys.argv[0]).stem}"
    return argparse.ArgumentParser(prog=name, description=doc, formatter_class=form)


def need(*tools: object) -> None:
    """Ends the command without the program, the library, or one of these tools or files (with a slash)."""
    missing = [without(tool) for tool in map(str, tools) if not is_here(tool)]
    built = {PROGRAM: "./rsp run </dev/null", LIBRARY: "library/c/build"}
    missing += [
        f"{path} isn't there: type {command}" for path, command in built.items() if not path.is_file()
    ]
    if missing:
        sys.exit(f"{Path(sys.argv[0]).stem}: {'; '.join(missing)}")
