"""Where the tree has what this package reads and writes."""

from pathlib import Path

HERE = Path(__file__).resolve().parent
TOP = HERE.parents[2]
RUNTIME = TOP / "runtime"  # the C by which systems run what is proved
HEADER = TOP / "library" / "c" / "brsp.h"
HELPERS = TOP / "library" / "c" / "brsp_helpers.h"
DMAS = TOP / "library" / "c" / "brsp_dmas.h"
PYTHON = TOP / "library" / "python"
RUST = TOP / "library" / "rust"
