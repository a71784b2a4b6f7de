"""The definitions on operands that aren't known: formulas of bit vectors, and Z3's answers about them.

These modules need Z3's module for Python, which is no part of Python. Debian's package python3-z3 is Python
over a C library, so each python3 can load it, not only Debian's own.
"""

import importlib.util
import sys
from importlib.machinery import PathFinder

DEBIAN = "/usr/lib/python3/dist-packages"
LACK = "there is no module z3 of Python (Debian's package python3-z3, pip's z3-solver)"


def load(name: str) -> bool:
    """Loads a module, if need be from Debian's folder, and says whether it is here."""
    if name in sys.modules or importlib.util.find_spec(name):
        return True
    found = PathFinder.find_spec(name, [DEBIAN])
    if found is None or found.loader is None:
        return False
    sys.modules[name] = importlib.util.module_from_spec(found)
    try:
        found.loader.exec_module(sys.modules[name])
    except ImportError:
        del sys.modules[name]
        return False
    return True


HAS_Z3 = load("z3")
