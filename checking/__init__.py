"""Proves the machine code of the library by public tools: capstone decodes it, and Z3 answers.

These modules need capstone's module for Python. Debian's package python3-capstone is Python over a C library,
so each python3 can load it.
"""

from definitions.unknown import HAS_Z3, load

HAS_CAPSTONE = load("capstone")
LACKS = [
    f"there is no module {name} of Python (Debian's package python3-{name}, pip's {pip})"
    for name, pip, is_here in (("z3", "z3-solver", HAS_Z3), ("capstone", "capstone", HAS_CAPSTONE))
    if not is_here
]
