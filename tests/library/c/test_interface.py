"""The interface for which callers are compiled, beside the one that is stored in interface.tsv.

They fail if a symbol, a layout or a number changes. As long as no version has a tag, store the interface anew
(`tools/python lib.library.interface`). After that, a new symbol, number or struct raises the second part of
the version, and a symbol also gets a new node of brsp.map, such as BRSP_1.1. Any other change raises the
first part: BRSP_VERSION and VERSION of each language, and BRSP_N of brsp.map. So does another field of a
class in brsp.hpp, because files with headers of two versions may be in one program, by the number in their
names.
"""

import pytest

from lib import TOP
from lib.library import interface
from lib.processes import succeeds

STORED = interface.stored()


def test_interface() -> None:
    assert interface.interface() == STORED


@pytest.mark.needs("readelf")
@pytest.mark.usefixtures("library")
def test_versions() -> None:
    """Each symbol of libbrsp.so has the version BRSP_N, where N is that of the interface."""
    output = succeeds("readelf", "--wide", "--dyn-syms", TOP / "library/c/libbrsp.so")
    node = f"@@BRSP_{STORED['number BRSP_VERSION']}"
    names = {line.split()[-1] for line in output.splitlines() if " brsp_" in line}
    assert names == {f"{key.split()[1]}{node}" for key in STORED if key.startswith("symbol ")}
