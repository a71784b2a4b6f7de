"""How a C compiler makes the program and the library: tools/recipe, which tools/link and CMake read too."""

import re
from itertools import accumulate
from typing import List

from rsp_tools import TOOLS

LINES = re.findall(r"(?m)^([a-z]\S*) +(\S+) +(.*)$", (TOOLS / "recipe").read_text())


def words(system: str, *uses: str) -> List[str]:
    """The words of these uses for a system: those of all, and of each beginning of its name, such as `linux`
    and `linux-x86_64`."""
    names = {"all", *accumulate(system.split("-"), "{}-{}".format)}
    found = (text for use, name, text in LINES if use in uses and name in names)
    return [word for text in found for word in text.split()]
