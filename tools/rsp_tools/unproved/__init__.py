"""What tools/unproved is made of: it erases the contracts of the crates, and builds what is left by Rust's
own compiler. Nothing that it makes is proved, and all of it says so."""

import sys
from typing import NoReturn

from rsp_tools import TOP

OUT = TOP / "out/unproved"


def stop(sentence: str) -> NoReturn:
    sys.exit(f"unproved: {sentence}.")
