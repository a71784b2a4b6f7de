"""What tools/theorem is made of: instructions, the pieces of a routine, its statement, and its proof."""

import sys
from typing import NoReturn


def stop(sentence: str) -> NoReturn:
    sys.exit(f"theorem: {sentence}.")
