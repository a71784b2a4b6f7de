"""The packages of Debian that this machine lacks for the blocks of pages that a user types in a clone.

`tools/python lib.install.needed_packages` prints them with a space between them. ./release asks this before
it makes anything.
"""

from lib.packages import packages
from lib.page_blocks import Block, all_blocks


def typed_blocks() -> list[Block]:
    """The blocks that a user types in a clone."""
    return [block for block in all_blocks() if block.is_typed]


def missing() -> list[str]:
    """The packages that these blocks need and this machine lacks."""
    return packages(*(tool for block in typed_blocks() for tool in block.needs()))


if __name__ == "__main__":
    print(*missing())
