"""What the tests of the library share: what the examples print, and programs over it."""

from lib.pages import block_with, page

LOCKSTEP = page("examples/c/lockstep.expected")
# What docs/EMULATOR.md says that the examples of first_difference print.
FIRST_DIFFERENCE = block_with("docs/EMULATOR.md", "step 3").lstrip("\n")
