"""What proves and builds the program and the library, begins theorems of microcode, and packs releases."""

from pathlib import Path

TOOLS = Path(__file__).resolve().parent.parent
TOP = TOOLS.parent
