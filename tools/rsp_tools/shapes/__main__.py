"""tools/shapes writes the calls, structs and numbers of the library for Rust, JavaScript and Python, as it
reads them in crates/rsp_c/src and in headers of library/c, and for these and C++ the methods of regular
calls, with the comments of library/c/brsp.h. It needs Python alone. With --check it writes nothing, and names
each file that isn't as it would be written.

The status is 0 if all files are right, or are written, and 1 if --check has named one, or a call lacks the
names of its numbers.
"""

import argparse
import sys

from rsp_tools import TOP
from rsp_tools.shapes import stale

parser = argparse.ArgumentParser("tools/shapes", description=__doc__)
parser.formatter_class = argparse.RawDescriptionHelpFormatter
parser.add_argument("--check", action="store_true", help="write nothing, and name each file that is stale")
is_check = parser.parse_args().check
try:
    found = stale()
except ValueError as fault:
    sys.exit(f"tools/shapes: {fault}")
for name, text in found.items():
    if is_check:
        print(f"{name} isn't what the library exports: type tools/shapes, which writes it anew")
    else:
        (TOP / name).write_text(text)
        print(f"wrote {name}")
sys.exit(1 if is_check and found else 0)
