"""reasons OUTPUT: counts the mutations that show something, in the output of `rt ci` or `rt must-fail`.

It fails if one is refused only because a proof cites what it took away, which says nothing of a contract, or
can't be applied; in `rt ci` neither is a failure. The last line is `N passed, M failed`.
"""

import argparse
import re
import sys
from pathlib import Path

TRIED = re.compile(r"^(?:rt: )?must-fail (\S+): ((?:refused, as it must be|BAD EDIT).*)", re.M)
IDLE = ("refused, as it must be (only because a proof file names", "BAD EDIT")


def main() -> int:
    parser = argparse.ArgumentParser("tools/python rsp_tools.kit.reasons", description=__doc__)
    parser.add_argument("output", metavar="OUTPUT", type=Path, help="a file with that output")
    tried = TRIED.findall(parser.parse_args().output.read_text(errors="replace"))
    failed = [f"FAIL {name}: {result}" for name, result in tried if result.startswith(IDLE)]
    print(*failed, f"{len(tried) - len(failed)} passed, {len(failed)} failed", sep="\n")
    return int(bool(failed))


if __name__ == "__main__":
    sys.exit(main())
