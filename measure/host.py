"""Prints what the calls cost that the host of a machine makes: an emulator whose CPU starts tasks.

Each row is in host instructions, as valgrind's callgrind counts them, of the calls of measure/host.c, on a
machine with 8 MB of RDRAM and a history of 0, with the loop of the caller. It needs library/c/build, cc and
valgrind.
"""

import tempfile
from pathlib import Path

from lib.processes import STRICT, compiled
from measure import LIBRARY, need, parser_of
from measure.speed import figure, print_heading, print_row

COUNTS = (500, 1500)
# By the names that host.c gives them.
ROWS = {
    "read-status": "a read of SP_STATUS",
    "write-status": "a write of SP_STATUS",
    "dma-8": "a write that starts a DMA of 8 bytes",
    "dma-4096": "of 4,096 bytes",
    "dma-rows": "of 16 rows of 8 bytes",
    "dma-three": "a DMA of 8 bytes by three writes",
    "start-task": "`brsp_start_task` with a boot of 100 bytes",
    "run-one": "`brsp_run` of one instruction",
    "run-six": "of six",
    "run-halted": "on a halted machine",
    "empty-task": "an empty task",
    "task-dma": "a task of six with a DMA of 256 bytes",
    "dmem-word": "a word of DMEM",
    "load-bytes": "`brsp_load` of 4,096 bytes",
    "load-words": "`brsp_load_words` of 1,024 words",
    "memory-words": "`brsp_memory_words` of 1,024 words",
    "owner-dma-8": "a DMA of 8 bytes by `brsp_write_dma`, which a host moves",
    "owner-empty-task": "an empty task, by a host that owns RDRAM",
    "owner-task-dma": "a task of six with a DMA, by such a host",
}


def main() -> None:
    parser = parser_of(__doc__)
    parser.add_argument("rows", nargs="*", metavar="ROW", help=f"of {', '.join(ROWS)} (all)")
    names = parser.parse_args().rows or [*ROWS]
    if unknown := [name for name in names if name not in ROWS]:
        parser.error(f"there is no row {unknown[0]}")
    need("cc", "valgrind")
    print_heading("Host instructions", [""])
    with tempfile.TemporaryDirectory() as folder:
        program = compiled(Path(folder) / "host", *STRICT, Path(__file__).with_suffix(".c"), LIBRARY)
        for name in names:
            print_row(ROWS[name], [figure(lambda count: ([program, name, count], b""), *COUNTS)])


if __name__ == "__main__":
    main()
