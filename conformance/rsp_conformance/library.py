"""conformance/library [FOLDER] [NAME..]: runs `steps` of the test vectors on the library, by its module for
Python, and names what differs. It fails if a state does.

FOLDER is one that `conformance/generate` made (vectors/ beside this command). A state goes in and comes out
whole, so all registers and memories are compared, also of what an instruction can't change. The vectors were
made over scripts, so this shows that the library and the scripts' machine say the same. The last line is
`N passed, M failed`.
"""

import sys
from pathlib import Path
from typing import Iterable, Iterator

from steps import DEFAULT, SIZES

from rsp_conformance import BUILD, WITHOUT_LIBRARY, complaints
from rsp_conformance.bench import BANKS
from rsp_conformance.command_line import Complaints, parser_of, print_checks, printable
from rsp_conformance.safe_files import FileFault
from rsp_conformance.states import numbers_of, texts_of
from rsp_conformance.vectors import VECTORS, VectorsFault, entries_in, names_in


class Library:
    """The library as the class Rsp of steps.py and programs.py."""

    def __init__(self) -> None:
        import rsp  # here, because it fails where there is no library

        self.machine, self.texts = rsp.Machine(bytes(SIZES["rdram"])), {**DEFAULT}

    def set(self, key: str, text: str) -> None:
        self.texts[key] = text

    def get(self, key: str) -> str:
        return self.texts[key]

    def load(self, bank: str, data: bytes) -> None:
        self.machine.load(BANKS.index(bank), 0, data)

    def memory(self, bank: str) -> bytes:
        return bytes(self.machine.memory(BANKS.index(bank), 0, SIZES[bank]))

    def begin(self) -> None:
        """Sets the state of the machine."""
        from rsp_conformance import library_states

        state = library_states.state_of(numbers_of(self.texts))
        self.machine.set(state)
        if self.machine.get() != state:
            raise NotImplementedError("the state that was set isn't the one that is there")

    def step(self) -> None:
        from rsp_conformance import library_states

        self.begin()
        if status := self.machine.step():
            raise NotImplementedError(status.name)
        self.texts = texts_of(library_states.numbers_of(self.machine.get()))

    def run(self) -> None:
        self.begin()
        self.machine.run(100000)


def run_rows(folder: Path, names: Iterable[str]) -> Iterator[Complaints]:
    """The complaints of each case of instructions. Raises a VectorsFault if no machine can have its state."""
    import rsp

    for name in names:
        try:
            yield from (complaints.of_case(entry, Library()) for entry in entries_in(folder, name))
        except (ValueError, rsp.RspError) as fault:
            raise VectorsFault(f"{name}: a case has a state that no machine can have: {fault}") from None


def main() -> None:
    parser = parser_of("library", __doc__)
    parser.add_argument("folder", nargs="?", type=Path, default=VECTORS, metavar="FOLDER")
    parser.add_argument("names", nargs="*", metavar="NAME")
    args = parser.parse_args()
    try:
        import rsp  # noqa: F401
    except (ImportError, OSError) as fault:
        sys.exit(f"library: {fault if BUILD.exists() else WITHOUT_LIBRARY}")
    try:
        sys.exit(print_checks(run_rows(args.folder, names_in(args.folder, args.names))))
    except (VectorsFault, FileFault) as fault:
        sys.exit(printable(f"library: {fault}"))


if __name__ == "__main__":
    main()
