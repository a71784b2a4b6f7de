"""Files in folders that may be somebody else's: read up to a limit, and written whole or not at all."""

import contextlib
import os
import secrets
from pathlib import Path
from typing import Union

# The limit of a file, and that of one JSON value, which may take 25 times as much memory. The files that are
# made here have some 10 KB, and 16 MiB or 3 MiB with 20000 cases.
MOST_BYTES, MOST_JSON = 1 << 24, 1 << 22


class FileFault(Exception):
    """Why a file can't be read or written, as a sentence."""


def read_file(path: Path, most: int = MOST_BYTES) -> bytes:
    """The bytes of a file. Pipes and devices are refused, and files that are too long."""
    if path.exists() and not path.is_file():
        raise FileFault(f"{path} is no file")
    try:
        if path.stat().st_size > most:
            raise FileFault(f"{path} has more than {most} bytes")
        return path.read_bytes()
    except OSError as fault:
        raise FileFault(f"{path} can't be read: {fault.strerror}") from None


def make_folder(path: Path) -> None:
    """Makes a folder, if it isn't there. A link is refused, because it could lead anywhere."""
    if path.is_symlink():
        raise FileFault(f"{path} is a link, and has to be a folder")
    path.mkdir(parents=True, exist_ok=True)


def write_file(path: Path, content: Union[str, bytes]) -> None:
    """Writes a file whole or not at all. If a link has its name, the link is replaced, and not followed.

    Until the file is whole, it has a name that nobody can guess, and "x" doesn't open an existing file.
    """
    temporary = path.with_name(f".{path.name}.{secrets.token_hex(8)}")
    try:
        with open(temporary, "xb") as file:
            file.write(content.encode() if isinstance(content, str) else content)
        os.replace(temporary, path)
    except OSError as fault:
        with contextlib.suppress(OSError):
            temporary.unlink()
        raise FileFault(f"{path} can't be written: {fault.strerror}") from None
