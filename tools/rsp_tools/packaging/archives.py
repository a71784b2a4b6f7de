"""What ./release packs: the folder of a system with pages and other parts of the repository, and wheels.

The same files of the same commit give the same bytes, because they have no owner and the time of the commit,
by which a web server and a browser know which are newer.
"""

import gzip
import hashlib
import io
import stat
import tarfile
import tempfile
import time
import zipfile
from pathlib import Path
from typing import Dict, Iterable, Iterator, List

import wheels
from rsp_tools.packaging import install_tree, readme, repository
from rsp_tools.packaging.install_tree import File
from rsp_tools.targets import TARGETS, Target

# What they hold of the repository, except what was run on Linux alone.
PAGES = "docs examples microcode CHANGELOG.md".split()
PARTS: Dict[str, List[str]] = {
    "windows-x86_64": [
        *PAGES,
        "library/c/*.h*",
        "library/python/rsp",
        "library/python/README.md",
        "library/rust",
    ],
    "wasm": PAGES,
    "page": ["CHANGELOG.md"],
}
NOT_THERE = ("docs/PLUGIN.md", "docs/CAMPAIGN.md", "docs/HDL.md")
UNIX = 3  # the system of a zip file whose entries have rights


def mode(file: File) -> int:
    return 0o755 if file.can_run else 0o644


def tarred(folder: str, files: Iterable[File]) -> bytes:
    """A tar file of these files, below a folder, compressed."""
    tar, out, date = io.BytesIO(), io.BytesIO(), repository.commit_time()
    with tarfile.open(fileobj=tar, mode="w", format=tarfile.USTAR_FORMAT) as pack:
        for file in files:
            entry = tarfile.TarInfo(f"{folder}/{file.name}")
            entry.mtime, entry.mode, entry.size = date, mode(file), len(file.data)
            pack.addfile(entry, io.BytesIO(file.data))
    with gzip.GzipFile(fileobj=out, mode="wb", filename="", mtime=date, compresslevel=9) as pressed:
        pressed.write(tar.getvalue())
    return out.getvalue()


def zipped(folder: str, files: Iterable[File]) -> bytes:
    """A zip file of these files, below a folder. Its times are those of UTC."""
    out, date = io.BytesIO(), time.gmtime(repository.commit_time())
    with zipfile.ZipFile(out, "w") as pack:
        for file in files:
            entry = zipfile.ZipInfo(f"{folder}/{file.name}", date[:6])
            entry.create_system, entry.compress_type = UNIX, zipfile.ZIP_DEFLATED
            entry.external_attr = (stat.S_IFREG | mode(file)) << 16
            pack.writestr(entry, file.data, compresslevel=9)
    return out.getvalue()


def sums(files: Iterable[File]) -> bytes:
    """The lines that sha256sum prints of files, in the order of their names."""
    lines = (f"{hashlib.sha256(it.data).hexdigest()}  {it.name}\n" for it in sorted(files))
    return "".join(lines).encode()


def of_folder(folder: Path) -> Iterator[File]:
    """All files of a folder."""
    for path in sorted(it for it in folder.rglob("*") if it.is_file()):
        yield install_tree.file(str(path.relative_to(folder)), path)


def contents(target: Target, made: Path, commit: str) -> List[File]:
    """The files of an archive: those of the system's folder, with pages, and the sums of all."""
    files = [*of_folder(made), File("COMMIT", f"{commit}\n".encode())]
    files += [it for it in repository.tracked(*PARTS[target.name]) if it.name not in NOT_THERE]
    for triple, name in target.rust.items():
        files.append(install_tree.file(f"library/rust/lib/{triple}/{name}", made / "lib" / name))
    if target.program:
        files += install_tree.shared()
    files.append(File("README.md", readme.page(target.name, commit)))
    return sorted([*files, File("SHA256SUMS", sums(files))])


def packed(name: str, made: Path, commit: str) -> File:
    """The archive of a system, whose folder is made. npm packs into a folder `package`."""
    target, folder = TARGETS[name], f"rsp-{install_tree.version()[0]}-{name}"
    pack = zipped if target.ending == "zip" else tarred
    data = pack("package" if name == "wasm" else folder, contents(target, made, commit))
    return File(f"{folder}.{target.ending}", data)


def wheel(target: Target, made: Path) -> File:
    """The Python package with the library of a system's folder, and the program as its command."""
    library, program = made / target.shared, made / target.program
    files = wheels.with_library(library, library.name)
    files.update(wheels.with_command(program.name, program.read_bytes()))
    with tempfile.TemporaryDirectory() as folder:
        name = wheels.write(folder, files, target.wheel, repository.commit_time())
        return install_tree.file(name, Path(folder, name))
