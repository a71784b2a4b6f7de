"""What is true of each archive of ./release: names, times, sums."""

import calendar
import re
import shutil
import stat
import tarfile
import zipfile
from pathlib import Path

from lib.processes import succeeds


def check_pack(archive: Path) -> None:
    """All members are files below one folder that anybody may read and the owner alone may change. Their
    names are sorted, all have one time, and nothing tells by whom they were made."""
    if archive.suffix == ".tgz":
        with tarfile.open(archive) as tar:
            names, members = tar.getnames(), tar.getmembers()
            times = {str(member.mtime) for member in members}
            assert {(it.uid, it.gid, it.uname, it.gname) for it in members} == {(0, 0, "", "")}
            assert {it.type for it in members} == {tarfile.REGTYPE}
            modes = {it.mode for it in members}
    else:
        with zipfile.ZipFile(archive) as pack:
            names, entries = pack.namelist(), pack.infolist()
            times = {str((it.date_time, it.create_system, it.extra, it.comment)) for it in entries}
            assert {stat.S_IFMT(it.external_attr >> 16) for it in entries} == {stat.S_IFREG}
            modes = {stat.S_IMODE(it.external_attr >> 16) for it in entries}
    assert modes <= {0o644, 0o755} and names == sorted(names) and len(times) == 1
    parts = [name.split("/") for name in names]
    assert len({name[0] for name in parts}) == 1 and not [name for name in parts if {"", ".", ".."} & {*name}]


def date(archive: Path) -> int:
    """The time of an archive's files, in seconds since 1970. A zip file, and so a wheel, has times of UTC,
    even seconds."""
    if archive.suffix != ".tgz":
        with zipfile.ZipFile(archive) as pack:
            return calendar.timegm((*pack.infolist()[0].date_time, 0, 0, 0))
    with tarfile.open(archive) as tar:
        return int(tar.getmembers()[0].mtime)


def unpacked(archive: Path, into: Path) -> Path:
    """Unpacks an archive into an empty or new folder, and returns the only folder that it has."""
    shutil.unpack_archive(archive, into, "zip" if archive.suffix == ".zip" else "gztar")
    (top,) = into.iterdir()
    return top


def check_common(top: Path) -> None:
    """What each archive has. SHA256SUMS lists every file except itself."""
    output = succeeds("sha256sum", "--strict", "-c", "SHA256SUMS", cwd=top)
    files = [path for path in top.rglob("*") if path.is_file()]
    names = {str(path.relative_to(top)) for path in files} - {"SHA256SUMS"}
    assert sorted(output.splitlines()) == sorted(f"{name}: OK" for name in names)
    assert re.fullmatch(r"[0-9a-f]{40}\n", (top / "COMMIT").read_text())
    assert (top / "README.md").is_file() and (top / "CHANGELOG.md").read_text().startswith("# Changes\n")
