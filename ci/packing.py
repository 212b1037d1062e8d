"""Folders as archives, with the same bytes each time: names are sorted, times are those of the
commit, owners are root, and modes do not depend on a umask."""
import dataclasses
import gzip
import io
import os
import pathlib
import tarfile
from typing import List

EXECUTABLE, PLAIN = 0o755, 0o644


@dataclasses.dataclass(frozen=True)
class Stamp:
    """The version of a release, and the time of its commit in seconds."""

    version: str
    is_unproved: bool
    seconds: int

    @property
    def name(self) -> str:
        """The name of the .tar.gz without its ending, and of the folder in it."""
        return f"{self.base}-x86_64"

    @property
    def base(self) -> str:
        """What the names of files begin with."""
        return f"rdbg-{self.version}{'-unproved' if self.is_unproved else ''}"

    @property
    def debian_version(self) -> str:
        """The version as Debian orders it: an unproved release comes before the proved one."""
        return f"{self.version}{'~unproved' if self.is_unproved else ''}"

    @property
    def package(self) -> str:
        """The name of the Debian package."""
        return f"rdbg_{self.debian_version}_amd64.deb"


def is_executable(file: pathlib.Path) -> bool:
    """Whether its user may start a file."""
    return bool(file.stat().st_mode & 0o100)


def settle(tree: pathlib.Path, seconds: int) -> None:
    """Sets the modes and times of a folder and everything below it."""
    for path in [tree, *tree.rglob("*")]:
        path.chmod(EXECUTABLE if path.is_dir() or is_executable(path) else PLAIN)
        os.utime(path, (seconds, seconds))


def names_below(tree: pathlib.Path) -> List[str]:
    """Returns the names of everything below a folder, sorted by their parts."""
    return [str(it) for it in sorted(path.relative_to(tree) for path in tree.rglob("*"))]


def entry(tar: tarfile.TarFile, path: pathlib.Path, name: str) -> tarfile.TarInfo:
    """Returns the entry of a file in the archive, owned by root."""
    info = tar.gettarinfo(str(path), name)
    info.uid = info.gid = 0
    info.uname = info.gname = "root"
    return info


def write_tar(tree: pathlib.Path, stamp: Stamp, place: pathlib.Path) -> None:
    """Writes a .tar.gz of a settled folder."""
    packed = io.BytesIO()
    with tarfile.open(fileobj=packed, mode="w", format=tarfile.USTAR_FORMAT) as tar:
        tar.addfile(entry(tar, tree, stamp.name))
        for name in names_below(tree):
            path = tree / name
            info = entry(tar, path, f"{stamp.name}/{name}")
            if path.is_dir():
                tar.addfile(info)
            else:
                with open(path, "rb") as file:
                    tar.addfile(info, file)
    place.write_bytes(gzipped(packed.getvalue()))


def gzipped(content: bytes) -> bytes:
    """Returns bytes as gzip packs them, without a name or a time."""
    made = io.BytesIO()
    with gzip.GzipFile(filename="", mode="wb", compresslevel=9, fileobj=made, mtime=0) as file:
        file.write(content)
    return made.getvalue()
