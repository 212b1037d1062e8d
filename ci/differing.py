"""Finds the first difference between two files of a release: a .tar.gz, a Debian package, a .vsix
or a text."""
import gzip
import io
import itertools
import tarfile
import zipfile
from typing import Dict, Iterator, List, Optional, Tuple

AR, HEAD = b"!<arch>\n", 60
GZIP, ZIP = b"\x1f\x8b", b"PK\x03\x04"
# What is compared of a file besides its contents, in this order.
FIELDS = ("type", "mode", "uid", "gid", "uname", "gname", "mtime", "linkname", "size")
RELEASE = "lib/rdbg/release"


class Unread(Exception):
    """Why a file is not a package."""


def parts_of(content: bytes) -> Iterator[Tuple[str, bytes]]:
    """Yields the files of a Debian package with their names."""
    if not content.startswith(AR):
        raise Unread("it is no Debian package")
    at = len(AR)
    while at + HEAD <= len(content):
        head = content[at : at + HEAD]
        size = int(head[48:58])
        yield head[:16].decode().strip(" /"), content[at + HEAD : at + HEAD + size]
        at += HEAD + size + size % 2


def members_of(content: bytes) -> List[Tuple[tarfile.TarInfo, bytes]]:
    """Returns the files in a packed archive, in its order."""
    found = []
    if content.startswith(ZIP):
        return members_of_zip(content)
    try:
        with tarfile.open(fileobj=io.BytesIO(gzip.decompress(content))) as tar:
            for info in tar:
                file = tar.extractfile(info) if info.isfile() else None
                found.append((info, b"" if file is None else file.read()))
    except (OSError, EOFError, tarfile.TarError) as error:
        raise Unread(f"it can't be unpacked: {error}") from None
    return found


def members_of_zip(content: bytes) -> List[Tuple[tarfile.TarInfo, bytes]]:
    """Returns the files in a zip as those of a .tar.gz."""
    found = []
    try:
        with zipfile.ZipFile(io.BytesIO(content)) as packed:
            for each in packed.infolist():
                info = tarfile.TarInfo(each.filename)
                info.mode, info.size = each.external_attr >> 16 & 0o7777, each.file_size
                found.append((info, packed.read(each)))
    except zipfile.BadZipFile as error:
        raise Unread(f"it can't be unpacked: {error}") from None
    return found


def archives_of(content: bytes) -> Dict[str, bytes]:
    """Returns the packed archives of a package by their names."""
    if not content.startswith(AR):
        return {"": content}
    return {name: part for name, part in parts_of(content) if ".tar" in name}


def first_byte(one: bytes, other: bytes) -> int:
    """Returns the index of the first byte that differs."""
    pairs = itertools.zip_longest(one, other)
    return next(at for at, (here, there) in enumerate(pairs) if here != there)


def of_content(name: str, one: bytes, other: bytes) -> str:
    """Returns where two versions of a file differ first: a line of a text, a byte otherwise."""
    at = first_byte(one, other)
    where = f"byte {at}"
    if b"\0" not in one[:at]:
        where = f"line {one.count(bytes([10]), 0, at) + 1}"
    return f"{name}: {where} differs" if name else f"{where} differs"


def of_members(one: bytes, other: bytes) -> Optional[str]:
    """Returns where two packed archives differ first; none if they hold the same files."""
    for here, there in itertools.zip_longest(members_of(one), members_of(other)):
        if here is None or there is None or here[0].name != there[0].name:
            names = ["nothing" if it is None else it[0].name for it in (here, there)]
            return f"{names[0]} stands where {names[1]} is expected"
        for field in FIELDS:
            values = [getattr(it[0], field) for it in (here, there)]
            if values[0] != values[1]:
                shown = [f"{it:o}" if field == "mode" else repr(it) for it in values]
                return f"{here[0].name}: its {field} is {shown[0]}, and {shown[1]} is expected"
        if here[1] != there[1]:
            return of_content(here[0].name, here[1], there[1])
    return None


def first(one: bytes, other: bytes) -> str:
    """Returns where a file of a release differs first from another of its kind."""
    if not other.startswith((AR, GZIP, ZIP)):
        return of_content("", one, other)
    found = archives_of(other)
    for name, archive in archives_of(one).items():
        if name not in found:
            return f"{name or 'a .tar.gz'} is no part of what is expected"
        said = of_members(archive, found[name])
        if said is not None:
            return f"{name}: {said}" if name else said
    return f"byte {first_byte(one, other)}: the same files, packed otherwise"


def commit_in(content: bytes) -> str:
    """Returns the commit that a package names, or an empty text."""
    for archive in archives_of(content).values():
        for info, text in members_of(archive):
            if info.name.endswith(RELEASE):
                lines = [it for it in text.decode().split("\n") if it.startswith("# commit ")]
                return lines[0].partition("commit ")[2] if lines else ""
    return ""
