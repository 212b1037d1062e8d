"""Writes all output files.

Public output (pages, tables, applications, reports) is made to be handed on. Private output (saved
commands, a room's talk, the prompt's history) is what somebody typed: other users neither read it
nor choose the file. `write_atomically` writes either kind so that readers see the old contents or
the new ones, never a part. `open_private` opens a private file to which lines are added.

docs/SECURITY.md ("What is written") has the rules: which existing files are replaced, and which
permission bits a file gets."""
import contextlib
import errno
import io
import os
import stat
import sys
from typing import IO, Any, Callable, Iterator, NamedTuple, Optional, Tuple

from rdbg import links
from rdbg.ending import ENDING, MADE
from rdbg.failure import trying
from rdbg.links import Folder, RefusedFile

STANDARD_OUTPUT = "-"
# Files in these folders are other names of files that are open already.
OPEN_ALREADY = ("/dev/std", "/dev/fd/", "/proc/")
# Modes of new files; the user's mask clears bits of the first.
PUBLIC_MODE, PRIVATE_MODE = 0o666, 0o600
# All bits that are taken over from an existing file: never setuid, setgid or sticky.
PERMISSIONS = 0o777
# What decides about an existing file, by raising an exception that refuses it.
Check = Callable[[os.stat_result], None]


class OutputBytes(io.FileIO):
    """An open output file. Failures to write name it."""

    def __init__(self, number: int, path: str) -> None:
        super().__init__(number, "wb")
        self._path = path

    def write(self, data: Any) -> int:
        """Writes bytes. Raises `Failure` if that fails."""
        with trying(f"write {self._path}"):
            return super().write(data)


class Destination(NamedTuple):
    """The file that an output path leads to, as it was before anything was written."""

    path: str
    folder: Folder
    existing: Optional[os.stat_result]
    is_private: bool

    @property
    def is_replaceable(self) -> bool:
        """Whether a new file can take its place. Otherwise the file itself is written: a pipe or a
        device, a file of several names, one in a folder that takes no new file, and one that this
        process has open already."""
        if os.path.abspath(self.path).startswith(OPEN_ALREADY) or not self.folder.name:
            return False
        if self.existing is None:
            return True
        is_plain = stat.S_ISREG(self.existing.st_mode) and self.existing.st_nlink == 1
        return is_plain and all(os.access(it, os.W_OK) for it in (self.path, self.folder.path))

    def check(self, existing: os.stat_result) -> None:
        """Raises `RefusedFile` if an existing file is not written or replaced."""
        if self.is_private:
            check_private(existing)
        else:
            check_public(existing, self.folder.status())

    def create(self) -> Tuple[int, str]:
        """Creates the temporary file that will take its place, and returns it open and its name.

        It never has more permission bits than the file will have."""
        mode = PRIVATE_MODE if self.is_private else PUBLIC_MODE
        if self._is_own():
            assert self.existing is not None
            mode = stat.S_IMODE(self.existing.st_mode) & PRIVATE_MODE
        flags, number = os.O_WRONLY | os.O_CREAT | os.O_EXCL, 0
        while True:
            name = f".rdbg-{os.getpid()}-{number}"
            with contextlib.suppress(FileExistsError):
                return self.folder.open(name, flags, mode), name
            number += 1

    def _is_own(self) -> bool:
        return self.existing is not None and self.existing.st_uid == os.geteuid()

    def take_over_mode(self, number: int) -> None:
        """Gives an open file the group and the permission bits of the existing file, if that is the
        user's own. If the group cannot be taken over, its bits are not either."""
        if not self._is_own():
            return
        assert self.existing is not None
        mode = stat.S_IMODE(self.existing.st_mode) & PERMISSIONS
        if os.fstat(number).st_gid != self.existing.st_gid:
            try:
                os.fchown(number, -1, self.existing.st_gid)
            except OSError:
                mode &= ~stat.S_IRWXG
        os.fchmod(number, mode)

    def replace(self, name: str) -> None:
        """Gives a temporary file the name of the output file.

        Raises `RefusedFile` if the output is private and somebody else has written it meanwhile."""
        folder = self.folder
        if self.is_private and not is_same(self.existing, folder.find()):
            raise RefusedFile("another program has written it meanwhile")
        old, new, number = folder.entry(name), folder.entry(folder.name), folder.number
        os.replace(old, new, src_dir_fd=number, dst_dir_fd=number)


def identity(status: os.stat_result) -> Tuple[int, int]:
    """Returns what distinguishes a file from all others that this machine has."""
    return status.st_dev, status.st_ino


def is_same(one: Optional[os.stat_result], other: Optional[os.stat_result]) -> bool:
    """Returns whether two files are the same one, or neither exists."""
    if one is None or other is None:
        return one is other
    return identity(one) == identity(other)


def check_private(existing: os.stat_result) -> None:
    """Raises `RefusedFile` if an existing file is not for private output: it must be the user's own
    and have one name, or be a device."""
    if stat.S_ISCHR(existing.st_mode):
        return
    if existing.st_uid != os.geteuid():
        raise RefusedFile(f"it is a file of another user (uid {existing.st_uid})")
    if stat.S_ISREG(existing.st_mode) and existing.st_nlink > 1:
        raise RefusedFile("it is a file of several names")


def check_public(existing: os.stat_result, folder: os.stat_result) -> None:
    """Raises `RefusedFile` if an existing file in a folder is not for public output: a pipe of
    another user, or in a shared folder a file of another user or of several names."""
    owner = existing.st_uid
    if stat.S_ISFIFO(existing.st_mode) and owner != os.geteuid():
        raise RefusedFile(f"it is a pipe of another user (uid {owner})")
    if not stat.S_ISREG(existing.st_mode) or not links.is_shared(folder):
        return
    shared = "in a folder that other users can write to"
    if owner != os.geteuid():
        raise RefusedFile(f"it is a file of another user (uid {owner}) {shared}")
    if existing.st_nlink > 1:
        raise RefusedFile(f"it is a file of several names {shared}")


@contextlib.contextmanager
def locate(path: str, is_private: bool = False) -> Iterator[Destination]:
    """Finds the file that an output path leads to. Raises `RefusedFile` if it is not written."""
    resolved = links.resolve(path)
    with Folder(resolved) as folder:
        existing = None
        if links.is_open_already(resolved):
            with contextlib.suppress(FileNotFoundError):
                existing = os.stat(resolved)
        else:
            existing = folder.find()
        destination = Destination(resolved, folder, existing, is_private)
        if existing is not None and not links.is_open_already(resolved):
            destination.check(existing)
        yield destination


def check_writable(path: str) -> None:
    """Raises `Failure` if an output file cannot be written as things stand. Changes nothing."""
    with trying(f"write {path}"), locate(path) as destination:
        if destination.is_replaceable:
            with ENDING.held():
                number, name = destination.create()
                os.close(number)
                remove(destination.folder, name)
        elif destination.existing is None:
            raise OSError(errno.ENOENT, os.strerror(errno.ENOENT))
        elif stat.S_ISDIR(destination.existing.st_mode):
            raise OSError(errno.EISDIR, os.strerror(errno.EISDIR))


def remove(folder: Folder, name: str) -> None:
    """Removes a temporary file, if it is still there."""
    with contextlib.suppress(FileNotFoundError):
        os.unlink(folder.entry(name), dir_fd=folder.number)


def open_in_place(destination: Destination) -> int:
    """Opens an existing file that is not replaced, to write it from its beginning."""
    flags = os.O_WRONLY | os.O_TRUNC
    if links.is_open_already(destination.path):
        return os.open(destination.path, flags | os.O_CLOEXEC)
    if destination.is_private:
        flags |= os.O_NONBLOCK
    number = destination.folder.open_existing(flags, destination.check)
    os.set_blocking(number, True)
    return number


@contextlib.contextmanager
def replacement(destination: Destination, path: str, skips_empty: bool) -> Iterator[IO[str]]:
    """Yields a new file, which takes the place of the destination when the block has ended well."""
    with trying(f"write {path}"), ENDING.held():
        number, name = destination.create()
        made = os.path.join(destination.folder.path, name)
        MADE.add(made)
    try:
        with text_file(number, path) as file:
            yield file
            with trying(f"write {path}"):
                file.flush()
                if not skips_empty or os.fstat(number).st_size:
                    destination.take_over_mode(number)
                    file.close()
                    destination.replace(name)
    finally:
        remove(destination.folder, name)
        MADE.discard(made)


@contextlib.contextmanager
def text_file(number: int, path: str) -> Iterator[IO[str]]:
    """Yields a text file in UTF-8 over an open file, and closes it. Failures to write name the
    path; what could not be written is dropped."""
    file = io.TextIOWrapper(io.BufferedWriter(OutputBytes(number, path)), encoding="utf-8")
    try:
        yield file
        with trying(f"write {path}"):
            file.close()
    finally:
        with contextlib.suppress(Exception):
            file.close()


@contextlib.contextmanager
def write_atomically(
    path: str,
    is_private: bool = False,
    check: Optional[Check] = None,
    skips_empty: bool = False,
) -> Iterator[IO[str]]:
    """Yields a text file whose contents, in UTF-8, replace those of the file at `path` when the
    block has ended well. The path `-` is standard output.

    `check` is called with the status of an existing file, and refuses it by raising an exception.
    With `skips_empty` a file is neither made nor replaced if nothing was written.

    Raises `Failure`, which names the path, if the file cannot or must not be written. Its old
    contents are unchanged then, unless it is one that is not replaced (`is_replaceable`)."""
    if path == STANDARD_OUTPUT:
        yield sys.stdout
        return
    with contextlib.ExitStack() as ends:
        with trying(f"write {path}"):
            destination = ends.enter_context(locate(path, is_private))
            if check is not None and destination.existing is not None:
                check(destination.existing)
            if destination.is_replaceable:
                opened = replacement(destination, path, skips_empty)
            else:
                opened = text_file(open_in_place(destination), path)
        yield ends.enter_context(opened)


def empty(path: str) -> None:
    """Empties an existing regular file; leaves anything else as it is. Raises `Failure` if it
    cannot or must not be written."""
    with trying(f"write {path}"), locate(path) as destination:
        there = destination.existing
    if there is not None and stat.S_ISREG(there.st_mode):
        with write_atomically(path):
            pass


def open_private(path: str, flags: int) -> int:
    """Opens a private file, which is created if it does not exist, and returns its number. Opening
    never waits for the other end of a pipe.

    Raises `RefusedFile` if the file is not the user's own, and `OSError` if it cannot be opened."""
    resolved = links.resolve(path)
    if links.is_open_already(resolved):
        return os.open(resolved, flags | os.O_CLOEXEC)
    flags |= os.O_CREAT | os.O_NONBLOCK
    number = links.open_checked(resolved, flags, PRIVATE_MODE, check_private)
    os.set_blocking(number, True)
    return number
