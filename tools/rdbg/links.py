"""Resolves paths without trusting other users, and opens the files that they name.

In a folder that everybody may write to, such as /tmp, another user can put a link under a name that
somebody is about to open, or under the name of a folder on the way there. A program that follows it
opens a file of the attacker's choice."""
import errno
import os
import re
import stat
from typing import Callable, List, Optional

MOST_LINKS = 40
# Links in these places are other names of files that this process has open already.
OPEN_ALREADY = re.compile(r"/proc/.*/fd/[0-9]+")
# Opens a file or folder without reading or writing it; 0 if the system has no such flag.
LOOK = getattr(os, "O_PATH", 0)
FOLDER = LOOK and LOOK | os.O_DIRECTORY | os.O_NOFOLLOW | os.O_CLOEXEC
# How often a file is opened again that was replaced while it was opened.
MOST_TRIES = 8
Check = Callable[[os.stat_result], None]


class RefusedFile(OSError):
    """A file is not opened: another user may have chosen it, or it is of the wrong kind."""

    def __init__(self, why: str) -> None:
        super().__init__(errno.EPERM, why)


def is_open_already(path: str) -> bool:
    """Returns whether a path is another name of a file that is open already."""
    return OPEN_ALREADY.fullmatch(path) is not None


def is_shared(folder: os.stat_result) -> bool:
    """Returns whether users other than the current one and root may change a folder's entries.

    (An access control list grants nobody else more than the bits of the group say.)"""
    is_of_another = folder.st_uid not in (0, os.geteuid())
    return is_of_another or bool(folder.st_mode & (stat.S_IWGRP | stat.S_IWOTH))


def check_link(folder: str, name: str, is_last: bool) -> None:
    """Raises `RefusedFile` if the link of this name in a folder is not followed."""
    link, mode = os.path.join(folder, name), os.stat(folder).st_mode
    what = "it" if is_last else link
    if os.lstat(link).st_uid not in (os.geteuid(), 0):
        raise RefusedFile(f"{what} is a link of another user")
    # (without the sticky bit everybody can put another link in its place)
    if mode & stat.S_IWOTH and (is_last or not mode & stat.S_ISVTX):
        raise RefusedFile(f"{what} is a link in a folder that everybody may write to")


def resolve(path: str) -> str:
    """Returns the absolute path that a path leads to, without links, except one to a file that is
    open already.

    Raises `RefusedFile` for a link of another user than root, a link that everybody can replace,
    and a link for the file itself in a folder that everybody may write to."""
    if not os.path.basename(path):
        return path  # (a folder or nothing: opening it fails)
    rest: List[str] = os.path.join(os.getcwd(), path).split(os.sep)
    resolved, links = os.sep, 0
    while rest:
        name = rest.pop(0)
        if name == os.pardir:
            resolved = os.path.dirname(resolved)
        elif name not in ("", os.curdir):
            step = os.path.join(resolved, name)
            if os.path.islink(step) and not is_open_already(step):
                links += 1
                if links > MOST_LINKS:
                    raise RefusedFile("too many links")
                check_link(resolved, name, not any(rest))
                aim = os.readlink(step)
                rest[:0] = aim.split(os.sep)
                resolved = os.sep if os.path.isabs(aim) else resolved
            else:
                resolved = step
    return resolved


class Folder:
    """The folder of a resolved path, through which its file is opened and replaced.

    Where the system allows it, the folder is opened once, without following a link. Elsewhere it is
    looked up by its path each time."""

    def __init__(self, path: str) -> None:
        above, self.name = os.path.split(path)
        self.path = above
        self.number: Optional[int] = None
        if not FOLDER or not self.name or not os.path.isabs(path) or above.startswith("/proc/"):
            return
        number = os.open(os.sep, FOLDER)
        try:
            for each in filter(None, above.split(os.sep)):
                outer, number = number, os.open(each, FOLDER, dir_fd=number)
                os.close(outer)
            self.number, number = number, -1
        finally:
            if number >= 0:
                os.close(number)

    def __enter__(self) -> "Folder":
        return self

    def __exit__(self, *_: object) -> None:
        if self.number is not None:
            os.close(self.number)

    def entry(self, name: str) -> str:
        """Returns what names an entry in a call that takes the folder as `dir_fd`."""
        return os.path.join(self.path, name) if self.number is None else name

    def status(self) -> os.stat_result:
        """Returns the status of the folder itself."""
        return os.stat(self.path) if self.number is None else os.fstat(self.number)

    def find(self) -> Optional[os.stat_result]:
        """Returns the status of the file, or of a link of its name; `None` if there is neither."""
        try:
            return os.stat(self.entry(self.name), dir_fd=self.number, follow_symlinks=False)
        except FileNotFoundError:
            return None

    def open(self, name: str, flags: int, mode: int = 0o600) -> int:
        """Opens an entry, and no link that has that name."""
        flags |= os.O_NOFOLLOW | os.O_CLOEXEC
        return os.open(self.entry(name), flags, mode, dir_fd=self.number)

    def open_existing(self, flags: int, check: Check) -> int:
        """Opens the file, which exists, once `check` has accepted its status.

        Where the system allows it, the file is checked before it is opened for reading or writing,
        so that a pipe that is refused never gets a reader or writer."""
        flags &= ~(os.O_CREAT | os.O_EXCL)
        if not LOOK:
            return self._open_then_check(flags, check)
        seen = self.open(self.name, LOOK)
        try:
            status = os.fstat(seen)
            if stat.S_ISLNK(status.st_mode):
                raise RefusedFile("it has just become a link")
            check(status)
            same = f"/proc/self/fd/{seen}"
            if os.path.exists(same):
                return os.open(same, flags | os.O_CLOEXEC)
            return self._open_then_check(flags, check)
        finally:
            os.close(seen)

    def _open_then_check(self, flags: int, check: Check) -> int:
        """Opens the file without waiting, and leaves it unchanged until `check` has accepted it."""
        number = self.open(self.name, (flags | os.O_NONBLOCK) & ~os.O_TRUNC)
        try:
            check(os.fstat(number))
            os.set_blocking(number, not flags & os.O_NONBLOCK)
            if flags & os.O_TRUNC:
                os.ftruncate(number, 0)
        except OSError:
            os.close(number)
            raise
        return number


def open_checked(path: str, flags: int, mode: int, check: Check) -> int:
    """Opens a resolved path: an existing file that `check` accepts or, with `O_CREAT`, a new file
    of this mode."""
    with Folder(path) as folder:
        for _ in range(MOST_TRIES):
            try:
                return folder.open_existing(flags, check)
            except FileNotFoundError:
                if not flags & os.O_CREAT:
                    raise
            try:
                return folder.open(folder.name, flags | os.O_EXCL, mode)
            except FileExistsError:
                continue
    raise RefusedFile("another program keeps replacing it")
