"""The folder into which rdbg is installed: files are written and removed there without following
symbolic links.

Every folder below the prefix is opened relative to the one above it and never through a link, and
every file is written under a new name and then renamed. Another user who can write to one of these
folders therefore cannot have a file elsewhere written or removed.
"""
import contextlib
import errno
import hashlib
import os
import pathlib
import secrets
import stat
import sys
from typing import Dict, Iterator, List, NamedTuple, Optional, Sequence, Tuple

sys.path.insert(0, str(pathlib.Path(__file__).resolve().parent.parent / "tools"))
from rdbg import links

FOLDER = links.FOLDER or os.O_RDONLY | os.O_DIRECTORY | os.O_NOFOLLOW | os.O_CLOEXEC
NEW_FILE = os.O_WRONLY | os.O_CREAT | os.O_EXCL | os.O_NOFOLLOW | os.O_CLOEXEC
OLD_FILE = os.O_RDONLY | os.O_NOFOLLOW | os.O_NONBLOCK | os.O_CLOEXEC
FOLDER_MODE = 0o755
BYTES_LIMIT = 256 << 20
CACHE = "__pycache__"


class Refused(Exception):
    """Why a path is not written or removed; the text names the path."""


class Waiting(NamedTuple):
    """A new file under its temporary name, in the folder in which it will be renamed."""

    folder: str
    temporary: str
    name: str


class Prefix:
    """An open folder below which rdbg is installed. Names are relative to it, with `/` between."""

    def __init__(self, path: str, can_create: bool = False) -> None:
        """Opens the folder, and creates it first if it is missing and `can_create` is true.

        Raises `Refused` if the path leads through a link of another user, and `OSError`.
        """
        self.path = path
        try:
            self.real = links.resolve(path.rstrip(os.sep) or os.sep)
        except links.RefusedFile as error:
            raise Refused(f"refusing {path}: {error.strerror}") from None
        # The folders that were created, `.` for the prefix itself.
        self.created: List[str] = []
        self._top = os.open(os.sep, FOLDER)
        is_new = False
        try:
            for name in filter(None, self.real.split(os.sep)):
                self._top, is_new = self._step(self._top, name, path, can_create)
            owner = os.fstat(self._top).st_uid
            if is_new and owner != os.geteuid():
                raise Refused(f"refusing {path}: user {owner} owns it")
            self._owners = {0, os.geteuid(), owner}
        except BaseException:
            os.close(self._top)
            raise
        if is_new:
            self.created.append(".")

    def close(self) -> None:
        """Closes the folder."""
        os.close(self._top)

    def shown(self, name: str) -> str:
        """The path of a name, for messages."""
        return os.path.join(self.path, name)

    def _step(self, above: int, name: str, path: str, can_create: bool) -> Tuple[int, bool]:
        """Opens a folder in an open one, which is closed, and answers whether it is new."""
        is_new = False
        try:
            try:
                below = os.open(name, FOLDER, dir_fd=above)
            except FileNotFoundError:
                if not can_create:
                    raise
                os.mkdir(name, FOLDER_MODE, dir_fd=above)
                is_new = True
                below = os.open(name, FOLDER, dir_fd=above)
        except OSError as error:
            if error.errno not in (errno.ENOTDIR, errno.ELOOP):
                raise OSError(error.errno, os.strerror(error.errno or 0), path) from None
            kind = "a symbolic link" if self._is_link(above, name) else "not a folder"
            raise Refused(f"refusing {path}: it is {kind}") from None
        os.close(above)
        return below, is_new

    @staticmethod
    def _is_link(folder: int, name: str) -> bool:
        with contextlib.suppress(OSError):
            return stat.S_ISLNK(os.stat(name, dir_fd=folder, follow_symlinks=False).st_mode)
        return False

    @contextlib.contextmanager
    def folder(self, name: str, can_create: bool = False) -> Iterator[int]:
        """Opens the folder of this name for the block.

        Raises `Refused` at a link, and at a folder of a user who owns neither this process nor the
        prefix: that user could replace what is installed.
        """
        number, so_far = os.dup(self._top), ""
        try:
            for part in filter(None, name.split("/")):
                so_far = f"{so_far}/{part}" if so_far else part
                number, is_new = self._step(number, part, self.shown(so_far), can_create)
                owner = os.fstat(number).st_uid
                if owner not in self._owners:
                    raise Refused(f"refusing {self.shown(so_far)}: user {owner} owns it")
                if is_new:
                    self.created.append(so_far)
            yield number
        finally:
            os.close(number)

    def stage(self, name: str, content: bytes, mode: int, time_ns: int) -> Waiting:
        """Writes a new file under a temporary name beside its place."""
        above, _, own = name.rpartition("/")
        made = Waiting(above, f".rdbg-{secrets.token_hex(8)}", own)
        with self.folder(above, can_create=True) as folder:
            with contextlib.suppress(FileNotFoundError):
                there = os.stat(own, dir_fd=folder, follow_symlinks=False)
                if stat.S_ISDIR(there.st_mode):
                    raise Refused(f"refusing {self.shown(name)}: it is a folder")
            try:
                number = os.open(made.temporary, NEW_FILE, 0o600, dir_fd=folder)
                with os.fdopen(number, "wb") as file:
                    file.write(content)
                    file.flush()
                    os.fchmod(number, mode)
                    os.utime(number, ns=(time_ns, time_ns))
            except BaseException as error:
                self.discard(made)
                if isinstance(error, OSError):
                    raise OSError(error.errno, error.strerror, self.shown(name)) from None
                raise
        return made

    def discard(self, waiting: Waiting) -> None:
        """Removes a temporary file, if it is still there."""
        with contextlib.suppress(OSError, Refused), self.folder(waiting.folder) as folder:
            os.unlink(waiting.temporary, dir_fd=folder)

    def publish(self, waiting: Waiting) -> None:
        """Renames a temporary file to its own name, in place of a file or a link there."""
        with self.folder(waiting.folder) as folder:
            temporary, name = waiting.temporary, waiting.name
            try:
                os.replace(temporary, name, src_dir_fd=folder, dst_dir_fd=folder)
            except OSError as error:
                path = self.shown(f"{waiting.folder}/{name}")
                raise OSError(error.errno, error.strerror, path) from None

    def read(self, name: str) -> Optional[bytes]:
        """The contents of a file; none if there is no plain file of this name. Raises `Refused` if
        another user owns it."""
        above, _, own = name.rpartition("/")
        try:
            with self.folder(above) as folder:
                number = os.open(own, OLD_FILE, dir_fd=folder)
        except OSError as error:
            if error.errno in (errno.ENOENT, errno.ELOOP, errno.ENXIO):
                return None
            raise OSError(error.errno, error.strerror, self.shown(name)) from None
        with os.fdopen(number, "rb") as file:
            there = os.fstat(number)
            if not stat.S_ISREG(there.st_mode):
                return None
            if there.st_uid not in self._owners:
                raise Refused(f"refusing {self.shown(name)}: user {there.st_uid} owns it")
            return file.read(BYTES_LIMIT)

    def has(self, name: str) -> bool:
        """Whether there is anything of this name, a link included."""
        above, _, own = name.rpartition("/")
        with contextlib.suppress(FileNotFoundError), self.folder(above) as folder:
            os.stat(own, dir_fd=folder, follow_symlinks=False)
            return True
        return False

    def remove(self, name: str) -> None:
        """Removes a file. Raises `OSError`."""
        above, _, own = name.rpartition("/")
        with self.folder(above) as folder:
            try:
                os.unlink(own, dir_fd=folder)
            except OSError as error:
                raise OSError(error.errno, error.strerror, self.shown(name)) from None

    def remove_byte_code(self, name: str) -> None:
        """Removes what Python compiled of a module."""
        above, _, own = name.rpartition("/")
        cache, stem = f"{above}/{CACHE}", own.rpartition(".")[0]
        with contextlib.suppress(OSError, Refused), self.folder(cache) as folder:
            number = os.open(".", os.O_RDONLY | os.O_DIRECTORY, dir_fd=folder)
            try:
                for each in os.listdir(number):
                    if each.startswith(f"{stem}.cpython-") and each.endswith(".pyc"):
                        os.unlink(each, dir_fd=folder)
            finally:
                os.close(number)

    def remove_folder(self, name: str) -> None:
        """Removes a folder if it is empty; `.` is the prefix itself."""
        with contextlib.suppress(OSError, Refused):
            if name == ".":
                os.rmdir(self.real)
                return
            above, _, own = name.rpartition("/")
            with self.folder(above) as folder:
                os.rmdir(own, dir_fd=folder)


class Manifest(NamedTuple):
    """What an earlier installation wrote: the SHA-256 of each file by its name, the folders that it
    created, and the package that it is of, if it is one."""

    sums: Dict[str, str]
    folders: Sequence[str] = ()
    package: str = ""


def parse_manifest(text: str, path: str) -> Manifest:
    """Reads the file `lib/rdbg/release`. Raises `Refused` if a name leads out of the prefix."""
    sums: Dict[str, str] = {}
    folders: List[str] = []
    package = ""
    for line in text.splitlines():
        first, _, rest = line.partition(" ")
        word, _, value = rest.lstrip(" ").partition(" ")
        if first == "#" and word == "folder":
            folders.append(value)
        elif first == "#" and word == "package":
            package = value
        elif first != "#" and line:
            sums[rest[1:]] = first
    for name in (*sums, *folders):
        if os.path.isabs(name) or os.path.normpath(name) != name or name.split("/")[0] == "..":
            raise Refused(f"refusing {path}: it names '{name}'")
    return Manifest(sums, folders, package)


def sum_of(content: bytes) -> str:
    """The SHA-256 of a file's contents."""
    return hashlib.sha256(content).hexdigest()
