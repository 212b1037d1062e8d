"""The file in which a prompt keeps the lines that were typed."""
import contextlib
import os
import pathlib
import stat
from typing import List, Optional, Tuple

from rdbg import links
from rdbg.atomic_file import open_private, write_atomically
from rdbg.failure import Failure
from rdbg.input_file import LARGEST_SOURCE

MOST_LINES = 2_000
# Editors that use libedit begin the file with this line.
LIBEDIT_HEADER = "_HiStOrY_V2_"


def history_path() -> Optional[pathlib.Path]:
    """Returns the path in RDBG_HISTORY (none, if that is empty), or the one in the user's folder
    for such files."""
    named = os.environ.get("RDBG_HISTORY")
    if named is not None:
        return pathlib.Path(named) if named else None
    state = os.environ.get("XDG_STATE_HOME", "")
    try:
        folder = pathlib.Path(state) if state else pathlib.Path.home() / ".local" / "state"
    except RuntimeError:
        return None
    return folder / "rdbg" / "history"


class History:
    """The lines of earlier prompts, and a file for those of this one.

    The file is opened once, after which no path is followed. If it cannot be used (another user
    owns it, or it is a link of another user, or no regular file), there is no history."""

    def __init__(self, path: Optional[pathlib.Path]) -> None:
        self.lines: List[str] = []
        self._number: Optional[int] = None
        if path is None:
            return
        try:
            folder = os.path.dirname(links.resolve(str(path)))
            pathlib.Path(folder).mkdir(mode=0o700, parents=True, exist_ok=True)
            self._number = self._open(str(path))
        except (Failure, OSError, ValueError):
            self.lines = []
            self.close()

    def _open(self, path: str) -> int:
        """Opens the file, reads its last lines, and drops older ones if there are too many."""
        number = open_private(path, os.O_RDWR | os.O_APPEND)
        try:
            self.lines, count = read_last(number)
        except OSError:
            os.close(number)
            raise
        if count <= MOST_LINES:
            return number
        os.close(number)
        with write_atomically(path, is_private=True) as file:
            file.writelines(f"{line}\n" for line in self.lines)
        return open_private(path, os.O_RDWR | os.O_APPEND)

    def add(self, line: str) -> None:
        """Appends a line. If that fails, nothing is kept any more."""
        if self._number is None:
            return
        try:
            os.write(self._number, f"{line}\n".encode("utf-8", "surrogateescape"))
        except (OSError, ValueError):
            self.close()

    def close(self) -> None:
        """Closes the file."""
        if self._number is not None:
            with contextlib.suppress(OSError):
                os.close(self._number)
        self._number = None


def read_last(number: int) -> Tuple[List[str], int]:
    """Returns the last lines of an open file, and how many lines there are in its end."""
    status = os.fstat(number)
    if not stat.S_ISREG(status.st_mode):
        return [], 0
    with open(number, "rb", closefd=False) as file:
        file.seek(max(0, status.st_size - LARGEST_SOURCE))
        lines = file.read(LARGEST_SOURCE).decode("utf-8", "surrogateescape").split("\n")
    lines = [line for line in lines if line and line != LIBEDIT_HEADER]
    return lines[-MOST_LINES:], len(lines)
