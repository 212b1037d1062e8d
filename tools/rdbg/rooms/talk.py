"""The talk of a room as a file: a row for each line, with its time, its author and the reply."""
import collections
import contextlib
import os
import stat
import time
from typing import IO, Deque

from rdbg.atomic_file import open_private
from rdbg.failure import Failure, trying
from rdbg.printable import printable
from rdbg.wording import counted

HEAD = "when\twho\tline\treply\n"
# How many bytes of rows are kept in memory while the file cannot be written.
MAX_WAITING_BYTES = 1_048_576


def field(text: str) -> str:
    """Returns a text as one field: tabs and line ends in it are escaped, since they separate fields
    and rows, and so are other characters that are not printable."""
    return printable(text.replace("\\", "\\\\"))


def row_of(who: str, line: str, reply: str) -> bytes:
    """Returns the row of a line, with the current time."""
    now = time.time()
    second = time.strftime("%Y-%m-%dT%H:%M:%S", time.gmtime(now))
    when = f"{second}.{int(now * 1_000) % 1_000:03}Z"
    return "\t".join([when, who, field(line), field(reply)]).encode("utf-8", "replace") + b"\n"


def open_talk(path: str) -> int:
    """Opens the file of a talk. Raises `Failure` if the file is there and is not a talk."""
    number = open_private(path, os.O_RDWR | os.O_APPEND)
    is_plain = stat.S_ISREG(os.fstat(number).st_mode)
    if is_plain and os.pread(number, len(HEAD), 0) not in (b"", HEAD.encode()):
        os.close(number)
        raise Failure(f"refusing to append to {path}: it exists and is not a talk", 2)
    return number


class Talk:
    """A file to which rows are appended, each as a whole.

    While the file cannot be written, as on a full disk, rows wait in memory, up to a bound. The
    rows after that are lost: the file has a row in their place that says how many there were."""

    def __init__(self, path: str) -> None:
        """Opens the file, to append to it. Raises `Failure` if that is not possible."""
        self.path = path
        # Why the file cannot be written now, or empty; and why it could not be the last time.
        self.fault = self.last_fault = ""
        # How many rows are lost for good.
        self.lost_count = 0
        self._waiting: Deque[bytes] = collections.deque()
        self._waiting_bytes = 0
        # (rows that are lost since the last one that waits)
        self._lost_since = 0
        with trying(f"write {path}"):
            self._file: IO[bytes] = os.fdopen(open_talk(path), "ab", buffering=0)
            if not self._file.tell():
                self._file.write(HEAD.encode())

    @property
    def waiting_count(self) -> int:
        """How many rows wait in memory."""
        return len(self._waiting)

    @property
    def missing(self) -> str:
        """What the file lacks, or an empty text if it has every row."""
        count = self.lost_count + self.waiting_count
        return f"{counted(count, 'row')} of the talk" if count else ""

    def keep(self, who: str, line: str, reply: str) -> None:
        """Appends a row, or keeps it in memory if that is not possible."""
        self.flush()
        row = row_of(who, line, reply)
        if self._lost_since or self._waiting_bytes + len(row) > MAX_WAITING_BYTES:
            self._lost_since += 1
            self.lost_count += 1
        else:
            self._waiting.append(row)
            self._waiting_bytes += len(row)
        self.flush()

    def flush(self) -> None:
        """Writes the rows that wait, as far as that is possible."""
        while self._waiting or self._lost_since:
            if not self._waiting:
                count, self._lost_since = self._lost_since, 0
                lost = f"{counted(count, 'row')} lost: {self.last_fault}"
                self._waiting.append(row_of("room", "#", lost))
                self._waiting_bytes = len(self._waiting[0])
            if not self._write(self._waiting[0]):
                return
            self._waiting_bytes -= len(self._waiting.popleft())
        self.fault = ""

    def _write(self, row: bytes) -> bool:
        """Appends a row, and returns whether that succeeded. If not, no part of it stays."""
        written = 0
        try:
            while written < len(row):
                written += self._file.write(row[written:])
        except OSError as error:
            self.fault = self.last_fault = error.strerror or "it cannot be written"
            if written:
                with contextlib.suppress(OSError):
                    self._file.truncate(self._file.seek(0, os.SEEK_END) - written)
            return False
        return True

    def close(self) -> None:
        """Writes what waits, if that is possible now, and closes the file."""
        self.flush()
        try:
            self._file.close()
        except OSError as error:
            self.fault = self.last_fault = self.fault or error.strerror or "it cannot be written"
