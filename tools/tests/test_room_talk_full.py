"""The talk of a room whose file cannot be written for a while, as on a full disk."""
import contextlib
import errno
import os
import pathlib
import resource
import unittest
from typing import Iterator, List, Optional, Tuple
from unittest import mock

from rdbg.rooms import talk as talks
from rdbg.rooms.talk import Talk
from tests.rooms import Caller, Process, room, rows, talk

FULL = os.strerror(errno.ENOSPC)
NO_SPACE = "File too large"
# How many bytes the file of a talk may have in a room that runs.
FEW_BYTES = 2_000


class Disk:
    """A file that takes so many bytes more, and fails then."""

    def __init__(self, file: object, free: int) -> None:
        self._file, self.free = file, free

    def write(self, content: bytes) -> int:
        """Writes as much as there is space for."""
        if not self.free:
            raise OSError(errno.ENOSPC, FULL)
        written = self._file.write(content[: self.free])  # type: ignore[attr-defined]
        self.free -= written
        return int(written)

    def __getattr__(self, name: str) -> object:
        return getattr(self._file, name)


def limit(here: Process, count: Optional[int] = None) -> None:
    """Limits how large the files of a room can grow, its talk among them, or lifts that limit."""
    _, hard = resource.prlimit(here.process.pid, resource.RLIMIT_FSIZE)
    soft = hard if count is None else count
    resource.prlimit(here.process.pid, resource.RLIMIT_FSIZE, (soft, hard))


@contextlib.contextmanager
def on_disk(free: int) -> Iterator[Tuple[Talk, pathlib.Path]]:
    """A talk whose file takes so many bytes more."""
    with talk() as file:
        found = Talk(str(file))
        found._file = Disk(found._file, free)  # type: ignore[assignment]
        try:
            yield found, file
        finally:
            found.close()


class Rows(unittest.TestCase):
    """Which rows the file has."""

    def free(self, found: Talk, count: int) -> None:
        """There is space again."""
        found._file.free = count  # type: ignore[attr-defined]

    def test_none_is_lost_where_memory_has_space_for_them(self) -> None:
        with on_disk(100) as (found, file):
            for number in range(9):
                found.keep("ada", f"tick {number}", "ok")
            kept = len(rows(file))
            self.assertLess(kept, 4)
            self.assertEqual((found.fault, found.missing), (FULL, f"{9 - kept} rows of the talk"))
            # (no part of a row stays)
            self.assertTrue(file.read_bytes().endswith(b"ok\n"))
            self.free(found, 100_000)
            found.flush()
            self.assertEqual((found.fault, found.missing), ("", ""))
            found.keep("ada", "tick 9", "ok")
            wanted = [["ada", f"tick {number}", "ok"] for number in range(10)]
            self.assertEqual(rows(file), wanted)

    def test_the_file_says_how_many_are_lost_and_where(self) -> None:
        with mock.patch.object(talks, "MAX_WAITING_BYTES", 200), on_disk(0) as (found, file):
            for number in range(20):
                found.keep("ada", f"tick {number}", "ok")
            waiting = found.waiting_count
            self.assertEqual(found.lost_count, 20 - waiting)
            self.free(found, 100_000)
            found.keep("ada", "tick 20", "ok")
            found.keep("ada", "tick 21", "ok")
            wanted = [["ada", f"tick {number}", "ok"] for number in range(waiting)]
            wanted += [["room", "#", f"{20 - waiting} rows lost: {FULL}"]]
            wanted += [["ada", f"tick {number}", "ok"] for number in (20, 21)]
            self.assertEqual(rows(file), wanted)
            self.assertEqual(found.missing, f"{20 - waiting} rows of the talk")

    def test_it_fails_again_before_all_is_written(self) -> None:
        with on_disk(0) as (found, file):
            for number in range(9):
                found.keep("ada", f"tick {number}", "ok")
            for _ in range(20):
                self.free(found, 70)
                found.flush()
            self.assertEqual(found.missing, "")
            self.assertEqual([line for _, line, _ in rows(file)], [f"tick {it}" for it in range(9)])


class Told(unittest.TestCase):
    """What everybody in a room is told."""

    def fill(self, here: Process, left: Caller) -> None:
        """Says lines until the talk cannot be written."""
        limit(here, FEW_BYTES)
        left.send(*["show moves"] * 200)

    def test_at_once_and_it_goes_on(self) -> None:
        with talk() as file, room("--talk", str(file), sessions=2) as here:
            with Caller(here.port, "left") as left, Caller(here.port, "right") as right:
                self.fill(here, left)
                why = f"cannot write the talk to {file}: {NO_SPACE}"
                full = f"{why}; its rows are kept in memory until it can be written"
                for caller in (left, right):
                    caller.expect(f"# {full}")
                left.send("tick")
                right.expect("# left: tick -> ok at 1")
                limit(here)
                # (nobody says a line)
                again = "the talk can be written again; missing: nothing"
                for caller in (left, right):
                    caller.expect(f"# {again}")
            self.assertEqual(here.end(), 0)
            self.assertEqual(here.errors, f"rdbg room: {full}\nrdbg room: {again}\n")
            lines: List[str] = [line for who, line, _ in rows(file) if who == "left"]
            self.assertEqual(lines.count("show moves"), 200)
            self.assertIn("tick", lines)

    def test_at_the_end(self) -> None:
        with talk() as file, room("--talk", str(file), sessions=2) as here:
            with Caller(here.port, "left") as left:
                self.fill(here, left)
                left.expect("# cannot write the talk to")
                left.send("# who")
                left.expect("# here: left")
            self.assertEqual(here.end(), 2)
            self.assertRegex(here.output, r"^(# .*\n)*closed \d+\n$")
            why = rf"cannot write {file}: {NO_SPACE} \(missing: \d+ rows of the talk\)"
            self.assertRegex(here.errors.splitlines()[-1], f"^rdbg room: {why}$")
            self.assertGreater(len(rows(file)), 10)
            self.assertTrue(file.read_bytes().endswith(b"moves 0 undone 0 kept 0\n"))


if __name__ == "__main__":
    unittest.main()
