"""How far a search is: the lines of the program, and the line of a terminal."""
import io
import unittest
from unittest import mock

from rdbg.reaching.progress import Gauge, Progress, read
from tests.searches import FAR, FURTHER


class Lines(unittest.TestCase):
    """What the program says."""

    def test_how_far_it_is(self) -> None:
        self.assertEqual(Progress(12, None, 345, 6789, 24, 1 << 20), read(FAR.rstrip("\n")))
        line = "progress within 12 moves and 2 surprises states 3 moves 4 deepest 5 bytes 6"
        self.assertEqual(Progress(12, 2, 3, 4, 5, 6), read(line))

    def test_other_lines(self) -> None:
        for line in ("", "progress", FAR.rstrip("\n")[:-8], FAR, f" {FAR}".rstrip("\n")):
            with self.subTest(line):
                self.assertIsNone(read(line))


class Terminal(io.StringIO):
    """What somebody sees."""

    def isatty(self) -> bool:
        """It is a terminal."""
        return True

    def seen(self) -> str:
        """The line as it is now."""
        shown = ""
        for part in self.getvalue().split("\r"):
            shown = part + shown[len(part) :]
        return shown.rstrip()


class Shown(unittest.TestCase):
    """What a terminal shows, by a clock of the test's own."""

    def setUp(self) -> None:
        self.now = 100.0
        patched = mock.patch("time.monotonic", lambda: self.now)
        patched.start()
        self.addCleanup(patched.stop)
        self.terminal = Terminal()
        self.gauge = Gauge(self.terminal)
        self.far, self.further = read(FAR.rstrip("\n")), read(FURTHER.rstrip("\n"))

    def test_once_a_second(self) -> None:
        self.assertEqual(1.0, self.gauge.rest())
        self.gauge.show(self.far)
        self.assertEqual("", self.terminal.seen())
        self.now += 2
        self.gauge.show(self.far)
        far = "searching: all runs of 12 moves, longest 24: 345 states, 3,394 moves/s, 1 MiB"
        self.assertEqual(far, self.terminal.seen())
        self.now += 0.5
        self.gauge.show(self.further)
        self.assertEqual((far, 0.5), (self.terminal.seen(), self.gauge.rest()))
        self.now += 0.5
        self.gauge.show(self.further)
        further = "searching: all runs of 13 moves, longest 26: 400 states, 1,211 moves/s, 2 MiB"
        self.assertEqual(further, self.terminal.seen())

    def test_it_is_gone_at_the_end(self) -> None:
        self.gauge.clear()
        self.assertEqual("", self.terminal.getvalue())
        self.now += 1
        self.gauge.show(self.far)
        self.gauge.clear()
        self.assertEqual("", self.terminal.seen())
        self.assertTrue(self.terminal.getvalue().endswith("\r"))

    def test_a_shorter_line_leaves_nothing_of_a_longer_one(self) -> None:
        self.now += 1
        self.gauge.show(Progress(100_000, None, 10**9, 10**9, 100_000, 1 << 40))
        self.now += 1
        self.gauge.show(Progress(1, None, 1, 10**9 + 2, 1, 0))
        self.assertEqual(
            "searching: all runs of 1 moves, longest 1: 1 states, 2 moves/s, 0 MiB",
            self.terminal.seen(),
        )

    def test_a_count_that_begins_anew(self) -> None:
        for moves in (5_000, 300):
            self.now += 1
            self.gauge.show(Progress(1, None, 1, moves, 1, 0))
        self.assertIn(" 300 moves/s", self.terminal.seen())

    def test_nothing_new(self) -> None:
        for progress in (None, self.far, self.far):
            self.now += 1
            self.gauge.show(progress)
        self.assertEqual(1, self.terminal.getvalue().count("states"))

    def test_it_fits_into_the_terminal(self) -> None:
        with mock.patch.object(Gauge, "_width", return_value=20):
            self.now += 1
            self.gauge.show(self.far)
            self.gauge.clear()
        self.assertEqual([0, 19, 19, 0], [len(it) for it in self.terminal.getvalue().split("\r")])

    def test_elsewhere_nothing_is_shown(self) -> None:
        elsewhere = io.StringIO()
        gauge = Gauge(elsewhere)
        self.now += 5
        gauge.show(self.far)
        gauge.clear()
        self.assertEqual(("", None), (elsewhere.getvalue(), gauge.rest()))


if __name__ == "__main__":
    unittest.main()
