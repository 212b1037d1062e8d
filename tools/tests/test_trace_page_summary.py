"""The tables of a page: who waited for what, how full objects were, how busy cores."""
import unittest

from tests.page_shown import Shown


class Summary(Shown):
    """The tables of the lost item, of which the moves are counted by hand."""

    def open(self) -> None:
        """Opens them."""
        self.browser.value("document.querySelector('#summary').open = true")
        self.browser.settle()

    def test_counted_by_hand(self) -> None:
        # (the worker waits behind move 1, is woken by move 5, waits again behind move 9, the last;
        # the one tick is move 3; the producer ends with move 6, and the poller takes its core)
        self.show()
        self.open()
        self.assertEqual("Places 0 to 9: 1 tick, 9 moves.", self.browser.text("#summary-of"))
        four, wait = "1 tick, 4 moves", "waits at recv:jobs, to the end"
        self.assertEqual(
            [
                ["worker", "on a core", "2", "0 ticks, 4 moves", "5", "0 ticks, 5 moves"],
                ["worker", wait, "2", four, "1", four],
                ["producer", "on a core", "1", "1 tick, 6 moves", "0", "1 tick, 6 moves"],
                ["producer", "ended", "1", "0 ticks, 3 moves", "6", "0 ticks, 3 moves"],
                ["poller", "ready, not on a core", "2", "0 ticks, 1 move", "0", "0 ticks, 2 moves"],
                ["poller", "on a core", "2", four, "1", "1 tick, 7 moves"],
            ],
            self.browser.rows("#waits"),
        )
        self.assertEqual([["queue jobs", "1/1", "5", "2", "1", "1"]], self.browser.rows("#levels"))
        busy, none = "1 tick, 9 moves (100%)", "0 ticks, 0 moves"
        self.assertEqual(
            [
                ["core 0", busy, f"{none} (0%)", none, "9", "3"],
                ["core 1", busy, f"{none} (0%)", "-", "-", "5"],
            ],
            self.browser.rows("#load"),
        )

    def test_from_a_row_to_its_place(self) -> None:
        self.show()
        self.open()
        self.browser.click(*self.browser.middle("#levels td:nth-child(3) a"))
        self.assertEqual(5, self.reader.place())
        self.browser.value("document.querySelector('#waits tbody a').focus()")
        self.browser.key("Home")
        self.browser.key("Enter")
        self.assertEqual(5, self.reader.place())


if __name__ == "__main__":
    unittest.main()
