"""Two runs of an application on one page: where they first differ, their lanes one above the
other."""
import unittest
from typing import Sequence

from tests.page_shown import RUN, Shown

# The worker takes the job, with its seventh move.
TAKEN = [*RUN[:2], "step 0"]


class Beside(Shown):
    """The run in which the poller takes the job, beside the one in which the worker does."""

    def show_both(self, lines: Sequence[str], link: str = "") -> None:
        """Shows a run beside the one of these lines."""
        other = self.folder / "other.commands"
        other.write_text("".join(f"{it}\n" for it in lines))
        self.show(RUN, "--against", str(other), link=link)

    def drawn(self) -> str:
        """What is drawn of the other run."""
        drawn: str = self.browser.value("document.querySelector('#other-canvas').toDataURL()")
        return drawn

    def test_the_first_difference(self) -> None:
        self.show_both(TAKEN)
        said = self.browser.text("#difference")
        self.assertIn(
            "the same up to place 6. Here: 7: core 1: poller 1 jump 0. Below: 7: core 0", said
        )
        self.assertIn("Below: other.commands", self.browser.text("#other-title"))
        at = "The state at place {} {}."
        self.assertEqual(at.format(0, "is the same"), self.browser.text("#differing-at"))
        drawn = self.drawn()
        self.browser.key("d")
        self.assertEqual(7, self.reader.place())
        self.assertNotEqual(drawn, self.drawn())
        said = at.format(7, "differs (as replies of rdbg)")
        self.assertEqual(said, self.browser.text("#differing-at"))
        rows = self.browser.rows("#differing")
        words = {tuple(it.split(" ")[:2]) for row in rows for it in row}
        self.assertLessEqual({("task", "worker"), ("task", "poller")}, words)
        self.browser.key("End")
        self.assertEqual(9, self.reader.place())
        # (the lanes stand one above the other)
        tops = [
            self.browser.value(f"document.querySelector('{it}').getBoundingClientRect().top")
            for it in ("#lanes", "#other-lanes")
        ]
        self.assertLess(tops[0], tops[1])

    def test_a_longer_one(self) -> None:
        self.show_both([*RUN, "forward 6"])
        said = self.browser.text("#difference")
        self.assertIn("the same up to place 9. Here: it ended at 9. Below: 10:", said)
        self.browser.key("End")
        self.assertEqual(15, self.reader.place())
        self.assertEqual("15: this run ended at 9", self.browser.text("#readout"))
        for key in ("0", "+", "ArrowLeft", "PageUp", "v", "m", "z"):
            self.browser.key(key)

    def test_the_same(self) -> None:
        self.show_both(RUN)
        self.assertEqual("The two runs are the same.", self.browser.text("#difference"))
        self.browser.key("d")
        self.assertEqual(0, self.reader.place())


if __name__ == "__main__":
    unittest.main()
