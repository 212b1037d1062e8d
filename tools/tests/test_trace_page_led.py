"""A page that opens where a task waits: what led there, its lanes first, all moves in sight; and
what stands before them, in small windows too."""
import unittest

from tests.page_shown import Shown
from tests.paths import EXAMPLES

QUEUE_SET = EXAMPLES / "faults" / "queue_set" / "queue_set.c"
NO_LIMIT = "with no limit of time (portMAX_DELAY)"


class Led(Shown):
    """The run of a fault, opened where the server waits."""

    def tearDown(self) -> None:
        self.browser.size(1440, 900)
        super().tearDown()

    def label(self) -> str:
        """What the lanes say of themselves."""
        said: str = self.browser.value("document.querySelector('canvas').ariaLabel")
        return said

    def show_wait(self, link: str = "", moves: int = 26) -> None:
        """Opens its page at move 26."""
        self.show([f"forward {moves}"], "--at", "26", application=QUEUE_SET, link=link)

    def test_what_led_there(self) -> None:
        self.show_wait()
        self.assertEqual(
            [
                "place 3: reader0 put something into line0 (send line0 max -> 1)",
                "place 6: server selected line0 from lines (select lines max -> 1)",
                "place 17: monitor took something from line0 (recv line0 0 -> 1)",
                f"place 26: server waits at recv:line0 {NO_LIMIT}",
            ],
            self.browser.texts("#led li"),
        )
        wakes_none = (
            "putting an item into it does not wake a task that waits to receive from it. No other"
        )
        self.assertIn(f"While line0 is a member of set lines, {wakes_none}", self.ends())
        pinned = "pinned: marks, task server, queue line0, task reader0, task monitor"
        self.assertEqual(f"Lanes: places 0 to 26 of 0 to 26, at 26; {pinned}", self.label())
        self.browser.click(*self.browser.middle("#led li:nth-child(3) a"))
        self.assertEqual(17, self.reader.place())
        self.browser.until("location.hash === '#17'")
        self.assertEqual(4, len(self.browser.texts("#led li")))

    def ends(self) -> str:
        """What is said of who could end the wait."""
        return self.browser.text("#led-ends")

    def test_a_link_has_its_own_pins(self) -> None:
        self.show_wait("#26&pin=task+monitor")
        self.assertTrue(self.label().endswith("pinned: task monitor"))

    def test_a_link_says_that_none_is_pinned(self) -> None:
        self.show_wait("#26&pin=task+monitor")
        self.browser.value("(document.querySelector('#lane').value = 'task monitor')")
        self.browser.value("document.querySelector('#lane-pin').click()")
        self.browser.value("new Promise((done) => setTimeout(done, 400))")
        link = self.browser.value("location.hash")
        self.assertEqual("#26&pin=", link)
        self.show_wait(link)
        self.assertNotIn("pinned", self.label())

    def test_nobody_waits(self) -> None:
        self.show()
        self.assertTrue(self.browser.value("document.querySelector('#led').hidden"))
        self.assertNotIn("pinned", self.label())

    def test_the_place_stays_in_sight(self) -> None:
        self.show_wait(moves=90)
        for width, height in ((1280, 800), (390, 844), (800, 600), (390, 844)):
            self.browser.size(width, height)
            self.browser.settle()
            first, last = self.label().split(" of ")[0].split("places ")[1].split(" to ")
            self.assertTrue(int(first) < 26 < int(last) + 1, (width, first, last))

    def test_all_of_a_few_moves_in_each_window(self) -> None:
        self.show_wait()
        for width, height in ((390, 844), (1280, 800), (390, 844)):
            self.browser.size(width, height)
            self.browser.settle()
            self.assertIn("places 0 to 26 of", self.label(), width)

    def test_what_moves_about_is_one_row(self) -> None:
        self.show_wait()
        shown = "document.querySelector('#more').open"
        self.assertFalse(self.browser.value(shown))
        self.browser.key("/")
        self.assertTrue(self.browser.value(shown))
        self.assertEqual("search", self.browser.value("document.activeElement.id"))

    def test_words(self) -> None:
        self.show_wait()
        heads = ["next", "pc", "line", "instruction", "C or comment"]
        self.assertEqual(heads, self.browser.texts("#script thead th"))
        (row,) = [it for it in self.browser.rows("#script") if it[0] == "->"]
        receive = "xQueueReceive(ready, &byte, portMAX_DELAY);"
        self.assertEqual(["->", "5", "35", "recv line0 max", receive], list(row))
        self.assertIn("(waits with no limit of time: portMAX_DELAY)", self.browser.text("#readout"))
        explained = self.browser.text("#help")
        for word in ("A move is", "The turn is"):
            self.assertIn(word, explained)


if __name__ == "__main__":
    unittest.main()
