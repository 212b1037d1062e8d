"""The pages of the tutorials: opened in a browser, and each place read back against rdbg."""
import unittest

from tests.page_shown import Shown
from tests.pages import Asked, tutorials
from tests.paths import DOCS, EXAMPLES


class Tutorials(Shown):
    """The pages of the tutorials."""

    def test_a_document_that_makes_its_page(self) -> None:
        lost = next(it for it in tutorials() if it.name == "lost_item")
        made = f"head -n {len(lost.lines)} examples/lost_item.commands | ./rdbg trace"
        self.assertIn(made, (DOCS / "tutorials/lost-item.md").read_text())

    def test_each_place_is_what_rdbg_says(self) -> None:
        for it in tutorials():
            with self.subTest(it.name):
                self.show(it.lines, application=it.application)
                self.assertGreater(self.check_places(it.application, it.lines, 0), 8)

    def test_with_what_was_tried_by_hand(self) -> None:
        for it in tutorials():
            lines = (EXAMPLES / f"{it.name}.commands").read_text().splitlines()[:-1]
            with self.subTest(it.name):
                self.show(lines, application=it.application)
                self.check_places(it.application, lines, 0)

    def test_what_was_found_by_hand(self) -> None:
        self.show()
        for place, (who, waits, level) in {
            0: (["worker", "producer"], "-", "0/1"),
            1: (["poller", "producer"], "receive: worker", "0/1"),
            5: (["worker", "producer"], "-", "1/1"),
            8: (["worker", "poller"], "-", "0/1"),
            9: (["-", "poller"], "receive: worker", "0/1"),
        }.items():
            self.browser.value(f"location.hash = '#{place}'")
            self.browser.settle()
            self.assertEqual(who, list(self.reader.column("#cores", 1).values()))
            self.assertEqual({"queue jobs": waits}, self.reader.column("#objects", 3))
            self.assertEqual({"queue jobs": level}, self.reader.column("#objects", 1))
        waits = "waits at recv:jobs with no limit of time (portMAX_DELAY)"
        self.assertEqual(waits, self.reader.column("#tasks", 2)["worker (2)"])
        self.assertEqual("ended", self.reader.column("#tasks", 2)["producer (1)"])

    def test_waiting_orders_and_wishes(self) -> None:
        order = next(it for it in tutorials() if it.name == "waiting_order")
        self.show(order.lines, application=order.application, link="#2")
        waits = self.reader.column("#objects", 3)["queue orders"]
        self.assertEqual("receive: display, motor", waits)
        self.show(["forward 3"], application=EXAMPLES / "barrier.json")
        self.browser.key("End")
        waits = "; ".join(self.reader.column("#objects", 3).values())
        views = Asked(EXAMPLES / "barrier.json").behind(["forward 3"])
        wishes = [it for it in views if it.startswith("group ")][0].split(" wait ")[1].split(",")
        self.assertNotEqual(["-"], wishes)
        for wish in wishes:
            task, bits, which, after = wish.split(":")
            self.assertIn(f"{task} ({which} of {int(bits):#x}, {after})", waits)


if __name__ == "__main__":
    unittest.main()
