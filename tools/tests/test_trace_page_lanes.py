"""The lanes of a page as they are read: pinned, folded, left out, in another order; ranges,
bookmarks and zoom; windows that are small."""
import json
import pathlib
import unittest
from typing import List

from tests.page_shown import RUN, Shown


def many(folder: pathlib.Path) -> pathlib.Path:
    """An application of 32 tasks on 16 cores."""
    tasks = [
        {
            "name": f"task_{number}",
            "priority": number % 4,
            "code": [f"send q{number % 8} 2", "add r1 1", f"recv q{number % 7} 3", "jump 0"],
        }
        for number in range(32)
    ]
    queues = [{"name": f"q{number}", "length": 2, "item": 1} for number in range(8)]
    path = folder / "many.json"
    path.write_text(json.dumps({"profile": 2, "cores": 16, "queues": queues, "tasks": tasks}))
    return path


class Lanes(Shown):
    """How lanes are arranged."""

    def label(self) -> str:
        """What the lanes say of themselves."""
        label = "document.querySelector('canvas').getAttribute('aria-label')"
        said: str = self.browser.value(label)
        return said

    def corner(self) -> List[float]:
        """Where the lanes begin."""
        box = "document.querySelector('canvas').getBoundingClientRect()"
        found: List[float] = self.browser.value(f"(({{x, y}}) => [x, y])({box})")
        return found

    def test_a_core_and_whom_it_woke_are_in_sight(self) -> None:
        # (32 tasks on 16 cores are too many for a window)
        self.show(["forward 300"], application=many(self.folder), link="#100")
        for _ in range(12):
            self.browser.key("w")
            if self.browser.text("#readout").split(": ")[1].startswith("core"):
                break
        readout = self.browser.text("#readout")
        core = readout.split(": ")[1]
        self.assertRegex(core, r"core \d+")
        woken = readout.split("woke ")[1].split(" ")[0]
        self.browser.key("v")
        self.assertIn(f"pinned: {core}, task ", self.label())
        self.assertIn(f"task {woken}", self.label())
        drawn = self.reader.picture()
        self.browser.value("document.querySelector('#lanes').scrollTop = 500")
        self.browser.settle()
        self.assertNotEqual(drawn, self.reader.picture())
        self.assertIn(f"pinned: {core}", self.label())

    def test_by_keys_alone(self) -> None:
        self.show()
        self.browser.key("o")
        focused = "document.activeElement.id"
        self.assertEqual("lane", self.browser.value(focused))
        self.browser.value("document.querySelector('#lane').value = 'task worker'")
        self.browser.value("document.querySelector('#lanes').focus()")
        self.browser.key("p")
        self.assertTrue(self.label().endswith("pinned: task worker"))
        self.browser.key("p")
        self.assertNotIn("pinned", self.label())
        self.browser.key("y")
        self.assertEqual("lane-filter", self.browser.value(focused))
        whole = self.reader.picture()
        self.browser.type("poller")
        self.assertNotEqual(whole, self.reader.picture())
        wanted = {"lane-pin", "lane-up", "lane-down", "lane-fold", "lane-order", "range-begin"}
        seen = set()
        self.browser.value("document.querySelector('#more').open = true")
        self.browser.value("document.querySelector('#lane').focus()")
        for _ in range(45):
            self.browser.key("Tab")
            seen.add(self.browser.value(focused))
        self.assertLessEqual(wanted | {"range-zoom", "bookmark-word", "lane"}, seen)

    def test_by_the_mouse(self) -> None:
        self.show()
        left, top = self.corner()
        # (below the ruler stand the head of the cores, and the first core)
        whole = self.reader.picture()
        self.browser.click(left + 20, top + 36 + 5)
        self.assertNotEqual(whole, self.reader.picture())
        self.browser.click(left + 20, top + 36 + 5)
        self.assertEqual(whole, self.reader.picture())
        self.browser.click(left + 20, top + 36 + 15 + 5)
        self.assertTrue(self.label().endswith("pinned: core 0"))
        chosen = "document.querySelector('#lane').value"
        self.assertEqual("core 0", self.browser.value(chosen))
        self.assertEqual(0, self.reader.place())

    def test_drag_and_wheel(self) -> None:
        self.show(["forward 300"])
        left, top = self.corner()
        before = self.label()
        self.browser.drag((left + 600, top + 80), (left + 300, top + 80))
        self.assertNotEqual(before, self.label())
        self.assertEqual(0, self.reader.place())
        before = self.label()
        self.browser.wheel(left + 400, top + 10, -300)
        self.assertNotEqual(before, self.label())
        self.browser.drag((left + 200, top + 10), (left + 500, top + 10))
        self.assertRegex(self.browser.text("#range"), r"places \d+ to \d+: \d+ ticks?, \d+ moves")

    def test_orders(self) -> None:
        self.show()
        choice = "document.querySelector('#lane-order')"
        pictures = [self.reader.picture()]
        # (they stand by priority in the file)
        for order in ("by name", "by priority"):
            self.browser.value(f"{choice}.value = '{order}'")
            self.browser.value(f"{choice}.dispatchEvent(new Event('change'))")
            self.browser.settle()
            pictures.append(self.reader.picture())
        self.assertNotEqual(pictures[0], pictures[1])
        self.assertEqual(pictures[0], pictures[2])


class Marks(Shown):
    """Bookmarks, and ranges of places."""

    def test_a_range(self) -> None:
        self.show(link="#1")
        self.browser.key("m")
        for _ in range(4):
            self.browser.key("ArrowRight")
        self.assertEqual("places 1 to 5: 1 tick, 4 moves", self.browser.text("#range"))
        self.browser.key("m")
        self.browser.key("End")
        self.assertEqual("places 1 to 5: 1 tick, 4 moves", self.browser.text("#range"))
        self.browser.value("document.querySelector('#summary').open = true")
        self.browser.settle()
        self.assertEqual("Places 1 to 5: 1 tick, 4 moves.", self.browser.text("#summary-of"))
        waits = [row[3] for row in self.browser.rows("#waits") if "waits" in row[1]]
        self.assertEqual(["1 tick, 4 moves"], waits)
        self.browser.key("z")
        label = "document.querySelector('canvas').getAttribute('aria-label')"
        self.assertIn("places 0 to 6 of", self.browser.value(label))
        self.browser.key("m")
        self.assertEqual("", self.browser.text("#range"))

    def test_bookmarks_are_kept_in_the_link(self) -> None:
        page = self.show(RUN, link="#5")
        self.browser.key("b")
        self.browser.type("sent & gone")
        self.browser.key("Enter")
        self.browser.key("End")
        self.browser.click(*self.browser.middle("#bookmark button"))
        shown = ["5: sent & gone", "9: here"]
        self.assertEqual(shown, self.browser.texts("#bookmarks button:first-child"))
        self.browser.key("J")
        self.assertEqual(5, self.reader.place())
        self.browser.key("j")
        self.assertEqual(9, self.reader.place())
        self.browser.value("new Promise((done) => setTimeout(done, 400))")
        link = self.browser.value("location.hash")
        self.browser.open(page, link)
        self.assertEqual((9, []), (self.reader.place(), self.browser.errors))
        self.assertEqual(shown, self.browser.texts("#bookmarks button:first-child"))
        self.browser.click(*self.browser.middle("#bookmarks li:first-child button:last-child"))
        self.assertEqual(["9: here"], self.browser.texts("#bookmarks button:first-child"))

    def test_a_link_with_all(self) -> None:
        self.show(RUN, link="#3&mark=4:x&mark=99:no&range=7-2&pin=task+worker")
        self.assertEqual(3, self.reader.place())
        self.assertEqual(["4: x"], self.browser.texts("#bookmarks button:first-child"))
        self.assertIn("places 2 to 7", self.browser.text("#range"))
        label = "document.querySelector('canvas').getAttribute('aria-label')"
        self.assertIn("pinned: task worker", self.browser.value(label))
        self.browser.value("location.hash = '#6'")
        self.browser.settle()
        self.assertEqual(6, self.reader.place())
        self.assertEqual(["4: x"], self.browser.texts("#bookmarks button:first-child"))


class Sizes(Shown):
    """Windows that are small, and paper."""

    def tearDown(self) -> None:
        self.browser.size(1440, 900)
        super().tearDown()

    def test_nothing_stands_beside_a_small_window(self) -> None:
        # (a part that scrolls by itself may be wider than what is seen of it)
        wide = "document.documentElement.scrollWidth"
        for width, height in ((800, 600), (390, 844)):
            for scheme in ("light", "dark"):
                self.browser.size(width, height)
                self.browser.scheme(scheme)
                self.show(RUN, "--title", "A title", link="#5&mark=3:word")
                self.browser.value("document.querySelector('#summary').open = true")
                self.browser.settle()
                self.assertLessEqual(self.browser.value(wide), width, (width, scheme))
                for key in ("ArrowRight", "v", "m", "End", "z", "0"):
                    self.browser.key(key)
                self.assertEqual(9, self.reader.place())
        self.browser.scheme("light")

    def test_paper(self) -> None:
        self.show(RUN, "--ask", "lost at worker 1", link="#2&mark=5:sent")
        shown = "(it) => getComputedStyle(document.querySelector(it)).display"
        self.browser.value("dispatchEvent(new Event('beforeprint'))")
        heads = self.browser.value(
            "[...document.querySelectorAll('#printed h2')].map((it) => it.textContent)"
        )
        self.assertEqual(["Place 5: sent, tick 1", "Place 8: no return, tick 1"], heads)
        self.browser.call("Emulation.setEmulatedMedia", media="print")
        for selector, is_there in (("#printed", True), ("nav", False), ("#lanes", False)):
            display = self.browser.value(f"({shown})('{selector}')")
            self.assertEqual(is_there, display != "none", selector)
        self.assertIn("producer", self.browser.text("#application pre"))
        self.assertIn("until count jobs", self.browser.text("#lines pre"))
        self.assertIn("waits at recv:jobs", self.browser.text("#waits"))
        self.browser.call("Emulation.setEmulatedMedia", media="")
        self.browser.value("dispatchEvent(new Event('afterprint'))")
        self.assertEqual(0, self.browser.value("document.querySelectorAll('#printed h2').length"))
        printed = self.browser.call("Page.printToPDF")["data"]
        self.assertGreater(len(printed), 10_000)


if __name__ == "__main__":
    unittest.main()
