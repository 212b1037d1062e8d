"""What moves the page of a run: keys, the slider, the mouse, links and search."""
import unittest
from typing import List

from tests.page_shown import Shown


class Moving(Shown):
    """What moves the page, by keys, by the slider, by the mouse, by links and by search."""

    def setUp(self) -> None:
        super().setUp()
        self.show()

    def at(self, place: int) -> None:
        """Whether all parts of the page are at a place."""
        self.assertEqual(place, self.reader.place())
        self.assertIn(f"State at place {place}:", self.browser.text("#state-title"))
        self.assertTrue(self.browser.text("#readout").startswith(f"{place}: "))
        self.assertEqual(str(place), self.browser.value("document.querySelector('#place').value"))
        label = self.browser.value("document.querySelector('canvas').getAttribute('aria-label')")
        self.assertIn("of 0 to 9", label)

    def test_keys(self) -> None:
        for key, place in (
            ("ArrowRight", 1),
            ("ArrowRight", 2),
            ("ArrowLeft", 1),
            ("End", 9),
            ("ArrowRight", 9),
            ("[", 3),
            ("[", 3),
            ("Home", 0),
            ("ArrowLeft", 0),
            ("]", 3),
            ("]", 3),
            ("w", 5),
            ("w", 5),
            ("Home", 0),
            ("PageDown", 9),
            ("W", 5),
            ("PageUp", 0),
        ):
            self.browser.key(key)
            self.at(place)
        self.browser.key("ArrowRight", shift=True)
        self.at(9)

    def test_slider(self) -> None:
        x, y = self.browser.middle("#slider")
        self.browser.click(x, y)
        self.assertIn(self.reader.place(), (4, 5))
        here = self.reader.place()
        self.browser.key("ArrowUp")  # (which is the slider's own)
        self.at(here + 1)
        self.browser.key("ArrowRight")
        self.at(here + 2)

    def test_buttons_rows_and_lanes(self) -> None:
        for selector, place in (("#last", 9), ("#back", 8), ("#first", 0), ("#forward", 1)):
            self.browser.click(*self.browser.middle(selector))
            self.at(place)
        self.browser.click(*self.browser.middle("#moves tbody tr:nth-child(4)"))
        self.at(4)
        left, top = self.browser.value(
            "(({x, y}) => [x, y])(document.querySelector('canvas').getBoundingClientRect())"
        )
        self.browser.click(left + 600, top + 60)
        self.assertGreater(self.reader.place(), 6)

    def test_a_place_by_its_number(self) -> None:
        self.browser.key("g")
        self.browser.type("7")
        self.browser.key("Enter")
        self.at(7)
        self.browser.key("ArrowLeft")
        self.at(6)

    def test_search(self) -> None:
        self.browser.key("/")
        self.browser.type("jobs 0")
        self.assertEqual("3 found", self.browser.text("#found"))
        for place in (4, 5):
            self.browser.key("Enter")
            self.at(place)
        self.browser.key("Escape")
        for key, place in (("n", 8), ("n", 4), ("N", 8), ("N", 5)):
            self.browser.key(key)
            self.at(place)
        self.browser.key("/")
        self.browser.type("nobody")
        self.assertEqual("none", self.browser.text("#found"))

    def test_links(self) -> None:
        page = self.folder / "page.html"
        self.browser.open(page, "#5")
        self.at(5)
        self.browser.key("ArrowRight")
        self.browser.value("new Promise((done) => setTimeout(done, 400))")
        self.assertEqual("#6", self.browser.value("location.hash"))
        link = self.browser.value("document.querySelector('#link').getAttribute('href')")
        self.assertEqual("#6", link)
        self.browser.value("location.hash = '#2'")
        self.browser.settle()
        self.at(2)
        for link, place in (("#99", 9), ("#x", 0), ("#-1", 0)):
            self.browser.open(page, link)
            self.at(place)

    def test_keys_alone_reach_everything(self) -> None:
        seen: List[str] = []
        # (search unfolds the row that it is in)
        for key in ("/", "Escape"):
            self.browser.key(key)
        self.browser.value("document.activeElement.blur()")
        for _ in range(60):
            self.browser.key("Tab")
            seen.append(
                self.browser.value("document.activeElement.id || document.activeElement.tagName")
            )
        wanted = {"theme", "help-button", "slider", "search", "link", "lanes", "state"}
        self.assertLessEqual(wanted | {"way-lines", "copy", "script-of", "whole"}, set(seen))
        self.browser.key("?")
        self.assertTrue(self.browser.value("document.querySelector('#help').open"))
        self.assertIn("previous tick, next tick", self.browser.text("#help"))
        self.browser.key("End")
        self.assertEqual(0, self.reader.place())
        self.browser.key("Escape")
        self.assertFalse(self.browser.value("document.querySelector('#help').open"))

    def test_readout_and_what_is_new(self) -> None:
        self.browser.value("location.hash = '#5'")
        self.browser.settle()
        said = (
            "5: core 1: producer 1 send jobs 0 -> 1, jobs 1/1, woke worker (core 0),"
            " poller left core 0 (displaced)"
        )
        self.assertEqual(said, self.browser.text("#readout"))
        changed = self.browser.value(
            "[...document.querySelectorAll('#tasks .changed')].map((it) => it.textContent)"
        )
        again = "woken, tries again with no limit of time (portMAX_DELAY)"
        expected = ["core 0", again, "2", "end", "r0=1, data 41", "ready"]
        self.assertEqual(expected, changed)
        script = self.browser.rows("#script")
        self.assertEqual(["->", "2", "7", "end", ""], script[2])
        self.assertEqual(
            "true",
            self.browser.value(
                "document.querySelector('#moves tr:nth-child(5)').getAttribute('aria-current')"
            ),
        )

    def test_the_lines_are_copied(self) -> None:
        self.browser.key("End")
        self.browser.key("c")
        self.browser.value("new Promise((done) => setTimeout(done, 300))")
        self.assertEqual("5 lines copied", self.browser.text("#copied"))

    def test_light_and_dark(self) -> None:
        paper = "getComputedStyle(document.body).backgroundColor"
        self.browser.scheme("light")
        light, drawn = self.browser.value(paper), self.reader.picture()
        self.browser.scheme("dark")
        self.assertNotEqual(light, self.browser.value(paper))
        self.assertNotEqual(drawn, self.reader.picture())
        self.browser.key("t")
        self.assertEqual((light, drawn), (self.browser.value(paper), self.reader.picture()))
        self.browser.scheme("light")

    def test_more_and_fewer_moves(self) -> None:
        drawn = self.reader.picture()
        self.browser.key("+")
        self.assertNotEqual(drawn, self.reader.picture())
        self.browser.key("0")
        label = self.browser.value("document.querySelector('canvas').getAttribute('aria-label')")
        self.assertIn("places 0 to 9 of 0 to 9", label)


if __name__ == "__main__":
    unittest.main()
