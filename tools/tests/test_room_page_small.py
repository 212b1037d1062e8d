"""The page of a room in small windows, and by keys that the page of a run hasn't."""
import unittest
from typing import Sequence

from tests.paths import TOP
from tests.web_rooms import OnPage, session, web_room

SIXTEEN = TOP / "bench" / "sixteen.json"
# What matters while one debugs, and where it has to be: in the window, without scrolling.
MATTERS = (
    "#steps button:last-child",
    "#tick",
    "#do-back",
    "#do-redo",
    "#do-forward",
    "#people",
    "#wheel",
    "#take",
    "#readout",
    "#lanes",
    "#state-title",
    "#cores",
)
FOLDED = "[...document.querySelectorAll('details.fold')].map((it) => it.open)"
FOCUSED = "document.activeElement.id"


class Small(OnPage):
    """Windows of 800x600 and of a phone."""

    def tearDown(self) -> None:
        self.browser.scheme("light")
        super().tearDown()
        self.browser.size(1440, 900)

    def test_what_matters_is_in_sight(self) -> None:
        with web_room() as room, session(room, "ada") as ada:
            self.visit(room)
            self.assertEqual([True] * 4, self.value(FOLDED))
            ada.tell("until count jobs > 0 50")
            self.at(5)
            for width, height in ((800, 600), (390, 844)):
                for scheme in ("light", "dark"):
                    with self.subTest(f"{width} {scheme}"):
                        self.browser.size(width, height)
                        self.browser.scheme(scheme)
                        self.browser.until(f"!{FOLDED}.includes(true)")
                        self.in_sight(width, height)
                        self.browser.key("l")
                        self.assertEqual("line", self.value(FOCUSED))
                        self.assertEqual([True, False, False, False], self.value(FOLDED))
                        self.browser.size(1440, 900)
                        self.browser.until(f"!{FOLDED}.includes(false)")
                        self.value("document.activeElement.blur()")

    def test_sixteen_cores(self) -> None:
        with web_room(str(SIXTEEN)) as room, session(room, "ada") as ada:
            self.visit(room)
            ada.tell("forward 40")
            self.at(40)
            rows = [f"#cores tbody tr:nth-child({row})" for row in (1, 3)]
            for width, height in ((800, 600), (390, 844)):
                with self.subTest(width):
                    self.browser.size(width, height)
                    self.browser.until(f"!{FOLDED}.includes(true)")
                    self.in_sight(width, height, [*MATTERS[:-1], *rows])
            last = "(({title, textContent}) => [title, textContent])"
            title, text = self.value(f"{last}(document.querySelector({MATTERS[0]!r}))")
            self.assertEqual(text, title)

    def in_sight(self, width: int, height: int, matters: Sequence[str] = MATTERS) -> None:
        """Whether all that matters is seen, and nothing stands beside the window."""
        self.assertLessEqual(self.value("document.documentElement.scrollWidth"), width)
        for it in matters:
            box = self.value(f"document.querySelector({it!r}).getBoundingClientRect().toJSON()")
            self.assertGreater(box["height"], 0, it)
            self.assertGreaterEqual(box["top"], 0, it)
            self.assertLessEqual(box["bottom"], height, it)
            self.assertLessEqual(box["right"], width, it)
        end, begin = (
            "#tasks').getBoundingClientRect().bottom",
            "#objects').getBoundingClientRect().top",
        )
        covers = self.value(f"document.querySelector('{end} > document.querySelector('{begin}")
        self.assertFalse(covers, "the table of objects begins behind that of tasks")

    def test_what_is_said_while_the_talk_is_folded_away(self) -> None:
        with web_room() as room, session(room, "ada") as ada:
            self.browser.size(390, 844)
            self.visit(room)
            unread = "document.querySelector('#unread').textContent"
            ada.remark("# say look")
            self.browser.until(f"{unread} === ' (1 new)'")
            ada.tell("tick")
            ada.remark("# to web: here")
            self.browser.until(f"{unread} === ' (2 new)'")
            self.browser.key("c")
            self.browser.until(f"{unread} === ''")
            self.assertEqual("words", self.value(FOCUSED))
            self.assertIn("ada to you: here", self.browser.text("#talk .private"))


class Keys(OnPage):
    """Keys that the page of a run hasn't."""

    def test_cores_and_goals(self) -> None:
        with web_room() as room:
            self.visit(room)
            self.control_by_keys()
            for key, place in (("1", 1), ("0", 2)):
                self.browser.key(key)
                self.at(place)
            self.browser.key("9")
            self.browser.key("u")
            self.assertEqual("goal", self.value(FOCUSED))
            self.browser.call("Input.insertText", text="wakes worker")
            self.value("document.activeElement.blur()")
            self.browser.key("u")
            self.said("until wakes worker 1000 -> at ")
            self.browser.until("document.querySelector('#slider').value > 2")
            met = int(self.value("document.querySelector('#slider').value"))
            self.fill("#goal", "count jobs = 0")
            self.value("document.activeElement.blur()")
            self.browser.key("U")
            self.at(met - 1)

    def test_the_wheel(self) -> None:
        with web_room() as room, session(room, "ada") as ada:
            self.visit(room)
            self.control_by_keys()
            for words in ("You have", "The wheel is free"):
                self.browser.key("h")
                self.wheel(words)
            ada.tell("wheel take")
            self.wheel("ada has")
            self.browser.key("h")
            self.said("web asks for the wheel")
            self.browser.key("1")
            self.said("step 1 -> no Held 1: ada has the wheel: `# wheel` asks for it")


if __name__ == "__main__":
    unittest.main()
