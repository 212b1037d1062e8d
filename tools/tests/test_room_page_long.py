"""The page of a room that is shown much, and one whose room ends."""
import re
import signal
import time
import unittest
from typing import List
from unittest import mock

from rdbg.rooms import web_follower
from tests.paths import EXAMPLES, TOP
from tests.rooms import LOST
from tests.web_rooms import OnPage, in_process, session, slow, web_room

SIXTEEN, TURNS = TOP / "bench" / "sixteen.json", EXAMPLES / "turns.json"


class Long(OnPage):
    """Much to show, and the end."""

    def test_the_room_ends(self) -> None:
        with web_room() as room:
            self.visit(room)
            self.assertGreater(len(self.enabled("#top", "button")), 10)
            self.control_by_keys()
            for place in (1, 2):
                self.browser.key("s")
                self.at(place)
            room.end_well()
            self.browser.until("document.querySelector('#connection').textContent !== ''")
            self.assertEqual("The room has ended.", self.browser.text("#connection"))
            self.said("the room has ended: ")
            self.assertEqual("1", self.value("document.querySelector('#count').value"))
            used = "button, input, select"
            self.assertGreater(len(self.enabled("#top nav", used)), 10)
            self.assertEqual(["save", "save-talk"], self.named(f":is({used}):not(nav *)"))
            moves, talk = self.saved()
            self.assertEqual("step 0\nstep 1\n", moves)
            self.assertRegex(talk, r"(?m)^\d{4}-\S+Z\tthe room has ended: closed \d+")
            said = self.browser.texts("#talk li")
            for key in ("s", "k", "b", "r", "f", "l"):
                self.browser.key(key)
            for selector in ("#tick", "#steps button", "#take", "#rename button"):
                self.click(selector)
            self.assertEqual(said, self.browser.texts("#talk li"))
            self.browser.key("ArrowLeft")
            self.assertIn("State at place 1:", self.browser.text("#state-title"))
            self.browser.key("End")
            self.assertIn("State at place 2:", self.browser.text("#state-title"))
            self.browser.key("?")
            self.assertTrue(self.value("document.querySelector('#help').open"))

    def named(self, selector: str) -> List[str]:
        """The names of the elements at the top that can be used."""
        found = (re.search('id="(.*?)"', it) for it in self.enabled("#top", selector))
        return [it.group(1) if it else "" for it in found]

    def enabled(self, within: str, selector: str) -> List[str]:
        """The elements that can be used."""
        found = f"[...document.querySelectorAll('{within} :is({selector})')]"
        texts: List[str] = self.value(
            f"{found}.filter((it) => !it.matches(':disabled')).map((it) => it.outerHTML)"
        )
        return texts

    def test_a_room_that_is_killed(self) -> None:
        with web_room() as room:
            self.visit(room)
            self.click("#tick")
            self.at(1)
            self.spares_errors = True  # (the browser tells each request that fails)
            room.end(signal.SIGKILL)
            self.browser.until("document.querySelector('#connection').textContent !== ''")
            self.assertEqual(["save-talk"], self.named("button:not(nav *)"))
            text = "The room does not answer. Trying again .."
            self.assertEqual(text, self.browser.text("#connection"))
            self.value("new Promise((done) => setTimeout(done, 2500))")
            (told,) = self.browser.texts("#talk .refused")
            self.assertEqual(told, self.browser.text("#talk .refused time") + text)
            self.browser.key("ArrowLeft")
            self.assertIn("State at place 0:", self.browser.text("#state-title"))

    def test_the_last_of_many_moves_come_at_once(self) -> None:
        for path in (SIXTEEN, TURNS):
            with self.subTest(path.name), web_room(str(path)) as room:
                with session(room, "left") as left:
                    self.visit(room)
                    self.at(0)
                    began = time.monotonic()
                    self.assertEqual("ok at 20000", left.tell("forward 20000"))
                    replied = time.monotonic()
                    self.lanes(20_000)
                    # (a program without proof takes long to make the moves, and there they are
                    # made once more)
                    bound = 2.0 + 2 * (replied - began)
                    self.assertLess(time.monotonic() - replied, bound)

    def test_a_move_is_there_while_earlier_ones_come(self) -> None:
        # (all of them take a minute)
        with slow(0.002), in_process(str(SIXTEEN)) as (room, address):
            left = room.join("left", lambda notice: None)
            self.visit_address(address)
            self.at(0)
            left.ask("forward 3000")
            self.lanes(3_000)
            for place in range(3_001, 3_006):
                time.sleep(0.5)  # (so that earlier moves are being looked at)
                self.assertEqual(f"ok at {place}", left.ask("tick"))
                self.at(place)
                self.assertIn("earlier moves still to come", self.browser.text("#about"))
            self.assertIn(f"{place}: tick", self.browser.text("#readout"))

    def test_what_is_put_before_is_drawn_as_what_came_behind(self) -> None:
        pictures = []
        for most in (64, 0):
            # (of a line that made more moves than so many, the last ones come first)
            with mock.patch.object(web_follower, "SHORT", most), in_process(LOST) as (
                room,
                address,
            ):
                left = room.join("left", lambda notice: None)
                self.visit_address(address)
                for line in ("forward 40", "poke reg poller 3 7", "trim 3", "forward 50", "tick"):
                    left.ask(line)
                self.at(92)
                self.browser.until("document.querySelector('#slider').min === '0'")
                self.browser.key("0")
                pictures.append(self.value("document.querySelector('#canvas').toDataURL()"))
        self.assertEqual(pictures[0], pictures[1])

    def test_a_place_that_isnt_there_yet(self) -> None:
        with web_room() as room, session(room, "left") as left:
            left.tell("forward 3000")
            self.visit(room)
            self.at(3_000)
            for line, place in (("back 2500", 500), ("redo 700", 1_200), ("back 900", 300)):
                left.tell(line)
                self.at(place)
            self.browser.until("document.querySelector('#slider').max !== '300'")
            left.tell("tick")
            self.at(301)
            left.tell("forward 200")
            self.at(501)
            self.browser.until("document.querySelector('#slider').min === '0'")
            left.tell("back 198")
            self.at(303)
            self.check_places(room, 295, 303)

    def lanes(self, place: int) -> None:
        """Waits until the page shows a place, where the target is, and lanes of 20 moves."""
        self.browser.until(f"Number(document.querySelector('#slider').min) <= {place - 20}")
        self.at(place)

    def test_a_long_run(self) -> None:
        with web_room() as room, session(room, "left") as left:
            self.visit(room)
            left.tell("forward 1200")
            self.at(1200)
            self.browser.until("document.querySelector('#slider').min === '0'", 60)
            for line, place in (("step 1", 1201), ("tick", 1202), ("back 2", 1200)):
                before = self.browser.busy()
                left.tell(line)
                self.at(place)
                self.assertLess(self.browser.busy() - before, 2.0)
            self.check_places(room, 1170, 1202)


if __name__ == "__main__":
    unittest.main()
