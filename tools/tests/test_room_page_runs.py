"""The page of a room that comes late or goes, and each place as rdbg says it."""
import time
import unittest
from typing import Any

from tests.chromium import Browser
from tests.web_rooms import COMING, OnPage, come_in, say_name, session, web_room


class Runs(OnPage):
    """What it shows of a run."""

    def test_each_place_is_what_rdbg_says(self) -> None:
        with web_room() as room, session(room, "left") as left, session(room, "right") as right:
            self.visit(room)
            left.tell("forward 4")
            right.tell("back 2")
            for line in ("step 1", "poke reg poller 3 7", "until count jobs > 0 50", "back 3"):
                left.tell(line)
            for line in ("redo 1", "tick", "step 0", "forward 3"):
                right.tell(line)
            self.at(int(left.tell("show moves").split()[1]))
            self.check_places(room, 0, int(left.tell("show moves").split()[1]))

    def test_a_late_page_shows_the_run_so_far(self) -> None:
        with web_room() as room, session(room, "left") as left:
            left.tell("until count jobs > 0 50")
            left.tell("poke reg poller 3 7")
            left.tell("forward 90")
            left.tell("back 20")
            left.tell("trim 60")
            self.visit(room)
            self.at(76)
            self.browser.until("document.querySelector('#slider').min === '0'")
            self.assertEqual("96", self.value("document.querySelector('#slider').max"))
            self.assertIn("20 moves undone", self.browser.text("#about"))
            self.browser.key("Home")
            self.browser.key("e")
            self.assertEqual("6: poke reg poller 3 7", self.browser.text("#readout").split(" (")[0])
            self.browser.key("e")
            self.assertIn("then trim 60", self.browser.text("#readout"))
            self.check_places(room, 90, 96)

    def test_a_page_that_is_closed_is_away(self) -> None:
        with web_room() as room, session(room, "left") as left:
            heard: Any = []
            left.on_notice = heard.append
            self.visit(room)
            self.click("#take")
            self.wheel("You")
            self.browser.visit("about:blank")
            end = time.monotonic() + 20
            while "# web is away and still has the wheel" not in heard and time.monotonic() < end:
                left.tell("show moves")
                time.sleep(0.05)
            self.assertIn("# web is away and still has the wheel", heard)
            self.assertEqual("no Held 2", left.tell("step 0"))
            self.visit(room)
            self.wheel("You")
            self.click("#tick")
            self.at(1)


class People(OnPage):
    """Each browser is somebody of its own."""

    def test_two_browsers_of_one_address_are_two_people(self) -> None:
        with web_room() as room, Browser() as other:
            self.visit(room, "ada")
            self.click("#take")
            self.wheel("You")
            self.fill("#goal", "tick > 0")
            self.click("#watch")
            self.browser.until("document.querySelector('#watches').textContent !== ''")
            self.browser.visit("about:blank")
            # (the other one is asked who comes, and has nothing of who was there before)
            self.assertTrue(come_in(other, room.address, "bo"))
            self.assertEqual(
                ["ada (session 1), away, has the wheel", "bo (session 2), you"],
                other.texts("#people li"),
            )
            self.assertEqual("", other.text("#watches"))
            self.assertEqual(
                "ada has the wheel and is away: your moves are refused.", other.text("#wheel")
            )
            # (who was there has it all again, and isn't asked)
            self.assertFalse(come_in(self.browser, room.address, "eve"))
            self.wheel("You")
            self.browser.until("document.querySelector('#watches').textContent.includes('fails')")
            self.assertEqual([], other.errors)

    def test_a_name_that_is_let_in(self) -> None:
        with web_room() as room, session(room, "left"):
            self.browser.visit(room.address)
            for name, why in (
                ("left", "left is already here"),
                ("Ada!", "'Ada!' is not a valid name"),
                ("", "'' is not a valid name"),
            ):
                self.browser.until(f"document.querySelector({COMING!r}) !== null")
                say_name(self.browser, name)
                shown = "document.querySelector('#come .why').textContent"
                self.browser.until(f"{shown}.startsWith({why!r})")
            self.browser.key("Escape")
            self.browser.until(f"document.querySelector({COMING!r}) !== null")
            self.assertTrue(self.value("document.querySelector('#tick').matches(':disabled')"))
            say_name(self.browser, "ada")
            self.browser.until("document.querySelector('#people').textContent.includes('ada')")
            self.at(0)

    def test_a_kept_name_that_is_here(self) -> None:
        with web_room() as room:
            self.visit(room, "ada")
            self.browser.visit("about:blank")
            with session(room, "ada"):
                # (as where one browser has the page twice)
                self.browser.visit(room.address)
                self.browser.until(f"document.querySelector({COMING!r}) !== null")
                self.assertEqual("ada is already here", self.browser.text("#come .why"))
                say_name(self.browser, "bo")
                self.browser.until("document.querySelector('#people').textContent.includes('bo')")
                self.at(0)


if __name__ == "__main__":
    unittest.main()
