"""The page of a room by keys alone, what is typed there, watches, names, and light and dark."""
import unittest
from typing import List

from tests.paths import EXAMPLES
from tests.web_rooms import OnPage, session, web_room

FOCUSED = "document.activeElement.id || document.activeElement.textContent"


class Keys(OnPage):
    """What keys do, and what they reach."""

    def test_keys_move_the_target_and_the_view(self) -> None:
        with web_room() as room, session(room, "left") as left:
            self.visit(room)
            self.at(0)
            self.control_by_keys()
            for key, place in (("s", 1), ("s", 2), ("k", 3), ("f", 4), ("b", 3), ("r", 4)):
                self.browser.key(key)
                self.at(place)
            self.assertEqual("moves 4 undone 0 kept 4", left.tell("show moves"))
            self.browser.key("ArrowLeft")
            self.browser.key("ArrowLeft")
            self.assertIn("State at place 2:", self.browser.text("#state-title"))
            self.assertIn("(the target is at 4)", self.browser.text("#readout"))
            self.assertEqual("now: 4", self.browser.text("#now"))
            left.tell("tick")
            self.browser.until("document.querySelector('#now').textContent === 'now: 5'")
            self.assertIn("State at place 2:", self.browser.text("#state-title"))
            self.browser.key(".")
            self.at(5)
            self.assertTrue(self.value("document.querySelector('#now').hidden"))
            left.tell("tick")
            self.at(6)
            left.tell("back 3")
            self.at(3)
            self.browser.key("End")
            self.assertIn(", undone (the target is at 3)", self.browser.text("#readout"))
            left.tell("tick")
            self.browser.until(
                "document.querySelector('#readout').textContent.startsWith('4: tick')"
            )

    def test_a_text_that_is_typed_into_no_field_moves_nothing(self) -> None:
        with web_room() as room, session(room, "left") as left:
            left.tell("forward 3")
            self.visit(room)
            self.at(3)
            shown = "(({innerText, ariaPressed}) => innerText + ariaPressed)"
            state = f"{shown}(document.querySelector('#keyboard'))"
            self.assertEqual("Keyboard control offfalse", self.value(state))
            # (c and l lead to a field)
            for key in "thanks bob 0123456789 tru fish U":
                self.browser.key(key)
            self.assertEqual("moves 3 undone 0 kept 3", left.tell("show moves"))
            self.assertEqual("wheel -", left.tell("show wheel"))
            self.control_by_keys()
            self.assertEqual("Keyboard control ontrue", self.value(state))
            self.browser.key("k")
            self.at(4)
            # (it is a button, so that the keyboard turns it off, too, and keys work beside it)
            self.value("document.querySelector('#keyboard').focus()")
            self.browser.key("k")
            self.at(5)
            self.browser.key(" ")
            self.browser.until(f"{state} === 'Keyboard control offfalse'")
            self.browser.key("k")
            self.assertEqual("ok at 6", left.tell("tick"))
            self.at(6)

    def test_two_steps_at_once_are_of_two_cores(self) -> None:
        with web_room() as room, session(room, "left"):
            self.visit(room)
            self.at(0)
            self.control_by_keys()
            self.browser.key("s")
            self.browser.key("s")
            self.at(2)
            self.assertIn("2: core 1", self.browser.text("#readout"))

    def test_keys_alone_reach_everything(self) -> None:
        with web_room(str(EXAMPLES / "interrupt.json")) as room:
            self.visit(room)
            self.value("document.activeElement.blur()")
            seen: List[str] = []
            for _ in range(90):
                self.browser.key("Tab")
                seen.append(self.value(FOCUSED))
            wanted = "keyboard tick count do-back do-redo do-forward keep do-trim goal most do-until becomes back-until"
            wanted += " watch ask-reach line save reload take words whom save-talk name talk slider"
            wanted += " search lanes state theme help-button"
            self.assertLessEqual(set(wanted.split()), set(seen))
            for text in ("poke", "isr", "send", "say", "rename"):
                self.assertIn(text, seen)
            self.assertTrue(any(it.startswith("step 0: ") for it in seen), seen)
            self.value("document.activeElement.blur()")
            self.browser.key("?")
            self.assertTrue(self.value("document.querySelector('#help').open"))
            self.assertIn(
                "step the core whose turn it is; let a tick pass", self.browser.text("#help")
            )
            self.browser.key("k")
            self.browser.key("Escape")
            self.assertFalse(self.value("document.querySelector('#help').open"))
            self.at(0)

    def test_a_line_that_is_typed(self) -> None:
        with web_room() as room, session(room, "left"):
            self.visit(room)
            self.browser.key("l")
            for line, said in (
                ("step 1", "web: step 1 -> ok at 1, producer 0 data 41"),
                ("show queue jobs", "show queue jobs -> queue jobs 0/1 items - recv -"),
                (
                    "show queue job",
                    "show queue job -> no NoSuch: queue 'job' is not defined (did you mean 'jobs'?)",
                ),
                ("stepp 1", "stepp 1 -> no Syntax: "),
                ("back 7", "back 7 -> no TooFar 1: only 1 move can be undone; `goto 0`"),
                ("# say <b>hello</b>", "web says: <b>hello</b>"),
                ("# none", "no: unknown request; a line that begins with #"),
            ):
                self.browser.call("Input.insertText", text=line)
                self.browser.key("Enter")
                self.said(said)
            self.assertEqual(0, self.value("document.querySelectorAll('#talk b').length"))
            for _ in range(7):
                self.browser.key("ArrowUp")
            self.assertEqual("step 1", self.value("document.querySelector('#line').value"))
            refused = self.browser.texts("#talk .refused")
            self.assertEqual(4, len(refused), refused)
            self.at(1)

    def test_watches(self) -> None:
        with web_room() as room, session(room, "left") as left:
            self.visit(room)
            self.fill("#goal", "count jobs > 0")
            self.click("#watch")
            watch = "document.querySelector('#watches').textContent"
            self.browser.until(f"{watch}.startsWith('w0 count jobs > 0: fails')")
            left.tell("until count jobs > 0 50")
            self.browser.until(f"{watch}.startsWith('w0 count jobs > 0: holds')")
            self.fill("#goal", "w0")
            self.click("#back-until")
            self.said("web: back until w0 -> ok at 0 start")
            self.browser.until(f"{watch}.startsWith('w0 count jobs > 0: fails')")
            self.visit(room)
            self.browser.until(f"{watch}.startsWith('w0 count jobs > 0: fails')")
            self.click("#watches button")
            self.browser.until(f"{watch} === ''")

    def test_names(self) -> None:
        with web_room() as room, session(room, "left"):
            self.visit(room)
            self.fill("#name", "left")
            self.browser.key("Enter")
            self.said("rename left -> left is already here")
            self.fill("#name", "ada")
            self.browser.key("Enter")
            self.browser.until("document.querySelector('#people').textContent.includes('ada')")
            self.visit(room)
            self.browser.until("document.querySelector('#people').textContent.includes('ada')")
            self.assertEqual(
                ["left (session 1)", "ada (session 2), you"], self.browser.texts("#people li")
            )

    def test_light_and_dark(self) -> None:
        with web_room() as room, session(room, "left") as left:
            self.visit(room)
            left.tell("forward 9")
            self.at(9)
            paper = "getComputedStyle(document.body).backgroundColor"
            self.browser.scheme("light")
            light = self.value(paper)
            self.browser.scheme("dark")
            self.assertNotEqual(light, self.value(paper))
            self.browser.key("t")
            self.assertEqual(light, self.value(paper))
            self.browser.scheme("light")


if __name__ == "__main__":
    unittest.main()
