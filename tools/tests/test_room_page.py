"""The page of a room, in a browser, with sessions beside it: they move and the page moves, it moves
and they are told."""
import unittest
from typing import List

from tests.web_rooms import OnPage, session, web_room


class Moving(OnPage):
    """What others do moves the page, and what is done on it moves the target."""

    def test_others_move(self) -> None:
        with web_room() as room, session(room, "left") as left, session(room, "right") as right:
            self.visit(room)
            self.at(0)
            self.assertEqual("ok at 1", left.tell("step 1"))
            self.at(1)
            self.said("left: step 1 -> ok at 1, producer 0 data 41")
            self.assertTrue(
                self.browser.text("#readout").startswith("1: core 1: producer 0 data 41")
            )
            self.assertEqual("ok at 6 met", right.tell("until count jobs > 0 50"))
            self.at(6)
            self.assertEqual("1/1", self.rows("#objects")[0][1])
            self.assertEqual(6, len(self.rows("#moves")))
            right.tell("back 4")
            self.at(2)
            self.assertIn("4 moves undone", self.browser.text("#about"))
            self.assertEqual("6", self.value("document.querySelector('#slider').max"))
            left.tell("tick")
            self.at(3)
            self.assertEqual("3", self.value("document.querySelector('#slider').max"))
            self.assertNotIn("undone", self.browser.text("#about"))
            self.assertIn("closed", room.end_well())

    def test_the_page_moves(self) -> None:
        with web_room() as room, session(room, "left") as left:
            heard: List[str] = []
            left.on_notice = heard.append
            self.visit(room)
            self.click("#steps button:nth-child(2)")
            self.at(1)
            self.click("#tick")
            self.at(2)
            self.fill("#count", "4")
            self.click("#do-forward")
            self.at(6)
            self.click("#do-back")
            self.at(2)
            self.fill("#count", "2")
            self.click("#do-redo")
            self.at(4)
            self.fill("#goal", "tick > 3")
            self.click("#do-until")
            self.browser.until(
                "document.querySelector('#state-title').textContent.includes('tick 4')"
            )
            self.click("#back-until")
            self.said("web: back until tick > 3 -> ok at 0 start")
            self.at(0)
            self.click("#do-redo")
            self.at(2)
            self.fill("#keep", "1")
            self.click("#do-trim")
            self.said("web: trim 1 -> ok at 2")
            self.assertTrue(left.tell("show moves").startswith("moves 2 undone"))
            told = " | ".join(heard)
            for line in ("step 1 -> ok at 1", "tick -> ok at 2", "forward 4 -> ok at 6", "back 4"):
                self.assertIn(f"# web: {line}", told)


class Lines(OnPage):
    """An application in lines."""

    def test_its_script_has_its_lines(self) -> None:
        path = self.folder / "app.fw"
        path.write_text(
            "cores 1\nqueue q length 1 item 1\n\ntask one priority 1\nagain:\n"
            "    send(q, portMAX_DELAY);\n    jump again\n"
        )
        with web_room(str(path)) as room:
            self.visit(room)
            self.assertEqual("app.fw (room)", self.value("document.title"))
            self.assertEqual(
                ["step 0: one 0 send(q, portMAX_DELAY)"], self.browser.texts("#steps button")
            )
            self.control_by_keys()
            self.browser.key("s")
            self.at(1)
            self.assertEqual(["->", "1", "7", "jump again", ""], self.rows("#script")[1])


class Wheel(OnPage):
    """Who has the wheel."""

    def test_refused_asked_for_and_given(self) -> None:
        with web_room() as room, session(room, "left") as left:
            heard: List[str] = []
            left.on_notice = heard.append
            self.visit(room)
            left.tell("wheel take")
            self.wheel("left has")
            self.click("#tick")
            self.said("tick -> no Held 1: left has the wheel")
            self.at(0)
            self.click("#wish")
            self.said("web asks for the wheel")
            left.tell("wheel give")
            self.assertIn("# web asks for the wheel", heard)
            self.wheel("The wheel is free")
            self.click("#take")
            self.wheel("You have")
            self.assertEqual("no Held 2", left.tell("step 0"))
            self.click("#tick")
            self.at(1)
            self.click("#give")
            self.wheel("The wheel is free")
            self.assertEqual("ok at 2", left.tell("step 0"))


if __name__ == "__main__":
    unittest.main()
