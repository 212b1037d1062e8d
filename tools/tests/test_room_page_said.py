"""The page of a room: what was said before it came, files, breakpoints, and the file read anew."""
import shutil
import unittest
from typing import List

from tests.rooms import LOST
from tests.web_rooms import OnPage, session, web_room


class Said(OnPage):
    """The talk, and what is fetched as files."""

    def test_who_comes_late_has_the_talk(self) -> None:
        with web_room() as room, session(room, "ada") as ada, session(room, "bo") as bo:
            heard: List[str] = []
            bo.on_notice = heard.append
            ada.tell("step 1")
            ada.remark("# say that was the producer")
            ada.remark("# to bo: a secret")
            self.visit(room)
            self.said("ada: step 1 -> ok at 1, producer 0 data 41")
            self.said("ada says: that was the producer")
            self.assertNotIn("secret", self.browser.text("#talk"))
            self.assertRegex(self.browser.text("#talk time"), r"^\d\d:\d\d$")
            self.browser.until("document.querySelector('#whom').options.length === 3")
            self.value("document.querySelector('#whom').value = 'bo'")
            self.fill("#words", "and now?")
            self.browser.key("Enter")
            self.said("web to bo: and now?")
            bo.tell("show moves")
            self.assertIn("# web to you: and now?", heard)
            moves, talk = self.saved()
            self.assertEqual("step 1\n", moves)
            self.assertRegex(talk, r"(?m)^\d{4}-\S+Z\tada says: that was the producer$")

    def test_breakpoints_in_the_script(self) -> None:
        with web_room() as room:
            self.visit(room)
            self.value("document.querySelector('#script-of').value = '0'")
            self.value("document.querySelector('#script-of').dispatchEvent(new Event('change'))")
            self.browser.settle()
            watched = "[...document.querySelectorAll('#script .watched')].length"
            self.click("#script tbody tr:nth-child(2)")
            self.said("web: watch pc worker = 1 -> ok watch 0")
            self.browser.until(f"{watched} === 1")
            self.fill("#line", "continue")
            self.browser.key("Enter")
            self.said(" met: w0, pc worker = 1 (")
            self.click("#script tbody tr.watched")
            self.browser.until(f"{watched} === 0")

    def test_the_file_read_anew(self) -> None:
        path = self.folder / "app.json"
        shutil.copy(LOST, path)
        with web_room(str(path)) as room:
            self.visit(room)
            self.control_by_keys()
            self.browser.key("1")
            self.at(1)
            self.click("#reload")
            self.said("no: reloading the file needs the wheel: `wheel take`")
            self.browser.key("h")
            self.wheel("You have")
            path.write_text(path.read_text().replace('"poller"', '"polls"'))
            self.click("#reload")
            self.browser.until("document.querySelector('#tasks')?.textContent.includes('polls')")
            self.at(1)
            self.said("web reloaded the file: all 1 moves are the same with the new")
            self.wheel("You have")


if __name__ == "__main__":
    unittest.main()
