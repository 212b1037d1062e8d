"""Edits and interrupts on the page of a room, one of each kind."""
import unittest
from typing import Sequence

from tests.web_rooms import OnPage, session, web_room

# An application with an object of each kind that has an edit.
ALL_KINDS = """
profile 2
cores 1
queue jobs length 2 item 1
stream uart size 8 trigger 1
group flags

task one priority 1
    data 0x41 0x42
    send(jobs, 0);
    swrite uart 0
    jump 0
"""
# The kinds of edits and interrupts on the page, the words that are typed for each, and its line.
EDITS = (
    ("register of a task", ["3", "7"], "poke reg one 3 7"),
    ("data of a task", ["4344"], "poke data one 4344"),
    ("pc of a task", ["1"], "poke pc one 1"),
    ("notification value", ["0", "5"], "poke note one 0 5"),
    ("bits of a group", ["6"], "poke group flags 6"),
    ("item of a queue", ["0", "99"], "poke item jobs 0 99"),
    ("byte of a stream", ["0", "255"], "poke byte uart 0 255"),
)
INTERRUPTS = (
    ("send to a queue", ["77"], "isr send jobs 77"),
    ("notify a task", ["0", "9"], "isr notify one 0 9 none"),
)


class ByHand(OnPage):
    """Edits and interrupts."""

    def choose(self, form: str, kind: str, words: Sequence[str]) -> None:
        """Chooses a kind, fills its fields and presses its button."""
        choice = f"document.querySelector('{form} select')"
        self.value(f"{choice}.value = {kind!r}; {choice}.dispatchEvent(new Event('change'))")
        for at, word in enumerate(words):
            self.value(f"document.querySelectorAll('{form} input')[{at}].value = {word!r}")
        self.click(f"{form} button")

    def test_each_kind(self) -> None:
        path = self.folder / "kinds.fw"
        path.write_text(ALL_KINDS)
        with web_room(str(path)) as room, session(room, "left") as left:
            self.visit(room)
            self.assertEqual("ok at 3", left.tell("forward 3"))
            left.tell("step 0")
            place = int(left.tell("show moves").split()[1])
            for form, kinds in (("#edit", EDITS), ("#interrupt", INTERRUPTS)):
                offered = f"[...document.querySelector('{form} select').options]"
                texts = self.value(f"{offered}.map((it) => it.textContent)")
                self.assertEqual([kind for kind, _, _ in kinds], texts)
                for kind, words, line in kinds:
                    self.choose(form, kind, words)
                    place += 1
                    self.said(f"web: {line} -> ok at {place}")
                    self.at(place)
                    self.assertIn(line, self.browser.text("#readout"))
                    if line == "poke reg one 3 7":
                        self.assertIn("r3=7", self.browser.text("#tasks"))


if __name__ == "__main__":
    unittest.main()
