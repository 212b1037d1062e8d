"""The tables of instructions and of commands are those of the documents."""
import re
import unittest
from typing import Set

from rdbg import commands, instructions
from rdbg.checking import freertos
from tests.paths import DOCS, TOP
from tests.tables import codes, rows, section

CALLS = "| FreeRTOS | Instruction | r0 |"
LINES = ("| Line | What it does |", "| Line | What changes |", "| Line | What it shows |")
LINED = ("Moves", "Long runs", "Edits", "Interrupts", "Views", "Watches and the wheel")
INTERRUPTS = "| FreeRTOS | Command | Answer |"
OBJECTS = ("Queues and queue sets", "Stream buffers and message buffers", "Notifications")


def line_of(form: str) -> str:
    """A line of a form of interrupts."""
    words = {"Q": "q0", "K": "t0", "I": "0", "N": "1", "HEX": "41", "ACTION": "set"}
    return " ".join(words.get(word, word) for word in form.split())


FIRST_TUTORIAL = "tutorials/first-fault.md"
LINK = re.compile(r"\]\((?:docs/)?([\w/.-]+\.md)[^)]*\)")


class First(unittest.TestCase):
    """The first tutorial."""

    def test_it_comes_first(self) -> None:
        for page in (TOP / "README.md", DOCS / "README.md"):
            self.assertEqual(FIRST_TUTORIAL, LINK.findall(page.read_text())[0], page)


class Calls(unittest.TestCase):
    """docs/reference/calls.md and `rdbg.instructions`."""

    def test_forms(self) -> None:
        written: Set[str] = set()
        for title in (*OBJECTS, "Event groups"):
            for row in rows(section("reference/calls.md", title), CALLS):
                written |= {it for it in codes(row[1:2]) if re.match(r"[a-z]+( [A-Z]|$)", it)}
        own = section("reference/calls.md", "A task's own instructions")
        for row in rows(own, "| Instruction | What it does |"):
            written |= codes(row[:1])
        # (`notify K 0 ..` shows how the calls without an index are written)
        shown = {text for text in written if " 0 " in text} | {"clear", "dec", "setif"}
        forms = {text for form in instructions.FORMS for text in form.texts()}
        self.assertEqual(written - shown, forms)

    def test_names(self) -> None:
        for title in (*OBJECTS, "Event groups"):
            for call, form, *_ in rows(section("reference/calls.md", title), CALLS):
                found = instructions.form_of(form.strip("`").split()[0].strip("`,"))
                assert found is not None, form
                if " 0 " not in form:
                    self.assertEqual(codes([call]), set(found.freertos))


class Commands(unittest.TestCase):
    """docs/COMMANDS.md and `rdbg.commands`."""

    def test_forms(self) -> None:
        written: Set[str] = set()
        for title in LINED:
            for head in LINES:
                for row in rows(section("COMMANDS.md", title), head):
                    written |= codes(row[:1])
        self.assertEqual(written, {form.text for form in commands.FORMS})

    def test_interrupts(self) -> None:
        table = rows(section("reference/calls.md", "Calls from an interrupt"), INTERRUPTS)
        forms = {form.text for form in commands.FORMS if form.word == "isr"}
        self.assertLessEqual(forms, codes([form for _, form, _ in table]))
        for calls, form, _ in table:
            for name in codes([calls]):
                said = freertos.sentence(name)
                assert said is not None, name
                self.assertIn(f"'{name}' is not an instruction", said)
                self.assertIn(f"use the command {form.split('`')[1]} in profile 2", said)
                found = commands.read(line_of(form.split("`")[1]))
                self.assertIsNotNone(found, form)

    def test_conditions(self) -> None:
        written: Set[str] = set()
        for row in rows(section("COMMANDS.md", "Conditions"), "| COND | What is looked at |"):
            written |= codes(row[:1])
        self.assertEqual(written, {form.text for form in commands.CONDITIONS})


if __name__ == "__main__":
    unittest.main()
