"""The lines that docs/reference/calls.md lists are those that are read."""
import unittest

from rdbg.firmware.objects import OBJECTS, SETTINGS, form_of
from rdbg.firmware.semaphores import FORMS
from tests.tables import codes, rows, section

OTHERS = {"const NAME N", "#define NAME N", "LABEL:", "WORD OPERAND ..", "WORD(OPERAND, ..)"}
OTHERS |= {"loop", "while TEST", "if TEST", "else", "end", "break", "continue", "end task"}
OTHERS |= {"semaphore NAME", "mutex NAME", "task NAME[N] priority N"}
OTHERS |= {FORMS["semaphore"], "take NAME T", "give NAME", "count NAME"}
OTHERS |= {"interrupt NAME: CALL; CALL", "wait T", "wait M..N"}
OTHERS |= {"if TEST goto LABEL", "if TEST break", "if TEST continue"}


class Lines(unittest.TestCase):
    """docs/reference/calls.md and `rdbg.firmware.objects`."""

    def test_forms(self) -> None:
        """Each line of the table is known by its words."""
        text = section("reference/calls.md", "Lines")
        written = {code for row in rows(text, "| Line | What it says |") for code in codes(row[:1])}
        self.assertEqual(OTHERS | {form_of(word) for word in (*OBJECTS, *SETTINGS)}, written)


if __name__ == "__main__":
    unittest.main()
