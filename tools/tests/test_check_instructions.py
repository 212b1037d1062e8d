"""The table of instructions, and its reader, which takes what has their forms."""
import re
import unittest
from typing import Dict, List, Set

from rdbg.checking.freertos import BY_NAME, sentence
from rdbg.instructions import FINAL, FORM_OF, FORMS, form_of
from rdbg.operands import KINDS, NAMED, Scope
from rdbg.checking.reading import read
from rdbg.tree import Node, Place
from tests.paths import DOCS
from tests.tables import rows, section

OWN = "| Instruction | What it does |"

NAMES: Dict[str, List[str]] = {
    "Q": ["jobs"],
    "S": ["inputs"],
    "B": ["rx"],
    "M": ["orders"],
    "G": ["g0"],
    "K": ["worker"],
}
SCOPE = Scope(NAMES, entries=2, length=5)
RIGHT = {
    "R": "r7",
    "N": "4294967295",
    "V": "r0",
    "T": "max",
    "L": "4",
    "I": "1",
    "ROOM": "256",
    "HEX": "0aFf",
    "ACTION": "setif",
    "WISH": "any",
    "CLR": "keep",
    "clear|dec": "dec",
    **{symbol: names[0] for symbol, names in NAMES.items()},
}
WRONG = {
    "R": ("r8", "R1", "0"),
    "N": ("4294967296", "-1", "r0", "00000000001"),
    "V": ("r8", "max"),
    "T": ("MAX", "4294967296"),
    "L": ("5", "r0"),
    "I": ("2", "r0"),
    "ROOM": ("0", "257", "r0"),
    "HEX": ("0", "0x", "00" * 257, "--"),
    "ACTION": ("incr", "INC"),
    "WISH": ("both",),
    "CLR": ("dec",),
    "clear|dec": ("keep",),
    **{symbol: ("Jobs", "1st", "a_name_of_17_abcd", "a-b") for symbol in NAMED},
}


def freertos_names() -> Dict[str, Set[str]]:
    """The names of FreeRTOS for each word, in docs/reference/calls.md."""
    lines = (DOCS / "reference/calls.md").read_text().partition("\n## Calls from an interrupt\n")
    own = section("reference/calls.md", "A task's own instructions")
    names: Dict[str, Set[str]] = {row[0].strip("`").split()[0]: set() for row in rows(own, OWN)}
    for line in lines[0].splitlines():
        found = re.match(r"\| (`\w+`.*?) \| `(\w+)([^`]*)`", line)
        # (a call without an index is written with the index 0)
        if found and " 0 " not in found[3]:
            names[found[2]] = set(re.findall(r"`(\w+)`", found[1]))
    return names


def faults(text: str) -> List[str]:
    """What the reader finds at an instruction."""
    return [fault.message for fault in read(Node(text, Place(1, 1)), SCOPE).faults]


class Table(unittest.TestCase):
    """The table of instructions."""

    def test_has_the_names_of_the_page(self) -> None:
        names = freertos_names()
        self.assertEqual({form.word for form in FORMS}, set(names))
        for form in FORMS:
            if form.freertos != ("vTaskDelete",):
                self.assertEqual(names[form.word], set(form.freertos), form.text)

    def test_each_form_says_what_it_does_and_answers_and_what_its_operands_are(self) -> None:
        symbols = {kind.symbol for kind in KINDS}
        for form in FORMS:
            self.assertTrue(form.does and form.answer, form.text)
            self.assertEqual(len(form.symbols), len(form.nouns), form.text)
            self.assertTrue(symbols.issuperset(form.symbols), form.text)

    def test_is_found_by_words_and_by_names(self) -> None:
        self.assertEqual("recv Q T", FORM_OF["recv"].text)
        self.assertIsNone(form_of("RECV"))
        self.assertEqual(("take I clear T", "take I dec T"), FORM_OF["take"].texts())
        self.assertEqual("recv Q T", BY_NAME["xqueuereceive"])
        self.assertEqual(["end", "jump"], sorted(it.word for it in FORMS if it.word in FINAL))

    def test_what_is_no_name_of_freertos_has_no_sentence(self) -> None:
        self.assertEqual([None] * 3, [sentence(word) for word in ("recv", "jobs", "-")])


class Reading(unittest.TestCase):
    """The reader over the table."""

    def test_takes_each_form_with_right_operands(self) -> None:
        for form in FORMS:
            text = " ".join([form.word, *(RIGHT[symbol] for symbol in form.symbols)])
            reading = read(Node(f"  {text}  ", Place(1, 1)), SCOPE)
            self.assertEqual((form, ()), (reading.form, reading.faults), text)
            self.assertEqual(text.split()[1:], [operand.word for operand in reading.operands])
            self.assertEqual(form.symbols, tuple(operand.symbol for operand in reading.operands))

    def test_refuses_each_operand_of_another_form(self) -> None:
        for form in FORMS:
            for at, symbol in enumerate(form.symbols):
                for wrong in WRONG[symbol]:
                    words = [form.word, *(RIGHT[other] for other in form.symbols)]
                    words[at + 1] = wrong
                    self.assertEqual(1, len(faults(" ".join(words))), words)

    def test_refuses_each_form_with_a_word_less_or_more(self) -> None:
        for form in FORMS:
            words = [form.word, *(RIGHT[symbol] for symbol in form.symbols)]
            self.assertEqual(1, len(faults(" ".join([*words, "r0"]))), words)
            for at in range(1, len(words)):
                found = faults(" ".join(words[:at] + words[at + 1 :]))
                self.assertTrue(found and ": missing " in found[0], found)

    def test_says_which_operand_is_missing(self) -> None:
        cases = {
            "recv jobs": "block time",
            "recv max": "queue",
            "gwait g0 3 clear 10": "wish",
            "gwait g0 3 any 10": "word for clearing",
            "notify worker 0 inc": "value that is sent",
            "jumpz 4": "register",
        }
        for text, noun in cases.items():
            self.assertIn(f": missing {noun} (", faults(text)[0])

    def test_says_which_word_is_one_too_many(self) -> None:
        cases = {"recv jobs now 10": "now", "set r1 r8 5": "r8", "end end": "end"}
        for text, word in cases.items():
            self.assertTrue(faults(text)[0].endswith(f": unexpected word '{word}'"), faults(text))

    def test_operands_have_places(self) -> None:
        reading = read(Node("recv jobs 10", Place(3, 5), (6, 11, 16)), SCOPE)
        self.assertEqual([Place(3, 11), Place(3, 16)], [it.place for it in reading.operands])

    def test_numbers_that_only_break_a_limit_are_no_matter_of_order(self) -> None:
        self.assertIn("must be 0 to 1, found '2'", faults("vclear worker 2 1")[0])


if __name__ == "__main__":
    unittest.main()
