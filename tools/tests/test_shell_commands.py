"""The table of commands reads what the program reads, and nothing else."""
import random
import unittest
from typing import List

from rdbg import commands
from rdbg.client import Session
from tests.paths import EXAMPLES

LINES = 3_000
# For each symbol some words that can stand there, and some that can't.
WORDS = {
    "C": ["0", "1", "0000000001", "00000000001", "4294967295", "4294967296", "-1", "x"],
    "COUNT": ["1", "2", "0", "1000001", "0000000007", "00000000007", "+1"],
    "N": ["0", "4294967295", "4294967296", "12345678901", "a"],
    "R": ["0", "8", "r0"],
    "I": ["0", "4"],
    "HEX": ["-", "0", "aAbB", "zz", "ab" * 256, "ab" * 257],
    "OP": ["=", "<", ">", ">=", "=="],
    "WORD": [*commands.PHASES, "Run", "waits"],
    "wN": ["w0", "w15", "w16", "w00", "w", "w0000000001", "w00000000001", "W0"],
    **{symbol: ["q0", "t0", "a_b", "A", "1a", "a" * 16, "a" * 17, "a-b"] for symbol in "KQSBMG"},
}


def line(chance: random.Random) -> str:
    """A line that is a command, or nearly one."""
    symbols = chance.choice(commands.SHAPES).symbols
    words = [chance.choice(WORDS[it]) if it in WORDS else it for it in symbols]
    kind = chance.random()
    if kind < 0.1:
        words.insert(chance.randrange(len(words) + 1), chance.choice(["0", "q0", "", "x", "\t"]))
    elif kind < 0.2:
        words.pop(chance.randrange(len(words)))
    found = chance.choice([" ", " ", " ", "  "]).join(words)
    changed = {0: f" {found} ", 1: f"{found}\r", 2: f"{found}\r\r", 3: found.upper()}
    return changed.get(chance.randrange(20), found)


class Reading(unittest.TestCase):
    """Lines as the program reads them."""

    def test_lines_of_the_examples(self) -> None:
        for file in EXAMPLES.glob("*.commands"):
            for text in file.read_text().splitlines():
                self.assertIsNotNone(commands.read(text), text)

    def test_syntax_is_the_program_s(self) -> None:
        chance = random.Random(7)
        lines: List[str] = [line(chance) for _ in range(LINES)]
        with Session.run(more=["--history", "100000"]) as session:
            for text, reply in zip(lines, session.tell_all(lines)):
                self.assertEqual(commands.read(text) is None, reply == "no Syntax", text)

    def test_parts(self) -> None:
        command = commands.read("until reg t0 1 > 5 30")
        assert command is not None
        self.assertEqual(command.condition_words(), ("reg", "t0", "1", ">", "5"))
        self.assertEqual(command.count(), 30)
        watch = commands.read("back until w3")
        assert watch is not None
        self.assertEqual((watch.condition_words(), watch.count()), (("w3",), None))

    def test_following(self) -> None:
        self.assertEqual(commands.following(["wheel"]), ["take", "give"])
        self.assertEqual(commands.following(["until", "count", "jobs"]), ["OP"])
        self.assertEqual(commands.following(["tick"]), [""])
        self.assertEqual(commands.following(["tick", "now"]), [])


if __name__ == "__main__":
    unittest.main()
