"""`bench/note`: which rows become of what the scripts of bench/ print."""
import pathlib
import subprocess
import sys
import tempfile
import unittest
from typing import List, Sequence

from tests.paths import TOP

SEARCH = """\
bench/plant.json: 10 tasks, a key of 183 bytes, counted 247 a state, 4,944 instructions a move, \
5,247 by what matters
   1,000,000 states    2,520,557 moves to a depth of    73 in    2.81 s:   355,575 states and   \
896,246 moves a second,  247 bytes a state
uart: never, 4,232 states and 12,696 moves to a depth of 211 in 0.007 s
start: 1.1 ms, the middle of 20 1.2 ms
"""
ROWS_OF_SEARCH = [
    ("any", "search plant key", "183", "bytes"),
    ("any", "search plant tasks", "10", "tasks"),
    ("callgrind, unproved", "search plant move", "4944", "instructions"),
    ("callgrind, unproved", "search plant class move", "5247", "instructions"),
    ("any", "search plant 1000000 moves", "2520557", "moves"),
    ("fast, unproved", "search plant 1000000 states", "355575", "a second"),
    ("fast, unproved", "search plant 1000000 moved", "896246", "a second"),
    ("any", "search plant 1000000 state", "247", "bytes"),
    ("any", "whole uart states", "4232", "states"),
    ("any", "whole uart moves", "12696", "moves"),
    ("fast, unproved", "whole uart", "0.007", "seconds"),
]
MOVES = """\
examples/turns.json:
  forward      47,100,000 moves a second    386 instructions a move
"""
LINES = """\
examples/turns.json: 99840 lines in 0.020 s, 5,000,000 lines a second, peak memory 12.0 MiB; \
an entry takes 63 bytes, a kept move 20
bench/wide.json: 99840 lines in 0.025 s, 4,000,000 lines a second, peak memory 12.0 MiB; \
an entry takes 74 bytes, a kept move 32
"""
GATE = """\
.ci/run: 3120 seconds, of processors 5700 and 240 in the kernel, for: env RT_JOBS=4 rt ci
.ci/run: 200 seconds, of processors 450 and 60 in the kernel, for: ci/companions a b
.ci/run: 3400 seconds in all, status 0
"""
TRIMS = """\
1,000,000 moves, all records kept: 32.6 MiB
1,000,000 moves, trim 20000 in turn: 4.0 MiB
trim 10000 behind 40000 moves: 112,000 instructions, 11.2 a record
"""


class Noted(unittest.TestCase):
    """In a repository of its own, of one commit."""

    def setUp(self) -> None:
        folder = tempfile.TemporaryDirectory()
        self.addCleanup(folder.cleanup)
        self.top = pathlib.Path(folder.name)
        (self.top / "bench").mkdir()
        self.script = self.top / "bench/note"
        self.script.write_bytes((TOP / "bench/note").read_bytes())
        self.results = self.top / "bench/results.tsv"
        self.results.write_text("commit\tmachine\twhat\tfigure\tunit\n")
        by = ["-c", "user.name=a", "-c", "user.email=a@b"]
        for words in (["init", "-q"], [*by, "commit", "-q", "--allow-empty", "-m", "one"]):
            subprocess.run(["git", *words], cwd=self.top, check=True)

    def rows(self, printed: str, *words: str) -> List[List[str]]:
        """What is added where this was printed; it is passed on."""
        ran = subprocess.run(
            [sys.executable, "-B", str(self.script), *words],
            input=printed,
            stdout=subprocess.PIPE,
            stderr=subprocess.PIPE,
            universal_newlines=True,
            check=True,
        )
        self.assertEqual(printed, ran.stdout)
        added = [line.split("\t") for line in self.results.read_text().splitlines()[1:]]
        self.assertEqual(f"bench/note: {len(added)} rows added\n", ran.stderr)
        return added

    def check(self, printed: str, machine: str, *wanted: Sequence[str]) -> None:
        """Whether these rows are added, each behind the commit."""
        rows = self.rows(printed, machine)
        self.assertEqual([*wanted], [tuple(row[1:]) for row in rows])
        self.assertEqual({8}, {len(row[0]) for row in rows})

    def test_a_search(self) -> None:
        self.check(SEARCH, "fast, unproved", *ROWS_OF_SEARCH)

    def test_moves(self) -> None:
        self.check(
            MOVES,
            "fast",
            ("fast", "forward turns", "47.1", "million a second"),
            ("callgrind", "forward turns", "386", "instructions"),
        )

    def test_lines(self) -> None:
        self.check(
            LINES,
            "fast",
            ("fast", "line turns", "5", "million a second"),
            ("fast", "line wide", "4", "million a second"),
            ("any", "entry least", "63", "bytes"),
            ("any", "entry most", "74", "bytes"),
        )

    def test_trims(self) -> None:
        self.check(
            TRIMS,
            "fast",
            ("any", "peak of a million moves", "32.6", "MiB"),
            ("any", "peak of a million moves trimmed", "4", "MiB"),
            ("callgrind", "trim", "11.2", "instructions a record"),
        )

    def test_the_gate(self) -> None:
        self.check(
            GATE,
            "fast",
            ("fast", "rt ci", "52", "minutes by the clock"),
            ("fast", "rt ci", "95", "processor minutes"),
            ("fast", "ci/companions", "7.5", "processor minutes"),
        )

    def test_what_says_no_figure(self) -> None:
        self.assertEqual([], self.rows("hello\n\nstart: soon\n", "fast"))


if __name__ == "__main__":
    unittest.main()
