"""From JSON to lines and back: the same application, laid out to be read."""
import concurrent.futures
import functools
import json
import os
import pathlib
import random
import re
import subprocess
import tempfile
import unittest
from typing import Any, List, Tuple

from rdbg.application import Application
from rdbg.client import program
from rdbg.json_layout import WIDTH, json_of
from rdbg.firmware.writer import text_of
from rdbg.instructions import FORM_OF, FORMS
from rdbg.operands import NAMED
from rdbg.files.source import source
from rdbg.tree import MOST_BYTES
from tests.broken import sources
from tests.made import Maker
from tests.paths import EXAMPLES

SEEDS = range(100)
# So many of them are given to the program, too.
RUN = 20


def accepted(name: str, content: bytes) -> Application:
    """The application of a content without faults."""
    found = source(name, content)
    assert found.application is not None, [str(fault) for fault in found.faults]
    return found.application


@functools.lru_cache(maxsize=None)
def of_seed(seed: int) -> Tuple[str, str]:
    """The same of an application that was made at random."""
    return back_and_made(Maker(seed).application())


def back_and_made(values: Any) -> Tuple[str, str]:
    """The text in lines of an application, and the JSON that is made of that."""
    text = text_of(accepted("x.json", json.dumps(values).encode()))
    return text, json_of(accepted("x.fw", text.encode()))


class Examples(unittest.TestCase):
    """The applications of the repository."""

    def test_back_and_made_is_the_same(self) -> None:
        for path in sources():
            with self.subTest(path.name):
                values = json.loads(path.read_text())
                self.assertEqual(values, json.loads(back_and_made(values)[1]))

    def test_their_sessions_are_as_before(self) -> None:
        with tempfile.TemporaryDirectory() as folder:
            for path in sorted(EXAMPLES.glob("*.json")):
                with self.subTest(path.name):
                    made = pathlib.Path(folder) / path.name
                    made.write_text(back_and_made(json.loads(path.read_text()))[1])
                    with path.with_suffix(".commands").open("rb") as commands:
                        words = [program(), "run", "--app", str(made)]
                        ran = subprocess.run(words, stdin=commands, stdout=subprocess.PIPE)
                    self.assertEqual(path.with_suffix(".replies").read_bytes(), ran.stdout)
                    self.assertEqual(0, ran.returncode)


class Random(unittest.TestCase):
    """Applications that were made at random."""

    def test_back_and_made_is_the_same(self) -> None:
        for seed in SEEDS:
            with self.subTest(seed):
                values = Maker(seed).application()
                self.assertEqual(values, json.loads(of_seed(seed)[1]))

    def test_each_instruction_is_among_them(self) -> None:
        tasks = (task for seed in SEEDS for task in Maker(seed).application()["tasks"])
        found = {text.split()[0] for task in tasks for text in task["code"]}
        self.assertEqual({form.word for form in FORMS}, found)

    def test_the_program_accepts_them(self) -> None:
        def status(path: pathlib.Path) -> int:
            words = [program(), "run", "--app", str(path)]
            return subprocess.run(words, stdin=subprocess.DEVNULL).returncode

        with tempfile.TemporaryDirectory() as folder:
            paths = [pathlib.Path(folder) / f"{seed}.json" for seed in SEEDS[:RUN]]
            for seed, path in zip(SEEDS, paths):
                path.write_text(of_seed(seed)[1])
            with concurrent.futures.ThreadPoolExecutor(os.cpu_count()) as threads:
                self.assertEqual([0] * RUN, list(threads.map(status, paths)))

    def test_a_name_that_is_wrong_is_found_where_it_stands(self) -> None:
        dice = random.Random(7)
        tried = 0
        for seed in SEEDS:
            lines = of_seed(seed)[0].split("\n")
            names = list(named_in(lines))
            if names:
                line, column, name = dice.choice(names)
                text = lines[line]
                lines[line] = f"{text[:column]}zzz{text[column + len(name):]} // wrong"
                found = source("x.fw", "\n".join(lines).encode()).faults
                places = [(it.place.line, it.place.column) for it in found]
                self.assertEqual([(line + 1, column + 1)], places, lines[line])
                tried += 1
        self.assertGreater(tried, 40)


def named_in(lines: List[str]) -> List[Tuple[int, int, str]]:
    """Each name in an instruction of a text in lines: its line and its column, counted from 0."""
    found: List[Tuple[int, int, str]] = []
    for number, line in enumerate(lines):
        words = [(it.start(), it[0]) for it in re.finditer(r"\S+", line)]
        form = FORM_OF.get(words[0][1]) if line.startswith("    ") else None
        for symbol, (column, word) in zip(form.symbols if form else (), words[1:]):
            if symbol in NAMED:
                found.append((number, column, word))
    return found


class Text(unittest.TestCase):
    """How the text is laid out."""

    def test_a_whole_one(self) -> None:
        values = {
            "profile": 1,
            "cores": 2,
            "notes": 2,
            "tick": 5,
            "queues": [
                {"name": "q", "length": 10, "item": 1},
                {"name": "alarms", "length": 1, "item": 16},
            ],
            "sets": [{"name": "s", "length": 4, "members": ["q", "alarms"]}],
            "streams": [{"name": "rx", "size": 64, "trigger": 8}],
            "messages": [{"name": "orders", "size": 128}],
            "groups": [{"name": "g"}],
            "tasks": [
                {"name": "a", "priority": 3, "code": [
                    "recv  q max", "jumpz r0 4", "data 0A", "jump 0", "end"]},
                {"name": "b", "priority": 0, "code": [
                    "add r1 4294967295", "set r1 4294967295", "recv q 007",
                    "gwait g 255 all keep r3",
                    "nwait 1 0 4294967295 5", "notify a 0 16 bits", "notify a 0 16 set", "data -",
                    "gsync g r1 3 max", "vclear a 1 10", "send q 4294967295", "end"]},
            ],
        }  # fmt: skip
        wanted = (
            "cores 2\nnotes 2\ntick 5\n\n"
            "queue   q      length 10 item 1\nqueue   alarms length 1  item 16\n"
            "set     s length 4 members q alarms\nstream  rx size 64 trigger 8\n"
            "message orders size 128\ngroup   g\n\n"
            "task a priority 3\nL0:\n    recv q portMAX_DELAY\n    jumpz r0 L4\n    data 0x0A\n"
            "    jump L0\nL4:\n    end\n\n"
            "task b priority 0\n    add r1 -1\n    set r1 4294967295\n    recv q 7\n"
            "    gwait g 0xff all keep r3\n    nwait 1 0 0xffffffff 5\n    notify a 0 0x10 bits\n"
            "    notify a 0 16 set\n    data -\n    gsync g r1 0x3 portMAX_DELAY\n"
            "    vclear a 1 0xa\n    send q 4294967295\n    end\n"
        )
        self.assertEqual(wanted, back_and_made(values)[0])

    def test_more_spaces_than_one(self) -> None:
        code = [" add  r0 1 ", "end"]
        tasks = [{"name": "t", "priority": 1, "code": code}]
        text = back_and_made({"profile": 1, "cores": 1, "tasks": tasks})[0]
        self.assertEqual("cores 1\n\ntask t priority 1\n    add r0 1\n    end\n", text)

    def test_a_profile_that_is_not_1(self) -> None:
        values = {
            "profile": 2,
            "cores": 16,
            "tasks": [{"name": "t", "priority": 1, "code": ["end"]}],
        }
        text, made = back_and_made(values)
        self.assertEqual("profile 2\ncores 16\n\ntask t priority 1\n    end\n", text)
        self.assertEqual(values, json.loads(made))

    def test_nothing_stands_at_the_end_of_a_line(self) -> None:
        for seed in SEEDS:
            text = of_seed(seed)[0]
            self.assertIsNone(re.search(r"[ \t]$", text, re.MULTILINE))
            self.assertTrue(text.endswith("\n") and not text.endswith("\n\n"))


class Json(unittest.TestCase):
    """How the JSON is laid out."""

    def test_as_the_examples_are(self) -> None:
        for name in ("lost_item", "lost_notification", "turns", "watching", "waiting_order"):
            self.assertEqual((EXAMPLES / f"{name}.json").read_text(), made_of(name))

    def test_long_lists_have_a_line_for_each(self) -> None:
        made = made_of("pipeline")
        self.assertIn('  "queues": [\n    {"name": "raw", "length": 1, "item": 2},\n', made)
        self.assertIn('"logger", "priority": 1, "code": [\n      "select inputs max",\n', made)
        self.assertIn('      "jump 0"\n    ]}\n  ]\n}\n', made)

    def test_lines_are_short(self) -> None:
        for seed in SEEDS:
            lines = of_seed(seed)[1].split("\n")
            lengths = [len(line) for line in lines if "members" not in line]
            self.assertLessEqual(max(lengths), WIDTH)

    def test_one_that_would_be_too_long_is_on_one_line(self) -> None:
        code = ["data " + "5a" * 250] * 255 + ["end"]
        tasks = [{"name": f"t{at}", "priority": 1, "code": code} for at in range(8)]
        values = {"profile": 1, "cores": 1, "tasks": tasks}
        made = json_of(accepted("x.json", json.dumps(values).encode()))
        self.assertEqual(1, made.count("\n"))
        self.assertEqual(values, json.loads(made))
        self.assertLess(len(made), MOST_BYTES)


def made_of(name: str) -> str:
    """What is made of an example's text."""
    return back_and_made(json.loads((EXAMPLES / f"{name}.json").read_text()))[1]


if __name__ == "__main__":
    unittest.main()
