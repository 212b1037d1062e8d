"""The engine of `rdreach`: questions as lines, an answer each."""
import json
import os
import pathlib
import subprocess
import tempfile
import unittest
from typing import Dict, Sequence, Tuple

from tests import searches
from tests.paths import EXAMPLES
from tests.reaching.engine import Ended, Engine, talk

MEETING = str(EXAMPLES / "meeting.json")
INTERRUPT = str(EXAMPLES / "interrupt.json")
# A queue has the name of an option, and another one is called as what none is said by.
NAMED = {
    "profile": 2,
    "cores": 1,
    "queues": [
        {"name": "times", "length": 2, "item": 1},
        {"name": "none", "length": 2, "item": 1},
    ],
    "tasks": [{"name": "after", "priority": 1, "code": ["recv times max", "jump 0"]}],
}
MOST = 1_000_000
# What is asked of goals.
ASKED = ("reach", "lost", "doomed")
BOUNDED = "no: what is lost or doomed is so for all orders: without --moves, --surprises and --part"
NO_LINE = (
    "no: a line begins with from, line, pace, surprises, moves, states, memory, exact, isr, reach,"
    " lost, doomed, help or quit; help says what stands behind"
)
LONG, NO_TEXT = "no: a line has at most 1000000 bytes", "no: a line is a text in UTF-8"
NO_CALL = "is no call of an interrupt: send Q HEX, or notify K I N ACTION; more calls of one"
# Lines that are wrong, each with how its refusal begins.
WRONG: Dict[str, str] = {
    "": NO_LINE,
    "show cores": NO_LINE,
    "Reach asleep": NO_LINE,
    "reachasleep": NO_LINE,
    "quit now": NO_LINE,
    "help pace": NO_LINE,
    "pace": "no: --pace: a pace is M..N, M.. or ..N",
    "pace 5": "no: --pace: a pace is M..N, M.. or ..N",
    "pace 7..6": "no: --pace: M is above N",
    "pace none none": "no: --pace: a pace is M..N, M.. or ..N",
    "surprises": "no: --surprises is a number, 0 to 255",
    "surprises 256": "no: --surprises is a number, 0 to 255",
    "moves 1000000001": "no: --moves is a number, 0 to 1000000000",
    "moves 5 6": "no: --moves is a number, 0 to 1000000000",
    "moves -1": "no: --moves is a number, 0 to 1000000000",
    "states 0": "no: --states is a number, 1 to 1000000000",
    "states 1000000001": "no: --states is a number, 1 to 1000000000",
    "memory 0": "no: --memory is a number, 1 to 1048576",
    "memory 1048577": "no: --memory is a number, 1 to 1048576",
    "exact": "no: exact is on or off",
    "exact none": "no: exact is on or off",
    "line": "no: line 2 is no command",
    "line stepp 0": "no: line 2 is no command",
    "line step 9": "no: line 2: there is no such core",
    "line back 2": "no: line 2: ",
    "from none.commands": "no: none.commands: cannot read command lines, a text of at most",
    f"from {MEETING}": f"no: {MEETING}: line 1 is no command",
    "isr": f"no: --isr: 'isr' {NO_CALL}",
    "isr tick": f"no: --isr: 'isr tick' {NO_CALL}",
    "isr send rx": f"no: --isr: 'isr send rx' {NO_CALL}",
    "isr send rx 41; times 3": f"no: --isr: 'isr times 3' {NO_CALL}",
    "isr send nowhere 41": "no: --isr: 'isr send nowhere 41' names a queue, a task or",
    "isr send rx 41 times 0": "no: --isr: --times is 1 to 255, or any",
    "isr send rx 41 times 256": "no: --isr: --times is 1 to 255, or any",
    "isr send rx 41 after 1": "no: --isr: --after is the number of an interrupt that was said",
    "isr send rx 41 after 0 times any": "no: --isr: an interrupt that follows another, or is",
    "isr send rx 41 apart 256": "no: --isr: --apart is 0 to 255 ticks",
    "isr send rx 41 times 1 times 2": "no: --isr: --times is said twice of one --isr",
    "isr send rx 41 apart 1 after 0 apart 1": "no: --isr: --apart is said twice of one --isr",
    "reach": "no: goal: it ends too early: a claim",
    "reach count qq = 2": "no: goal: word 2, 'qq': the name of a queue is wanted there",
    "reach (asleep": "no: goal: a parenthesis isn't closed",
}


def told(*lines: str) -> bytes:
    """These lines, as an engine is told them."""
    return "".join(f"{line}\n" for line in lines).encode()


class Real(unittest.TestCase):
    """Tests of the program, where they are told which it is."""

    def setUp(self) -> None:
        found = searches.real()
        if found is None or not os.access(found, os.X_OK):
            self.skipTest("RDBG_REACH doesn't say where it is")
        self.program = os.path.abspath(found)
        folder = tempfile.TemporaryDirectory()
        self.addCleanup(folder.cleanup)
        self.addCleanup(os.chdir, os.getcwd())
        os.chdir(folder.name)

    def talk(self, file: str, *lines: str, first: Sequence[str] = ()) -> Ended:
        """What comes of an engine of a file that is told these lines."""
        return talk([self.program, file, "--engine", *first], told(*lines))

    def answer(self, file: str, goal: str, *options: str) -> str:
        """What the program answers to one question."""
        ran = subprocess.run(
            [self.program, file, goal, *options], stdout=subprocess.PIPE, stderr=subprocess.PIPE
        )
        self.assertEqual(b"", ran.stderr)
        return ran.stdout.decode().rstrip("\n")


class Settings(Real):
    """What the lines change, and the answers, which are those that one question has."""

    def check(self, file: str, *turns: Tuple[str, Sequence[str]]) -> None:
        """That each goal is answered as by a program with these options, behind the lines
        before."""
        lines, wanted = [], []
        for line, options in turns:
            lines.append(line)
            word, _, goal = line.partition(" ")
            wanted.append(self.answer(file, goal, *options) if word in ASKED else "ok")
        self.assertEqual((wanted, "", 0), self.talk(file, *lines))

    def test_two_goals(self) -> None:
        self.check(
            MEETING,
            ("reach asleep", ()),
            ("reach at right 0 and (waits left or tick > 2)", ()),
            ("reach asleep", ()),
        )

    def test_bounds(self) -> None:
        bounds = ("--surprises", "1", "--moves", "9")
        self.check(
            MEETING,
            ("moves 9", ()),
            ("reach asleep", ("--moves", "9")),
            ("surprises 1", ()),
            ("reach asleep", bounds),
            ("states 20", ()),
            ("reach asleep", (*bounds, "--states", "20")),
            ("surprises none", ()),
            ("exact on", ()),
            ("reach asleep", ("--moves", "9", "--states", "20", "--exact")),
            ("exact off", ()),
            ("states 10000000", ()),
            ("memory 1", ()),
            ("reach asleep", ("--moves", "9", "--memory", "1")),
            ("moves none", ()),
            ("reach asleep", ("--memory", "1")),
        )

    def test_what_is_lost(self) -> None:
        self.check(
            MEETING,
            ("lost asleep", ("--lost",)),
            ("doomed at right 1", ("--doomed",)),
            ("pace 1..2", ()),
            ("doomed at right 1", ("--doomed", "--pace", "1..2")),
            ("reach asleep", ("--pace", "1..2")),
        )

    def test_what_is_lost_is_so_for_all_orders(self) -> None:
        for bound in ("moves 7", "surprises 0"):
            for word in ("lost", "doomed"):
                with self.subTest(bound, word=word):
                    ended = self.talk(MEETING, bound, f"{word} asleep")
                    self.assertEqual((["ok", BOUNDED], "", 0), ended)

    def test_pace(self) -> None:
        self.check(
            MEETING,
            ("moves 12", ()),
            ("pace 2..3", ()),
            ("reach tick = 3", ("--moves", "12", "--pace", "2..3")),
            ("pace ..1", ()),
            ("reach asleep", ("--moves", "12", "--pace", "..1")),
            ("pace none", ()),
            ("reach tick = 3", ("--moves", "12")),
        )

    def test_interrupts(self) -> None:
        bound, first = ("--moves", "6"), ("--isr", "send rx 41", "--times", "2")
        second = ("--isr", "notify worker 0 0 inc; send rx 07", "--after", "0", "--apart", "1")
        goal = "reach reg worker 1 = 1"
        self.check(
            INTERRUPT,
            ("moves 6", ()),
            (goal, bound),
            ("isr send rx 41 times 2", ()),
            (goal, (*bound, *first)),
            ("isr  notify  worker 0 0 inc;isr send rx 07  apart 1  after 0", ()),
            (goal, (*bound, *first, *second)),
            ("isr none", ()),
            (goal, bound),
            ("isr send rx 41 times any", ()),
            (goal, (*bound, "--isr", "send rx 41", "--times", "any")),
        )

    def test_names_that_options_have(self) -> None:
        pathlib.Path("named.json").write_text(json.dumps(NAMED))
        bound, goal = ("--moves", "5"), "reach count times = 2"
        first = ("--isr", "send times 41", "--times", "2")
        second = ("--isr", "notify after 0 1 set", "--apart", "1")
        self.check(
            "named.json",
            ("moves 5", ()),
            ("isr send times 41 times 2", ()),
            (goal, (*bound, *first)),
            ("isr notify after 0 1 set apart 1", ()),
            (goal, (*bound, *first, *second)),
            ("isr none", ()),
            ("isr isr send times 07", ()),
            (goal, (*bound, "--isr", "send times 07")),
            ("isr send none 07; send times 07", ()),
            (goal, (*bound, "--isr", "send times 07", "--isr", "send none 07; send times 07")),
        )

    def test_starts(self) -> None:
        commands = pathlib.Path("a few.commands")
        # (the last line has no end)
        commands.write_text("step 0\nforward 3\nshow cores")
        more = pathlib.Path("more.commands")
        more.write_text(commands.read_text() + "\nback 1\nstep 1\n")
        short = pathlib.Path("short.commands")
        short.write_text("tick\n")
        goal = "reach asleep"
        self.check(
            MEETING,
            ("from a few.commands", ()),
            (goal, ("--from", str(commands))),
            ("line  back 1", ()),
            ("line step 1 ", ()),
            (goal, ("--from", str(more))),
            ("from", ()),
            (goal, ()),
            ("line tick", ()),
            (goal, ("--from", str(short))),
        )

    def test_the_first_ones(self) -> None:
        pathlib.Path("short.commands").write_text("tick\n")
        options = ["--moves", "7", "--pace", "1..2", "--from", "short.commands", "--isr"]
        options += ["send rx 41", "--states", "1000"]
        ended = self.talk(INTERRUPT, "reach waits console", "reach asleep", first=options)
        goals = ("waits console", "asleep")
        self.assertEqual([self.answer(INTERRUPT, it, *options) for it in goals], ended.answers)


class Wrong(Real):
    """Lines that are wrong: each has its refusal, and changes nothing."""

    def test_each_of_them(self) -> None:
        before = ("line tick", "isr send rx 41 times 2", "moves 6", "surprises 2")
        goal = "reach reg worker 1 = 1"
        first = ("--isr", "send rx 41", "--times", "2", "--moves", "6", "--surprises", "2")
        pathlib.Path("short.commands").write_text("tick\n")
        wanted = self.answer(INTERRUPT, goal.partition(" ")[2], *first, "--from", "short.commands")
        ended = self.talk(INTERRUPT, *before, *WRONG, goal)
        self.assertEqual(("", 0), (ended.errors, ended.status))
        self.assertEqual(["ok"] * 4, ended.answers[:4])
        for line, refusal, answer in zip(WRONG, WRONG.values(), ended.answers[4:]):
            with self.subTest(line):
                self.assertTrue(answer.startswith(refusal), answer)
                self.assertNotIn("\n", answer)
        self.assertEqual(wanted, ended.answers[-1])
        self.assertEqual(len(ended.answers), len(WRONG) + 5)

    def test_interrupts_of_another_profile(self) -> None:
        ended = self.talk(MEETING, "isr send q 41", "isr none", "reach asleep")
        said = ["no: --isr: interrupts need profile 2", "ok", self.answer(MEETING, "asleep")]
        self.assertEqual(said, ended.answers)

    def test_too_many_interrupts(self) -> None:
        ended = self.talk(INTERRUPT, *["isr send rx 41"] * 17)
        said = [*["ok"] * 16, "no: --isr: there are 16 interrupts at the most"]
        self.assertEqual(said, ended.answers)

    def test_first_settings(self) -> None:
        for words, why in (
            (["none.json"], "none.json: cannot read the file"),
            ([MEETING, "--isr", "send q 41"], "--isr: interrupts need profile 2"),
            ([INTERRUPT, "--isr", "tick"], f"--isr: 'isr tick' {NO_CALL}"),
            ([MEETING, "--from", "none"], "none: cannot read command lines"),
            ([MEETING, "--from", MEETING], f"{MEETING}: line 1 is no command"),
            ([MEETING, "--moves", "x"], "invalid value 'x' for '--moves <N>'"),
        ):
            with self.subTest(words):
                ended = talk([self.program, *words, "--engine"], told("reach asleep"))
                self.assertEqual(([], 2), (ended.answers, ended.status))
                self.assertIn(why, ended.errors)


class Goals(Real):
    """Which command lines ask for an engine: those with `--engine`, and without a goal."""

    def check(self, words: Sequence[str], status: int, errors: str) -> None:
        """These words are answered by nothing but this line on standard error."""
        for given in (b"", told("reach asleep")):
            with self.subTest(words, given=given):
                self.assertEqual(([], errors, status), talk([self.program, MEETING, *words], given))

    def test_neither(self) -> None:
        why = "rdbg reach: no goal given (for the line protocol: reach FILE --engine)\n"
        for words in ("", "--moves 5", "--", "--lost"):
            self.check(words.split(), 2, why)
        for goal in ([""], [" "], ["", ""], ["--", "", "  "]):
            self.check(goal, 2, why)

    def test_both(self) -> None:
        why = "--engine takes no goal on the command line: it reads goals from standard input"
        for words in (["asleep", "--engine"], ["--engine", "--", "asleep"], ["", "--engine"]):
            self.check(words, 2, f"rdbg reach: {why}\n")

    def test_an_engine_without_a_line(self) -> None:
        self.assertEqual(([], "", 0), self.talk(MEETING))


class Lines(Real):
    """Lines of any length and of any bytes, and where they end."""

    def check(self, said: bytes, *answers: str) -> None:
        """What is answered to these bytes."""
        self.assertEqual((list(answers), "", 0), talk([self.program, MEETING, "--engine"], said))

    def test_long_ones(self) -> None:
        filled = b"moves 5".ljust(MOST)
        self.check(filled + b"\nmoves 5\n", "ok", "ok")
        self.check(filled + b" \nmoves 5\n", LONG, "ok")
        self.check(filled * 3 + b"\nmoves 5\n", LONG, "ok")
        self.check(b"\n" + filled * 2, NO_LINE, LONG)
        self.check(filled, "ok")

    def test_an_endless_one_is_refused_at_once(self) -> None:
        with Engine([self.program, MEETING, "--engine"]) as engine:
            self.assertEqual(LONG, engine.ask("x" * (MOST + 9)))
            self.assertEqual("ok", engine.ask("moves 5"))

    def test_no_text(self) -> None:
        self.check(b"moves \xff\nmoves 5\n\xc3", NO_TEXT, "ok", NO_TEXT)

    def test_each_end(self) -> None:
        self.check(b"")
        self.check(b"moves 5", "ok")
        self.check(b"moves 5\r\nmoves 6\r\n", "ok", "ok")
        self.check(b"  moves   5  \n", "ok")
        self.check(b"moves 5\nquit\nmoves 6\n", "ok", "ok")

    def test_an_answer_is_out_before_the_next_line(self) -> None:
        with Engine([self.program, MEETING, "--engine"]) as engine:
            self.assertEqual("ok", engine.ask("moves 5"))
            self.assertEqual(
                self.answer(MEETING, "asleep", "--moves", "5"), engine.ask("reach asleep")
            )
            self.assertEqual("ok", engine.ask("quit"))
            self.assertEqual(0, engine.wait())

    def test_it_ends_where_nobody_reads(self) -> None:
        with Engine([self.program, MEETING, "--engine"]) as engine:
            engine.deafen()
            engine.tell("moves 5")
            self.assertNotEqual(0, engine.wait())

    def test_help_names_each_line(self) -> None:
        ended = self.talk(MEETING, "help")
        for line in (
            "from",
            "line",
            "pace",
            "surprises",
            "moves",
            "states",
            "memory",
            "isr",
            "quit",
        ):
            self.assertRegex(ended.answers[0], rf"(?m)^{line} ")
        self.assertIn("\nreach GOAL ", ended.answers[0])

    def test_progress_is_told_beside_it(self) -> None:
        bound = ("--states", "100000")
        ended = self.talk(MEETING, "reach tick > 999", first=["--progress", *bound])
        self.assertEqual([self.answer(MEETING, "tick > 999", *bound)], ended.answers)
        self.assertTrue(ended.errors)
        for line in ended.errors.splitlines():
            self.assertTrue(line.startswith("progress within "), line)


if __name__ == "__main__":
    unittest.main()
