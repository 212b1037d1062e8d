"""`rdbg test`: what is said of cases, what is refused, the report, and how it ends."""
import io
import os
import pathlib
import re
import shutil
import signal
import tempfile
import unittest
from typing import Any, Dict, List, Tuple
from unittest import mock
from xml.etree import ElementTree

from rdbg.companions.test import results_of
from rdbg.testing import schema
from rdbg.testing.cases import NAMES, Case
from rdbg.tree import Place
from tests.paths import DOCS, EXAMPLES
from tests.started import Started, sleeper
from tests.tables import codes, rows, section
from tests.trials import listing, tested

LOST, MENDED = "lost_item.json", "meeting_mended.json"
MEETING, STOLEN = "meeting.json", "stolen_answer.json"
NEVER = {"file": MENDED, "goal": "asleep", "expect": "never"}
FOUND = {"file": MEETING, "goal": "asleep", "expect": "found"}


class InFolder(unittest.TestCase):
    """A folder with a few applications."""

    def setUp(self) -> None:
        made = tempfile.TemporaryDirectory()
        self.addCleanup(made.cleanup)
        self.folder = made.name
        for name in (LOST, MEETING, MENDED, STOLEN, "interrupt.json"):
            shutil.copy(str(EXAMPLES / name), self.folder)

    def written(self, name: str, text: str) -> str:
        """The path of a file of the folder, with this text."""
        path = os.path.join(self.folder, name)
        pathlib.Path(path).write_text(text)
        return path

    def try_all(self, *cases: Any) -> Tuple[int, List[str], List[str]]:
        """What is said of these cases."""
        return tested(listing(self.folder, *cases))


class Answers(InFolder):
    """What became of cases."""

    def test_as_expected(self) -> None:
        status, output, errors = self.try_all(NEVER, FOUND)
        self.assertEqual((0, []), (status, errors), output)
        self.assertRegex(output[0], r"^ok     meeting_mended.json: reach asleep: never \(.* s\)$")
        self.assertRegex(output[1], r"^ok     meeting.json: reach asleep: found \(.* s\)$")
        self.assertEqual("2 cases: 2 ok", output[2])

    def test_something_else(self) -> None:
        wrong = {**FOUND, "expect": "never"}
        status, output, errors = self.try_all(NEVER, wrong, {**NEVER, "expect": "found"})
        self.assertEqual((1, []), (status, errors), output)
        heads = [line for line in output if not line.startswith(" ")]
        self.assertTrue(heads[0].startswith("ok"), heads)
        asked = "meeting.json: reach asleep: expected never, got found"
        self.assertEqual(f"wrong  {asked}", heads[1].rpartition(" (")[0])
        asked = "meeting_mended.json: reach asleep: expected found, got never"
        self.assertEqual(f"wrong  {asked}", heads[2].rpartition(" (")[0])
        self.assertEqual("3 cases: 1 ok, 2 wrong", heads[3])
        # (the order, as `hunt` shows it, with the lines that make it)
        self.assertIn("       found: asleep, at 8, with 1 surprise", output)
        self.assertIn("       place  tick  core  who    pc  does", "\n".join(output))
        self.assertIn("       forward 2", output)

    def test_each_question(self) -> None:
        run = {"from": "run.commands", "goal": "ended client", "file": STOLEN}
        self.written("run.commands", "forward 100\n")
        status, output, errors = self.try_all(
            {"file": STOLEN, "goal": "asleep", "expect": "never", "vacuous": True},
            {"file": STOLEN, "goal": "ended client", "question": "doomed", "expect": "found"},
            {**run, "question": "lost", "expect": "lost at 23"},
            {**run, "question": "lost", "expect": "lost at"},
            {**run, "question": "lost", "expect": "lost at 2"},
            {**run, "expect": "never"},
        )
        self.assertEqual((1, []), (status, errors), output)
        heads = [line.split()[0] for line in output if not line.startswith(" ")]
        self.assertEqual(["ok"] * 4 + ["wrong", "ok", "6"], heads)
        # (of a run the lines of the order are told)
        self.assertIn("       forward 100", output)

    def test_options(self) -> None:
        self.written("few.fw", "cores 1\nconst N 2\ntask a priority 1\n set r1 N\n end\n")
        rung = {"file": "interrupt.json", "goal": "reg worker 0 = 1", "expect": "found"}
        status, output, errors = self.try_all(
            {**FOUND, "moves": 7, "expect": "not within 7 moves"},
            {**FOUND, "moves": 7, "expect": "not within"},
            {**FOUND, "surprises": 0, "expect": "not within 0 surprises"},
            {**FOUND, "pace": "1..1", "expect": "never"},
            {**FOUND, "states": 3, "expect": "full"},
            {**rung, "isr": ["notify worker 0 0 inc"]},
            {**rung, "expect": "never"},
            {"file": "few.fw", "goal": "reg a 1 = 3", "consts": ["N=3"], "expect": "found"},
            {"file": "few.fw", "goal": "reg a 1 = 3", "expect": "never"},
        )
        self.assertEqual((0, []), (status, errors), output)

    def test_a_goal_that_holds_at_the_start(self) -> None:
        status, output, errors = self.try_all({**FOUND, "goal": "tick = 0", "expect": "never"})
        self.assertEqual((1, []), (status, errors), output)
        self.assertIn("       found: tick = 0, at 0, without surprises", output)

    def test_the_time_is_up(self) -> None:
        late = {"file": "slow.json", "goal": "tick = 9999999", "expect": "never", "within": 0.2}
        shutil.copy(str(EXAMPLES / "lost_wakeup.json"), os.path.join(self.folder, "slow.json"))
        status, output, errors = self.try_all(late)
        self.assertEqual((1, []), (status, errors), output)
        self.assertRegex(
            output[0], "^wrong  slow.json: reach tick = 9999999: expected never, got full"
        )
        self.assertIn("       incomplete: the time limit was reached", output)

    def test_refused_by_the_program(self) -> None:
        refused = {**FOUND, "from": "none.commands"}
        status, output, errors = self.try_all(refused, NEVER)
        self.assertEqual((2, []), (status, errors), output)
        self.assertRegex(output[0], "^refused meeting.json: .*none.commands: cannot read")
        self.assertEqual("2 cases: 1 ok, 1 refused", output[-1])

    def test_one_at_a_time_is_the_same(self) -> None:
        heads = []
        for jobs in ("1", "7"):
            listing(self.folder, NEVER, FOUND, {**NEVER, "expect": "found"})
            status, output, _ = tested(self.folder, "--jobs", jobs)
            self.assertEqual(1, status)
            heads.append([line.rpartition(" (")[0] for line in output if line[0] != " "])
        self.assertEqual(*heads)

    def test_parts_are_all_together(self) -> None:
        listing(self.folder, NEVER, FOUND, {**NEVER, "moves": 7, "expect": "not within"})
        each = []
        for part in ("1/2", "2/2"):
            status, output, _ = tested(self.folder, "--part", part)
            self.assertEqual(0, status)
            each.append([line.rpartition(" (")[0] for line in output[:-1]])
        whole = [line.rpartition(" (")[0] for line in tested(self.folder)[1][:-1]]
        self.assertEqual((whole[::2], whole[1::2]), tuple(each))
        status, output, _ = tested(self.folder, "--part", "4/4")
        self.assertEqual((0, ["0 cases: none in this part"]), (status, output))

    def test_a_file_by_its_name_and_this_folder(self) -> None:
        listing(self.folder, NEVER)
        path = os.path.join(self.folder, "others.json")
        os.rename(os.path.join(self.folder, "goals.json"), path)
        self.assertEqual(0, tested(path)[0])
        os.rename(path, os.path.join(self.folder, "goals.json"))
        before = os.getcwd()
        os.chdir(self.folder)
        try:
            self.assertEqual(0, tested()[0])
        finally:
            os.chdir(before)


class Refused(InFolder):
    """What is wrong with a file, a word or a case: nothing is tried then."""

    def faults(self, *cases: Any) -> List[str]:
        """What is said, without the file's name, and the last line apart."""
        status, output, errors = self.try_all(*cases)
        self.assertEqual((2, []), (status, output), errors)
        self.assertRegex(errors[-1], r"^rdbg test: .*goals.json has \d+ errors?; no case was run$")
        return [line.partition("goals.json:")[2].partition(": ")[2] for line in errors[:-1]]

    def test_keys_and_values(self) -> None:
        changes: Tuple[Tuple[Dict[str, Any], str], ...] = (
            ({"expct": "never"}, 'case 1: unknown key "expct" (did you mean "expect"?)'),
            ({"expect": "fond"}, "case 1: expect must be the first line of an answer or its"),
            ({"expect": "not within many"}, "case 1: expect must be the first line"),
            ({"question": "hunt"}, "case 1: question must be one of reach, lost, doomed"),
            ({"goal": ""}, "case 1: goal must be a string"),
            ({"goal": 7}, "case 1: goal must be a string"),
            ({"isr": "ring"}, "case 1: isr must be a list of strings"),
            ({"consts": ["N"]}, "case 1: consts must be a list of consts: must be NAME=N"),
            ({"pace": "4"}, "case 1: pace must be a string: a pace is M..N, M.. or ..N"),
            ({"surprises": 256}, "case 1: surprises must be a number from 0 to 255"),
            ({"moves": -1}, "case 1: moves must be a number from 0 to 1,000,000,000"),
            ({"within": 0}, "case 1: within must be a number of seconds above 0"),
        )
        for change, wanted in changes:
            found = self.faults({**NEVER, **change})
            self.assertEqual(1, len(found), found)
            self.assertTrue(found[0].startswith(wanted), found)

    def test_what_is_lacking(self) -> None:
        found = self.faults({"file": MENDED}, 7)
        self.assertEqual('case 1: missing key "goal" (the goal (docs/REACHING.md))', found[0])
        self.assertEqual("case 2 must be an object, found the number 7", found[2])
        self.assertEqual(3, len(found))

    def test_files_goals_and_interrupts(self) -> None:
        found = self.faults(
            {**NEVER, "file": "none.json"},
            {**NEVER, "goal": "asleeep"},
            {**NEVER, "goal": "differs"},
            {**NEVER, "isr": ["send q 41"]},
            {**NEVER, "consts": ["N=1"]},
        )
        for at, wanted in enumerate(
            ("cannot read", "asleep", "a goal of hunt only", "NoIsr", "-D N")
        ):
            self.assertIn(wanted, found[at])
        self.assertTrue(all(it.startswith(f"{MENDED}: ") for it in found[1:]), found)

    def test_an_application_that_is_refused(self) -> None:
        self.written("wrong.fw", "cores 1\ntask a priority 1\n jmp a\n end\n")
        found = self.faults({**NEVER, "file": "wrong.fw"})
        self.assertIn("wrong.fw:3:2: 'jmp a' is not an instruction (use jump a)", found[0])

    def test_no_list(self) -> None:
        for text, wanted in (
            ("", "1:1: the file is empty"),
            ("{", "1:2: "),
            ("[]", "1:1: the file must be an object, found a list"),
            ("{}", '1:1: the file: missing key "cases" (the list of cases)'),
            ('{"case": []}', '1:2: the file: unknown key "case" (did you mean "cases"?)'),
            ('{"cases": []}', "1:11: cases must be a list of cases, found an empty list"),
            ('{"cases": 7}', "1:11: cases must be a list of cases, found the number 7"),
            ('{"cases": [], "cases": []}', '1:15: the file: duplicate key "cases"'),
        ):
            path = self.written("goals.json", text)
            status, output, errors = tested(self.folder)
            self.assertEqual((2, []), (status, output))
            self.assertTrue(errors[0].startswith(f"{path}:{wanted}"), errors)

    def test_no_file_and_no_words(self) -> None:
        status, _, errors = tested(self.folder)
        self.assertEqual(2, status)
        lacks = f"{self.folder} has no goals.json (the file that lists the models and their goals)"
        self.assertEqual([f"rdbg test: {lacks}"], errors)
        status, _, errors = tested(os.path.join(self.folder, "none.json"))
        self.assertEqual(2, status)
        self.assertRegex(errors[0], "cannot read .*none.json: No such file or directory")
        parts = ("--part=0/2", "--part=3/2", "--part=2", "--part=1/x")
        for word in ("--jobs=0", "--jobs=many", "--job7", *parts):
            self.assertEqual(2, tested(self.folder, word)[0], word)

    def test_a_report_that_cannot_be_written(self) -> None:
        listing(self.folder, NEVER)
        status, output, errors = tested(self.folder, "--report", self.folder)
        self.assertEqual((2, []), (status, output))
        self.assertEqual([f"rdbg test: cannot write {self.folder}: Is a directory"], errors)


# What an element of JUnit's XML has to have, what besides, and what may stand in it.
SHAPES = {
    "testsuites": ("", "name tests failures errors skipped time", "testsuite"),
    "testsuite": ("name tests failures errors", "time skipped timestamp hostname", "testcase"),
    "testcase": ("name classname", "time", "skipped error failure system-out system-err"),
    "failure": ("", "message type", ""),
    "error": ("", "message type", ""),
    "system-out": ("", "", ""),
}


def misshapen(element: ElementTree.Element) -> str:
    """What is wrong with an element, as build servers read it."""
    needed, more, parts = (set(it.split()) for it in SHAPES[element.tag])
    given, inner = {*element.keys()}, {it.tag for it in element}
    wrong = (needed - given) | (given - needed - more) | (inner - parts)
    return f"{element.tag}: {sorted(wrong)}" if wrong else ""


class Report(InFolder):
    """JUnit's XML."""

    def test_report(self) -> None:
        listing(
            self.folder, NEVER, {**FOUND, "expect": "never"}, {**FOUND, "from": "none.commands"}
        )
        path = os.path.join(self.folder, "report.xml")
        self.assertEqual(2, tested(self.folder, "--report", path)[0])
        root = ElementTree.parse(path).getroot()
        self.assertEqual("testsuites", root.tag)
        self.assertEqual([], [it for it in map(misshapen, root.iter()) if it])
        (suite,) = root
        counts = [suite.get(key) for key in ("tests", "failures", "errors")]
        self.assertEqual(["3", "1", "1"], counts)
        never, found, refused = suite
        self.assertEqual(
            (MENDED, "reach asleep: never"), (never.get("classname"), never.get("name"))
        )
        self.assertEqual(["system-out"], [it.tag for it in never])
        failure, output = found
        self.assertEqual("expected never, got found", failure.get("message"))
        assert output.text is not None
        self.assertIn("\nfound: asleep, at 8, with 1 surprise\n", output.text)
        self.assertIn("\nforward 2\nstep 0\n", output.text)
        (error,) = refused
        self.assertIn("none.commands", error.get("message") or "")
        self.assertGreaterEqual(float(never.get("time") or -1), 0)


class Expected(unittest.TestCase):
    """What an answer is held against, and the keys of a case."""

    def test_keys_are_those_of_the_page(self) -> None:
        page = section("COMPANIONS.md", "`test`: check a folder of models")
        table = rows(page, "| Key of a case | What it says |")
        self.assertEqual(set(NAMES), codes([first for first, _ in table]))

    def test_the_schema_is_made_from_the_table(self) -> None:
        why = "python3 -m rdbg.testing.schema makes it anew"
        self.assertEqual(schema.text(), (DOCS / "goals.schema.json").read_text(), why)

    def test_the_schema_takes_what_is_expected_of_a_case(self) -> None:
        keys = schema.case()["properties"]
        for key, good, wrong in (
            (
                "expect",
                ("never", "lost at 12", "not within 7 moves and 1 surprises"),
                ("fond", "7"),
            ),
            ("pace", ("4..", "1..4", "..9"), ("4", "none")),
            ("consts", ("N=3",), ("N", "=3")),
        ):
            pattern = keys[key].get("items", keys[key])["pattern"]
            self.assertTrue(all(re.search(pattern, it) for it in good), key)
            self.assertFalse(any(re.search(pattern, it) for it in wrong), key)

    def test_is_met(self) -> None:
        for expect, head, is_met in (
            ("never", "never", True),
            ("not within", "not within 7 moves", True),
            ("not within", "never", False),
            ("not within 7 moves", "not within 70 moves", False),
            ("not within 7 moves", "not within 7 moves and 2 surprises", True),
            ("lost at", "lost at 23", True),
            ("lost at 2", "lost at 23", False),
            ("full", "full: not within 3 moves", True),
            ("full: not within", "full: not within 3 moves", True),
            ("full: not within 3 moves", "full", False),
        ):
            case = Case(Place(1, 1), "a.json", "asleep", expect)
            self.assertEqual(is_met, case.is_met(head), (expect, head))


class Terminal(io.StringIO):
    """A terminal."""

    def isatty(self) -> bool:
        return True


class Ends(InFolder):
    """How far it is, and Ctrl-C."""

    def test_progress_is_shown_at_a_terminal_alone(self) -> None:
        for stream, is_shown in ((Terminal(), True), (io.StringIO(), False)):
            cases = [Case(Place(1, 1), it, "asleep", "never") for it in ("one.fw", "two.fw")]
            with mock.patch("sys.stderr", stream):
                self.assertEqual([*results_of("/none", cases, 1)][1][0], cases[1])
            text = stream.getvalue()
            self.assertEqual(is_shown, "0 of 2 done, running one.fw" in text)
            self.assertEqual(is_shown, "1 of 2 done, running two.fw" in text)

    def test_signals(self) -> None:
        program = sleeper(self.folder)
        listing(self.folder, NEVER, NEVER)
        for number, said in ((signal.SIGINT, "interrupted"), (signal.SIGTERM, "ended by SIGTERM")):
            started = Started("test", self.folder, "--jobs", "2", reach=program)
            started.wait_for(5)
            ended = started.end(number)
            self.assertEqual([f"rdbg test: {said}\n", 128 + number], ended)

    def test_killed(self) -> None:
        listing(self.folder, NEVER)
        started = Started("test", self.folder, reach=sleeper(self.folder))
        started.wait_for(3)
        self.assertEqual(-signal.SIGKILL, started.end(signal.SIGKILL)[1])

    def test_a_program_that_is_not_there(self) -> None:
        with mock.patch.dict(os.environ, {"RDBG_REACH": os.path.join(self.folder, "none")}):
            status, output, errors = self.try_all(NEVER)
        self.assertEqual((2, []), (status, errors))
        self.assertRegex(output[0], "^refused meeting_mended.json: .*cannot start .*/none")


if __name__ == "__main__":
    unittest.main()
