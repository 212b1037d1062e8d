"""`hunt --report` and `reach --report`: what came of a search, as SARIF or JUnit's XML."""
import json
import os
import pathlib
import subprocess
import sys
import tempfile
import unittest
from typing import Any, Dict, List
from xml.etree import ElementTree

from rdbg.reaching.asking import program
from tests.hunts import replayed, said
from tests.paths import COMPANION, EXAMPLES, TOP
from tests.test_schema import jsonschema
from tests.test_test_command import misshapen

SCHEMA = json.loads((pathlib.Path(__file__).parent / "sarif.schema.json").read_text())
VERSION = (TOP / "VERSION").read_text().strip()
MEETING, MENDED = EXAMPLES / "meeting.json", EXAMPLES / "meeting_mended.json"


def faults(report: Any) -> List[str]:
    """Where a report isn't as the schema has it."""
    validator = jsonschema.Draft7Validator(SCHEMA)
    return [f"{[*it.path]}: {it.message}" for it in validator.iter_errors(report)]


def report_of(path: pathlib.Path) -> Dict[str, Any]:
    """A report, which is as the schema has it."""
    found: Dict[str, Any] = json.loads(path.read_text())
    wrong = faults(found) if jsonschema else []
    assert not wrong, wrong
    for it in found["runs"][0]["results"]:
        # (what the schema can't say: a level is of what has failed)
        assert it["kind"] == "fail" or it["level"] == "none", it
    return found


@unittest.skipUnless(jsonschema, "the other interpreter has jsonschema")
class Form(unittest.TestCase):
    """The schema of the tests refuses what isn't SARIF."""

    def test_what_it_refuses(self) -> None:
        jsonschema.Draft7Validator.check_schema(SCHEMA)
        place = {"artifactLocation": {"uri": "a.json"}, "region": {"startLine": 1}}
        step = {"location": {"physicalLocation": place}}
        result = {
            "message": {"text": "so"},
            "ruleId": "rule",
            "kind": "fail",
            "level": "error",
            "locations": [step["location"]],
            "codeFlows": [{"threadFlows": [{"locations": [step]}]}],
        }
        run = {"tool": {"driver": {"name": "rdbg"}}, "results": [result]}
        right = {"version": "2.1.0", "runs": [run]}
        self.assertEqual([], faults(right))
        text = json.dumps(right)
        for one, other in (
            ('"2.1.0"', '"2.1"'),
            ('"version"', '"versions"'),
            ('"runs"', '"run"'),
            ('"tool"', '"tools"'),
            ('"driver"', '"drivers"'),
            ('"name"', '"title"'),
            ('"rdbg"', "1"),
            ('"rule"', "7"),
            ('"kind": "fail"', '"kind": "failed"'),
            ('"startLine": 1', '"startLine": 0'),
            ('"startLine": 1', '"startLine": "1"'),
            ('"startLine"', '"line"'),
            ('"artifactLocation"', '"artifact"'),
            ('"uri"', '"url"'),
            ('"a.json"', '"a b.json"'),
            ('"text"', '"said"'),
            ('"level": "error"', '"level": "bad"'),
            ('"message"', '"messages"'),
            (json.dumps([step]), "[]"),
            ('"threadFlows"', '"flows"'),
        ):
            self.assertNotEqual([], faults(json.loads(text.replace(one, other))), one)


class Report(unittest.TestCase):
    """What stands in the file."""

    def results(self, status: int, *words: str) -> List[Dict[str, Any]]:
        """The results of a hunt that ends with this status."""
        with tempfile.TemporaryDirectory() as folder:
            path = pathlib.Path(folder) / "report.sarif"
            ran = said(*words, "--report", str(path))
            self.assertEqual(ran[0], status, ran)
            report = report_of(path)
        self.assertEqual((report["version"], len(report["runs"])), ("2.1.0", 1))
        self.assertEqual(report["$schema"], "https://json.schemastore.org/sarif-2.1.0.json")
        driver = report["runs"][0]["tool"]["driver"]
        self.assertEqual((driver["name"], driver["version"]), ("rdbg", VERSION))
        self.assertTrue(driver["fullName"].startswith(f"rdbg {VERSION} at commit "))
        rules = [it["id"] for it in driver["rules"]]
        results: List[Dict[str, Any]] = report["runs"][0]["results"]
        self.assertEqual({it["ruleId"] for it in results} - {*rules}, set())
        return results

    def test_a_find(self) -> None:
        (result,) = self.results(1, str(MEETING), "asleep")
        self.assertEqual((result["kind"], result["level"]), ("fail", "error"))
        self.assertTrue(result["message"]["text"].startswith("asleep: reached after 8 moves"))
        (thread,) = result["codeFlows"][0]["threadFlows"]
        steps = thread["locations"]
        self.assertEqual([it["executionOrder"] for it in steps], list(range(1, 9)))
        text = MEETING.read_text().split("\n")
        for it in steps:
            where = it["location"]["physicalLocation"]
            self.assertEqual(where["artifactLocation"]["uri"], os.path.relpath(MEETING))
            row = text[where["region"]["startLine"] - 1]
            told = it["location"]["message"]["text"]
            self.assertIn(row[where["region"]["startColumn"] :].split('"')[0], told)
        self.assertEqual(result["locations"][0]["physicalLocation"], where)

    def test_none(self) -> None:
        (result,) = self.results(0, str(MENDED), "asleep")
        self.assertEqual((result["kind"], result["level"]), ("pass", "none"))
        self.assertEqual(result["message"]["text"], "asleep: never")

    def test_what_isnt_known(self) -> None:
        (result,) = self.results(2, str(MENDED), "asleep", "--states", "3")
        self.assertEqual(result["kind"], "open")

    def test_a_goal_at_boot(self) -> None:
        (result,) = self.results(1, str(MEETING), "tick = 0")
        self.assertNotIn("codeFlows", result)
        self.assertEqual(result["message"]["text"], "tick = 0: reached after 0 moves")

    def test_several(self) -> None:
        results = self.results(1, str(MEETING), "asleep", "--all", "3")
        self.assertGreater(len(results), 1)

    def test_a_name_with_signs(self) -> None:
        with tempfile.TemporaryDirectory() as folder:
            path = pathlib.Path(folder) / "a b#%1:ü.json"
            path.write_bytes(MEETING.read_bytes())
            (result,) = self.results(1, str(path), "asleep")
        where = result["locations"][0]["physicalLocation"]["artifactLocation"]["uri"]
        self.assertEqual("a%20b%23%251%3A%C3%BC.json", where.rpartition("/")[2])

    def test_where_it_can_not_be_written(self) -> None:
        ran = said(str(MEETING), "asleep", "--report", "/nowhere/report.sarif")
        self.assertEqual(ran[0], 2)


class Reach(unittest.TestCase):
    """The report of `rdbg reach`."""

    def result(self, status: int, *words: str) -> Dict[str, Any]:
        """The result of a search that ends with this status."""
        with tempfile.TemporaryDirectory() as folder:
            path = pathlib.Path(folder) / "report.sarif"
            asked = [sys.executable, "-B", str(COMPANION), "reach", *words, "--report", str(path)]
            ran = subprocess.run(
                asked, env={**os.environ, "RDBG_REACH": program()}, stdout=subprocess.PIPE
            )
            self.assertEqual(ran.returncode, status)
            (result,) = report_of(path)["runs"][0]["results"]
        found: Dict[str, Any] = result
        return found

    def test_an_order(self) -> None:
        result = self.result(1, str(MEETING), "asleep")
        self.assertEqual(result["kind"], "fail")
        self.assertEqual(len(result["codeFlows"][0]["threadFlows"][0]["locations"]), 8)

    def test_behind_other_lines(self) -> None:
        with tempfile.NamedTemporaryFile("w", suffix=".commands") as run:
            run.write("step 0\nstep 1\n")
            run.flush()
            result = self.result(1, str(MEETING), "asleep", "--from", run.name)
        self.assertEqual(result["properties"]["lines"][:2], ["step 0", "step 1"])
        steps = result["codeFlows"][0]["threadFlows"][0]["locations"]
        told = [it["location"]["message"]["text"] for it in steps]
        self.assertEqual(result["properties"]["moves"], len(steps))
        self.assertEqual([it.split()[1:3] for it in told[:2]], [["core", "0"], ["core", "1"]])
        self.assertIn("waits with no limit of time", told[-1])

    def test_none(self) -> None:
        result = self.result(0, str(MENDED), "asleep")
        self.assertEqual((result["kind"], result["message"]["text"]), ("pass", "asleep: never"))


class JUnit(unittest.TestCase):
    """The same as JUnit's XML, which its file's name asks for: a case with its order."""

    def setUp(self) -> None:
        folder = tempfile.TemporaryDirectory()
        self.addCleanup(folder.cleanup)
        self.path = os.path.join(folder.name, "report.xml")

    def case(self) -> ElementTree.Element:
        """The one case of the report, which is as build servers read it."""
        root = ElementTree.parse(self.path).getroot()
        self.assertEqual([], [it for it in map(misshapen, root.iter()) if it])
        ((found,),) = root
        counts = [root.get(it) for it in ("tests", "failures", "errors")]
        there = [str(len(found.findall(it))) for it in ("failure", "error")]
        self.assertEqual(["1", *there], counts)
        return found

    def hunted(self, status: int, *words: str) -> ElementTree.Element:
        """The case of a hunt that ends with this status."""
        ran = said(*words, "--report", self.path)
        self.assertEqual(ran[0], status, ran)
        return self.case()

    def test_a_find(self) -> None:
        case = self.hunted(1, str(MEETING), "asleep")
        self.assertEqual((case.get("classname"), case.get("name")), (str(MEETING), "asleep: none"))
        failure, output = case
        self.assertTrue(str(failure.get("message")).startswith("asleep: reached after 8 moves"))
        told = str(output.text).splitlines()
        self.assertEqual([it.split()[0] for it in told[1:9]], list(map(str, range(1, 9))))
        self.assertEqual(told[9], "lines:")
        again = replayed(str(MEETING), [*told[10:], "show moves"])
        self.assertEqual(again[-1], "moves 8 undone 0 kept 8")

    def test_what_is_expected(self) -> None:
        case = self.hunted(0, str(MEETING), "asleep", "--expect", "found")
        self.assertEqual([it.tag for it in case], ["system-out"])
        case = self.hunted(1, str(MENDED), "asleep", "--expect", "found")
        self.assertEqual([it.tag for it in case], ["failure", "system-out"])
        case = self.hunted(0, str(MENDED), "asleep")
        self.assertEqual([it.tag for it in case], ["system-out"])

    def test_what_isnt_known(self) -> None:
        case = self.hunted(2, str(MENDED), "asleep", "--states", "3")
        self.assertEqual([it.tag for it in case], ["error", "system-out"])

    def test_of_reach(self) -> None:
        for status, file, tags in (
            (1, MEETING, ["failure", "system-out"]),
            (0, MENDED, ["system-out"]),
        ):
            words = ["reach", str(file), "asleep", "--report", self.path]
            ran = subprocess.run(
                [sys.executable, "-B", str(COMPANION), *words],
                env={**os.environ, "RDBG_REACH": program()},
                stdout=subprocess.PIPE,
            )
            self.assertEqual(ran.returncode, status)
            self.assertEqual([it.tag for it in self.case()], tags)


if __name__ == "__main__":
    unittest.main()
