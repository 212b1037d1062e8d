"""The events of `rdbg trace`: their format, and that they say what was found by hand."""
import contextlib
import io
import json
import pathlib
import random
import tempfile
import unittest
from typing import Any, Dict, List

from rdbg.main import main
from tests import trace_format
from tests.made import Maker
from tests.paths import EXAMPLES

SEEDS = range(40)
LOST = str(EXAMPLES / "lost_item.json")


def events_of(application: str, lines: List[str], *words: str) -> Dict[str, Any]:
    """The file of events of a run."""
    with tempfile.TemporaryDirectory() as folder:
        commands = pathlib.Path(folder) / "run.commands"
        commands.write_text("".join(f"{line}\n" for line in lines))
        made = pathlib.Path(folder) / "run.json"
        with contextlib.redirect_stderr(io.StringIO()):
            main(["trace", application, str(commands), "--events", str(made), *words])
        found: Dict[str, Any] = json.loads(made.read_text())
        return found


class Checker(unittest.TestCase):
    """The checker of the format finds what is wrong."""

    def test_faults(self) -> None:
        track: Dict[str, Any] = {"pid": 1, "tid": 0}
        name: Dict[str, Any] = {"name": "thread_name", "ph": "M", **track, "args": {"name": "a"}}
        whole: Dict[str, Any] = {"name": "a", "ph": "X", "ts": 0, "dur": 10, **track}
        inner = {**whole, "ts": 2, "dur": 3}
        begin: Dict[str, Any] = {"name": "w", "cat": "w", "id": 1, "ph": "s", "ts": 3, **track}
        end = {**begin, "ph": "f", "bp": "e", "ts": 4}
        good = [name, whole, inner, begin, end]
        self.assertEqual([], trace_format.faults({"traceEvents": good}))
        for wrong in (
            [name, {**whole, "dur": -1}],
            [name, {**whole, "ts": "0"}],
            [name, whole, {**inner, "dur": 9}],
            [whole],
            [*good[:4], {**end, "id": 2}],
            [*good[:4], {**end, "ts": 2}],
            [*good[:4], {**end, "ts": 10}],
        ):
            self.assertNotEqual([], trace_format.faults({"traceEvents": wrong}), wrong)


class Format(unittest.TestCase):
    """Each file keeps the format."""

    def test_examples(self) -> None:
        for path in sorted(EXAMPLES.glob("*.json")):
            found = events_of(str(path), ["forward 60", "back 7", "forward 9"])
            self.assertEqual([], trace_format.faults(found), path.name)

    def test_random_applications(self) -> None:
        with tempfile.TemporaryDirectory() as folder:
            path = pathlib.Path(folder) / "application.json"
            for seed in SEEDS:
                application = Maker(seed).application()
                path.write_text(json.dumps(application))
                dice = random.Random(seed)
                steps = [f"step {dice.randrange(application['cores'])}" for _ in range(30)]
                task = application["tasks"][0]["name"]
                lines = [*steps, "tick", f"poke reg {task} 1 9", "trim 4", "forward 20"]
                found = events_of(str(path), lines)
                self.assertEqual([], trace_format.faults(found), f"application {seed}")

    def test_no_moves(self) -> None:
        self.assertEqual({"traceEvents": [], "displayTimeUnit": "ms"}, events_of(LOST, []))


class LostItem(unittest.TestCase):
    """What was found by hand of the lost item."""

    def setUp(self) -> None:
        lines = ["until count jobs > 0 50", "step 1", "step 1", "step 1", "step 0"]
        self.events = events_of(LOST, lines)["traceEvents"]

    def slices(self, process: str, track: str) -> List[str]:
        """The slices of a track, each with when it begins and how long it is, in moves."""
        named = {
            it["args"]["name"]: (it["pid"], it["tid"])
            for it in self.events
            if it["name"] == "thread_name"
        }
        wanted = [it for it in self.events if it["ph"] == "X"]
        of = [it for it in wanted if (it["pid"], it["tid"]) == named[track]]
        of.sort(key=lambda it: (it["ts"], -it["dur"]))
        return [f"{it['name']} {it['ts'] // 1000}+{it['dur'] // 1000}" for it in of]

    def test_phases(self) -> None:
        worker = ["core 0 0+1", "waits recv:jobs 1+4", "core 0 5+4", "waits recv:jobs 9+1"]
        self.assertEqual(worker, self.slices("tasks", "worker"))
        poller = ["ready 0+1", "core 0 1+4", "ready 5+1", "core 1 6+4"]
        self.assertEqual(poller, self.slices("tasks", "poller"))

    def test_cores(self) -> None:
        found = [it for it in self.slices("cores", "core 0") if len(it.split()) == 2]
        self.assertEqual(["worker 0+1", "poller 1+4", "worker 5+4"], found)
        self.assertEqual(["tick 1 2+1"], self.slices("cores", "ticks"))

    def test_levels(self) -> None:
        levels = [(it["ts"], it["args"]["items"]) for it in self.events if it["ph"] == "C"]
        self.assertEqual([(0, 0), (5000, 1), (8000, 0)], levels)

    def test_waking(self) -> None:
        ends = [(it["ph"], it["ts"], it["tid"]) for it in self.events if it["ph"] in ("s", "f")]
        self.assertEqual([("s", 4500, 1), ("f", 5001, 0)], ends)


if __name__ == "__main__":
    unittest.main()
