"""Pages of runs of all sorts, and the words that ask for them."""
import contextlib
import io
import json
import pathlib
import tempfile
import unittest
from typing import Dict, List
from unittest import mock

from rdbg.client import Session
from rdbg.companions import trace
from rdbg.main import main
from rdbg.tracing import command
from rdbg.tracing.page import document
from rdbg.tracing.page.ways import settled
from rdbg.driving.parts import Told
from tests import trace_format
from tests.chromium import Browser, Missing
from tests.page_shown import LOST, RUN, Shown
from tests.pages import Asked, page_of
from tests.paths import EXAMPLES
from tests.test_shell_port import server


class Runs(Shown):
    """Runs of all sorts."""

    def test_no_moves(self) -> None:
        nothing: List[str] = []
        for lines in (nothing, ["forward 3", "back 3"]):
            self.show(lines)
            self.assertEqual((0, []), (self.reader.place(), self.reader.lines()))
            for key in ("ArrowRight", "End", "]", "[", "w", "n", "e", "PageDown", "0", "+"):
                self.browser.key(key)
            self.assertEqual(Asked(LOST).behind([]), self.reader.answers())

    def test_one_move(self) -> None:
        self.show(["step 0"])
        self.assertEqual(1, self.check_places(LOST, ["step 0"], 0))

    def test_a_part(self) -> None:
        self.show(RUN, "--from", "4", "--to", "6", link="#3")
        self.assertEqual("3: before the first move shown", self.browser.text("#readout"))
        self.check_places(LOST, [*RUN, "back 3"], 3)
        self.show(RUN, "--from", "20")
        self.assertEqual(9, self.reader.place())
        self.assertEqual(Asked(LOST).behind(RUN), self.reader.answers())

    def test_edits_and_trims(self) -> None:
        lines = [
            "forward 9",
            "back 2",
            "poke reg poller 3 7",
            "trim 1",
            "forward 4",
            "watch tick > 4",
        ]
        lines += ["until w0 50", "trim 2", "poke pc worker 1", "step 0", "show cores"]
        page = self.show(lines)
        asked = Asked(LOST)
        last = self.browser.value("Number(document.querySelector('#slider').max)")
        for place in range(last, -1, -1):
            self.browser.value(f"location.hash = '#{place}'")
            self.browser.settle()
            typed = self.reader.lines()
            self.assertEqual(self.reader.answers(), asked.behind(typed), f"{place}: {typed}")
            if place < 14:
                self.assertNotEqual(lines[:-1], typed)
        self.assertEqual(0, self.reader.place())
        # (a way from the end is promised where there is one)
        self.browser.value("location.hash = '#5'")
        self.browser.settle()
        self.assertIn("You cannot go back to here", self.browser.text("#way-note"))
        self.browser.key("e")
        self.assertEqual("8: poke reg poller 3 7, then trim 1", self.browser.text("#readout"))
        self.assertIn("poke reg poller 3 7", page.read_text())

    def test_interrupts(self) -> None:
        application = EXAMPLES / "interrupt.json"
        lines = (EXAMPLES / "interrupt.commands").read_text().splitlines()
        self.show(lines, application=application)
        self.assertEqual(10, self.check_places(application, lines, 0))
        for key, said in (
            ("e", "2: isr notify worker 0 0 inc -> 1, worker's note 0 = 1:received"),
            ("End", "10: isr send rx 43 -> 0"),
        ):
            self.browser.key(key)
            self.assertEqual(said, self.browser.text("#readout")[: len(said)])

    def test_from_the_end(self) -> None:
        self.show(link="#4")
        note = self.browser.text("#way-note")
        self.assertEqual("From the end of the run, at 9: back 5 (or, in sh, goto 4).", note)
        self.assertEqual(self.reader.answers(), Asked(LOST).behind([*RUN, "back 5"]))

    def test_the_built_in_application(self) -> None:
        made = self.folder / "page.html"
        commands = self.folder / "run.commands"
        commands.write_text("forward 3\n")
        given = trace.parser().parse_args(["--page", str(made)])
        given.commands = str(commands)
        command.trace_run(given, None)
        self.browser.open(made, "#3")
        self.assertIn("t0 1 send q0 0 -> 1, q0 1/2", self.browser.text("#readout"))
        self.assertIn("./rdbg sh", self.browser.text("#way-where"))

    def test_a_text_in_lines(self) -> None:
        path = self.folder / "talk.fw"
        path.write_text(
            "cores 1\nqueue q length 1 item 1\ntask t priority 1\n    send(q, portMAX_DELAY);\n   "
            " end\n"
        )
        self.show(["step 0"], application=path, link="#1")
        self.assertEqual("./rdbg sh talk.fw", self.browser.text("#way-where"))
        self.assertIn("t 0 send(q, portMAX_DELAY) -> 1", self.browser.text("#readout"))

    def test_others_moves(self) -> None:
        made = self.folder / "page.html"
        with server(sessions=3) as (port, _), Session.attach(port) as other:
            for line in RUN:
                other.tell(line)
            words = ["trace", "--port", str(port), "--page", str(made)]
            self.assertEqual(0, main([*words, str(LOST)]))
            self.browser.open(made, "#6")
            self.assertEqual(Asked(LOST).behind([*RUN, "back 3"]), self.reader.answers())
            self.assertEqual(self.reader.answers(), Asked(LOST).behind(self.reader.lines()))
            self.assertEqual(0, main(words))
            self.browser.open(made, "#6")
            self.assertEqual(["goto 6"], self.reader.lines())
            self.assertIn("woke worker", self.browser.text("#moves"))
            self.assertIn(f"--port {port}", self.browser.text("#way-where"))

    def test_a_task_that_becomes_known_late(self) -> None:
        # (it waits at a place of its own, so that nothing tells of it where the file isn't known)
        waiter = {"name": "waiter", "priority": 2, "code": ["take 0 clear max", "jump 0"]}
        code = ["recv never 2", "notify waiter 0 0 inc", "jump 0"]
        giver = {"name": "giver", "priority": 1, "code": code}
        queues = [{"name": "never", "length": 1, "item": 1}]
        file: Dict[str, object] = {"profile": 1, "cores": 1, "queues": queues}
        path = self.folder / "late.json"
        path.write_text(json.dumps({**file, "tasks": [waiter, giver]}))
        made, events = self.folder / "page.html", self.folder / "events.json"
        with server(3, str(path)) as (port, _), Session.attach(port) as other:
            other.tell("forward 60")
            other.tell("until phase waiter wait 60")
            done = int(other.tell("show moves").split()[1])
            words = ["trace", "--port", str(port), "--from", str(done - 30)]
            self.assertEqual(0, main([*words, "--page", str(made)]))
            self.assertEqual(0, main([*words, "--events", str(events)]))
        self.assertEqual([], trace_format.faults(json.loads(events.read_text())))
        self.browser.open(made, f"#{done - 25}")
        views = Asked(path).behind(["forward 60", "until phase waiter wait 60", "back 25"])
        told = [it for it in views if it.startswith("task ")]
        self.assertEqual(sorted(told), sorted(self.reader.answers()[1:3]))
        self.browser.key("w")
        self.assertIn("woke waiter", self.browser.text("#readout"))


class Words(unittest.TestCase):
    """The words of the command line, and names in the file."""

    def setUp(self) -> None:
        folder = tempfile.TemporaryDirectory()
        self.addCleanup(folder.cleanup)
        self.folder = pathlib.Path(folder.name)
        self.commands = self.folder / "run.commands"
        self.commands.write_text("forward 3\n")

    def status(self, *words: str) -> List[object]:
        """The status, and what is said on standard error."""
        with contextlib.redirect_stderr(io.StringIO()) as errors:
            # (on a busy machine it would say how far it is)
            quiet = mock.patch.object(command, "PATIENCE", 600)
            with contextlib.redirect_stdout(io.StringIO()), quiet:
                status = main(["trace", str(LOST), str(self.commands), *words])
        return [status, *errors.getvalue().splitlines()]

    def test_words_that_cant_be(self) -> None:
        page = str(self.folder / "page.html")
        refused = "rdbg trace: --only cannot be combined with --page"
        self.assertEqual([2, refused], self.status("--page", page, "--only", "jobs"))
        refused = "rdbg trace: --events cannot be combined with --page"
        self.assertEqual([2, refused], self.status("--page", page, "--events", page))
        nowhere = str(self.folder / "none" / "page.html")
        refused = f"rdbg trace: cannot write {nowhere}: No such file or directory"
        self.assertEqual([2, refused], self.status("--page", nowhere))

    def test_standard_output(self) -> None:
        with contextlib.redirect_stdout(io.StringIO()) as output:
            self.assertEqual(0, main(["trace", str(LOST), str(self.commands), "--page", "-"]))
        self.assertTrue(output.getvalue().startswith("<!DOCTYPE html>"))

    def test_names_that_would_be_tags(self) -> None:
        name = "<script>alert(1)<!--&'.json"
        copy = self.folder / name
        copy.write_bytes(LOST.read_bytes())
        made = page_of(self.folder, copy, ["forward 3"], "--to", "3")
        text = made.read_text()
        self.assertNotIn("<script>alert", text)
        self.assertEqual(2, text.count("</script>"))
        with Browser() as browser:
            browser.open(made, "#2")
            self.assertEqual(f"{name}: places 0 to 3", browser.text("h1"))
            self.assertIn(name.replace("'", "'\"'\"'"), browser.text("#way-where"))
            self.assertEqual([], browser.errors)

    def test_the_policy(self) -> None:
        text = document.page({"first": 0, "last": 0}, {"file": ""})
        self.assertIn("default-src 'none'", text)
        self.assertNotIn("unsafe", text)
        self.assertNotRegex(text, r"(src|href)=\"(?!data:,|#)")

    def test_lines_that_settle(self) -> None:
        told = [Told("forward 9", 9), Told("back 4", 5), Told("forward 2", 7), Told("trim 1", 7)]
        wanted = [["forward 9", 9, 5], ["back 4", 5, 5], ["forward 2", 7, 7], ["trim 1", 7, 7]]
        self.assertEqual(wanted, settled(told))

    def test_a_browser_that_isnt_there(self) -> None:
        with self.assertRaisesRegex(Missing, "apt-get install"):
            Browser(program="no-browser")


if __name__ == "__main__":
    unittest.main()
