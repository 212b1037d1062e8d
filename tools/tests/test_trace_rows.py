"""`rdbg trace`: its rows, held against what was found by hand from the rules, and its words."""
import contextlib
import io
import os
import pathlib
import sys
import tempfile
import unittest
from typing import List, Tuple
from unittest import mock

from rdbg.client import Session
from rdbg.main import main
from rdbg.tracing import command
from tests.paths import EXAMPLES
from tests.test_shell_port import server

LOST = str(EXAMPLES / "lost_item.json")
HEAD = "place  tick  core  who       pc  does                effects"
# A run in which the poller takes the item, and the worker waits again.
RUN = ["until count jobs > 0 50", "step 1", "step 1", "step 1", "step 0"]
ROWS = [
    "    1     0     0  worker     0  recv jobs max       left core 0 (waits with no limit of"
    " time), poller took core 0",
    "    2     0     1  producer   0  data 41",
    "    3     1        tick",
    "    4     1     0  poller     0  recv jobs 0 -> 0",
    "    5     1     1  producer   1  send jobs 0 -> 1    jobs 1/1, woke worker (core 0),"
    " poller left core 0 (displaced)",
    "    6     1     1  producer   2  end                 left core 1 (ended), poller took core 1",
    "    7     1     1  poller     1  jump 0",
    "    8     1     1  poller     0  recv jobs 0 -> 1    data 41, jobs 0/1",
    "    9     1     0  worker     0  recv jobs max       left core 0 (waits with no limit of"
    " time)",
]


class Traced(unittest.TestCase):
    """What it says of commands, in a folder of its own."""

    def setUp(self) -> None:
        folder = tempfile.TemporaryDirectory()
        self.addCleanup(folder.cleanup)
        self.addCleanup(os.chdir, os.getcwd())
        os.chdir(folder.name)

    def traced(self, lines: List[str], *words: str) -> Tuple[int, List[str], List[str]]:
        """The status, and the lines on standard output and on standard error."""
        pathlib.Path("run.commands").write_text("".join(f"{line}\n" for line in lines))
        return self.said(LOST, "run.commands", *words)

    def said(self, *words: str, given: str = "") -> Tuple[int, List[str], List[str]]:
        """The same of these words."""
        output, errors = io.StringIO(), io.StringIO()
        taken = io.TextIOWrapper(io.BytesIO(given.encode()))
        with contextlib.redirect_stdout(output), contextlib.redirect_stderr(errors):
            # (on a busy machine it would say how far it is)
            with mock.patch.object(sys, "stdin", taken), mock.patch.object(
                command, "PATIENCE", 600
            ):
                status = main(["trace", *words])
        return status, output.getvalue().splitlines(), errors.getvalue().splitlines()


class Rows(Traced):
    """What it prints."""

    def test_a_run(self) -> None:
        self.assertEqual((0, [HEAD, *ROWS], []), self.traced(RUN))

    def test_interrupts(self) -> None:
        lines = ["step 0", "isr notify worker 0 0 inc", "isr send rx 41", "back 1", "isr send rx 4"]
        pathlib.Path("run.commands").write_text("".join(f"{line}\n" for line in lines))
        status, rows, errors = self.said(str(EXAMPLES / "interrupt.json"), "run.commands")
        expected = [
            "place  tick  core  who      pc  does                            effects",
            "    1     0     0  worker    0  take 0 dec max                  left core 0 (waits"
            " with no limit of time), console took core 0",
            "    2     0        isr          isr notify worker 0 0 inc -> 1  worker's note 0 ="
            " 1:received, woke worker (core 0), console left core 0 (displaced)",
        ]
        refused = ["run.commands:5: isr send rx 4: no Syntax"]
        self.assertEqual((0, expected, refused), (status, rows, errors))

    def test_what_was_taken_back_is_no_row(self) -> None:
        lines = ["# a way back", "", *RUN, "back 2", "tick"]
        expected = [HEAD, *ROWS[:7], "    8     2        tick"]
        self.assertEqual((0, expected, []), self.traced(lines))

    def test_places(self) -> None:
        self.assertEqual([HEAD, *ROWS[3:6]], self.traced(RUN, "--from", "4", "--to", "6")[1])
        self.assertEqual([HEAD, ROWS[8]], self.traced(RUN, "--from", "9")[1])
        self.assertEqual([HEAD], self.traced(RUN, "--from", "10")[1])

    def test_names(self) -> None:
        # of the producer, and what woke or moved it; of a queue, whoever asks it for something
        self.assertEqual(
            [HEAD, ROWS[1], ROWS[4], ROWS[5]], self.traced(RUN, "--only", "producer")[1]
        )
        queue = [ROWS[at] for at in (0, 3, 4, 7, 8)]
        self.assertEqual([HEAD, *queue], self.traced(RUN, "--only", "jobs")[1])
        self.assertEqual([HEAD, ROWS[2]], self.traced(RUN, "--only", "tick")[1])
        self.assertEqual([HEAD, ROWS[0], ROWS[3], ROWS[8]], self.traced(RUN, "--only", "0")[1])

    def test_goals(self) -> None:
        goal = "at poller 1 or waits worker and count jobs = 0 and not runs poller"
        rows = self.traced(RUN, "--when", goal)[1]
        self.assertEqual([HEAD], [row for row in rows if row not in ROWS])
        self.assertTrue(1 < len(rows) < len(ROWS) + 1, rows)
        self.assertEqual([HEAD, *ROWS], self.traced(RUN, "--when", "failed or not failed")[1])
        status, rows, errors = self.traced(RUN, "--when", "runs wrker")
        why = "word 2, 'wrker': expected the name of a task (did you mean `runs worker`?)"
        self.assertEqual((2, [], [f"rdbg trace: --when: {why}"]), (status, rows, errors))

    def test_edits_are_rows(self) -> None:
        lines = ["poke reg worker 0 7", "poke reg worker 0 7", "step 0"]
        expected = [
            "    1     0        edit          poke reg worker 0 7",
            "    2     0        edit          poke reg worker 0 7",
            "    3     0     0  worker     0  recv jobs max       left core 0 (waits with no limit"
            " of time), poller took core 0",
        ]
        # (places and ticks of one digit leave the columns as wide as their heads)
        self.assertEqual([HEAD, *expected], self.traced(lines)[1])

    def test_trims_are_rows_and_give_up_none(self) -> None:
        trim = (
            "    6              trim          trim 1              records of earlier moves given up"
        )
        lines = [*RUN[:2], "trim 1", "back 2", *RUN[2:]]
        status, rows, errors = self.traced(lines)
        self.assertEqual((0, [HEAD, *ROWS[:6], trim, *ROWS[6:]]), (status, rows))
        self.assertEqual(["run.commands:4: back 2: no TooFar 1"], errors)

    def test_refused_lines_are_said(self) -> None:
        _, rows, errors = self.traced(["goto 3", "step 0", "step 9"])
        self.assertEqual([HEAD, ROWS[0]], rows)
        wanted = ["run.commands:1: goto 3: no Syntax", "run.commands:3: step 9: no NoSuch"]
        self.assertEqual(wanted, errors)
        errors = self.traced(["redo 1"] * 12)[2]
        self.assertEqual("run.commands: 2 more lines were refused", errors[-1])

    def test_lines_that_are_no_text(self) -> None:
        pathlib.Path("run.commands").write_bytes(b"step 0\n\xff\xfe\n")
        status, rows, errors = self.said(LOST, "run.commands")
        self.assertEqual((0, [HEAD, ROWS[0]]), (status, rows))
        self.assertEqual(1, len(errors))
        with mock.patch.object(sys, "stdin", io.TextIOWrapper(io.BytesIO(b"step 0\n\xff\n"))):
            output = io.StringIO()
            with contextlib.redirect_stdout(output), contextlib.redirect_stderr(io.StringIO()):
                self.assertEqual(0, main(["trace", LOST]))
        self.assertEqual([HEAD, ROWS[0]], output.getvalue().splitlines())

    def test_names_that_nothing_has(self) -> None:
        nobody = "rdbg trace: --only: '{}' is not a task, object or core ({})"
        there = "defined: worker, producer, poller, jobs, 0, 1, tick, edit, .."
        for names, name, meant in (
            ("workr", "workr", "did you mean 'worker'?"),
            ("jobs, prodcuer", "prodcuer", "did you mean 'producer'?"),
            ("left,core", "left", there),  # (which are words of effects)
            ("2", "2", there),
            ("", "", there),
        ):
            with self.subTest(names):
                said = self.traced(RUN, "--only", names)
                self.assertEqual((2, [], [nobody.format(name, meant)]), said)

    def test_places_without_a_move_between(self) -> None:
        behind = "rdbg trace: --from 5 is after --to 2"
        self.assertEqual((2, [], [behind]), self.traced(RUN, "--from", "5", "--to", "2"))
        self.assertEqual(2, self.said("--port", "5000", "--from", "5", "--to", "4")[0])
        self.assertEqual([HEAD, ROWS[4]], self.traced(RUN, "--from", "5", "--to", "5")[1])

    def test_no_moves(self) -> None:
        self.assertEqual((0, [HEAD], []), self.traced(["show cores"]))

    def test_standard_input_and_the_built_in_application(self) -> None:
        wanted = [
            "place  tick  core  who  pc  does            effects",
            "    1     0     0  t0    0  data 41",
            "    2     1        tick",
            "    3     1     0  t0    1  send q0 0 -> 1  q0 1/2",
        ]
        self.assertEqual((0, wanted, []), self.said(given="forward 3\n"))
        self.assertEqual((0, [HEAD, ROWS[0]], []), self.said(LOST, "-", given="step 0\n"))

    def test_words_that_cant_be(self) -> None:
        status, _, errors = self.said(LOST, "none.commands")
        self.assertEqual(2, status)
        self.assertEqual(
            ["rdbg trace: cannot read none.commands: No such file or directory"], errors
        )
        self.assertEqual(2, self.said(LOST, "run.commands", "--port", "5000")[0])
        self.assertEqual(2, self.said("--port", "5000", "--moves", "5")[0])
        self.assertEqual(2, self.said("--only", "q0", "--events", "o.json")[0])
        pathlib.Path("wrong.json").write_text("{}")
        self.assertEqual(1, self.said("wrong.json", "-")[0])


class Port(unittest.TestCase):
    """Moves that are done at a server, whoever made them."""

    def rows(self, port: int, *words: str) -> List[str]:
        """The rows of what is done there."""
        output = io.StringIO()
        with contextlib.redirect_stdout(output):
            self.assertEqual(0, main(["trace", "--port", str(port), *words]))
        return output.getvalue().splitlines()

    def test_others_moves(self) -> None:
        with server() as (port, _), Session.attach(port) as other:
            for line in ["until count jobs > 0 50", "trim 2", "step 1", "tick", "back 1"]:
                self.assertTrue(other.tell(line).startswith("ok at "))
            rows = self.rows(port, LOST)
            self.assertEqual(4, len(rows))  # (of the first three moves there is no record)
            self.assertEqual([row.split()[0] for row in rows[1:]], ["4", "5", "6"])
            self.assertIn("send jobs 0 -> 1  jobs 1/1, woke worker (core 0)", rows[2])
            # (what was there stays, and what was taken back can be made again)
            self.assertEqual("moves 6 undone 1 kept 3", other.tell("show moves"))
            self.assertEqual("wheel -", other.tell("show wheel"))

    def test_the_last_moves_where_nothing_is_said(self) -> None:
        with server(sessions=3) as (port, _), Session.attach(port) as other:
            other.tell("forward 1200")
            errors = io.StringIO()
            with contextlib.redirect_stderr(errors):
                rows = self.rows(port, LOST)
            self.assertEqual((1001, "201"), (len(rows), rows[1].split()[0]))
            self.assertIn("the last 1000 moves", errors.getvalue())
            rows = self.rows(port, LOST, "--from", "1191")
            self.assertEqual((11, "1191"), (len(rows), rows[1].split()[0]))


if __name__ == "__main__":
    unittest.main()
