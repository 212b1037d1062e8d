"""Hints on refusals: on standard error, never in place of the reply."""
import unittest

from rdbg.driving.target import Limits
from tests.shell_talk import both, example, said

# Lines that are not commands, each with a part of its hint.
SYNTAX = {
    "show job": "expected `queue` or ",
    "show queues jobs": "`show queue jobs`",
    "show": "expected `queue` or ",
    "show task": "`info tasks` shows all tasks",
    "show queues": "`info objects`",
    "show queue": "expected a queue after `show queue`",
    "until jobs > 0 50": "word 1, 'jobs': expected an atom, 'not' or '('",
    "watch worker wait": "`watch phase worker wait`",
    "back until worker pc = 1": " (did you mean `pc worker = 1`?)",
    "watch worker r3 >= 2": "`watch reg worker 3 > 1`",
    "unwatch w3": "`unwatch 3`",
    "Step 0": "lower case: `step 0`",
    "SHOW CORES": "`show cores`",
    "step\t0": "not tabs: `step 0`",
    "step": "a core number or the name of a task",
    "steb 0": "unknown command 'steb': `step 0`",
    "fly": "unknown command 'fly' ('help' lists all)",
    "infoo tasks": "unknown command 'infoo' (did you mean 'info'?",
    "forward": "COUNT is missing: `forward 100`",
    "forward 0": "expected a COUNT (a number, 1 to 1000000) after `forward`, found '0'",
    "forward 1,000": "`forward 1000`",
    "back": "`back 1`",
    "until count jobs>0": "word 2, 'jobs>0': expected the name of a queue (did you mean `count jobs > 0`"
    "?)",
    "until": "or another goal (see `help until`) after `until`",
    "until count jobs > 0 and phase worker": "it ends too early: expected a phase: run",
    "until count jobs > 0 || phase worker wait 9": "`count jobs > 0 or phase worker wait`?",
    "until w0 and w1": "word 1, 'w0': expected an atom, 'not' or '('",
    "until sleep worker": "`sleeps worker`?",
    "sleeps worker": "`until sleeps` runs to it",
    "watch count jobs > 0 && tick = 3": "a watch takes one condition, without `&&`; `until! GOAL`",
    "watch count jobs>0": "put spaces around an operator: `watch count jobs > 0`",
    "watch count jobs >= 1": "write > 0 for >= 1: `watch count jobs > 0`",
    "watch reg worker r1 = 0x10": "`watch reg worker 1 = 16`",
    "watch phase worker = wait": "`watch phase worker wait`",
    "watch count jobs = 'x'": "expected a number",
    "until count jobs>0 50": "`count jobs > 0`?",
    "until count jobs >= 1 50": "`count jobs > 0`?",
    "until count jobs <= 1 50": "`count jobs < 2`?",
    "until count jobs == 1 50": "`count jobs = 1`?",
    "until count jobs != 1 50": "`not count jobs = 1`?",
    "until reg worker r1 = 0x10 50": "`reg worker 1 = 16`?",
    "until phase worker = wait 50": "`phase worker wait`?",
    "until phase worker waiting 50": "`phase worker wait`?",
    "until bla 50": "word 1, 'bla': expected an atom, 'not' or '('",
    "until count 'jobs' > 0 50;": "`count jobs > 0`?",
    "poke reg worker r0 1": "`poke reg worker 0 1`",
    "poke reg worker 0 4294967296": "a number (0 to 4294967295) after `poke reg worker 0`, found '4294967296'",
    "isr notify worker 0 1 give": "an action (none, bits, inc, set or setif) after",
    "isr send jobs": "expected bytes (pairs of hexadecimal digits, or -) after `isr send jobs`",
    "isr worker": "expected `send` or `notify` after `isr`, found 'worker'",
    "poke data worker 4": "bytes (pairs of hexadecimal digits, or -) after `poke data worker`, found '4'",
    "tick tick": "",
    "wheel": "expected `take` or `give` after `wheel`",
    "show cores now": "unexpected 'now': the form is `show cores`",
    "bt": "tasks have no stack frames",
}
# Well-formed lines that are refused, each with its reply and a part of its hint.
REFUSED = {
    "show queue job": ("no NoSuch", "queue 'job' is not defined (did you mean 'jobs'?)"),
    "show queue worker": ("no NoSuch", "'worker' is a task: `show task worker`"),
    "show stream rx": ("no NoSuch", "the model has no stream"),
    "show task wroker": ("no NoSuch", "did you mean 'worker'?"),
    "until phase bob wait 5": ("no NoSuch", "there are worker, producer, poller"),
    "until bits jobs = 1 10": ("no NoSuch", "'jobs' is a queue: `count jobs OP N`"),
    "watch count worker = 1": ("no NoSuch", "'worker' is a task: `phase worker WORD`"),
    "step 2": ("no NoSuch", "the target has 2 cores, numbered from 0"),
    "poke reg worker 8 0": ("no NoSuch", "registers have the numbers 0 to 7"),
    "poke note worker 1 0": ("no NoSuch", "each task has one notification entry, numbered from 0"),
    "back 3": ("no TooFar 0", "the target is at boot"),
    "redo 1": ("no NothingUndone", "no move can be redone"),
    "unwatch 3": ("no NoWatch", "info watches"),
    "wheel give": ("no NotHolder", "show wheel"),
    "isr send nobody 41": ("no NoSuch", "queue 'nobody' is not defined"),
    "isr notify worker 1 0 set": (
        "no NoSuch",
        "each task has one notification entry, numbered from 0",
    ),
    "isr send jobs 41": ("no NoIsr", "the application has profile 1"),
    "poke pc worker 9": ("no BadEdit", "the task must be in phase run"),
    "poke item jobs 0 41": ("no BadEdit", "the item must exist"),
}


class Hints(unittest.TestCase):
    """Each refusal."""

    def test_syntax(self) -> None:
        with example("lost_item") as shell:
            for line, part in SYNTAX.items():
                with self.subTest(line):
                    output, hints = both(shell, line)
                    if part:
                        self.assertEqual(output, ["no Syntax"])
                        self.assertEqual(len(hints), 1)
                        self.assertIn(part, hints[0])

    def test_what_is_not_there(self) -> None:
        with example("lost_item") as shell:
            for line, (reply, part) in REFUSED.items():
                with self.subTest(line):
                    output, hints = both(shell, line)
                    self.assertEqual(output, [reply])
                    self.assertIn(part, hints[0])

    def test_an_idle_core(self) -> None:
        with example("lost_item") as shell:
            output, hints = both(shell, "forward 13", "step 0")
            self.assertEqual(output[-1], "no NoTask")
            waits = "no task is running on this core: poller on core 1, worker waits at recv:jobs"
            self.assertEqual(hints, [f"hint: {waits}"])

    def test_limits(self) -> None:
        with example("turns", Limits(moves=3)) as shell:
            output, hints = both(shell, "forward 3", "step 0", "back 5")
            self.assertEqual(output, ["ok at 3", "no MovesFull", "no TooFar 3"])
            self.assertIn("--moves 1000000", hints[0])
            self.assertIn("only 3 moves can be undone", hints[1])
        with example("turns", Limits(history=3)) as shell:
            output, hints = both(shell, "step 0", "step 0")
            self.assertEqual(output, ["ok at 1", "no HistoryFull"])
            self.assertIn("help history", hints[0])

    def test_names_are_those_of_the_file(self) -> None:
        with example("turns") as shell:
            task = shell.target.names.tasks[0]
            _, hints = both(shell, "thread")
            self.assertIn(f"`step {task}`", hints[0])
            self.assertIn(f"`break {task} 2`", said(shell, "break")[0])

    def test_a_history_that_is_nearly_full(self) -> None:
        with example("turns", Limits(history=1100)) as shell:
            _, hints = both(shell, *["show moves"] * 1000)
            self.assertEqual(len(hints), 1)
            self.assertIn("room for 110 more lines", hints[0])


if __name__ == "__main__":
    unittest.main()
