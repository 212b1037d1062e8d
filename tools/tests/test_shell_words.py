"""Words of sh's own: tables, goals by their words, gdb's words, help and Tab."""
import os
import unittest
from unittest import mock

from rdbg import commands, instructions
from rdbg.checking.freertos import WRITTEN
from rdbg.driving.target import Limits
from rdbg.files.source import source
from rdbg.shell import glossary
from rdbg.shell.completion import candidates
from rdbg.shell.glossary import HINTS
from rdbg.shell.words import BY_NAME, WORDS
from tests.shell_talk import both, example, opened, said

# Words on which `help` says something.
OTHERS = (
    "vTaskDelay(5)", "xTimerCreate", "registers", "r0", "r7", "goal", "notask", "portMAX_DELAY",
    "xQueueGenericSend", "xTaskCreateStatic", "pdTRUE", "configTICK_RATE_HZ", "L5",
    "deepest", "within", "Instr", "L7 Memory",
)  # fmt: skip
# An interrupt that stands as a task which never waits.
BUSY = """cores 2
queue log length 1 item 1
queue never length 1 item 1
task isr priority 9
again:
    add r1 1
    jump again
task flash priority 2
    recv never 2
    recv log max
    end
"""


class Views(unittest.TestCase):
    """`info`, `where`, `list`, `print`."""

    def test_tasks(self) -> None:
        with example("lost_item") as shell:
            answers = said(shell, "until count jobs > 0 50", "info tasks")
            expected = [
                "# task      core   phase      pc  instruction    registers  data  notes",
                "# worker    0      again:max  0   recv jobs max  -          -     -",
                "# producer  1      run        2   end            r0=1       41    -",
                "# poller    ready  run        1   jump 0         -          -     -",
            ]
            self.assertEqual(answers[1:], expected)

    def test_tables_are_as_wide_as_the_terminal(self) -> None:
        with example("pipeline") as shell, mock.patch.dict(os.environ, {"COLUMNS": "60"}):
            shell.is_terminal = True
            answers = said(shell, "forward 40", "info tasks", "info objects", "where")
            self.assertLessEqual(max(map(len, answers)), 60)
            self.assertNotIn("notes", answers[1])
            # (a row goes on in the next line, and nothing is cut)
            self.assertFalse([row for row in answers if ".." in row])
            wide = said(shell, "info tasks", "info objects", "where")
            shell.is_terminal = False
            whole = said(shell, "info tasks", "info objects", "where")
            cells = {cell for row in whole for cell in row.split()} - {"-", "notes"}
            self.assertEqual(set(), cells - {cell for row in wide for cell in row.split()})

    def test_objects(self) -> None:
        with example("pipeline") as shell:
            answers = said(shell, "forward 40", "info objects")
            self.assertEqual([row.split()[1] for row in answers[2:]].count("queue"), 4)
            self.assertIn("set inputs", answers[-1])
            self.assertEqual(said(shell, "info inputs")[0].split()[1:3], ["set", "inputs"])

    def test_where(self) -> None:
        with example("lost_item") as shell:
            answers = said(shell, "step 0", "where")
            self.assertRegex(answers[1], r"^# core 0  poller    0 recv jobs 0    .*json:8$")
            self.assertRegex(answers[2], r"^# core 1  producer  0 data 41        .*json:7$")
            self.assertEqual(answers[3], "# ready -  tick 0  turn 1  at 1")

    def test_list(self) -> None:
        with example("lost_item") as shell:
            answers = said(shell, "step 1", "list producer")
            self.assertRegex(answers[1], "^# producer, run  .*lost_item.json$")
            rows = [
                "#    7        0  data 41",
                "#    7  ->    1  send jobs 0",
                "#    7        2  end",
            ]
            self.assertEqual(answers[2:], rows)

    def test_print(self) -> None:
        with example("lost_item") as shell:
            said(shell, "until count jobs > 0 50")
            self.assertEqual(said(shell, "print r0 producer"), ["# producer: r0 = 1"])
            self.assertEqual(said(shell, "p producer.data"), ["# producer: data = 41"])
            self.assertEqual(len(said(shell, "p $r0")), 2)
            self.assertIn("queue jobs  1/1  41", said(shell, "p jobs")[0])
            self.assertIn("did you mean 'jobs'?", said(shell, "p job")[0])

    def test_one_task(self) -> None:
        with example("lost_item") as shell:
            answers = said(shell, "step 0", "info worker")
            expected = (
                "# task worker, priority 2, on no core, waits at recv:jobs with no limit of time"
            )
            self.assertEqual(answers[1], expected)
            self.assertEqual(len(said(shell, "info registers worker")), 1)


class Moves(unittest.TestCase):
    """Words that move the target."""

    def test_a_task_by_its_name(self) -> None:
        with example("lost_item") as shell:
            answers = said(shell, "step producer 2", "step worker", "step worker", "step pruducer")
            self.assertEqual(answers[:3], ["ok at 1", "ok at 2", "ok at 3"])
            waits = "it waits at recv:jobs with no limit of time"
            running = "(running: poller on core 0, producer on core 1)"
            self.assertRegex(answers[3], "^ok at 4$|^# cannot step worker")
            answers = said(shell, "goto 0", "step worker", "step worker")
            self.assertEqual(answers[-1], f"# cannot step worker: {waits} {running}")
            self.assertIn("did you mean 'producer'?", said(shell, "step pruducer")[0])
            self.assertIn("it is ready", said(shell, "goto 0", "step poller")[1])

    def test_gdb_s_words(self) -> None:
        with example("lost_item") as shell:
            answers = said(shell, "s", "n 3", "rs", "reverse-step 2", "rc phase worker run")
            self.assertEqual(answers[:4], ["ok at 1", "ok at 4", "ok at 3", "ok at 1"])
            self.assertEqual(answers[4], "ok at 0 met")
            self.assertEqual(said(shell, "tick 3"), ["ok at 3"])
            said(shell, "goto 0")  # (`run` says where the target stands)
            for word in ("run", "bt", "finish", "thread", "x"):
                output, hints = both(shell, word)
                self.assertEqual(output, ["no Syntax"])
                self.assertEqual(hints, [f"hint: {HINTS[word]}"])

    def test_breaks_and_continue(self) -> None:
        with example("lost_item") as shell:
            answers = said(
                shell, "b producer:1", "b poller 0", "break count jobs > 0", "info break"
            )
            self.assertEqual(answers[0], "ok watch 0")
            self.assertEqual(len(answers), 8)
            places = [line for line in said(shell, "c", "c", "c", "c", "rc", "d 1", "c 90")]
            met = [line.split(":")[0] for line in places if line.startswith("# at ")]
            found = [f"# at {place} met" for place in (2, 5, 11, 16, 11)]
            self.assertEqual(met, [*found, "# at 101 limit"])

    def test_an_instruction_that_a_task_does_not_have(self) -> None:
        with example("lost_item") as shell:
            # (the worker has recv and jump, the producer data, send and end)
            last = {"worker": 1, "producer": 2}
            for line, number, task in (
                ("break worker 99", 99, "worker"),
                ("b producer:3", 3, "producer"),
                ("break pc worker = 2", 2, "worker"),
                ("break pc worker > 1", 2, "worker"),
                ("until pc worker = 2", 2, "worker"),
                ("until! pc worker = 2", 2, "worker"),
                ("rc! pc worker > 1", 2, "worker"),
            ):
                with self.subTest(line):
                    said_is = [f"# {task} has no instruction {number}, only 0 to {last[task]}"]
                    self.assertEqual(said_is, said(shell, line))
            self.assertEqual("ok at 0", said(shell, "goto 0", "step 0", "back 1")[-1])
            self.assertEqual("ok watch 0", said(shell, "break worker 1")[0])
            self.assertEqual("ok watch 1", said(shell, "break pc worker > 0")[0])
            self.assertEqual("ok watch 2", said(shell, "break pc worker < 99")[0])
            # (a whole line of rdbg goes to it as it is)
            self.assertEqual("ok at 3 limit", said(shell, "until pc worker = 99 3")[0])
            self.assertEqual("no NoSuch", said(shell, "break workr 99")[0])

    def test_lines_of_the_file(self) -> None:
        with opened(source("busy.fw", BUSY.encode())) as shell:
            answers = said(shell, "break busy.fw:10", "b 8", "d 1", "b other.fw:3", "b 99")
            self.assertEqual(answers[:2], ["# busy.fw:10  flash 1 recv log max", "ok watch 0"])
            tip = "# `continue` runs to the next watchpoint hit, `rc` goes back to the last one"
            moved = ["# busy.fw:9  flash 0 recv never 2", "ok watch 1"]
            dropped = ["ok watch 1", "# removed watch 1: pc flash = 0"]
            self.assertEqual(answers[2:7], [tip, *moved, *dropped])
            self.assertIn("the file is busy.fw", answers[7])
            self.assertIn("no instruction at or after line 99", answers[8])
        with example("lost_item") as shell:
            self.assertIn("has 3 instructions; use `break producer 0`", said(shell, "b 7")[0])

    def test_what_a_gdb_hand_types(self) -> None:
        with example("lost_item") as shell:
            refused, hints = both(shell, "break changes jobs", "break count job > 0")
            wanted = (
                "# a watch takes a condition; `until changes jobs` runs to this goal, `rc changes"
            )
            self.assertEqual(refused, [f"{wanted} jobs` goes back to it", "no NoSuch"])
            self.assertEqual(len(hints), 1)
            self.assertEqual(said(shell, "step 1 2", "goto 0"), ["ok at 1", "ok at 2", "ok at 0"])
            self.assertEqual(said(shell, "s producer", "s producer 2")[-1], "ok at 3")
            self.assertIn("`poke reg worker 7 3`", said(shell, "print r7=3")[0])
            self.assertIn("`poke reg poller 7 3`", said(shell, "p poller.r7 = 3")[0])
            self.assertIn("there is no register r9, only r0 to r7", said(shell, "print r9")[0])
            self.assertIn("queue jobs  1/1", said(shell, "info queue jobs")[0])
            self.assertIn("task worker, priority 2", said(shell, "info task worker")[0])
            self.assertEqual(len(said(shell, "info task")), 4)
            wrong = "# there is no queue 'worker': it is a task"
            self.assertEqual(said(shell, "info queue worker"), [wrong])
            self.assertEqual(said(shell, "show jobs"), said(shell, "show queue jobs"))
            self.assertIn("`step worker`", said(shell, "s nobody")[0])
            self.assertIn("`rs 5`", said(shell, "rs worker")[0])

    def test_goals(self) -> None:
        with example("lost_item") as shell:
            lines = ["until! count jobs > 0", "until wakes worker 5", "rc! count jobs > 0"]
            answers = said(shell, *lines)
            self.assertEqual(answers[0], "# at 5 met: count jobs > 0 (3 lines asked)")
            self.assertRegex(
                answers[1], r"^# 5  core 1  producer 1 send jobs 0 -> 1, jobs 1/1, woke "
            )
            limit = "# at 10 limit: 'wakes worker' was not met in 5 moves"
            self.assertTrue(answers[2].startswith(limit), answers[2])
            self.assertEqual(answers[3], "# `goto 5` goes back to the start of this run")
            self.assertEqual(said(shell, "goto 6", "rc! phase worker again")[1][:10], "# at 5 met")
            here = "# still at 5: 'phase worker again' turned true here, and never before"
            self.assertEqual(said(shell, "rc! phase worker again"), [here])
            none = r"^# still at 5: 'failed' was not met before \(\d+ lines asked\)$"
            self.assertRegex(said(shell, "rc failed")[0], none)

    def test_a_condition_without_a_count(self) -> None:
        with example("lost_item") as shell:
            lines = ["set echo on", "until count jobs > 0", "watch tick = 9", "until w0"]
            answers = said(shell, *lines)
            self.assertEqual(answers[:2], ["> until count jobs > 0 10000", "ok at 5 met"])
            self.assertEqual(answers[-2:], ["> until w0 10000", "ok at 23 met"])

    def test_the_way_back_where_a_condition_did_not_come(self) -> None:
        with example("turns") as shell:
            shell.is_terminal = True
            answers = said(shell, "step 0", "until tick = 90000")
            back = "# `goto 1` goes back to the start of this run"
            self.assertEqual(answers, ["ok at 1", "ok at 10001 limit", back])

    def test_an_interrupt_that_is_always_busy(self) -> None:
        made = source("busy.fw", BUSY.encode())
        with opened(made) as shell:
            answers = said(shell, "until stuck 50", "goto 0", "until sleeps flash")
            self.assertIn("# not stuck: isr is busy on core 0, and never waits", answers[1])
            self.assertIn("so `stuck` never holds", answers[2])
            self.assertRegex(answers[5], r"^# at 10 met: sleeps flash")
            self.assertRegex(answers[6], "flash 1 .* left core 1 .waits with no limit of time.")

    def test_a_target_that_is_asleep(self) -> None:
        with example("waiting_order") as shell:
            answers = said(shell, "until asleep", "until! asleep", "c", "tick 3", "rc! asleep")
            self.assertRegex(answers[0], r"^# at 22 met: asleep \(\d+ lines asked\)$")
            self.assertRegex(
                answers[2], "^# display ended; motor waits at recv:orders with no limit of time; "
            )
            self.assertRegex(answers[3], "^# already asleep; ")
            self.assertEqual(answers[4], answers[3])
            self.assertRegex(answers[6], "^# at 22 met: asleep")
            answers = said(shell, "goto 0", "c", "until finished", "rc! stuck")
            self.assertRegex(answers[1], r"^# at 22 met: asleep \(\d+ lines asked\)$")
            self.assertRegex(answers[4], "^# already asleep; ")
            self.assertRegex(answers[5], "^# still at 22: 'stuck' turned true here")

    def test_a_target_that_has_finished(self) -> None:
        with example("builtin") as shell:
            answers = said(shell, "c", "until asleep", "rc! finished")
            self.assertRegex(answers[0], r"^# at \d+ met: finished \(\d+ lines asked\)$")
            self.assertRegex(answers[2], "ended")
            self.assertRegex(answers[3], "^# already finished; ")

    def test_many_ticks(self) -> None:
        with example("delay", Limits(moves=400)) as shell:
            said(shell, "step 0", "step 0", "set moves on")
            answers = said(shell, "tick 300", "moves 300")
            self.assertEqual(answers[0], "ok at 302")
            self.assertIn("woke blink, whose time was up", answers[1])
            self.assertEqual(answers[2], "# 299 ticks without effect on any task")
            self.assertRegex(answers[-2], r"^# \d+\.\.302  29\d ticks, up to tick 300$")
            output, hints = both(shell, "set moves off", "tick 300")
            self.assertEqual(
                output, ["no MovesFull", "# stopped at 400; the moves up to there are done"]
            )
            self.assertIn("no moves left", hints[0])

    def test_words_that_are_wrong(self) -> None:
        wrong = [
            "until stuck x", "until wakes", "until wakes jobs", "until changes"
                " worker", "until changes task worker",
            "rc! nothing", "until! count jobs 5", "rc stuck 5", "c x", "break", "break worker",
            "delete", "goto x", "moves x", "save", "info", "info nothing", "list nothing", "print",
            "print r0 nothing", "set moves maybe", "help nothing", "tick x", "step worker x",
            "step core1", "until! w3", "rc! count",
        ]  # fmt: skip
        with example("lost_item") as shell:
            for line in wrong:
                with self.subTest(line):
                    output, hints = both(shell, line)
                    self.assertEqual((len(output), hints), (1, []))
                    self.assertTrue(output[0].startswith("# "), output)
            self.assertEqual(said(shell, "show moves"), ["moves 0 undone 0 kept 0"])

    def test_what_a_goal_names_is_looked_up(self) -> None:
        with example("lost_item") as shell:
            for line in ("until! count job > 0", "rc! reg worker 9 = 1"):
                output, hints = both(shell, line)
                self.assertEqual((len(output), hints), (1, []))
                self.assertRegex(output[0], "did you mean `count jobs > 0`|expected a register")


class Help(unittest.TestCase):
    """`help`, and what Tab finds."""

    def test_every_word(self) -> None:
        with example("lost_item") as shell:
            overview = "\n".join(said(shell, "help"))
            for word in WORDS:
                self.assertIn(word.form, overview)
            conditions = [form.word for form in commands.CONDITIONS]
            calls = [name for form in instructions.FORMS for name in form.freertos]
            names = [*BY_NAME, *commands.WORDS, *conditions, *HINTS, "COND", "send", "history"]
            names += [*candidates(shell, ["help"], ""), *calls, *WRITTEN, *glossary.REFUSALS]
            for name in [*names, *OTHERS]:
                with self.subTest(name):
                    answers, hints = both(shell, f"help {name}")
                    self.assertTrue(answers and "no help for" not in answers[0])
            self.assertTrue(all(len(line) <= 100 for line in overview.splitlines()))

    def test_tab(self) -> None:
        expected = {
            ("", "whe"): ["wheel", "where"],
            ("show", "q"): ["queue"],
            ("show task", ""): ["poller", "producer", "worker"],
            ("show queue", ""): ["jobs"],
            ("until count", "j"): ["jobs"],
            ("until count jobs", ""): ["<", "=", ">"],
            ("until", "w"): ["waits", "wakes"],
            ("until wakes", "p"): ["poller", "producer"],
            ("until! changes", ""): ["jobs"],
            ("rc phase worker", "a"): ["again"],
            ("step", ""): ["0", "1", "poller", "producer", "worker"],
            ("poke reg worker", ""): [str(number) for number in range(8)],
            ("isr", ""): ["notify", "send"],
            ("isr send", ""): ["jobs"],
            ("isr notify", "p"): ["poller", "producer"],
            ("isr notify worker 0 1", ""): ["bits", "inc", "none", "set", "setif"],
            ("isr notify worker 0 1", "s"): ["set", "setif"],
            ("set", ""): ["echo", "moves"],
            ("set echo", "o"): ["off", "on"],
            ("list", "w"): ["worker"],
            ("info", "t"): ["tasks"],
            ("help", "unt"): ["until", "until!"],
            ("wheel take", ""): [],
            ("fly", ""): [],
        }
        with example("lost_item") as shell:
            for (before, begun), words in expected.items():
                with self.subTest(before):
                    self.assertEqual(candidates(shell, before.split(), begun), words)


if __name__ == "__main__":
    unittest.main()
