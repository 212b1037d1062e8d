"""Several tasks of one script, semaphores and mutexes, consts that are given, and comments."""
import json
import pathlib
import tempfile
import unittest
from typing import List, Mapping

from rdbg.application import Application
from rdbg.client import Session
from rdbg.companions.make import expansions
from rdbg.failure import Failure
from rdbg.files.source import Source, source
from rdbg.firmware.writer import jumps_of, text_of
from rdbg.json_layout import json_of
from rdbg.page.recorder import code_of
from rdbg.replies import Queue, Task, read
from tests.hunts import said as hunted
from tests.test_make_faults import faults


def made(text: str, given: Mapping[str, int] = {}) -> Source:
    """A text without faults, with consts that are given."""
    found = source("x.fw", text.encode(), given)
    assert found.application is not None, [str(fault) for fault in found.faults]
    return found


def application(text: str, given: Mapping[str, int] = {}) -> Application:
    """Its application."""
    found = made(text, given).application
    assert found is not None
    return found


WORKERS = (
    "cores 2\nnotes 2\nconst N 3\nqueue jobs length 1 item 1\n"
    "task worker[N] priority 2\nrecv jobs 1\nif r0 & 1 goto out\nadd r1 1\nout: end\n"
    "task boss priority 1\nnotify worker[1] 0 1 inc\nend\n"
)


class Several(unittest.TestCase):
    """Several tasks of one script."""

    def test_each_has_the_script_and_speaks_of_itself(self) -> None:
        tasks = application(WORKERS).tasks
        self.assertEqual(["worker0", "worker1", "worker2", "boss"], [it.name for it in tasks])
        told = [it.code[2].text for it in tasks[:3]]
        self.assertEqual([f"notify worker{at} 1 r0 set" for at in range(3)], told)
        self.assertEqual("notify worker1 0 1 inc", tasks[3].code[0].text)

    def test_a_fault_is_told_once(self) -> None:
        found = faults(WORKERS.replace("recv jobs", "recv jbos").encode())
        text = (
            "6:6: task worker0, instruction 0: \"recv jbos 1\": queue 'jbos' is not defined"
            " (did you mean 'jobs'?)"
        )
        self.assertEqual([text], found)
        found = faults(WORKERS.replace("goto out", "goto uot").encode())
        self.assertEqual(1, len(found))
        found = faults(WORKERS.replace("worker[N] priority 2", "worker[N]").encode())
        self.assertEqual(1, len(found))

    def test_how_many(self) -> None:
        for count in ("0", "33"):
            found = faults(WORKERS.replace("const N 3", f"const N {count}").encode())
            self.assertIn(f"5:13: a script can have 1 to 32 tasks, found {count}", found)
        found = faults(WORKERS.replace("worker[N]", "worker[M]").encode())
        self.assertEqual(["5:13: 'M' is neither a number nor a const"], found[:1])
        self.assertEqual(5, len(application(WORKERS, {"N": 4}).tasks))

    def test_names_are_as_all_names(self) -> None:
        found = faults(WORKERS.replace("worker[", "a_name_of_16_abc[").encode())
        self.assertIn("a name must have 1 to 16 characters", found[0])
        found = faults((WORKERS + "task worker2 priority 1\nend\n").encode())
        self.assertEqual(["13:6: task worker2 is defined twice (first at 5:6)"], found)


LOCKS = (
    "cores 1\nmutex lock\nsemaphore done\nsemaphore pool length 2 given\n"
    "task t priority 1\ndata 0x41\n{}\nend\n"
)


class Semaphores(unittest.TestCase):
    """Semaphores and mutexes."""

    def answers(self, *lines: str) -> List[int]:
        """What lines are answered, one behind the other, of which none waits; and the data
        stays."""
        text = LOCKS.format("\n".join(lines))
        found: List[int] = []
        with made(text).as_json() as path, Session.run(path) as session:
            session.tell("step 0")
            for _ in lines:
                session.tell("step 0")
                task = read(session.tell("show task t"))
                assert isinstance(task, Task)
                found.append(task.registers[0])
        return found

    def test_a_mutex_is_there_at_the_start(self) -> None:
        self.assertEqual(
            [1, 0, 1, 1], self.answers("take lock 0", "take(lock, 0);", "give lock", "take lock 0")
        )

    def test_a_semaphore_is_there_once_it_was_given(self) -> None:
        self.assertEqual(
            [0, 1, 0, 1, 0],
            self.answers("take done 0", "give done", "give done", "take done 0", "count done"),
        )

    def test_a_pool(self) -> None:
        lines = [
            "count pool",
            "take pool 0",
            "take pool 0",
            "take pool 0",
            "count pool",
            "give pool",
            "count pool",
        ]
        self.assertEqual([2, 1, 1, 0, 0, 1, 1], self.answers(*lines))
        self.assertEqual([0], self.answers("give pool"))

    def test_who_takes_and_gives_a_mutex_keeps_its_data(self) -> None:
        text = LOCKS.format("take lock 0\ngive lock")
        with made(text).as_json() as path, Session.run(path) as session:
            list(session.tell_all(["step 0"] * 3))
            task, queue = read(session.tell("show task t")), read(session.tell("show queue lock"))
            assert isinstance(task, Task) and isinstance(queue, Queue)
            self.assertEqual((b"A", 0), (task.data, queue.count))

    def test_who_waits_is_woken_by_who_gives(self) -> None:
        text = (
            "cores 1\nmutex lock\ntask low priority 1\ntake lock 0\nadd r1 1\ngive lock\nend\n"
            "task high priority 2\nrecv never 1\ntake lock max\nend\nqueue never length 1 item 1\n"
        )
        with made(text).as_json() as path, Session.run(path) as session:
            session.tell("until phase high wait:send 20".replace(":send", ""))
            list(session.tell_all(["step 0", "tick", "step 0", "step 0"]))
            high = read(session.tell("show task high"))
            assert isinstance(high, Task)
            self.assertEqual("wait:send:lock:max", high.phase.text)
            list(session.tell_all(["step 0", "step 0"]))
            high = read(session.tell("show task high"))
            assert isinstance(high, Task)
            self.assertEqual(("again:max", 0), (high.phase.text, high.core))

    def test_what_check_and_make_say(self) -> None:
        found = made(LOCKS.format("take lock r3"))
        said = (
            "note: mutex 'lock' is modelled as a queue: it has no owner and no priority inheritance"
        )
        self.assertEqual([f"2:1: {said}"], [str(it) for it in found.remarks])
        assert found.application is not None
        self.assertEqual(
            [
                "2: mutex lock: queue lock length 1 item 1, which holds an item while it is taken",
                "3: semaphore done: queue done length 1 item 1, which holds an item while it can be taken",
                "4: semaphore pool length 2 given: queue pool length 2 item 1,"
                " which holds an item while it is taken",
                "7: take lock r3: t 1, 1 move: send lock r3",
            ],
            list(expansions(found.application, found.made)),
        )

    def test_queues_keep_their_order(self) -> None:
        app = application(
            "cores 1\nqueue a length 1 item 1\nmutex b\nqueue c length 1 item 1\ntask t priority"
            " 1\nend\n"
        )
        self.assertEqual(["a", "b", "c"], [it.name for it in app.queues])

    REFUSED = {
        "recv lock max": "task t, instruction 1: \"recv lock max\": 'lock' is a mutex (use"
        " take lock T and give lock)",
        "send done 0": "task t, instruction 1: \"send done 0\": 'done' is a semaphore (use"
        " take done T and give done)",
        "take lock": "take NAME T: missing block time (max, a number, or r0 to r7)",
        "take lock 5 6": "take NAME T: unexpected '6'",
        "give jobs": "give NAME: 'jobs' is not a semaphore or a mutex (defined: lock, done, pool)",
        "give": "give NAME: missing name (defined: lock, done, pool)",
        "give lock 0": "give NAME: unexpected '0'",
    }

    def test_refused_lines(self) -> None:
        for line, said in self.REFUSED.items():
            with self.subTest(line):
                found = [it.split(": ", 1)[1] for it in faults(LOCKS.format(line).encode())]
                self.assertEqual([said], found)

    OBJECTS = {
        "mutex m length 2": "unknown key 'length' (expected mutex NAME)",
        "mutex": "mutex NAME: missing name",
        "semaphore s given 3": "unknown key '3' (expected semaphore NAME length N given)",
        "semaphore s length": "missing number after 'length'",
        "mutex lock": "queue lock is defined twice (first at 2:7)",
        "set s length 3 members lock": "'lock' cannot be in a set: its queue holds an item while it"
        " is taken, so the set would report a take, not a give",
    }

    def test_refused_objects(self) -> None:
        for line, said in self.OBJECTS.items():
            with self.subTest(line):
                found = faults((LOCKS.format("add r1 1") + line + "\n").encode())
                self.assertEqual([said], [it.split(": ", 1)[1] for it in found])
        self.assertEqual(
            [], faults((LOCKS.format("add r1 1") + "set s length 3 members done").encode())
        )


class Given(unittest.TestCase):
    """Consts that are given beside the text."""

    TEXT = (
        "cores 1\nconst LONG 5\nconst MORE LONG|8\n"
        "task t priority 1\nset r1 LONG\nset r2 MORE\nend\n"
    )

    def test_they_stand_for_those_of_the_text(self) -> None:
        found = application(self.TEXT, {"LONG": 3})
        self.assertEqual(["set r1 3", "set r2 11"], [it.text for it in found.tasks[0].code[:2]])

    def test_they_stand_for_those_that_it_lacks(self) -> None:
        text = self.TEXT.replace("const LONG 5\n", "")
        self.assertIn("'LONG' is neither a number", faults(text.encode())[0])
        self.assertEqual("set r1 7", application(text, {"LONG": 7}).tasks[0].code[0].text)

    def test_one_that_no_line_has_is_refused(self) -> None:
        with self.assertRaises(Failure) as caught:
            source("x.fw", self.TEXT.encode(), {"LOGN": 3})
        self.assertEqual(
            "-D LOGN: const 'LOGN' is not defined (did you mean 'LONG'?)", str(caught.exception)
        )
        with self.assertRaises(Failure) as caught:
            source("x.json", b"{}", {"LONG": 3})
        self.assertIn("a JSON has no consts", str(caught.exception))

    def test_on_a_command_line(self) -> None:
        with tempfile.TemporaryDirectory() as folder:
            path = pathlib.Path(folder) / "x.fw"
            path.write_text(self.TEXT)
            status, _, errors = hunted(str(path), "reg t 1 = 9", "-D", "LONG=9")
            self.assertEqual(
                (1, "found: reg t 1 = 9, at 1, without surprises"), (status, errors[0])
            )
            for wrong in ("LONG", "LONG=", "LONG=x", "9=9", "LONG=1 2"):
                self.assertEqual(2, hunted(str(path), "stuck", "-D", wrong)[0])


class Comments(unittest.TestCase):
    """Comments go to where pages show them."""

    TEXT = (
        "// of the file\ncores 1\ntask t priority 1  // of the task\n  // one\n  /* two */ #"
        " three\n"
        "  add r1 1 // beside\n\n  loop // of no instruction\n    /* a long\n     * one */\n"
        "    add r2 1\n  end\n"
    )

    def test_each_stands_at_its_instruction(self) -> None:
        code = application(self.TEXT).tasks[0].code
        self.assertEqual(
            (("of the task", "one", "two three"), "beside"), (code[0].above, code[0].beside)
        )
        self.assertEqual(
            (("of no instruction", "a long", "one"), ""), (code[1].above, code[1].beside)
        )
        self.assertEqual(((), ""), (code[2].above, code[2].beside))
        self.assertEqual(
            ["add r1 1", 6, 0, 1, "beside", ["of the task", "one", "two three"]], code_of(code[0])
        )
        self.assertEqual(["end (loop)", 12, 0, 1], code_of(code[2]))


class Back(unittest.TestCase):
    """From the JSON to lines: what can be found again is written as it was."""

    def back(self, text: str) -> str:
        """A text, made and back; making it again gives the same."""
        app = application(text)
        found = text_of(app)
        again = source("x.fw", found.encode()).application
        assert again is not None
        self.assertEqual(json_of(app), json_of(again))
        return found

    def test_several_tasks_and_ifs(self) -> None:
        found = self.back(WORKERS)
        self.assertIn(
            "task worker[3] priority 2\n    recv jobs 1\n    if r0 & 0x1 goto L10\n", found
        )

    def test_each_test(self) -> None:
        head = "cores 1\nnotes 2\ntask t priority 1\n"
        for test in (
            "r2 = 7",
            "r2 != 7",
            "r2 & 0x4",
            "!(r2 & 0x4)",
            "(r2 & 0x6) = 0x2",
            "(r2 & 0x6) != 0x2",
        ):
            found = self.back(f"{head}if {test} goto L0\nadd r1 1\nL0: end\n")
            self.assertIn(f"    if {test} goto L", found)

    def test_what_is_jumped_into_is_no_if(self) -> None:
        text = "cores 1\ntask t priority 1\njump 2\nmove r7 r1\nadd r7 -3\njumpz r7 4\nend\n"
        self.assertIn("move r7 r1", self.back(text))

    def test_where_it_may_have_been_written_otherwise_is_said(self) -> None:
        text = "cores 1\ntask t priority 1\nloop\nif r1 = 3 break\nadd r1 1\nend\nend\n"
        self.assertEqual(["t 4"], [*jumps_of(application(text))])
        self.assertIn("if r1 = 3 goto L5", self.back(text))

    def test_names_that_are_no_row(self) -> None:
        text = (
            "cores 1\ntask a0 priority 1\nend\ntask a2 priority 1\nend\ntask b0 priority 1\nend\n"
        )
        self.assertIn("task a0 priority 1", self.back(text))
        self.assertEqual(3, len(json.loads(json_of(application(text)))["tasks"]))


if __name__ == "__main__":
    unittest.main()
