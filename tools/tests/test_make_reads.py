"""What a text in lines says, as the JSON has it."""
import unittest
from typing import Any, Dict, List, Tuple

from rdbg.files.source import Source, source
from rdbg.tree import Node, Object, objects
from tests.test_make_faults import faults
from tests.test_make_several import application
from tests.values import plain

HEAD = "cores 1\nqueue jobs length 4 item 1\nstream rx size 8 trigger 4\ngroup flags\n"


def read(text: str) -> Source:
    """A text in lines."""
    return source("x.fw", text.encode())


class Reads(unittest.TestCase):
    """Texts without a fault."""

    def values(self, text: str) -> Dict[str, Any]:
        """The JSON of a text."""
        found = read(text)
        self.assertEqual([], [str(fault) for fault in found.faults])
        assert found.root is not None
        made = plain(found.root)
        assert isinstance(made, dict)
        return made

    def code(self, *lines: str) -> List[str]:
        """The instructions that lines of a script are; it goes on with `end`."""
        made = self.values("\n".join([HEAD, "task t priority 1", *lines, "end", ""]))
        code: List[str] = made["tasks"][0]["code"]
        self.assertEqual("end", code[-1])
        return code[:-1]

    def test_a_whole_text(self) -> None:
        text = (
            "// two tasks and a queue\ncores 2\nqueue jobs length 1 item 1\n\n"
            "task worker priority 2\nagain:\n    recv jobs portMAX_DELAY\n    jump again\n\n"
            "task producer priority 1\n    data 0x41\n    send jobs 0\n    end\n"
        )
        tasks = [
            {"name": "worker", "priority": 2, "code": ["recv jobs max", "jump 0"]},
            {"name": "producer", "priority": 1, "code": ["data 41", "send jobs 0", "end"]},
        ]
        queues = [{"name": "jobs", "length": 1, "item": 1}]
        wanted = {"profile": 1, "cores": 2, "queues": queues, "tasks": tasks}
        self.assertEqual(wanted, self.values(text))

    def test_objects_of_each_kind(self) -> None:
        made = self.values(
            "profile 1\ncores 8\nnotes 4\ntick 0xfffffff0\nqueue a length 4 item 0x10\n"
            "queue b item 1 length 64\nset s length 4 members a, b\nset none length 1 members\n"
            "stream rx size 64 trigger 8\nmessage m size 128\ngroup g\ntask t priority 31\nend"
        )
        self.assertEqual(
            {
                "profile": 1,
                "cores": 8,
                "notes": 4,
                "tick": 4294967280,
                "queues": [
                    {"name": "a", "length": 4, "item": 16},
                    {"name": "b", "length": 64, "item": 1},
                ],
                "sets": [
                    {"name": "s", "length": 4, "members": ["a", "b"]},
                    {"name": "none", "length": 1, "members": []},
                ],
                "streams": [{"name": "rx", "size": 64, "trigger": 8}],
                "messages": [{"name": "m", "size": 128}],
                "groups": [{"name": "g"}],
                "tasks": [{"name": "t", "priority": 31, "code": ["end"]}],
            },
            made,
        )

    def test_a_profile_with_more_cores(self) -> None:
        made = self.values("profile 2\ncores 16\ntask t priority 1\nend\n")
        self.assertEqual([("profile", 2), ("cores", 16)], list(made.items())[:2])

    def test_lines_stand_in_any_order(self) -> None:
        made = self.values("task t priority 1\nrecv q 0\nqueue q length 1 item 1\nend\ncores 1")
        self.assertEqual(["recv q 0", "end"], made["tasks"][0]["code"])

    def test_set_is_an_instruction_and_a_queue_set(self) -> None:
        made = self.values(
            "cores 1\nset r1 length 1 members\ntask t priority 1\nset r1 3\nset(r2, 4)\nend\n"
            "set more length 2 members"
        )
        self.assertEqual(["r1", "more"], [it["name"] for it in made["sets"]])
        self.assertEqual(["set r1 3", "set r2 4", "end"], made["tasks"][0]["code"])

    def test_labels(self) -> None:
        lines = ["top: first:", "jumpz r0 out", "in: set r1 1", "jump top", "jump in", "jump first"]
        lines += ["jump 2", "out:"]
        wanted = ["jumpz r0 6", "set r1 1", "jump 0", "jump 1", "jump 0", "jump 2"]
        self.assertEqual(wanted, self.code(*lines))

    def test_labels_of_two_tasks_are_apart(self) -> None:
        made = self.values(
            "cores 1\ntask a priority 1\nx:\njump x\ntask b priority 1\nadd r1 1\nx:end"
        )
        self.assertEqual(["jump 0"], made["tasks"][0]["code"])

    def test_numbers(self) -> None:
        lines = [
            f"set r1 {it}" for it in ("10", "0x0A", "10u", "0XffUL", "1<<4", "(1 << 4)|1", "0")
        ]
        wanted = [f"set r1 {it}" for it in (10, 10, 10, 255, 16, 17, 0)]
        self.assertEqual(wanted, self.code(*lines))

    def test_numbers_below_0(self) -> None:
        wanted = ["add r0 4294967289", "set r1 4294967295", "add r0 4294967293", "add r0 0"]
        self.assertEqual(
            wanted, self.code("const K 3", "add r0 -7", "set r1 -0x1", "add r0 -K", "add r0 -0")
        )

    def test_consts(self) -> None:
        lines = ["const RX 0x01", "#define TX ( 1UL << 1 )  // the other", "const BOTH RX|TX"]
        lines += ["gset flags BOTH", "gwait flags RX | TX any clear BOTH", "sread rx BOTH 0"]
        lines += ["take RX clear 0", "const FOREVER portMAX_DELAY", "recv jobs FOREVER"]
        made = self.values("\n".join([HEAD, "notes 2", "task t priority 1", *lines, "end"]))
        wanted = ["gset flags 3", "gwait flags 3 any clear 3", "sread rx 3 0", "take 1 clear 0"]
        self.assertEqual([*wanted, "recv jobs 4294967295", "end"], made["tasks"][0]["code"])

    def test_consts_may_stand_below(self) -> None:
        made = self.values("cores N\ntask t priority P\nend\n#define N 2\nconst P N|1")
        self.assertEqual((2, 3), (made["cores"], made["tasks"][0]["priority"]))

    def test_consts_in_objects(self) -> None:
        made = self.values("const N 4\ncores N\nqueue q length N|1 item N\ntask t priority N\nend")
        self.assertEqual((4, 4), (made["cores"], made["tasks"][0]["priority"]))
        self.assertEqual([{"name": "q", "length": 5, "item": 4}], made["queues"])

    def test_block_times(self) -> None:
        lines = ["recv jobs max", "recv jobs portMAX_DELAY", "recv jobs r3", "recv jobs 0x10"]
        wanted = ["recv jobs max", "recv jobs max", "recv jobs r3", "recv jobs 16"]
        self.assertEqual(wanted, self.code(*lines))
        self.assertEqual(["set r1 4294967295"], self.code("set r1 portMAX_DELAY"))

    def test_calls(self) -> None:
        lines = [
            "recv(jobs, portMAX_DELAY);",
            "gwait ( flags , 1 | 2 , any , clear , 10 )",
            "count jobs;",
        ]
        wanted = ["recv jobs max", "gwait flags 3 any clear 10", "count jobs"]
        self.assertEqual(wanted, self.code(*lines))

    def test_data(self) -> None:
        lines = [
            "data 41",
            "data 0x010aFf",
            "data 01 0x02, 03",
            "data -",
            'data "ab" 0d0a',
            'data ""',
        ]
        lines += [r'data "\n\r\t\0\\\"\x7F#//é"']
        wanted = ["data 41", "data 010aFf", "data 010203", "data -", "data 61620d0a", "data -"]
        wanted += ["data 0a0d09005c227F232f2fc3a9"]
        self.assertEqual(wanted, self.code(*lines))

    def test_consts_as_data(self) -> None:
        consts = "cores 1\nconst STOP 2\nconst ALL 0xFF\nqueue q length 1 item 1\n"
        text = f'{consts}task t priority 1\ndata STOP\ndata STOP, ALL 0x03 "a"\nend\n'
        found = application(f"{text}interrupt go: send q STOP\n")
        code = found.tasks[0].code
        self.assertEqual(["data 02", "data 02ff0361", "end"], [it.text for it in code])
        self.assertEqual("data STOP", code[0].written)
        self.assertEqual(("send q 02",), found.interrupts[0].calls)
        self.assertEqual("data 05", application(text, {"STOP": 5}).tasks[0].code[0].text)
        for name, value, said in (
            ("BIG", 256, "a byte must be 0 to 255, found 'BIG', which is 256"),
            (
                "AB",
                3,
                "'AB' is both a const and valid bytes (write 0xAB for the bytes, or 0x03 for the"
                " const)",
            ),
        ):
            wrong = f"cores 1\nconst {name} {value}\ntask t priority 1\ndata {name}\nend\n"
            told = f'4:6: task t, instruction 0: "data {name}": {said}'
            self.assertEqual([told], faults(wrong.encode()))

    def test_a_semicolon_alone_says_nothing(self) -> None:
        self.assertEqual([], faults(b"cores 1\n;\ntask t priority 1\nend;\n;\n"))

    def test_comments(self) -> None:
        lines = ["// one", "# two", "/* three", "recv jobs 5", "*/ recv jobs 0 /**/ // four"]
        lines += ["count jobs# five /*"]
        self.assertEqual(["recv jobs 0", "count jobs"], self.code(*lines))
        self.assertEqual(["add r1 1"], self.code("add /* // */ r1 1 /*", "add r2 2 */ // /*"))

    def test_ends_of_lines_tabs_and_a_byte_order_mark(self) -> None:
        lines = ["\ufeffcores\t1", "task\tt  priority\t1", "\tadd r1 1\t", "", "  end "]
        for end in ("\n", "\r\n"):
            for last in ("", end):
                made = self.values(end.join(lines) + last)
                self.assertEqual(["add r1 1", "end"], made["tasks"][0]["code"])

    def test_words_that_are_names_and_more(self) -> None:
        lines = [
            "queue max length 1 item 1",
            "queue length length 1 item 1",
            "group r0",
            "stream end size 1 trigger 0",
        ]
        lines += [
            "set members length 1 members length max",
            "task priority priority 1",
            "recv max max",
        ]
        lines += ["gset r0 r0", "select members 0", "swrite end 0", "end:", "jump end"]
        made = self.values("\n".join(["cores 1", *lines]))
        wanted = ["recv max max", "gset r0 r0", "select members 0", "swrite end 0", "jump 4"]
        self.assertEqual(wanted, made["tasks"][0]["code"])


class Places(unittest.TestCase):
    """Where things stand in the text."""

    TEXT = (
        "cores 1\nconst RX 1\nqueue jobs length 4 item 1\ngroup flags\n"
        "task worker priority 2\nagain: recv(jobs,\tportMAX_DELAY);  // waits\n"
        "  gwait  flags RX|2 any keep 10\n  jump again\n"
    )

    def code(self) -> Tuple[Node, ...]:
        """The instructions."""
        root = read(self.TEXT).root
        assert root is not None and isinstance(root.value, Object)
        code = objects(root.value.get("tasks"))[0].get("code")
        assert code is not None and isinstance(code.value, tuple)
        return code.value

    def test_of_an_application(self) -> None:
        app = read(self.TEXT).application
        assert app is not None
        places = [app.queues[0].place, app.groups[0].place, app.tasks[0].place]
        places += [instruction.place for instruction in app.tasks[0].code]
        self.assertEqual(["3:7", "4:7", "5:6", "6:8", "7:3", "8:3"], list(map(str, places)))

    def test_what_is_written(self) -> None:
        wanted = [
            ("recv jobs max", "recv(jobs, portMAX_DELAY)"),
            ("gwait flags 3 any keep 10", "gwait flags RX|2 any keep 10"),
            ("jump 0", "jump again"),
        ]
        self.assertEqual(wanted, [(node.value, node.written) for node in self.code()])

    def test_of_the_words_of_instructions(self) -> None:
        found = [" ".join(f"{word}@{place}" for word, place in it.words()) for it in self.code()]
        wanted = [
            "recv@6:8 jobs@6:13 max@6:19",
            "gwait@7:3 flags@7:10 3@7:16 any@7:21 keep@7:25 10@7:30",
            "jump@8:3 0@8:8",
        ]
        self.assertEqual(wanted, found)

    def test_each_word_has_one(self) -> None:
        for node in self.code():
            self.assertEqual(len(str(node.value).split(" ")), len(node.columns))


if __name__ == "__main__":
    unittest.main()
