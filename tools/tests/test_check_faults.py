"""The faults of a file, as they are printed."""
import unittest
from typing import List

from rdbg.checking.faults import MOST_FAULTS, faults_of, remarks_of
from rdbg.files.source import source
from rdbg.tree import Node, Place
from tests.paths import EXAMPLES

LOST = (EXAMPLES / "lost_item.json").read_text()
IN_PROFILE_1 = "L3 Limit: 2:26: cores must be 1 to 8 in profile 1, found {} (profile 2 allows 16)"
FILE = """{
  "profile": 1, "cores": 1, "notes": 2,
  "queues": [{"name": "jobs", "length": 4, "item": 1}, {"name": "done", "length": 1, "item": 1}],
  "sets": [{"name": "inputs", "length": 5, "members": ["jobs"]}],
  "streams": [{"name": "uart", "size": 16, "trigger": 4}],
  "groups": [{"name": "g0"}],
  "tasks": [
    {"name": "gateway", "priority": 2, "code": ["data 41",
      CODE
    ]}
  ]
}
"""


def faults(text: str) -> List[str]:
    """The faults of a text, each with its kind."""
    return [f"{it.kind}: {it}" for it in source("x.json", text.encode()).faults]


def edited(old: str, new: str) -> List[str]:
    """The faults of a file without any, in which one thing is another."""
    text = FILE.replace("CODE", '"end"')
    assert not faults(text) and text.count(old) == 1
    return faults(text.replace(old, new))


def of_code(*lines: str) -> List[str]:
    """The faults of instructions, without the kind, the line and the task. The first one is
    instruction 1, and stands at column 7 of line 9; the script goes on with `end`."""
    code = ", ".join(f'"{line}"' for line in [*lines, "end"])
    found = faults(FILE.replace("CODE", code))
    return [it.replace(": 9:", " ", 1).replace("task gateway, instruction ", "") for it in found]


class Instructions(unittest.TestCase):
    """Instructions that are none."""

    def test_a_missing_block_time(self) -> None:
        expected = (
            'L5 Instr 7: 1: "recv jobs": recv Q T: missing block time'
            " (max, a number, or r0 to r7)"
        )
        self.assertEqual([expected], of_code("recv jobs"))

    def test_a_missing_queue(self) -> None:
        self.assertEqual(
            ['L5 Instr 7: 1: "recv 10": recv Q T: missing queue (a name)'], of_code("recv 10")
        )

    def test_a_wrong_order_of_words(self) -> None:
        expected = (
            'L5 Instr 17: 1: "gwait g0 all 3 clear 10": gwait G V WISH CLR T: the operands are in the'
            " wrong order (write gwait g0 3 all clear 10)"
        )
        self.assertEqual([expected], of_code("gwait g0 all 3 clear 10"))

    def test_an_unknown_queue(self) -> None:
        expected = (
            "L4 Name 13: 1: \"send jbos 0\": queue 'jbos' is not defined (did you mean 'jobs'?)"
        )
        self.assertEqual([expected], of_code("send jbos 0"))
        expected = (
            "L4 Name 13: 1: \"recv uart 0\": queue 'uart' is not defined"
            " ('uart' is a stream buffer)"
        )
        self.assertEqual([expected], of_code("recv uart 0"))

    def test_a_jump_out_of_the_script(self) -> None:
        expected = (
            'L5 Instr 13: 1: "jump 3": jump L: target must be an instruction number, 0 to 2,'
            " found '3'"
        )
        self.assertEqual([expected], of_code("jump 3"))

    def test_a_label_for_a_jump(self) -> None:
        expected = (
            'L5 Instr 17: 1: "jumpz r0 again": jumpz R L: target must be an instruction number,'
            " 0 to 2, found 'again' (a jump takes the number of an instruction, counted from 0)"
        )
        self.assertEqual([expected], of_code("jumpz r0 again"))

    def test_over_on_a_longer_queue(self) -> None:
        expected = (
            'L6 OverwriteLength 13: 1: "over jobs": over Q needs a queue of length 1,'
            " but jobs has length 4"
        )
        self.assertEqual([expected], of_code("over jobs"))
        self.assertEqual([], of_code("over done"))

    def test_a_word_that_is_none(self) -> None:
        self.assertEqual(
            [
                "L5 Instr 9: 1: \" recieve jobs 0\": unknown instruction 'recieve' (did you mean 'recv'?)"
            ],
            of_code(" recieve jobs 0"),
        )
        self.assertEqual(
            ["L5 Instr 8: 1: \"0 jump 0\": unknown instruction '0' (put jump first)"],
            of_code("0 jump 0"),
        )
        self.assertEqual(['L5 Instr 7: 1: "": the instruction is empty'], of_code(""))

    def test_names_of_freertos(self) -> None:
        cases = {
            "xQueueReceive jobs max": "'xQueueReceive' is not an instruction (use recv Q T)",
            "xqueuereceive jobs max": "'xqueuereceive' is not an instruction (use recv Q T)",
            "xQueueSend(jobs, &x, 0);": "'xQueueSend' is not an instruction (use send Q T)",
            "xTaskNotifyGive(gateway);": "'xTaskNotifyGive' is not an instruction (use notify K 0 0 inc)",
            "vTaskDelay(10);": (
                "'vTaskDelay' is not an instruction (use recv never T, where never is a queue that"
                " nobody fills)"
            ),
            "xQueueSendFromISR jobs": (
                "'xQueueSendFromISR' is not an instruction (use the command isr send Q HEX in profile"
                " 2, see docs/guides/from-c.md)"
            ),
            "vTaskNotifyGiveFromISR(worker, &woken);": (
                "'vTaskNotifyGiveFromISR' is not an instruction (use the command isr notify K 0 0 inc"
                " in profile 2, see docs/guides/from-c.md)"
            ),
            "xTaskNotifyFromISR(t, 1, eSetBits, &woken);": (
                "'xTaskNotifyFromISR' is not an instruction (use the command isr notify K 0 N ACTION"
                " in profile 2, see docs/guides/from-c.md)"
            ),
            "xQueueReceiveFromISR jobs": (
                "'xQueueReceiveFromISR' is not an instruction (use recv Q T; model the interrupt as a"
                " task with a core of its own, see docs/guides/from-c.md)"
            ),
            "vTaskSuspend": "'vTaskSuspend' is not modelled (tasks cannot be suspended)",
        }
        for line, expected in cases.items():
            self.assertEqual([f'L5 Instr 8: 1: "{line}": {expected}'], of_code(line))

    def test_constants_and_numbers_of_c(self) -> None:
        cases = {
            "recv jobs portMAX_DELAY": "write max",
            "recv jobs -1": "write max",
            "recv jobs 0x10": "write 16",
            "recv jobs 10u": "write 10",
            "set r0 -1": "write 4294967295",
            "set R1 5": "write r1",
            "gset g0 BIT_3": "write 8",
            "gset g0 (1<<4)": "write 16",
            "data 0x41": "write 41",
            "data 4": "each byte has two digits",
            "take 0 pdTRUE max": "write clear",
            "gwait g0 1 any pdFALSE max": "write keep",
            "notify gateway 0 1 eIncrement": "write inc",
            "notify gateway 2 1 inc": '"notes" gives each task 2 entries',
            "recv Jobs 0": "write jobs",
            "recv jobs, 0": "write jobs",
            "set r0 4294967296": "the largest number is 4294967295",
        }
        for line, expected in cases.items():
            found = of_code(line)
            self.assertEqual(1, len(found), found)
            self.assertTrue(found[0].endswith(f" ({expected})"), found)

    def test_words_too_many(self) -> None:
        cases = {
            "recv jobs 10 20": "recv Q T: unexpected word '20'",
            "end 0": "end: unexpected word '0'",
            "recv jobs 10 // wait": "an instruction cannot contain a comment",
            "data 41 42": "bytes must be written without spaces (write data 4142)",
        }
        for line, expected in cases.items():
            found = of_code(line)
            self.assertEqual(
                [True], [it.endswith(f': "{line}": {expected}') for it in found], found
            )

    def test_of_one_instruction_a_wrong_form_comes_before_an_unknown_name(self) -> None:
        found = of_code("send jbos never")
        self.assertEqual(["L5 Instr", "L4 Name"], [it[:8].strip() for it in found])

    def test_what_cannot_be_seen_stays_on_its_line(self) -> None:
        found = of_code("\\u001b[31m\\n" + "x" * 300)
        self.assertEqual(1, len(found))
        self.assertTrue(found[0].isprintable() and len(found[0]) < 200, found)


class Files(unittest.TestCase):
    """Keys, values and names."""

    def test_a_slip_in_a_key(self) -> None:
        self.assertEqual(
            ['L2 Shape: 8:25: task gateway: unknown key "prioritiy" (did you mean "priority"?)'],
            edited('"priority"', '"prioritiy"'),
        )

    def test_the_value_of_a_key_with_a_slip_counts(self) -> None:
        self.assertEqual(
            ['L2 Shape: 6:15: event group number 0: unknown key "nmae" (did you mean "name"?)'],
            edited('"groups": [{"name"', '"groups": [{"nmae"'),
        )

    def test_a_key_that_is_missing_or_not_there(self) -> None:
        self.assertEqual(
            [
                'L2 Shape: 3:56: queue done: missing key "item" (the size of an item in bytes, 1 to 64)'
            ],
            edited('"length": 1, "item": 1}', '"length": 1}'),
        )
        self.assertEqual(
            [
                'L2 Shape: 2:3: the application: unknown key "semaphores"'
                " (use a queue for a semaphore, see docs/guides/from-c.md)"
            ],
            edited('"profile"', '"semaphores": [], "profile"'),
        )

    def test_numbers_out_of_limits_or_of_another_form(self) -> None:
        cases = {
            '"cores": 0': "L3 Limit: 2:26: cores must be 1 to 8, found 0",
            '"cores": 9': IN_PROFILE_1.format(9),
            '"cores": 17': IN_PROFILE_1.format(17),
            '"cores": -1': "L2 Shape: 2:26: cores must be a whole number, 1 to 8, found -1",
            '"cores": 1.0': "L2 Shape: 2:26: cores must be a whole number, 1 to 8, found 1.0",
            '"cores": "2"': (
                "L2 Shape: 2:26: cores must be a whole number, 1 to 8, found a string"
                " (remove the quotes)"
            ),
            '"cores": [2]': "L2 Shape: 2:26: cores must be a whole number, 1 to 8, found a list",
        }
        for new, expected in cases.items():
            self.assertEqual([expected], edited('"cores": 1', new))

    def test_a_profile_and_its_cores(self) -> None:
        cases = {
            '"profile": 2, "cores": 16': [],
            '"profile": 2, "cores": 17': ["L3 Limit: 2:26: cores must be 1 to 16, found 17"],
            '"profile": 3, "cores": 16': ["L3 Limit: 2:14: profile must be 1 to 2, found 3"],
            '"profile": 0, "cores": 17': [
                "L3 Limit: 2:14: profile must be 1 to 2, found 0",
                "L3 Limit: 2:26: cores must be 1 to 16, found 17",
            ],
            '"profile": "2", "cores": 9': [
                "L2 Shape: 2:14: profile must be a whole number, 1 to 2, found a string"
                " (remove the quotes)"
            ],
        }
        for new, expected in cases.items():
            self.assertEqual(expected, edited('"profile": 1, "cores": 1', new))

    def test_a_trigger_level_above_the_size(self) -> None:
        self.assertEqual(
            ["L3 Limit: 5:55: stream buffer uart: trigger must be 0 to 16 (its size), found 17"],
            edited('"trigger": 4', '"trigger": 17'),
        )

    def test_a_name_with_capitals_and_none_of_what_names_it(self) -> None:
        text = FILE.replace("CODE", '"recv Jobs 0", "send jobs 0", "end"')
        self.assertEqual(
            [
                'L4 Name: 3:23: queue "Jobs": a name must have 1 to 16 characters of a to z, 0 to 9'
                " and _, starting with a letter (did you mean 'jobs'?)"
            ],
            faults(text.replace('"name": "jobs"', '"name": "Jobs"')),
        )

    def test_a_name_that_stands_twice(self) -> None:
        self.assertEqual(
            ["L4 Name: 3:65: queue jobs is defined twice (first at 3:23)"],
            edited('"name": "done"', '"name": "jobs"'),
        )

    def test_a_member_twice(self) -> None:
        self.assertEqual(
            [
                "L4 Name: 4:64: queue set inputs: queue 'jobs' is already a member of queue set inputs"
            ],
            edited('["jobs"]', '["jobs", "jobs"]'),
        )
        self.assertEqual(
            ["L4 Name: 4:56: queue set inputs: queue 'jbos' is not defined (did you mean 'jobs'?)"],
            edited('["jobs"]', '["jbos"]'),
        )

    def test_lists_that_are_empty_or_too_long(self) -> None:
        self.assertEqual(
            [
                "L3 Limit: 8:48: task gateway: code is empty (a script needs at least one instruction)"
            ],
            faults(FILE.replace('["data 41",\n      CODE\n    ]', "[]")),
        )
        many = ", ".join(f'{{"name": "g{at}"}}' for at in range(33))
        found = edited('[{"name": "g0"}]', f"[{many}]")
        self.assertEqual(["L3 Limit: 6:548: 33 event groups (at most 32 are allowed)"], found)

    def test_a_script_that_goes_on_behind_its_last_instruction(self) -> None:
        self.assertEqual(
            [
                'L5 Instr: 9:7: task gateway, instruction 1: "recv jobs 0": a script must'
                " end with end or jump"
            ],
            faults(FILE.replace("CODE", '"recv jobs 0"')),
        )

    def test_the_order_is_that_of_rdbg(self) -> None:
        text = FILE.replace("CODE", '"send jbos 0", "recv jobs"').replace(
            '"cores": 1', '"cores": 9'
        )
        kinds = [it.split(":")[0] for it in faults(text.replace('"item": 1}]', '"itme": 0}]'))]
        self.assertEqual(
            ["L3 Limit", "L2 Shape", "L3 Limit", "L4 Name", "L5 Instr", "L5 Instr"], kinds
        )

    def test_what_a_refused_value_bounds_is_not_blamed(self) -> None:
        text = FILE.replace("CODE", '"notify gateway 3 0 inc", "over jobs", "end"')
        text = text.replace('"notes": 2', '"notes": 5').replace('"length": 4', '"length": 65')
        kinds = [it.split(": ")[0] for it in faults(text)]
        self.assertEqual(["L3 Limit", "L3 Limit"], kinds)
        self.assertEqual(1, len(faults(FILE.replace("CODE", '"end"').replace('"jobs"', "5", 1))))

    def test_there_is_an_end_to_looking_for_faults(self) -> None:
        self.assertEqual(MOST_FAULTS, len(of_code(*["jbos"] * 2 * MOST_FAULTS)))

    def test_the_text_that_was_written_is_quoted(self) -> None:
        root, place = source("x.json", LOST.encode()).root, Place(7, 5)
        assert root is not None
        bad = Node("send jbos 4294967295", place, written="send jbos forever")
        code = Node((bad, Node("end", place)), place)
        found = faults_of(replaced(root, code))
        self.assertEqual(
            "7:5: task worker, instruction 0: \"send jbos forever\": queue 'jbos' is not"
            " defined (did you mean 'jobs'?)",
            str(found[0]),
        )


def replaced(root: Node, code: Node) -> Node:
    """An application whose first task has another script."""
    from rdbg.tree import Member, Object

    assert isinstance(root.value, Object)
    members = list(root.value.members)
    tasks = members[-1].node
    assert isinstance(tasks.value, tuple) and isinstance(tasks.value[0].value, Object)
    first = tasks.value[0].value
    kept = [it if it.key != "code" else Member("code", it.place, code) for it in first.members]
    list_of = (Node(Object(tuple(kept)), tasks.value[0].place), *tasks.value[1:])
    members[-1] = Member("tasks", members[-1].place, Node(list_of, tasks.place))
    return Node(Object(tuple(members)), root.place)


class Remarks(unittest.TestCase):
    """What rdbg accepts, and who wrote it didn't mean."""

    def test_a_key_that_stands_twice(self) -> None:
        root = source("x.json", LOST.replace("{", '{"cores": 8, ', 1).encode()).root
        assert root is not None
        self.assertEqual([], faults_of(root))
        self.assertEqual(
            ['3:3: note: duplicate key "cores"; the value at 1:2 is ignored'],
            list(map(str, remarks_of(root))),
        )

    def test_bytes_that_look_like_a_number(self) -> None:
        for word, note in (
            ("0b1010", "0a"),
            ("0B01", "01"),
            ("0b0000000100000000", "0100"),
            ("0b12", ""),
            ("1010", ""),
            ("0b", ""),
        ):
            with self.subTest(word):
                found = source("x.json", LOST.replace("data 41", f"data {word}").encode())
                remedy = f"for the binary number {word} write data {note}"
                said = f"these hexadecimal digits begin with the byte 0b ({remedy})"
                assert found.application is not None and found.root is not None
                told = [fault.message for fault in remarks_of(found.root)]
                self.assertEqual([f"note: {said}"] if note else [], told)
        # (where it isn't bytes, it is a fault, and no more; in lines it is written so on purpose)
        found = source("x.json", LOST.replace("data 41", "data 0b101").encode())
        assert found.root is not None
        self.assertEqual([], remarks_of(found.root))
        self.assertTrue(found.faults[0].message.endswith(" (write 05)"), found.faults[0].message)
        found = source("x.fw", b"cores 1\ntask t priority 1\n    data 0x0b10\n    end\n")
        assert found.application is not None and found.root is not None
        self.assertEqual([], remarks_of(found.root))


if __name__ == "__main__":
    unittest.main()
