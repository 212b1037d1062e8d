"""What lines were meant to be that are refused: what is said of them, and what stems from them."""
import unittest
from typing import List

from tests.test_make_faults import HEAD, faults


def of_script(*lines: str) -> List[str]:
    """The faults of instructions, the first in line 5, without their lines and columns."""
    text = "\n".join([HEAD + lines[0], *lines[1:], "again: end", ""])
    return [fault.split(": ", 1)[1] for fault in faults(text.encode())]


class Orders(unittest.TestCase):
    """Words in another order, proposed as they are written."""

    def order(self, line: str, *others: str) -> str:
        """What is proposed in place of a line."""
        found = of_script(line, *others)
        self.assertEqual(1, len(found), found)
        return found[0].split(" (write ")[-1][:-1]

    def test_a_jump(self) -> None:
        self.assertEqual("jumpz r0 again", self.order("jumpz again r0"))
        self.assertEqual("jumpz r0 1", self.order("jumpz 1 r0"))

    def test_names_stay(self) -> None:
        lines = "stream rx size 32 trigger 1", "const FRAME 10", "const BIT 1 << 3"
        self.assertEqual("sread rx FRAME max", self.order("sread rx max FRAME", *lines))
        self.assertEqual(
            "gwait flags BIT|1 all clear T", self.order("gwait flags BIT|1 clear all", *lines)
        )

    def test_a_const_that_stands_for_a_name_or_is_too_much(self) -> None:
        lines = "stream rx size 32 trigger 1", "const FRAME 10"
        self.assertEqual("sread rx FRAME 0", self.order("sread FRAME rx 0", *lines))
        self.assertIn("unexpected word 'FRAME'", of_script("swrite rx FRAME FRAME", *lines)[0])

    def test_a_variable_is_what_is_too_much(self) -> None:
        for line in ("recv jobs &x max", "recv(jobs, &x, 5);"):
            found = of_script(line)
            self.assertEqual(1, len(found))
            self.assertIn("recv Q T: unexpected '&x' (a task sends its own data", found[0])

    def test_a_label_out_of_its_place_is_looked_up(self) -> None:
        self.assertIn(
            "label 'agian' is not defined (did you mean 'again'?)", of_script("jumpz agian r0")[0]
        )
        self.assertIn("missing register", of_script("jumpz again")[0])
        self.assertIn("write r0", of_script("jumpz R0 again")[0])
        found = of_script("jump r0")
        self.assertIn(
            "target must be a label or an instruction number, 0 to 1, found 'r0'", found[0]
        )
        self.assertNotIn("takes the number", found[0])

    def test_a_number_is_shown_by_its_name(self) -> None:
        found = of_script("sread rx LONG 0", "stream rx size 32 trigger 1", "const LONG 300")
        self.assertIn("found 'LONG', which is 300", found[0])


class Texts(unittest.TestCase):
    """Bytes."""

    def test_single_quotes(self) -> None:
        for line, expected in (("data 'A'", '"A"'), ("data 41 'A B'", '"A B"')):
            found = of_script(line)
            self.assertTrue(found[0].endswith(f"strings need double quotes: {expected})"), found)


class Lines(unittest.TestCase):
    """Lines that begin with another word."""

    def only(self, line: str, said: str, *script: str) -> None:
        """Shows what is said of a line, and that nothing is said of those that use its names."""
        text = "\n".join([line, HEAD + "again:", *script, "jump again", ""])
        self.assertEqual([f"1:1: {said}"], faults(text.encode()))

    def test_a_misspelt_object_is_there(self) -> None:
        self.only(
            "queues spi length 1 item 1",
            "'queues' does not begin a line (did you mean 'queue'?)",
            "send spi 0",
            "recv spi max",
            "over spi",
        )
        self.only("gruop g", "'gruop' does not begin a line (did you mean 'group'?)", "gget g")
        self.only("event g", "'event' does not begin a line (use group NAME)", "gget g")
        said = "'sem' does not begin a line (use semaphore NAME length N given, or mutex NAME)"
        self.only("sem lock", said, "take lock max")
        self.only(
            "xSemaphoreCreateMutex()",
            "'xSemaphoreCreateMutex' is not a model line (use mutex NAME)",
        )

    def test_an_object_of_freertos_is_there(self) -> None:
        said = "'xQueueCreate' is not a model line (use queue NAME length N item N)"
        for line in ("q = xQueueCreate(4, 1);", "QueueHandle_t q = xQueueCreate(4, 1);"):
            self.only(line, said, "send q 0")
        said = "'QueueHandle_t' does not begin a line (use queue NAME length N item N)"
        self.only("QueueHandle_t jobs;", said, "send jobs 0")
        self.only("QueueHandle_t q;", said, "send q 0")

    def test_a_misspelt_task_has_its_script(self) -> None:
        text = f"{HEAD}again: jump again\ntaks u priority 2\nagain: notify u 0 1 inc\njump again\n"
        self.assertEqual(
            ["6:1: 'taks' does not begin a line (did you mean 'task'?)"], faults(text.encode())
        )

    def test_a_const_of_c_is_there(self) -> None:
        for line in ("const int RX = 5;", "static const uint32_t RX = 5;", "cosnt RX 5"):
            said = f"'{line.split()[0]}' does not begin a line (for a constant, write const RX 5)"
            self.only(line, said, "set r1 RX")

    def test_a_label_without_its_colon_is_there(self) -> None:
        found = of_script("top", "jump top")
        self.assertEqual(["'top' does not begin a line (a label needs a colon: top:)"], found)

    def test_a_word_of_a_block_can_be_a_label(self) -> None:
        self.assertEqual([], of_script("loop: jump loop"))
        found = of_script("loop", "jump loop", "end")
        said = (
            "task t, instruction 0: \"jump loop\": label 'loop' is not defined (a label needs a"
            " colon: loop:)"
        )
        self.assertEqual([said], found)

    def test_an_instruction_near_to_an_object_counts_as_one(self) -> None:
        self.assertEqual(1, len(of_script("tesk t clear 5", "jump 2")))

    def test_statements_of_c(self) -> None:
        cases = {
            "sub r1 1": "'sub r1 1' is not an instruction (use add r1 -1)",
            "sub": "'sub' is not an instruction (use add R -N)",
            "goto again": "'goto again' is not an instruction (use jump again)",
            "i = 5;": "'i' does not begin a line (scripts have no variables, use r0 to r7)",
            "int i = 5;": "'int' does not begin a line (scripts have no variables, use r0 to r7;"
            " for a constant, write const i 5)",
            "char a[10];": "'char' does not begin a line (scripts have no variables, use r0 to r7)",
            "}": "models have no braces (loop, while and if blocks end with end)",
            "for (r1 = 3; r1; r1--) {": "'for' is not an instruction (use loop, or set R N and while R"
            " with add R -1 inside)",
            "do {": "'do' is not an instruction (use loop with if TEST break inside)",
            "switch (r0) {": "'switch' is not an instruction (use if R = N goto L, one line for each N)",
            "endif": "'endif' is not an instruction (use end)",
        }
        for line, expected in cases.items():
            self.assertEqual([expected], of_script(line))


if __name__ == "__main__":
    unittest.main()
