"""What is no goal is told by one sentence, with what would be right, wherever goals are typed."""
import contextlib
import io
import unittest
from typing import Iterator, Tuple

from rdbg.files.source import load
from rdbg.goals.reading import NoGoal
from rdbg.goals.scope import Scope
from rdbg.goals.words import read
from rdbg.main import main
from rdbg.rooms.room import Room
from rdbg.rooms.web_pages import Pages
from tests.dap_client import editor
from tests.paths import EXAMPLES
from tests.searches import real
from tests.shell_talk import both, example
from tests.test_dap_breakpoints import named

FILE = str(EXAMPLES / "lost_item.json")
# What may be typed, and what each of them is told: that stands in no other place.
WRONG = (
    ("asleap", "`asleep`?"),
    ("count jobs == 0", "`count jobs = 0`?"),
    ("count jbos > 0", "`count jobs > 0`?"),
    ("phase worker waits", "`phase worker wait`?"),
    ("at worker 7", "word 3, '7': expected the number of an instruction of the task"),
    ("waits worker and", "it ends too early"),
    ("finished or stuk", "`finished or stuck`?"),
    ("runs nobody", "(defined: worker, producer, poller)"),
)


def sentence(goal: str) -> str:
    """What is told of it."""
    try:
        read(goal.split(), Scope.of(load(FILE)))
    except NoGoal as wrong:
        return str(wrong)
    raise AssertionError(f"{goal} is a goal")


class Everywhere(unittest.TestCase):
    """Each place where a goal can be typed."""

    def check(self, told: Iterator[Tuple[str, str, str]]) -> None:
        """That what is told of a goal has its sentence."""
        for where, goal, text in told:
            with self.subTest(where=where, goal=goal):
                self.assertIn(sentence(goal), text.replace("\n", " "))

    def test_what_is_told(self) -> None:
        for goal, right in WRONG:
            self.assertIn(right, sentence(goal))

    def test_at_the_prompt(self) -> None:
        def told() -> Iterator[Tuple[str, str, str]]:
            with example("lost_item") as shell:
                for goal, _ in WRONG:
                    words = ["until!", "rc!", "reach", "lost", "doomed"]
                    # (a name alone rdbg refuses itself, and a hint tells which is near)
                    words += ["until", "rc", "break"] if "jbos" not in goal else []
                    for word in words:
                        lines, hints = both(shell, f"{word} {goal}")
                        yield word, goal, " ".join(it.lstrip("# ") for it in [*lines, *hints])

        self.check(told())

    def test_in_an_editor(self) -> None:
        def told() -> Iterator[Tuple[str, str, str]]:
            with editor() as client:
                client.begin(EXAMPLES / "lost_item.json")
                for goal, _ in WRONG:
                    yield "a breakpoint by name", goal, named(client, goal)[0]["message"]
                    lost = named(client, f"lost {goal}")[0]["message"]
                    yield "a breakpoint by name, lost", goal, lost
                    found = client.lines(EXAMPLES / "lost_item.json", 6, condition=goal)
                    yield "a condition of a line", goal, found[0]["message"]
                    asked = [{"dataId": "count jobs", "condition": goal}]
                    data = client.ask("setDataBreakpoints", breakpoints=asked)["breakpoints"]
                    yield "a condition of data", goal, data[0]["message"]
                    for word in ("until!", "lost"):
                        yield f"typed {word}", goal, client.typed(f"{word} {goal}")

        self.check(told())

    def test_at_a_rooms_page(self) -> None:
        def told() -> Iterator[Tuple[str, str, str]]:
            room = Room(load(FILE), sessions=4)
            pages = Pages(room)
            page = pages.open("ada")
            try:
                for goal, _ in WRONG:
                    words = ["reach", "lost", "doomed", "until!", "rc!", "until"]
                    # (as at the prompt: rdbg refuses a name alone itself, and a hint tells which is
                    # near)
                    words += ["back until"] if "jbos" not in goal else []
                    for word in words:
                        yield word, goal, page.ask(f"{word} {goal}")
            finally:
                pages.close(page)
                room.close()

        self.check(told())

    @unittest.skipUnless(real(), "no program that searches")
    def test_on_a_command_line(self) -> None:
        def told() -> Iterator[Tuple[str, str, str]]:
            for goal, _ in WRONG:
                for words in (
                    ["trace", FILE, "/dev/null", "--when", goal],
                    ["trace", FILE, "/dev/null", "--lost", goal],
                    ["hunt", FILE, goal],
                    ["reach", FILE, goal],
                ):
                    errors = io.StringIO()
                    with contextlib.redirect_stderr(errors):
                        status = main(words)
                    self.assertEqual(2, status, words)
                    yield " ".join(words[:1] + words[3:4]), goal, errors.getvalue()

        self.check(told())


if __name__ == "__main__":
    unittest.main()
