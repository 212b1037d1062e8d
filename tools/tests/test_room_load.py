"""Twenty at a room with 100,000 lines: nothing is lost, and the talk has them all."""
import random
import threading
import time
import unittest
from typing import Dict, List, Tuple

from tests.rooms import Caller, room, rows, talk

CALLERS, LINES, AT_ONCE = 20, 5_000, 250
LOOKS = (
    "show cores", "show queue jobs", "show task worker", "show task poller", "show moves",
    "show wheel", "show watches", "show queue none", "step 9", "back 1000",
)  # fmt: skip
MOVES = ("step 0", "step 1", "tick", "back 1", "redo 1", "poke reg worker 3 7")
# One line of so many makes a move, or is refused one.
SELDOM = 300
# It takes some 10 seconds with a program that is built without proof, on a busy machine more.
BOUND = 240.0


def lines_of(number: int) -> List[str]:
    """The lines of one of them."""
    chance = random.Random(number)
    return [chance.choice(MOVES if chance.randrange(SELDOM) == 0 else LOOKS) for _ in range(LINES)]


def replies_to(port: int, name: str, lines: List[str]) -> List[str]:
    """The replies that somebody gets who asks many lines at a time."""
    replies: List[str] = []
    with Caller(port, name) as caller:
        for at in range(0, len(lines), AT_ONCE):
            caller.send(*lines[at : at + AT_ONCE])
            while len(replies) < at + AT_ONCE:
                if not caller.read():
                    raise AssertionError(f"the end after {len(replies)} replies")
                replies += [line for line in caller.lines if line[:1] != "#"]
                caller.lines.clear()
    return replies


class Load(unittest.TestCase):
    """Many lines by many."""

    def test_nothing_is_lost(self) -> None:
        found: Dict[str, Tuple[List[str], List[str]]] = {}
        wrong: List[str] = []

        def talking(number: int) -> None:
            name, lines = f"n{number}", lines_of(number)
            try:
                found[name] = (lines, replies_to(port, name, lines))
            except (AssertionError, OSError) as error:
                wrong.append(f"{name}: {error!r}")

        with talk() as file, room("--talk", str(file), sessions=CALLERS) as here:
            port, began = here.port, time.monotonic()
            threads = [threading.Thread(target=talking, args=(it,)) for it in range(CALLERS)]
            for thread in threads:
                thread.start()
            for thread in threads:
                thread.join()
            self.assertEqual(wrong, [])
            self.assertLess(time.monotonic() - began, BOUND)
            self.assertEqual(here.end(), 0, here.errors)
            self.assertRegex(here.output, r"^(# .*\n)*closed \d+\n$")
            kept: Dict[str, List[Tuple[str, str]]] = {name: [] for name in found}
            for who, line, reply in rows(file):
                if not line.startswith("#"):
                    kept[who].append((line, reply))
        self.assertEqual(len(found), CALLERS)
        for name, (lines, replies) in found.items():
            self.assertEqual(kept[name], list(zip(lines, replies)), name)
        self.assertEqual(sum(map(len, kept.values())), CALLERS * LINES)


if __name__ == "__main__":
    unittest.main()
