"""What pages know of a room's moves: each place as rdbg says it, whatever is moved, taken back,
trimmed or made in long runs."""
import contextlib
import itertools
import random
import time
import unittest
from typing import Any, Callable, Dict, Iterable, Iterator, List, Sequence
from unittest import mock

from rdbg.looks import Look
from rdbg.page.recorder import CORES, TASK, cores_of, object_of, task_of
from rdbg.rooms import web_follower, web_known, web_mirror
from rdbg.rooms.web_follower import Follower, Values
from rdbg.driving.opening import begin
from rdbg.driving.target import Limits
from rdbg.files.source import load
from tests.paths import EXAMPLES
from tests.rooms import until
from tests.web_rooms import slow

LOST, INTERRUPT = EXAMPLES / "lost_item.json", EXAMPLES / "interrupt.json"
PATIENCE = 60.0


class StandIn:
    """In place of a room: one session, whose lines are told to who follows."""

    def __init__(self, path: str) -> None:
        self.app_source = load(path)
        self.target = begin(self.app_source, Limits())
        self._followers: List[Callable[[str, str], None]] = []
        self.told: List[str] = []

    def follow(self, told: Callable[[str, str], None]) -> List[str]:
        """As a room has it."""
        self._followers.append(told)
        return list(self.told)

    def tell(self, *lines: str) -> None:
        """Does lines; those that are refused do nothing."""
        for line in lines:
            reply = self.target.tell(line)
            if not reply.startswith("no ") and not line.startswith("show "):
                self.told.append(line)
                for told in self._followers:
                    told(line, reply)


class Followed:
    """A room, who follows it, and what pages are told."""

    def __init__(self, path: str, before: Sequence[str] = ()) -> None:
        self.room = StandIn(path)
        self.room.tell(*before)
        self.events: List[str] = []
        self.follower = Follower(self.room, self._hear)  # type: ignore[arg-type]

    def _hear(self, kind: str, values: Values) -> None:
        self.events.append(kind)

    def wait(self) -> None:
        """Waits until it is where the target is."""
        end = time.monotonic() + PATIENCE
        while self.follower.count_done != self.follower.count_told:
            if time.monotonic() > end:
                raise AssertionError("it doesn't come")
            time.sleep(0.01)

    def wait_for_a_piece(self) -> None:
        """Waits until it has looked at one more piece of earlier moves."""
        count, end = len(self.events), time.monotonic() + PATIENCE
        while len(self.events) == count:
            if time.monotonic() > end:
                raise AssertionError("it looks at nothing")
            time.sleep(0.01)

    def settle(self) -> "Shown":
        """All that a page shows, once nothing more is to come."""
        end = time.monotonic() + PATIENCE
        while True:
            with self.follower.guard:
                values: Values = self.follower.values()
                if values["lost"] is not None:
                    raise AssertionError(values["lost"])
                if self.follower.count_done == self.follower.count_told and not values["toCome"]:
                    return Shown(self.follower)
            if time.monotonic() > end:
                raise AssertionError(f"it doesn't come to an end: {values['toCome']} to come")
            time.sleep(0.01)

    def close(self) -> None:
        """Ends all."""
        self.follower.close()
        self.room.target.session.kill()


@contextlib.contextmanager
def followed(path: str, *before: str) -> Iterator[Followed]:
    """A room that is followed."""
    found = Followed(path, before)
    try:
        yield found
    finally:
        found.close()


@contextlib.contextmanager
def small() -> Iterator[None]:
    """As long as all limits are small."""
    with contextlib.ExitStack() as stack:
        for module, name, value in (
            (web_known, "MOST_MOVES", 60),
            (web_known, "SLACK", 10),
            (web_known, "BLOCK_MOVES", 7),
            (web_follower, "SHORT", 6),
            (web_follower, "HEAP", 4),
            (web_follower, "LAST", 3),
            (web_follower, "LEAST", 2),
            (web_follower, "MOST", 9),
        ):
            stack.enter_context(mock.patch.object(module, name, value))
        yield


@contextlib.contextmanager
def slow_by_lines() -> Iterator[Callable[[], float]]:
    """Delays each line that the follower asks, and has it measure its speed by these delays alone,
    however busy the machine is. Yields the clock that it reads."""
    with slow(0.001) as delays:
        clock = mock.Mock(monotonic=lambda: sum(delays))
        with mock.patch.object(web_mirror, "time", clock):
            yield clock.monotonic


def fast() -> Any:
    """Has the follower look at short runs as a whole, as on a fast machine, even on a busy one."""
    return mock.patch.object(web_mirror.Mirror, "count", lambda *_: web_follower.MOST)


def value_at(block: Dict[str, Any], flat: List[int], place: int) -> object:
    """The value of a track at a place."""
    here, number = block["first"], flat[0]
    for at in range(1, len(flat), 2):
        here += flat[at]
        if here > place:
            break
        number = flat[at + 1]
    return block["values"][number]


class Shown:
    """What a page has once it has asked for all that there is: what it shows at each place."""

    def __init__(self, follower: Follower) -> None:
        self.values: Any = follower.values()
        self.at: Dict[int, List[Dict[str, object]]] = {}
        for block in self.values["blocks"]:
            self._take(block)
        self.begun = min(self.at)
        while True:
            before: Any = follower.known.before(min(self.at))
            if not before:
                break
            assert before["last"] == min(self.at), before
            self._take(before)
        while True:
            behind: Any = follower.known.behind(max(self.at))
            if not behind:
                break
            assert behind["cut"] == max(self.at), behind
            self._grow(behind)

    @property
    def first(self) -> int:
        """The first place."""
        return min(self.at)

    @property
    def last(self) -> int:
        """The last place."""
        return max(self.at)

    def _take(self, block: Dict[str, Any]) -> None:
        """Takes a block."""
        assert len(block["moves"]) == block["last"] - block["first"], block
        of = [block["cores"], *(it["tracks"] for it in (*block["tasks"], *block["objects"]))]
        for at in range(block["first"], block["last"] + 1):
            shown = [{name: value_at(block, flat, at) for name, flat in it.items()} for it in of]
            assert self.at.get(at, shown) == shown, at
            self.at[at] = shown

    def _grow(self, more: Dict[str, Any]) -> None:
        """Takes moves behind the last one."""
        assert len(more["moves"]) == more["last"] - more["cut"], more
        for at in range(more["cut"] + 1, more["last"] + 1):
            shown = [dict(it) for it in self.at[at - 1]]
            for now, tracks in zip(shown, (more["cores"], *more["tasks"], *more["objects"])):
                for name, pairs in tracks.items():
                    now.update({name: value for place, value in pairs if place == at})
            self.at[at] = shown


def wanted(look: Look) -> List[object]:
    """What it should show, by a look."""
    tasks = [dict(zip(TASK, task_of(it))) for it in look.tasks.values()]
    objects = [object_of(it) for it in look.objects.values()]
    return [dict(zip(CORES, cores_of(look.cores))), *tasks, *objects]


class Follows(unittest.TestCase):
    """What is known after lines of all sorts."""

    def check(self, here: Followed) -> Shown:
        """Whether each place is as rdbg says it. The target is at its end then."""
        shown = here.settle()
        target = here.room.target
        self.assertEqual(
            (target.place, target.undone), (shown.values["done"], shown.values["undone"])
        )
        self.assertEqual([shown.first, shown.last], shown.values["known"])
        last = min(shown.last, target.place + target.undone)
        place = target.place
        if last > place:
            target.tell(f"redo {last - place}")
        first = max(shown.first, target.base)
        for at in range(last, first - 1, -1):
            self.assertEqual(wanted(target.look()), shown.at[at], f"at {at} of {place}")
            if at > first:
                target.tell("back 1")
        away = place - target.place
        if away:
            target.tell(f"redo {away}" if away > 0 else f"back {-away}")
        return shown

    def test_each_sort_of_line(self) -> None:
        with fast(), followed(str(LOST)) as here:
            for line in (
                "step 1",
                "tick",
                "forward 5",
                "back 3",
                "redo 1",
                "poke reg poller 3 7",
                "until count jobs > 0 50",
                "back until phase worker wait",
                "step 0",
            ):
                here.room.tell(line)
                self.check(here)
            self.assertNotIn("run", here.events)
            here.room.tell("trim 2")
            shown = here.settle()
            self.assertEqual([[here.room.target.place, "trim 2"]], shown.values["trims"])

    def test_interrupts(self) -> None:
        with followed(str(INTERRUPT)) as here:
            lines = (EXAMPLES / "interrupt.commands").read_text().splitlines()
            here.room.tell(*lines)
            self.check(here)

    def test_begun_where_moves_are_done(self) -> None:
        with followed(str(LOST), "forward 9", "poke reg poller 3 7", "forward 3", "back 2") as here:
            shown = self.check(here)
            self.assertEqual((0, 11), (shown.first, shown.values["done"]))
            here.room.tell("redo 2", "step 1")
            self.check(here)

    def test_a_long_run_is_shown_from_its_end_on(self) -> None:
        with small(), followed(str(LOST)) as here:
            here.room.tell("forward 30")
            self.assertEqual(0, self.check(here).first)
            self.assertIn("run", here.events)
            here.room.tell("forward 300")
            self.assertEqual(330 - 60, self.check(here).first)

    def test_a_move_waits_no_longer_than_for_a_piece_of_earlier_ones(self) -> None:
        with slow_by_lines() as clock, followed(str(LOST)) as here:
            here.room.tell("forward 2000")
            here.wait()
            for line in ("step 0", "tick", "back 2", "redo 1", "forward 1500", "tick"):
                here.wait_for_a_piece()
                with here.follower.guard:  # (without which it begins no further piece)
                    began = clock()
                    here.room.tell(line)
                here.wait()
                self.assertLess(clock() - began, 0.5, line)
                values: Any = here.follower.values()
                self.assertEqual(here.room.target.place, values["done"])
                self.assertGreater(values["toCome"], 1_000)
                last, undone = values["blocks"][-1]["last"], values["undone"]
                self.assertIn(last - values["done"], (0, undone), line)
                if not undone:
                    self.assertGreaterEqual(last - values["blocks"][0]["first"], 20, line)

    def test_earlier_moves_are_put_before_those_that_are_shown(self) -> None:
        with followed(str(LOST)) as here:
            here.room.tell("forward 5000")
            here.settle()
            # (the place where it begins is told anew, and nothing else)
            self.assertEqual(1, here.events.count("run"))
            here.room.tell("tick")
            shown = self.check(here)
            self.assertEqual((0, 5_001), (shown.first, shown.last))
            # (of which a page that comes now has the last ones first)
            self.assertGreaterEqual(shown.begun, 5_001 - web_known.BLOCK_MOVES - web_follower.MOST)
            self.assertEqual(1, here.events.count("run"))

    def test_the_oldest_are_forgotten(self) -> None:
        with small(), followed(str(LOST)) as here:
            for _ in range(40):
                here.room.tell("forward 5")
                here.settle()
            self.assertGreaterEqual(self.check(here).first, 200 - 60 - 10 - 7)
            here.room.tell("back 150", "step 0")
            self.check(here)

    def test_a_new_program_where_the_history_is_full(self) -> None:
        begun: List[object] = []

        def count(*given: Any) -> Any:
            begun.append(given)
            return begin(*given)

        with mock.patch.object(web_mirror, "HISTORY", 3_000):
            with mock.patch.object(web_mirror, "begin", count), followed(str(LOST)) as here:
                for _ in range(30):
                    here.room.tell("forward 20", "back 2", "poke reg poller 3 7", "back 1")
                    here.settle()
                self.check(here)
        self.assertGreater(len(begun), 3)

    def test_a_program_that_dies_is_started_anew(self) -> None:
        with followed(str(LOST)) as here:
            here.room.tell("forward 9")
            here.settle()
            for lines in (["tick"], ["back 4", "step 0"], ["forward 300", "redo 1"], ["trim 2"]):
                kill(here)
                here.room.tell(*lines)
                if lines != ["trim 2"]:
                    self.check(here)
            self.assertEqual(307, here.settle().values["done"])
            self.assertIsNone(here.follower.lost)

    def test_one_that_dies_while_it_does_many_lines(self) -> None:
        begun: List[Any] = []

        def begin_and_die(*given: Any) -> Any:
            target = begin(*given)
            begun.append(target)
            if len(begun) < 4:
                tell_all, count = target.session.tell_all, itertools.count()

                def tell_some(lines: Iterable[str]) -> Iterator[str]:
                    for reply in tell_all(lines):
                        if next(count) > 20:
                            kill_program(target)
                        yield reply

                target.session.tell_all = tell_some  # type: ignore[assignment]
            return target

        with mock.patch.object(web_mirror, "begin", begin_and_die), followed(str(LOST)) as here:
            here.room.tell(*["tick", "step 0", "step 1", "back 1"] * 9, "forward 50")
            self.check(here)
            self.assertEqual(4, len(begun))

    def test_one_that_dies_again_and_again_is_given_up(self) -> None:
        def begin_and_die(*given: Any) -> Any:
            target = begin(*given)
            tell_all = target.session.tell_all

            def tell_none(lines: Iterable[str]) -> Iterator[str]:
                if "tick" in list(lines):
                    kill_program(target)
                return tell_all(lines)

            target.session.tell_all = tell_none  # type: ignore[assignment]
            return target

        with mock.patch.object(web_mirror, "begin", begin_and_die), followed(str(LOST)) as here:
            here.room.tell("tick")
            until(lambda: here.follower.lost is not None)
            why = "the lanes no longer follow the target: rdbg has ended, with status -9"
            self.assertEqual(why, here.follower.lost)

    def test_lines_of_all_sorts(self) -> None:
        for seed in range(4):
            with self.subTest(seed), small(), followed(str(LOST)) as here:
                chance = random.Random(seed)
                for _ in range(12):
                    here.room.tell(*(line_of(chance) for _ in range(chance.choice((1, 2, 8)))))
                    if chance.random() < 0.6:
                        here.settle()
                self.check(here)


def kill_program(target: Any) -> None:
    """Kills the program of a session, and waits until it has ended."""
    target.session._process.kill()
    target.session._process.wait()


def kill(here: Followed) -> None:
    """Kills the program that follows a room, while it is idle."""
    with here.follower.guard:
        kill_program(here.follower._mirror._target)


def line_of(chance: random.Random) -> str:
    """A line that changes the target, if it isn't refused."""
    many = chance.choice((1, 2, 5, 9, 40))
    return chance.choice(
        (
            "step 0",
            "step 1",
            "tick",
            f"forward {many}",
            f"back {many}",
            f"redo {many}",
            f"until count jobs > 0 {many}",
            "back until phase worker wait",
            f"poke reg worker 3 {many}",
            "trim 90",
        )
    )


if __name__ == "__main__":
    unittest.main()
