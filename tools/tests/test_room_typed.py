"""The words of `sh` at a room's page, what is said of what is refused, and the file read anew."""
import contextlib
import json
import pathlib
import shutil
import tempfile
import unittest
from typing import Iterator, List, Tuple

from rdbg.files.source import load
from rdbg.rooms.room import Member, Room
from rdbg.rooms.web import Served
from rdbg.rooms.web_pages import Page, Pages
from tests.rooms import LOST, until


@contextlib.contextmanager
def page_of(path: str = LOST) -> Iterator[Tuple[Room, Page, Member, List[str]]]:
    """A room with a page, and somebody beside it with what that one hears."""
    room, heard = Room(load(path), sessions=4), []  # type: Tuple[Room, List[str]]
    try:
        other = room.join("bo", heard.append)
        pages = Pages(room)
        page = pages.open("ada")
        try:
            yield room, page, other, heard
        finally:
            pages.close(page)
    finally:
        room.close()


class Typed(unittest.TestCase):
    """What is typed there."""

    def test_words(self) -> None:
        with page_of() as (_, page, _, heard):
            for line, said in (
                ("step producer", "ok at 1"),
                ("tick 2", "ok at 3"),
                ("goto 1", "ok at 1"),
                ("break worker 1", "ok watch 0\n`continue` runs to the next watchpoint hit"),
                ("break jobs > 0", "no: word 1, 'jobs': "),
                ("continue", "at 9 met: w0, pc worker = 1 ("),
                ("delete 0", "ok watch 0\nremoved watch 0: pc worker = 1"),
                ("where", "core 0  "),
                ("print r0 worker", "worker: r0 = 1"),
                ("help break", "break TASK PC: "),
            ):
                with self.subTest(line):
                    reply = page.ask(line)
                    self.assertTrue(reply.startswith(said), reply)
            told = [it for it in heard if it.startswith("# ada: ")]
            self.assertEqual("# ada: step 1 -> ok at 1, producer 0 data 41", told[0])
            self.assertEqual("# ada: tick 2 -> ok at 3", told[1])

    def test_what_is_refused_says_what_would_be_right(self) -> None:
        with page_of() as (_, page, other, _):
            for line, why in (
                ("step 7", "no NoSuch: the target has 2 cores, numbered from 0"),
                ("step workr", "no: there is no task 'workr'"),
                ("show queue job", "no NoSuch: queue 'job' is not defined (did you mean 'jobs'?)"),
                ("stepp 1", "no Syntax: "),
                ("back 7", "no TooFar 0: the target is at boot: there is no move to undo"),
                ("redo 1", "no NothingUndone: "),
                ("unwatch 4", "no NoWatch: the session has no watch with this number"),
                (
                    "save moves.commands",
                    "no: a page writes no files; `save` alone downloads the moves",
                ),
                ("source /etc/passwd", "no: a page cannot read or write files"),
                ("quit", "no: close the page to leave the room"),
            ):
                with self.subTest(line):
                    reply = page.ask(line)
                    self.assertTrue(reply.startswith(why), reply)
            other.ask("wheel take")
            held = "no Held 1: bo has the wheel: `# wheel` asks for it"
            self.assertEqual(held, page.ask("step 0"))
            self.assertEqual(held, page.ask("step producer"))

    def test_the_moves_as_commands(self) -> None:
        with page_of() as (_, page, _, _):
            for line in ("step 1", "forward 3", "poke reg worker 3 7", "back 1"):
                page.ask(line)
            self.assertEqual("step 1\nforward 3\npoke reg worker 3 7\nback 1\n", page.moves())

    def test_watches_that_a_page_looks_at_are_nothing_said(self) -> None:
        with page_of() as (room, page, _, _):
            page.ask("watch tick = 0")
            assert page.member is not None
            page.member._said_at -= 100
            self.assertEqual("watches 0:holds", page.watches())
            self.assertGreaterEqual(page.member.silence(), 100)
            self.assertEqual([], room.counts.rows())


class Reloaded(unittest.TestCase):
    """The file read anew, by who has the wheel."""

    def setUp(self) -> None:
        folder = tempfile.TemporaryDirectory()
        self.addCleanup(folder.cleanup)
        self.path = pathlib.Path(folder.name) / "app.json"
        shutil.copy(LOST, self.path)

    def edit(self, old: str, new: str) -> None:
        """Edits the file."""
        text = self.path.read_text()
        self.assertIn(old, text)
        self.path.write_text(text.replace(old, new))

    def told(self, heard: List[str], text: str) -> str:
        """Waits for a notice with this text."""
        until(lambda: any(text in it for it in heard))
        return next(it for it in heard if text in it)

    def test_the_same_moves_and_watches(self) -> None:
        with page_of(str(self.path)) as (room, page, other, heard):
            other.ask("watch tick = 9")
            for line in ("until count jobs > 0 50", "step 1", "back 1", "watch count jobs = 0"):
                page.ask(line)
            self.assertEqual("", page.ask("reload"))
            self.assertNotIn("reloaded the file", " ".join(heard))
            page.ask("wheel take")
            self.edit('"data 41"', '"data 42"')
            page.ask("reload")
            said = self.told(heard, "reloaded the file")
            self.assertEqual(
                f"# ada reloaded the file: all 5 moves are the same with the new {self.path}; at 5",
                said,
            )
            self.assertEqual(
                "queue jobs 1/1 items 42 recv - send - set -", other.ask("show queue jobs")
            )
            self.assertEqual("watches 0:fails", other.ask("show watches"))
            self.assertEqual("no Held 2", other.ask("tick"))
            self.assertTrue(page.ask("back 1").startswith("ok at 4"))
            self.told(heard, "audit of the previous rdbg: closed ")

    def test_the_first_that_differs(self) -> None:
        with page_of(str(self.path)) as (room, page, other, heard):
            other.ask("watch count jobs > 0")
            for line in ("step 0", "step 1", "step 1", "tick", "wheel take"):
                page.ask(line)
            text = json.loads(self.path.read_text())
            text["queues"][0]["name"] = "work"
            for task in text["tasks"]:
                task["code"] = [it.replace("jobs", "work") for it in task["code"]]
            self.path.write_text(json.dumps(text))
            page.ask("reload")
            said = self.told(heard, "reloaded the file")
            self.assertIn("reloaded the file: 0 of 4 moves are the same with the new", said)
            self.told(heard, "watch w0 of bo (count jobs > 0) was dropped: no NoSuch")
            self.assertEqual("moves 0 undone 0 kept 0", other.ask("show moves"))
            self.assertEqual("watches -", other.ask("show watches"))
            self.assertEqual(["0"], [it.split()[1] for it in [other.ask("show moves")]])

    def test_what_is_no_application(self) -> None:
        with page_of(str(self.path)) as (room, page, other, heard):
            own: List[str] = []
            assert page.member is not None
            page.member.hear = own.append
            page.ask("tick")
            page.ask("wheel take")
            self.path.write_text("{}")
            page.ask("reload")
            said = self.told(own, "no: ")
            self.assertTrue(said.endswith("the target stays as it is"), said)
            self.assertTrue(page.ask("back 1").startswith("ok at 0"))
            self.assertEqual([], [it for it in heard if "reloaded the file" in it])

    def test_pages_are_loaded_anew(self) -> None:
        room = Room(load(str(self.path)), sessions=6)
        served = Served(room, 0)
        try:
            page = served.pages.open("ada")
            page.ask("step 1")
            page.take(room, served.follower)
            page.ask("wheel take")
            self.edit('"name": "poller"', '"name": "polls"')
            page.ask("reload")
            until(lambda: not room.is_reloading)
            self.assertEqual([("anew", "null")], page.take(room, served.follower))
            self.assertIn('"polls"', served.of_room)
            served.pages.close(page)
            again = served.pages.open("ada")
            again.ask("step 0")
            until(lambda: served.follower.count_done == 1)
            kinds = dict(again.take(room, served.follower))
            self.assertIn('"done":2', kinds["run"])
            self.assertIn("polls", kinds["run"])
            self.assertIn("reloaded the file", kinds["past"])
            served.pages.close(again)
        finally:
            audits = room.close()
            served.close()
        self.assertEqual([True, True], [it.is_good for it in audits])


if __name__ == "__main__":
    unittest.main()
