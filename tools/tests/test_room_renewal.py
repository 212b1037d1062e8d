"""A room whose history is nearly full, and others who come to the new program's sessions first."""
import contextlib
import io
import socket
import threading
import unittest
from typing import Any, Iterator, List, Tuple
from unittest import mock

from rdbg.client import LOCAL, Session, connected
from rdbg.companions.room import open_room
from rdbg.rooms import apart, host, program
from rdbg.rooms.host import Hindered, Host
from rdbg.rooms.room import Member, Room
from rdbg.driving.target import Limits
from rdbg.files.source import load
from tests import strangers
from tests.rooms import LOST

PATIENCE = 30.0


@contextlib.contextmanager
def taken(most: int) -> Iterator[List[int]]:
    """As long as somebody else comes to the sessions of each program that a room starts, of so
    many; it counts them. None has a network of its own."""
    found: List[int] = []
    take = Host._take

    def late(self: Host, port: int, count: int) -> None:
        if len(found) == most:
            return take(self, port, count)
        found.append(port)
        with socket.create_connection((LOCAL, port)) as other:
            other.sendall(b"show cores\n")
            other.recv(100)
            take(self, port, count)

    with mock.patch.object(Host, "_take", late), mock.patch.object(apart, "IS_TRIED", False):
        yield found


@contextlib.contextmanager
def nearly_full(history: int) -> Iterator[Tuple[Member, List[str], Session]]:
    """Somebody at a room whose history has so many entries, what is heard there, and a program
    without a limit beside it."""
    here = Room(load(LOST), Limits(1_000, history), sessions=3)
    heard: List[str] = []
    with Session.run(LOST) as alone:
        yield here.join("left", heard.append), heard, alone
    assert all(it.is_good for it in here.close())


class Opening(unittest.TestCase):
    """A room is opened, however often others come to its program first."""

    def test_it_is_tried_again_and_said(self) -> None:
        errors = io.StringIO()
        with taken(5), mock.patch.object(host, "SECONDS", 0.0):
            with contextlib.redirect_stderr(errors):
                here = open_room(load(LOST), Limits(), 3, None)
        self.assertEqual("ok at 1", here.join("left", lambda notice: None).ask("step 1"))
        self.assertTrue(all(it.is_good for it in here.close()))
        said = errors.getvalue().splitlines()
        self.assertEqual(5, len(said))
        for line in said:
            # (the other connection is closed, so its user is unknown)
            came = r"somebody else connected to port \d+ first, from port \d+ of an unknown user"
            self.assertRegex(line, rf"^rdbg room: {came}: .* \(trying again\)$")

    @strangers.IS_ROOT
    def test_another_user_is_named(self) -> None:
        take, others = Host._take, contextlib.ExitStack()

        def late(self: Host, port: int, count: int) -> None:
            others.enter_context(strangers.connected(port, 5))
            take(self, port, count)

        with others, mock.patch.object(Host, "_take", late), self.assertRaises(Hindered) as raised:
            with mock.patch.object(apart, "IS_TRIED", False):
                Host.start(load(LOST), Limits(), 8, 0.0)
        who = rf"(port \d+ of user {strangers.NOBODY}, ){{{host.FEW}}}2 more: "
        self.assertRegex(
            str(raised.exception), rf"^somebody else connected to port \d+ first, from {who}"
        )


class Renewal(unittest.TestCase):
    """A new program goes on, whoever connects meanwhile."""

    def setUp(self) -> None:
        for name in ("TRIES", "AGAIN"):
            patch = mock.patch.object(program, name, 0.0)
            patch.start()
            self.addCleanup(patch.stop)

    def go_on(self, member: Member, alone: Session, count: int) -> None:
        """Does so many lines, of which none is refused."""
        for at in range(count):
            for line in ("tick", "back 1", f"poke reg worker 3 {at}", "back 1"):
                self.assertEqual(alone.tell(line), member.ask(line), f"{line}, {at}")

    def test_others_come_first_for_a_while(self) -> None:
        with nearly_full(400) as (left, heard, alone):
            left.ask("watch tick > 3"), alone.tell("watch tick > 3")
            left.ask("wheel take")
            with taken(30) as found:
                self.go_on(left, alone, 150)
            self.assertEqual(30, len(found))
            for line in ("show moves", "show watches", "show task worker"):
                self.assertEqual(alone.tell(line), left.ask(line))
            told = [
                it
                for it in heard
                if "cannot start a new rdbg with an empty history (trying again)" in it
            ]
            self.assertEqual(1, len(told), heard)
            self.assertRegex(
                told[0], r"somebody else connected to port \d+ first, from port \d+ of "
            )
            self.assertTrue([it for it in heard if "a new rdbg has taken over" in it], heard)
            self.assertNotIn("no HistoryFull", heard)

    def test_others_come_first_until_the_history_is_full(self) -> None:
        with nearly_full(200) as (left, heard, alone):
            with taken(10_000):
                lines = 0
                while left.ask("tick") != "no HistoryFull":
                    lines += 1
                    self.assertLess(lines, 300)
            for _ in range(lines):
                alone.tell("tick")
            # (the line that finds it full has a new one go on)
            left.ask("tick")
            self.assertEqual(alone.tell("show cores"), left.ask("show cores"))
            self.go_on(left, alone, 5)

    def test_one_that_says_nothing_is_not_waited_for(self) -> None:
        made: List[int] = []

        def silent(port: int, *more: Any) -> socket.socket:
            made.append(port)
            return connected(listener.getsockname()[1] if len(made) == 3 else port, *more)

        found: List[Room] = []
        with socket.socket() as listener, mock.patch.object(host, "PATIENCE", 0.3):
            listener.bind((LOCAL, 0))
            listener.listen()
            with mock.patch.object(host, "connected", silent):
                with mock.patch.object(apart, "IS_TRIED", False):
                    thread = threading.Thread(
                        target=lambda: found.append(Room(load(LOST), sessions=3)), daemon=True
                    )
                    thread.start()
                    thread.join(PATIENCE)
        self.assertEqual(1, len(found))
        self.assertEqual("ok at 1", found[0].join("left", lambda notice: None).ask("step 1"))
        self.assertTrue(all(it.is_good for it in found[0].close()))


if __name__ == "__main__":
    unittest.main()
