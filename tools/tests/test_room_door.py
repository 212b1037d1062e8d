"""Who comes in at a room's ports, and that nothing is done of what a browser sends to its lines."""
import contextlib
import os
import re
import socket
import statistics
import time
import unittest
from typing import Iterable
from unittest import mock

from rdbg.client import Session
from rdbg.failure import Failure
from rdbg.rooms import client, port as ports
from rdbg.rooms.web_guard import HEADERS
from tests.rooms import LOST, PATIENCE, Caller, room, rows, talk, until
from tests.strangers import IS_ROOT, UNTOLD, before, connected, told_nobody
from tests.test_room_hostile import served
from tests.test_room_web import page, status
from tests.test_room_web import served as with_page
from tests.web_rooms import WebRoom

NO = "# no: this room belongs to another user (start it with --anyone to let every user in)"
# A page's request, with lines of rdbg as what it says.
HEADS = "Host: 127.0.0.1\r\nOrigin: http://evil.example\r\nContent-Type: text/plain\r\n\r\n"
BODY = "tick\nforward 3\nwheel take\n# say hello\n"
WITH_LINES = f"POST / HTTP/1.1\r\n{HEADS}{BODY}".encode()


class Users(unittest.TestCase):
    """Another user of this machine."""

    @IS_ROOT
    def test_another_user_is_told_why_and_does_nothing(self) -> None:
        with talk() as file, room("--talk", str(file)) as here, Caller(here.port, "left") as left:
            self.assertEqual(here.listening, f"listening {here.port}\n")
            for content in (b"", b"tick\nforward 3\nwheel take\n", b"# name right\ntick\n"):
                self.assertEqual(told_nobody(here.port, content).decode(), f"{NO}\n")
            left.send("# who")
            self.assertEqual(left.expect("# here"), "# here: left (session 1)")
            self.assertEqual(left.ask("tick"), "ok at 1")
            here.end()
            who = ["room", *["left"] * 3, "room", "room"]
            self.assertEqual([it[0] for it in rows(file)], who)

    def test_a_prompt_says_why_too(self) -> None:
        with mock.patch("rdbg.door.client_owner", lambda *_: 12_345), served() as (port, _):
            said = f"the server at port {port}: {NO[len('# no: ') :]}"
            with self.assertRaisesRegex(Failure, re.escape(said)):
                Session.attach(port, "ada")
            with Session.attach(port) as session, self.assertRaisesRegex(Failure, re.escape(said)):
                session.tell("tick")

    def test_a_token_that_isnt_asked_for_is_passed_over(self) -> None:
        with mock.patch.dict(os.environ, {"RDBG_TOKEN": "old"}), served() as (port, _):
            with Session.attach(port, "ada") as session:
                self.assertEqual(session.tell("tick"), "ok at 1")

    @IS_ROOT
    def test_anyone_opens_it_and_says_so(self) -> None:
        with room("--anyone") as here, Caller(here.port, "left") as left:
            self.assertEqual(here.listening, f"listening {here.port}, for anyone of this machine\n")
            said = told_nobody(here.port, b"# name right\ntick\n# say bye\n\n").decode()
            self.assertIn("\nok at 1\n", said)
            left.expect("# right: tick -> ok at 1")

    @IS_ROOT
    def test_the_page_is_for_the_same_user_too(self) -> None:
        for word, wanted in (("", 403), ("--anyone", 200)):
            here = WebRoom(LOST, *word.split())
            try:
                here.wait()
                heads = f"Host: 127.0.0.1:{here.web}\r\n\r\n"
                asked = f"GET / HTTP/1.1\r\n{heads}".encode()
                answer = told_nobody(here.web, asked)
                self.assertEqual(status(answer), wanted)
                for name, value in HEADERS:
                    self.assertIn(f"{name}: {value}\r\n".encode(), answer)
                if wanted == 403:
                    end = f"\r\n\r\nrdbg: {NO[len('# no: ') :]}\n".encode()
                    self.assertTrue(answer.endswith(end), answer)
                    # (before anything is read)
                    self.assertEqual(status(told_nobody(here.web, b"")), 403)
                self.assertEqual(here.end(), 0)
            finally:
                here.process.kill()
                here.process.communicate()

    @IS_ROOT
    def test_many_of_another_take_no_place(self) -> None:
        with served() as (port, its_room), Caller(port, "left") as left:
            with connected(port, 2 * ports.MOST), Caller(port, "right") as right:
                self.assertEqual(right.ask("tick"), "ok at 1")
                self.assertEqual(left.ask("tick"), "ok at 2")
                self.assertNotIn("guest", its_room.who())

    @IS_ROOT
    def test_many_of_another_take_no_place_of_a_page(self) -> None:
        with with_page() as here, page(here, "ada") as (raw, _):
            with connected(here.port, 100), page(here, "bo"):
                raw.expect("notice", "bo joined")

    @IS_ROOT
    def test_one_after_the_other_of_another_keeps_nobody_waiting(self) -> None:
        with served() as (port, _), Caller(port, "left") as left, connected(port, 0):
            waited = []
            for number in range(1, 41):
                began = time.monotonic()
                self.assertEqual(left.ask("tick"), f"ok at {number}")
                waited.append(time.monotonic() - began)
            self.assertLess(statistics.median(waited), 0.5)


class Browsers(unittest.TestCase):
    """Requests of HTTP at the port for lines."""

    def nothing_is_done(self, *contents: Iterable[bytes], pause: float = 0.0) -> None:
        """Says these pieces, and sees that none of them was anything to the room."""
        with talk() as file, room("--talk", str(file)) as here, Caller(here.port, "left") as left:
            for pieces in contents:
                with Caller(here.port) as other:
                    with contextlib.suppress(OSError):
                        for piece in pieces:
                            other.connection.sendall(piece)
                            time.sleep(pause)
                    said = other.rest()
                self.assertEqual([it for it in said if it[:1] != "#"], [])
                self.assertIn("this port is for lines, and a browser sent this", said[-1])
            self.assertEqual(left.ask("show moves"), "moves 0 undone 0 kept 0")
            self.assertEqual(left.ask("show wheel"), "wheel -")
            here.end()
            kept = [row for row in rows(file) if row[0] not in ("room", "left")]
            # (who takes long to say a line is a guest for others, who comes and is away)
            self.assertEqual([row for row in kept if row[1] != "#"], [])

    def test_in_one_piece(self) -> None:
        self.nothing_is_done([WITH_LINES], [WITH_LINES.replace(b"\r\n", b"\n")])

    def test_by_any_method(self) -> None:
        methods = ("GET", "PUT", "patch", "M-SEARCH", "x", "!#$%&'*+-.^_`|~09")
        wanted = [f"{it} /a?b=c HTTP/1.0\r\n\r\n{BODY}".encode() for it in methods]
        self.nothing_is_done(*[[it] for it in wanted])

    def test_byte_by_byte(self) -> None:
        self.nothing_is_done([bytes([it]) for it in WITH_LINES])

    def test_slowly(self) -> None:
        self.nothing_is_done(
            [b"POST ", b"/ HT", b"TP/1.", b"1\r", b"\n" + BODY.encode()], pause=0.4
        )

    def test_that_ends_without_a_line_end(self) -> None:
        with served() as (port, its_room), Caller(port) as other:
            other.connection.sendall(b"POST / HTTP/1.1")
            other.connection.shutdown(socket.SHUT_WR)
            self.assertEqual([it for it in other.rest() if it[:1] != "#"], [])
            until(lambda: its_room.who() == "here: ")

    def test_that_is_encrypted(self) -> None:
        # (a page chooses some of the bytes of such a greeting)
        self.nothing_is_done([b"\x16\x03\x01\x02\x00\x01\x00\ntick\nforward 3\n"])
        # (of two thousand bytes that seldom are a line end none may be one)
        self.nothing_is_done([b"\x16\x03\x01\x07\xd0" + b"x" * 2_000 + b"\ntick\n"])

    def test_with_a_line_that_is_too_long(self) -> None:
        long = b"x" * 100_000
        self.nothing_is_done([WITH_LINES + long + b"\ntick\n"])
        with served() as (port, its_room), Caller(port) as other:
            with contextlib.suppress(OSError):
                other.connection.sendall(b"POST /" + long + b" HTTP/1.1\r\n\r\ntick\n")
            self.assertEqual([it for it in other.rest() if it[:1] != "#"], ["no LineTooLong"])
            self.assertEqual(its_room.place, 0)

    def test_a_later_line_is_one_of_rdbg(self) -> None:
        with served() as (port, _), Caller(port) as other:
            self.assertEqual(other.ask("tick"), "ok at 1")
            self.assertEqual(other.ask("POST / HTTP/1.1"), "no Syntax")
            self.assertEqual(other.ask("tick"), "ok at 2")

    def test_beside_one_who_works_without_end(self) -> None:
        with served() as (port, its_room), Caller(port, "left") as left:
            for number in range(1, 101):
                with socket.create_connection(("127.0.0.1", port)) as other:
                    other.sendall(WITH_LINES)
                    self.assertEqual(left.ask("tick"), f"ok at {number}")
            until(lambda: its_room.who() == "here: left (session 1)")


class Untold(unittest.TestCase):
    """A system that says of nobody who it is."""

    def setUp(self) -> None:
        found = mock.patch("rdbg.door.find_lookup", lambda: None)
        found.start()
        self.addCleanup(found.stop)

    def test_the_room_says_a_token_and_lets_in_by_it(self) -> None:
        with room(head=before(UNTOLD)) as here:
            with Caller(here.port) as other:
                other.send("tick", "forward 3")
                self.assertIn("# token", other.expect("# send"))
                self.assertIn("# token", other.expect("# no: the first line"))
                self.assertEqual(other.rest(), [])
            self.assertEqual(here.listening, f"listening {here.port}\n")
            assert here.process.stderr is not None
            token = re.search(r"# token (\S+)$", here.process.stderr.readline())
            assert token is not None
            with Caller(here.port) as other:
                other.send(f"# token {token[1]}", "# name ada")
                other.expect("# you are ada, session 1; here: nobody else")
                self.assertEqual(other.ask("tick"), "ok at 1")
            with self.assertRaisesRegex(Failure, "the first line must be `# token ..`"):
                Session.attach(here.port, "bo")
            with mock.patch.dict(os.environ, {"RDBG_TOKEN": token[1]}):
                with Session.attach(here.port, "bo") as session:
                    self.assertEqual(session.tell("tick"), "ok at 2")
            self.assertEqual((here.end(), here.errors), (0, ""))

    def test_with_anyone_there_is_none(self) -> None:
        with room("--anyone", head=before(UNTOLD)) as here, Caller(here.port, "left") as left:
            self.assertEqual(left.ask("tick"), "ok at 1")
            self.assertEqual((here.end(), here.errors), (0, ""))

    def test_who_says_no_token_takes_no_place(self) -> None:
        named = mock.patch("rdbg.door.secrets.token_urlsafe", lambda _: "open")
        few = mock.patch.object(ports, "MOST", 4)
        with named, few, mock.patch.object(client, "NAMELESS", PATIENCE):
            with served() as (port, _), contextlib.ExitStack() as stack:
                silent = [stack.enter_context(Caller(port)) for _ in range(10)]
                with Caller(port) as other:
                    other.send("# token open", "# name ada")
                    other.expect("# you are ada")
                self.assertEqual(silent[0].rest()[1:], [])

    def test_who_says_nothing_is_closed(self) -> None:
        with mock.patch.object(client, "NAMELESS", 0.3), served() as (port, _):
            with Caller(port) as other:
                self.assertEqual(other.rest()[1:], ["# no: no token was sent in time"])


if __name__ == "__main__":
    unittest.main()
