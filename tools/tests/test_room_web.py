"""Whom a room's pages let in, and that slow or hostile connections hurt nobody: requests as bytes,
without a browser."""
import concurrent.futures
import contextlib
import json
import socket
import subprocess
import sys
import time
import unittest
from typing import Any, Dict, Iterator, List, Optional, Tuple
from unittest import mock

from rdbg.client import LOCAL
from rdbg.failure import Failure
from rdbg.rooms import web, web_guard, web_pages
from rdbg.rooms.room import Room
from rdbg.rooms.web import Served
from rdbg.rooms.web_follower import Follower
from rdbg.files.source import load
from tests.paths import COMPANION
from tests.rooms import LOST, free_port

PATIENCE = 30.0


@contextlib.contextmanager
def served(sessions: int = 20) -> Iterator[Served]:
    """A room whose page is served; its audit is good at the end."""
    room = Room(load(LOST), sessions=sessions)
    found = Served(room, 0)
    try:
        yield found
    finally:
        audits = room.close()
        found.close()
    assert all(it.is_good for it in audits)


class Raw:
    """A connection that says what a test says."""

    def __init__(self, here: Served) -> None:
        self.connection = socket.create_connection((LOCAL, here.port))
        self.connection.settimeout(PATIENCE)
        self._read, self._end = b"", time.monotonic() + PATIENCE

    def __enter__(self) -> "Raw":
        return self

    def __exit__(self, *_: object) -> None:
        self.connection.close()

    def send(self, content: bytes) -> None:
        """Says something; who doesn't listen any more is left alone."""
        with contextlib.suppress(OSError):
            self.connection.sendall(content)

    def rest(self) -> bytes:
        """All that is answered until the connection ends."""
        with contextlib.suppress(ConnectionError):
            while True:
                more = self.connection.recv(65_536)
                if not more:
                    break
                self._read += more
        return self._read

    def event(self) -> Tuple[str, Any]:
        """The next event that comes; that the room still tells something is none."""
        while True:
            while b"\n\n" not in self._read:
                more = self.connection.recv(65_536)
                if not more:
                    raise AssertionError(f"no event, but the end behind {self._read!r}")
                self._read += more
            text, self._read = self._read.split(b"\n\n", 1)
            lines = text.decode().split("\n")
            if lines[-1].startswith("data: "):
                return lines[-2][len("event: ") :], json.loads(lines[-1][len("data: ") :])
            if time.monotonic() > self._end:
                raise AssertionError("what was waited for doesn't come")

    def expect(self, kind: str, *texts: str) -> Any:
        """The next event of a kind that has a text, or one of several; those before are dropped."""
        self._end = time.monotonic() + PATIENCE
        while True:
            found, values = self.event()
            if found == kind and (not texts or any(it in str(values) for it in texts)):
                return values
            if time.monotonic() > self._end:
                raise AssertionError(f"{kind} {texts} doesn't come")


def asked(here: Served, method: str, path: str, body: Optional[str], *heads: str) -> bytes:
    """What a request is answered, whose heads are these alone."""
    lines = [f"{method} {path} HTTP/1.1", *heads]
    if body is not None:
        lines.append(f"Content-Length: {len(body.encode())}")
    with Raw(here) as raw:
        raw.send("\r\n".join([*lines, "", body or ""]).encode())
        return raw.rest()


def status(answer: bytes) -> int:
    """The status of an answer."""
    return int(answer.split(b" ", 2)[1])


def host(here: Served) -> str:
    """The head that a browser sends."""
    return f"Host: {LOCAL}:{here.port}"


def got(here: Served, path: str, *heads: str) -> bytes:
    """What is answered to a browser."""
    return asked(here, "GET", path, None, host(here), *heads)


def told(here: Served, path: str, body: str, *heads: str) -> bytes:
    """What is answered to the page, or to another one by these heads."""
    own = heads or (f"Origin: http://{LOCAL}:{here.port}",)
    return asked(here, "POST", path, body, host(here), "Content-Type: application/json", *own)


def posted(here: Served, what: str, body: str, *heads: str) -> bytes:
    """The same, where it is let in."""
    return told(here, f"/{here.token}/{what}", body, *heads)


def traded(here: Served, key: str, *heads: str) -> bytes:
    """The same for the key of an address."""
    return told(here, "/in", json.dumps({"key": key}), *heads)


def said(here: Served, what: str, **texts: str) -> Dict[str, str]:
    """What the page is answered, as values."""
    answer = posted(here, what, json.dumps(texts))
    assert status(answer) == 200, answer
    values: Dict[str, str] = json.loads(answer.split(b"\r\n\r\n", 1)[1])
    return values


@contextlib.contextmanager
def page(here: Served, name: Optional[str] = None) -> Iterator[Tuple[Raw, str]]:
    """A page that is told what comes, and its key."""
    with Raw(here) as raw:
        query = f"?name={name}" if name else ""
        raw.send(f"GET /{here.token}/events{query} HTTP/1.1\r\n{host(here)}\r\n\r\n".encode())
        key = raw.expect("you")
        yield raw, key


class LetIn(unittest.TestCase):
    """Who has the token, from the page itself."""

    here: Served

    def setUp(self) -> None:
        stack = contextlib.ExitStack()
        self.addCleanup(stack.close)
        self.here = stack.enter_context(served(4))

    def test_the_page(self) -> None:
        answer = asked(self.here, "GET", "/", None, f"Host: {LOCAL}:{self.here.port}")
        self.assertEqual(200, status(answer))
        heads, _, text = answer.partition(b"\r\n\r\n")
        for line in web_guard.HEADERS:
            self.assertIn(": ".join(line).encode(), heads)
        self.assertIn(b"frame-ancestors 'none'", heads)
        for unwanted in (b"Access-Control", b"Set-Cookie", b"Python"):
            self.assertNotIn(unwanted, heads)
        self.assertIn(b"default-src 'none'", text)
        self.assertNotIn(b"://", text)
        for secret in (self.here.token, self.here.key.text, "lost_item", "poller"):
            self.assertNotIn(secret.encode(), text)

    def test_what_stays_of_the_application(self) -> None:
        answer = got(self.here, f"/{self.here.token}/room", "Sec-Fetch-Site: same-origin")
        self.assertEqual(200, status(answer))
        values = json.loads(answer.split(b"\r\n\r\n", 1)[1])
        self.assertEqual(
            ("lost_item.json", ["worker", "producer", "poller"]), (values["file"], values["tasks"])
        )
        for name in ("room", "events"):
            path = f"/{self.here.token}/{name}"
            self.assertEqual(404, status(got(self.here, path, "Sec-Fetch-Site: none")))

    def test_it_is_on_one_address_alone(self) -> None:
        self.assertEqual(LOCAL, self.here.socket.getsockname()[0])
        with self.assertRaises(OSError):
            socket.create_connection(("127.0.0.2", self.here.port), PATIENCE)

    def test_another_token_is_refused(self) -> None:
        token = self.here.token
        for given in (
            "x",
            token[:-1],
            f"{token}x",
            token.upper(),
            token[::-1],
            "\u20ac",
            "%00",
            self.here.key.text,
        ):
            for path in (f"/{given}/room", f"/{given}/events", f"/{given}", f"//{given}/room"):
                answer = got(self.here, path)
                self.assertEqual(403, status(answer), path)
                self.assertNotIn(token.encode(), answer)
        for path in (f"/{token}", "/room", "/events", "/in", "/in/", "/?"):
            self.assertEqual(403, status(got(self.here, path)), path)
        for path in (f"/{token}/", f"/{token}/none", f"/{token}/line"):
            self.assertEqual(404, status(got(self.here, path)), path)
        self.assertEqual(400, status(got(self.here, f"/{token}/events?name=a&name=b")))
        self.assertEqual(404, status(posted(self.here, "none", "{}")))

    def test_another_host_is_refused(self) -> None:
        port, path = self.here.port, f"/{self.here.token}/room"
        others: List[List[str]] = [
            [],
            [f"Host: evil.example:{port}"],
            [f"Host: {LOCAL}"],
            [f"Host: {LOCAL}:{port + 1}"],
            [f"Host: {LOCAL}:{port}.evil.example"],
            # (a browser may ask another user's program at the same port of ::1 by these)
            [f"Host: localhost:{port}"],
            [f"Host: [::1]:{port}"],
        ]
        why = f"rdbg: this page is only served as http://{LOCAL}:{port}/\n".encode()
        for heads in others:
            for it in (path, "/"):
                answer = asked(self.here, "GET", it, None, *heads)
                self.assertEqual(403, status(answer), heads)
                self.assertTrue(answer.endswith(why), answer)
        origin = f"Origin: http://localhost:{port}"
        for line in ("line", "in"):
            token = "in" if line == "in" else f"{self.here.token}/{line}"
            heads = [f"Host: localhost:{port}", origin, "Content-Type: application/json"]
            answer = asked(self.here, "POST", f"/{token}", "{}", *heads)
            self.assertEqual(403, status(answer))
        twice = [f"Host: {LOCAL}:{port}", "Host: evil.example"]
        self.assertEqual(400, status(asked(self.here, "GET", path, None, *twice)))

    def test_another_origin_is_refused(self) -> None:
        port = self.here.port
        line = json.dumps({"page": "x", "line": "step 0"})
        for head in (
            "Origin: http://evil.example",
            "Origin: null",
            f"Origin: https://{LOCAL}:{port}",
            f"Origin: http://{LOCAL}:{port + 1}",
            f"Origin: http://localhost:{port}",
            "X-None: 1",
        ):
            for answer in (
                posted(self.here, "line", line, head),
                traded(self.here, self.here.key.text, head),
            ):
                self.assertEqual(403, status(answer), head)
                self.assertNotIn(b"Access-Control", answer)
        own = f"Origin: http://{LOCAL}:{port}"
        for site in ("cross-site", "same-site", "none"):
            answer = posted(self.here, "line", line, own, f"Sec-Fetch-Site: {site}")
            self.assertEqual(403, status(answer), site)
            answer = traded(self.here, self.here.key.text, own, f"Sec-Fetch-Site: {site}")
            self.assertEqual(403, status(answer), site)
        for path in ("/", f"/{self.here.token}/room", f"/{self.here.token}/events"):
            for head in ("Origin: http://evil.example", "Sec-Fetch-Site: cross-site"):
                self.assertEqual(403, status(got(self.here, path, head)))
        self.assertEqual(200, status(got(self.here, "/", "Sec-Fetch-Site: none")))
        for method in ("OPTIONS", "PUT", "HEAD", "DELETE", "x"):
            for path in ("/", "/in", f"/{self.here.token}/line"):
                answer = asked(self.here, method, path, None, host(self.here))
                self.assertIn(status(answer), (501, 400), method)
                self.assertNotIn(b"Access-Control", answer)
        self.assertEqual(0, self.here.room.place)

    def test_bodies_that_are_none(self) -> None:
        here = self.here
        for body, wanted in (
            ("", 400),
            ("[1]", 400),
            ('{"page": 1}', 400),
            ('{"page": ["a"]}', 400),
            ("[" * 4_000, 400),
            ("\x00", 400),
            (json.dumps({"page": "x" * web_guard.MOST_BODY}), 413),
        ):
            self.assertEqual(wanted, status(posted(here, "line", body)), body[:20])
            self.assertEqual(wanted, status(told(here, "/in", body)), body[:20])
        own = f"Origin: http://{LOCAL}:{here.port}"
        for heads, wanted in (
            (["Content-Type: text/plain", "Content-Length: 2"], 415),
            (["Content-Type: application/json"], 411),
            (["Content-Type: application/json", "Content-Length: -1"], 411),
            (["Content-Type: application/json", "Content-Length: 9999999999999999999"], 413),
            (["Content-Type: application/json", f"Content-Length: {'9' * 5_000}"], 413),
            (["Content-Type: application/json", "Transfer-Encoding: chunked"], 411),
        ):
            for path in (f"/{here.token}/line", "/in"):
                answer = asked(here, "POST", path, None, host(here), own, *heads)
                self.assertEqual(wanted, status(answer), heads)

    def test_digits_that_are_none(self) -> None:
        own = f"Origin: http://{LOCAL}:{self.here.port}\r\nContent-Type: application/json"
        head = f"POST /{self.here.token}/line HTTP/1.1\r\n{host(self.here)}\r\n{own}"
        for digit in ("\u00b2", "1\u00b9"):
            with Raw(self.here) as raw:
                raw.send(f"{head}\r\nContent-Length: {digit}\r\n\r\n{{}}".encode("latin-1"))
                self.assertEqual(411, status(raw.rest()))


class Lines(unittest.TestCase):
    """What a page says, and what it is told."""

    def test_lines_of_a_page(self) -> None:
        with served(4) as here, page(here) as (raw, key):
            self.assertEqual({"reply": "ok at 1"}, said(here, "line", page=key, line="step 1"))
            self.assertIn("step 1 -> ok at 1", raw.expect("notice", "step 1"))
            self.assertEqual({"reply": ""}, said(here, "line", page=key, line=" # say hello"))
            raw.expect("notice", "web says: hello")
            for line, reply in (
                ("step 0\nstep 1", "no Syntax"),
                ("x" * 1_025, "no LineTooLong"),
                ("\u20ac" * 500, "no LineTooLong"),
                ("", ""),
                ("st\u00e4p 0", "no Syntax"),
                ("step 0\x00", "no Syntax"),
                ("tick 2\ntick 2", "no Syntax"),
                ("step 9", "no NoSuch: the target has 2 cores, numbered from 0"),
            ):
                found = said(here, "line", page=key, line=line)["reply"]
                self.assertTrue(found.startswith(reply), f"{line[:9]}: {found}")
            self.assertEqual(1, here.room.place)
            for other in ("", key[:-1], f"{key}x"):
                answer = said(here, "line", page=other, line="step 0")
                self.assertIn("has left the room", answer["refused"])

    def test_names(self) -> None:
        with served(6) as here, page(here) as (raw, key), page(here) as (other, _):
            self.assertEqual("web2", other.expect("who")["name"])
            self.assertIn("already here", said(here, "name", page=key, name="web2")["refused"])
            self.assertIn(
                "is not a valid name", said(here, "name", page=key, name="<b>")["refused"]
            )
            self.assertEqual({}, said(here, "name", page=key, name="ada"))
            self.assertEqual("ada", raw.expect("who", "ada")["name"])
            other.expect("notice", "web is now ada")
            with Raw(here) as late:
                ask = f"GET /{here.token}/events?name=ada HTTP/1.1\r\n{host(here)}\r\n\r\n"
                late.send(ask.encode())
                self.assertEqual("ada is already here", late.expect("refused"))
                self.assertNotIn(b"event: ", late.rest())

    def test_one_that_goes_is_away_and_has_its_session_again(self) -> None:
        with served(4) as here, page(here, "left") as (left, _):
            with page(here, "ada") as (raw, key):
                said(here, "line", page=key, line="wheel take")
                self.assertEqual(
                    {"reply": "ok watch 0"}, said(here, "line", page=key, line="watch tick > 0")
                )
            left.expect("notice", "ada is away and still has the wheel")
            self.assertIn("has left", said(here, "line", page=key, line="step 0")["refused"])
            with page(here, "ada") as (raw, key):
                self.assertEqual(
                    "watches 0:fails", said(here, "line", page=key, line="show watches")["reply"]
                )
                self.assertEqual({"reply": "ok at 1"}, said(here, "line", page=key, line="tick"))

    def test_who_says_no_name_has_nothing_of_who_is_away(self) -> None:
        with served(4) as here, page(here, "left") as (left, _):
            with page(here) as (_, key):
                said(here, "line", page=key, line="wheel take")
                said(here, "line", page=key, line="watch tick > 0")
            left.expect("notice", "web is away and still has the wheel")
            with page(here) as (raw, key):
                who = raw.expect("who")
                self.assertEqual(("web2", {}), (who["name"], who["watches"]))
                self.assertEqual(
                    {"reply": "no Held 2: web has the wheel: `# wheel` asks for it"},
                    said(here, "line", page=key, line="step 0"),
                )
                self.assertEqual(
                    {"reply": "watches -"}, said(here, "line", page=key, line="show watches")
                )

    def test_moves_for_which_a_page_asks(self) -> None:
        with served(4) as here, page(here) as (raw, key):
            said(here, "line", page=key, line="forward 300")
            raw.expect("run", "'done': 300")
            end = time.monotonic() + PATIENCE
            while here.follower.values()["toCome"] and time.monotonic() < end:
                time.sleep(0.01)
            for place in ("", "-1", "1.5", "\u00b2", "\u0663", "9" * 3_000, "x", "4294967296"):
                for name in ("before", "behind"):
                    answer = said(here, name, **{"page": key, name: place})
                    self.assertIn("is not a place", answer["refused"], place[:9])
            for name, place in (("before", "0"), ("behind", "300"), ("before", "301")):
                self.assertEqual({}, said(here, name, **{"page": key, name: place}))
            first = here.follower.values()["blocks"][0]["first"]  # type: ignore[index]
            found: Any = said(here, "before", page=key, before=str(first))
            self.assertEqual(first, found["last"])
            behind: Any = said(here, "behind", page=key, behind="299")
            self.assertEqual((299, 300), (behind["cut"], behind["last"]))
            self.assertIn(
                "has left the room", said(here, "before", page="x", before="1")["refused"]
            )

    def test_the_room_ends(self) -> None:
        room = Room(load(LOST), sessions=4)
        here = Served(room, 0)
        with page(here) as (raw, key):
            said(here, "line", page=key, line="forward 5")
            room.close()
            here.close()
            raw.expect("notice", "the room has ended")
            raw.expect("end", "forward 5")
            self.assertEqual(b"", raw.connection.recv(1))
        with self.assertRaises(OSError):
            Raw(here)

    def test_a_program_that_has_ended(self) -> None:
        room = Room(load(LOST), sessions=4)
        here = Served(room, 0)
        with page(here) as (_, key):
            room._program.host._process.kill()
            answer = said(here, "line", page=key, line="step 0")
            self.assertEqual(["ended"], list(answer), answer)
        room.kill()
        here.close()

    def test_a_port_that_is_taken(self) -> None:
        with served(4) as here, self.assertRaises(Failure) as failed:
            Served(here.room, here.port)
        self.assertIn(f"cannot listen at port {here.port}: ", str(failed.exception))

    def test_a_port_is_free_again_once_the_room_has_ended(self) -> None:
        with served(4) as here, page(here) as (raw, _):
            port = here.port
            here.close()
            raw.expect("end")
            self.assertEqual(b"", raw.rest())
        again = Room(load(LOST), sessions=4)
        try:
            pages = Served(again, port)
            self.assertEqual(200, status(got(pages, "/")))
            self.assertEqual(403, status(got(pages, f"/{here.token}/room")))
            self.assertEqual(403, status(traded(pages, here.key.text)))
            with self.assertRaises(Failure):
                Served(again, port)
            pages.close()
        finally:
            again.close()

    def test_the_words_of_a_port(self) -> None:
        with socket.socket() as taken:
            taken.bind((LOCAL, 0))
            taken.listen()
            number = str(taken.getsockname()[1])
            for word, wanted in ((number, f"cannot listen at port {number}"), ("x", "1 to 65535")):
                words = ["room", LOST, "--port", str(free_port()), "--sessions", "2", "--web", word]
                ran = subprocess.run(
                    [sys.executable, "-B", str(COMPANION), *words],
                    stdout=subprocess.PIPE,
                    stderr=subprocess.PIPE,
                    text=True,
                    timeout=PATIENCE,
                )
                self.assertEqual((2, ""), (ran.returncode, ran.stdout))
                self.assertIn(wanted, ran.stderr)


class Hostile(unittest.TestCase):
    """Connections that mean no good."""

    def serves(self, here: Served) -> None:
        """Whether the page is served at once."""
        began = time.monotonic()
        self.assertEqual(200, status(got(here, f"/{here.token}/room")))
        self.assertLess(time.monotonic() - began, 5.0)

    def test_many_that_say_nothing_or_little(self) -> None:
        with served(4) as here, contextlib.ExitStack() as stack:
            raws = [stack.enter_context(Raw(here)) for _ in range(3 * web_guard.MOST_UNREAD)]
            for raw in raws[::2]:
                raw.send(b"GET /")
            self.serves(here)
            for raw in raws[: web_guard.MOST_UNREAD]:
                self.assertEqual(b"", raw.rest())

    def test_slow_ones_are_dropped(self) -> None:
        with mock.patch.object(web_guard, "SECONDS", 0.5), served(4) as here:
            with Raw(here) as raw, Raw(here) as other:
                other.send(b"GET / HTTP/1.1\r\n")
                end = time.monotonic() + PATIENCE
                while time.monotonic() < end:
                    try:
                        raw.connection.sendall(b"X")
                    except OSError:
                        break
                    time.sleep(0.1)
                self.assertLess(time.monotonic(), end)
                self.assertEqual(b"", other.rest())
            self.serves(here)

    def test_much_to_say(self) -> None:
        with served(4) as here:
            for content in (
                b"G" * 200_000,
                b"GET /" + b"x" * 100_000 + b" HTTP/1.1\r\n\r\n",
                b"GET / HTTP/1.1\r\n" + b"A: b\r\n" * 5_000,
                b"GET / HTTP/1.1\r\nA: " + b"x" * 100_000,
                b"\x00\xff" * 1_000 + b"\r\n\r\n",
                b"\r\n\r\n",
                b"GET\r\n\r\n",
            ):
                with Raw(here) as raw:
                    raw.send(content)
                    with contextlib.suppress(OSError):
                        raw.connection.shutdown(socket.SHUT_WR)
                    self.assertNotIn(b" 200 ", raw.rest(), content[:20])
                self.serves(here)

    def test_pages_that_are_too_many(self) -> None:
        with served(20) as here, contextlib.ExitStack() as stack:
            with mock.patch.object(web_pages, "MOST_PAGES", 3):
                raws = [stack.enter_context(page(here))[0] for _ in range(3)]
                with Raw(here) as raw:
                    ask = f"GET /{here.token}/events HTTP/1.1\r\n{host(here)}\r\n\r\n".encode()
                    raw.send(ask)
                    self.assertEqual("3 pages are already open", raw.expect("refused"))
                raws[0].connection.close()
                raws[1].expect("notice", "web is away")
                with page(here) as (raw, _):
                    self.assertEqual("web4", raw.expect("who")["name"])

    def test_a_page_that_never_reads(self) -> None:
        with mock.patch.object(web.Handler, "timeout", 1.0), served(4) as here:
            with page(here, "left") as (left, key), Raw(here) as slow:
                slow.connection.setsockopt(socket.SOL_SOCKET, socket.SO_RCVBUF, 2_048)
                slow.send(f"GET /{here.token}/events HTTP/1.1\r\n{host(here)}\r\n\r\n".encode())
                left.expect("notice", "web joined")
                end, told = time.monotonic() + PATIENCE, ""
                # (the system takes some megabytes that it doesn't read)
                while "web is away" not in told and time.monotonic() < end:
                    for _ in range(100):
                        here.room.tell("x" * 900)
                    here.room.tell("all told")
                    told = left.expect("notice", "all told", "web is away")
                self.assertIn("web is away", told)
                self.assertEqual(
                    {"reply": "ok at 3"}, said(here, "line", page=key, line="forward 3")
                )
                left.expect("notice", "forward 3 -> ok at 3")

    def test_notices_that_are_too_many(self) -> None:
        room = Room(load(LOST), sessions=4)
        pages = web_pages.Pages(room)
        followed = Follower(room, pages.tell)
        try:
            late = pages.open("late")
            late.take(room, followed)
            for number in range(web_pages.MOST_NOTICES + 5):
                late.hear(f"# {number}")
            notices = [text for kind, text in late.take(room, followed) if kind == "notice"]
            self.assertEqual(1 + web_pages.MOST_NOTICES, len(notices))
            self.assertIn("5 earlier notices were dropped", notices[0])
            self.assertEqual(['"# 5"', '"# 6"'], notices[1:3])
            pages.close(late)
        finally:
            audits = room.close()
            followed.close()
        self.assertTrue(all(it.is_good for it in audits))

    def test_lines_side_by_side(self) -> None:
        with served(4) as here, page(here) as (raw, key):
            with concurrent.futures.ThreadPoolExecutor(24) as pool:
                told = [pool.submit(said, here, "line", page=key, line="tick") for _ in range(120)]
                answers = [it.result() for it in told]
            done = [it for it in answers if it.get("reply", "").startswith("ok at ")]
            refused = [it for it in answers if "lines are already waiting" in it.get("refused", "")]
            self.assertEqual(120, len(done) + len(refused))
            self.assertEqual(len(done), here.room.place)
            self.assertGreater(len(done), 0)


if __name__ == "__main__":
    unittest.main()
