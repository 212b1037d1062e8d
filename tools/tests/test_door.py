"""Whose a connection is, and who may come in by it."""
import contextlib
import os
import socket
import subprocess
import time
import unittest
from typing import Callable, Iterator, Tuple
from unittest import mock

from rdbg import door, owners
from rdbg.client import LOCAL
from rdbg.door import Door, SilentConnections, is_of_a_browser
from tests.strangers import IS_ROOT, NOBODY, become, words

LOOKUPS = (owners.ask_kernel, owners.search_tables)
# Connects to a port, says so, and closes once its input ends.
STRANGER = """
import socket, sys
with socket.create_connection(("127.0.0.1", int(sys.argv[1]))):
    sys.stdin.read()
"""


@contextlib.contextmanager
def listening() -> Iterator[Tuple[socket.socket, int]]:
    """A port."""
    with socket.create_server((LOCAL, 0)) as found:
        yield found, found.getsockname()[1]


@contextlib.contextmanager
def pair(family: int = socket.AF_INET, head: str = "") -> Iterator[Tuple[socket.socket, ...]]:
    """A connection of this process with itself, the end that came first."""
    with listening() as (found, port), socket.socket(family) as here:
        here.connect((f"{head}{LOCAL}", port))
        there, _ = found.accept()
        with there:
            yield here, there


@contextlib.contextmanager
def of_nobody() -> Iterator[socket.socket]:
    """A connection of another user."""
    with listening() as (found, port):
        process = subprocess.Popen(
            words(STRANGER, port),
            preexec_fn=become,
            stdin=subprocess.PIPE,
        )
        with process:
            assert process.stdin is not None
            there, _ = found.accept()
            with there:
                yield there
            process.stdin.close()


class Owners(unittest.TestCase):
    """Both ways by which Linux says it."""

    def both(self, connection: socket.socket) -> Tuple[object, ...]:
        """What each lookup says of the other end."""
        return tuple(owners.client_owner(lookup, connection) for lookup in LOOKUPS)

    def test_a_connection_of_this_user(self) -> None:
        with pair() as (_, there):
            self.assertEqual(self.both(there), (os.geteuid(), os.geteuid()))

    def test_one_that_says_its_address_as_one_of_ipv6(self) -> None:
        with pair(socket.AF_INET6, "::ffff:") as (here, there):
            self.assertEqual(here.getsockname()[0], f"::ffff:{LOCAL}")
            self.assertEqual(self.both(there), (os.geteuid(), os.geteuid()))

    @IS_ROOT
    def test_a_connection_of_another(self) -> None:
        with of_nobody() as there:
            self.assertEqual(self.both(there), (NOBODY, NOBODY))

    def test_who_has_connections_to_a_port(self) -> None:
        families = ((socket.AF_INET, ""), (socket.AF_INET6, "::ffff:"))
        with listening() as (_, port), contextlib.ExitStack() as ends:
            self.assertEqual({}, owners.clients_of(port))
            here = [ends.enter_context(socket.socket(family)) for family, _ in families]
            for each, (_, head) in zip(here, families):
                each.connect((f"{head}{LOCAL}", port))
            ports = [each.getsockname()[1] for each in here]
            self.assertEqual(dict.fromkeys(ports, os.geteuid()), owners.clients_of(port))
            # (who has closed it is nobody any more)
            here[0].close()
            self.assertEqual({ports[0]: None, ports[1]: os.geteuid()}, owners.clients_of(port))
            with mock.patch.object(owners, "TABLES", ()):
                self.assertEqual({}, owners.clients_of(port))

    def test_one_that_has_said_all_is_still_known(self) -> None:
        with pair() as (here, there):
            here.shutdown(socket.SHUT_WR)
            self.assertEqual(self.both(there), (os.geteuid(), os.geteuid()))

    def test_one_that_has_gone_is_nobodys(self) -> None:
        # (the system's table says user 0 of it, whoever it was)
        with pair() as (here, there):
            here.sendall(b"tick\n")
            here.close()
            self.assertEqual(self.both(there), (None, None))
            self.assertIn("cannot tell which user", Door().refusal(there, "this"))

    def test_a_socket_that_listens_is_no_end(self) -> None:
        with listening() as (found, port):
            for lookup in LOOKUPS:
                self.assertIsNone(lookup((LOCAL, port), (LOCAL, 9)))
                server = lookup((LOCAL, port), None)
                assert server is not None
                self.assertEqual(server.state, owners.LISTENS)
            self.assertEqual(found.getsockname(), (LOCAL, port))

    def test_what_takes_part_in_no_connection(self) -> None:
        with socket.socket() as alone:
            self.assertEqual(self.both(alone), (None, None))

    def test_where_the_first_way_isnt_there_the_other_is_taken(self) -> None:
        with mock.patch("rdbg.owners.socket.AF_NETLINK", 12_345):
            self.assertIs(owners.find_lookup(), owners.search_tables)
        self.assertIs(owners.find_lookup(), owners.ask_kernel)

    def test_where_there_is_none(self) -> None:
        with mock.patch("rdbg.owners.socket.AF_NETLINK", 12_345):
            with mock.patch.object(owners, "TABLES", (("/proc/none", ""),)):
                self.assertIsNone(owners.find_lookup())
        with mock.patch("rdbg.owners.sys.platform", "darwin"):
            self.assertIsNone(owners.find_lookup())


class Doors(unittest.TestCase):
    """Who is let in."""

    def test_this_user(self) -> None:
        with pair() as (_, there):
            self.assertEqual(Door().refusal(there, "this"), "")

    @IS_ROOT
    def test_another(self) -> None:
        with of_nobody() as there:
            why = Door().refusal(there, "this room")
            self.assertEqual(
                why,
                "this room belongs to another user (start it with --anyone to let every user in)",
            )
            self.assertEqual(Door(is_open=True).refusal(there, "this room"), "")

    def test_root_is_a_user_like_others(self) -> None:
        found = Door()
        with pair() as (_, there), mock.patch.object(found, "_user", 1_000):
            with mock.patch.object(door, "client_owner", lambda *_: 0):
                self.assertIn("belongs to another user", found.refusal(there, "this"))

    def test_a_token_where_nobody_is_told(self) -> None:
        with mock.patch.object(door, "find_lookup", lambda: None):
            one, other = Door(), Door()
            self.assertEqual(Door(is_open=True).token, "")
        self.assertGreaterEqual(len(one.token), 20)
        self.assertNotEqual(one.token, other.token)
        with pair() as (_, there):
            self.assertEqual(one.refusal(there, "this"), "")
        self.assertEqual(one.refusal_of_line(f"# token {one.token}\r".encode()), "")
        lines = (b"", b"tick", b"# token", f"# token {other.token}".encode(), b"# token \xff")
        for line in (*lines, f"# token {one.token}x".encode(), one.token.encode()):
            self.assertIn("# token", one.refusal_of_line(line), line)


class Mistakes(unittest.TestCase):
    """What a browser begins with."""

    def test_requests(self) -> None:
        for line in (
            b"POST / HTTP/1.1",
            b"GET /a?b=c HTTP/1.0\r",
            b"get / http/1.1\r\n",
            b"OPTIONS * HTTP/1.1",
            b"M-SEARCH * HTTP/1.1",
            b"!#$%&'*+-.^_`|~09 x HTTP/1.1\n",
            b"CONNECT 127.0.0.1:7000 HTTP/1.1",
            b"PRI * HTTP/2.0",
            b"GET /\xff HTTP/3",
            b"\x16\x03\x01\x02\x00\x01\x00\x01\xfc\x03\x03",
        ):
            self.assertTrue(is_of_a_browser(line), line)

    def test_lines(self) -> None:
        for line in (
            b"",
            b"tick",
            b"step 0",
            b"# name ada",
            b"# say GET / HTTP/1.1",
            b"until count jobs > 0 50",
            b"HTTP/1.1 200 OK",
            b"Content-Length: 12\r\n",
            b" POST / HTTP/1.1",
            b"POST / HTTP/1.1 x",
            bytes(range(10)),
        ):
            self.assertFalse(is_of_a_browser(line), line)


class Silent(unittest.TestCase):
    """Connections that say nothing."""

    def test_the_oldest_goes_where_there_are_too_many(self) -> None:
        found = SilentConnections(2, 60)
        with contextlib.ExitStack() as stack:
            ends = [stack.enter_context(pair()) for _ in range(4)]
            for _, there in ends[:3]:
                found.add(there)
            self.gone(ends[0][0])
            found.remove(ends[1][1])
            found.add(ends[3][1])
            for here, _ in ends[1:]:
                self.kept(here)

    def test_each_goes_that_takes_too_long(self) -> None:
        found = SilentConnections(2, 60)
        with pair() as (here, there), pair() as (late, other):
            found.add(other)
            with mock.patch("rdbg.door.time.monotonic", at(time.monotonic() + 59)):
                found.add(there)
                found.drop_late()
            self.kept(late)
            with mock.patch("rdbg.door.time.monotonic", at(time.monotonic() + 61)):
                found.drop_late()
            self.gone(late)
            self.kept(here)

    def gone(self, end: socket.socket) -> None:
        """The other end has been closed."""
        end.settimeout(5)
        self.assertEqual(end.recv(1), b"")

    def kept(self, end: socket.socket) -> None:
        """It hasn't."""
        end.setblocking(False)
        with self.assertRaises(BlockingIOError):
            end.recv(1)


def at(seconds: float) -> Callable[[], float]:
    """A clock that stands."""
    return lambda: seconds


if __name__ == "__main__":
    unittest.main()
