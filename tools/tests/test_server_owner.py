"""What connects to a port checks first that the server belongs to the same user."""
import contextlib
import os
import socket
import subprocess
import sys
import unittest
from typing import Any, Dict, Iterator, Optional, Sequence, Tuple
from unittest import mock

from rdbg import client, owners
from rdbg.client import LOCAL, Session
from rdbg.failure import Failure
from tests.dap_client import Client, editor
from tests.paths import COMPANION
from tests.rooms import room
from tests.strangers import IS_ROOT, NOBODY, UNTOLD, Listener, before, run_as_nobody

LOOKUPS = (owners.ask_kernel, owners.search_tables)
TOKEN = {"RDBG_TOKEN": "secret"}
FOREIGN = "port {} belongs to a program of user {} (use --anyone to connect anyway)\n"
# How long a connection may wait for nothing before a test fails.
PATIENCE = 30.0


def run(
    *words: str, head: Sequence[str] = (), environment: Optional[Dict[str, str]] = None
) -> Tuple[int, str, str]:
    """Runs a companion without input, and returns its status and what it prints."""
    done = subprocess.run(
        [*head, sys.executable, "-B", str(COMPANION), *words],
        input="",
        stdout=subprocess.PIPE,
        stderr=subprocess.PIPE,
        env={**os.environ, **(environment or {})},
        text=True,
        timeout=PATIENCE,
    )
    return done.returncode, done.stdout, done.stderr


@contextlib.contextmanager
def listening(address: str = LOCAL, family: int = socket.AF_INET) -> Iterator[socket.socket]:
    """A server of this process, which accepts nothing by itself."""
    with socket.socket(family) as found:
        if family == socket.AF_INET6:
            found.setsockopt(socket.IPPROTO_IPV6, socket.IPV6_V6ONLY, 0)
        found.bind((address, 0))
        found.listen()
        yield found


class Lookups(unittest.TestCase):
    """Who owns the server of a connection."""

    def check(self, here: socket.socket, owner: Optional[int]) -> None:
        """Checks what each lookup says of the other end."""
        for lookup in LOOKUPS:
            self.assertEqual(owners.server_owner(lookup, here), owner, lookup)

    def test_accepted_or_waiting_at_any_address(self) -> None:
        places = ((LOCAL, socket.AF_INET), ("0.0.0.0", socket.AF_INET), ("::", socket.AF_INET6))
        for address, family in places:
            with self.subTest(address), listening(address, family) as server:
                with socket.create_connection((LOCAL, server.getsockname()[1])) as here:
                    self.check(here, os.geteuid())
                    with server.accept()[0]:
                        self.check(here, os.geteuid())

    def test_a_server_that_is_bound_to_the_loopback_interface(self) -> None:
        with listening() as server:
            server.setsockopt(socket.SOL_SOCKET, socket.SO_BINDTODEVICE, b"lo\0")
            with socket.create_connection(server.getsockname()) as here:
                self.check(here, os.geteuid())

    def test_one_that_has_closed_the_connection(self) -> None:
        with listening() as server:
            with socket.create_connection(server.getsockname()) as here:
                server.accept()[0].close()
                self.check(here, None)
                server.close()
                self.check(here, None)

    def test_one_that_has_reset_it(self) -> None:
        with listening() as server:
            with socket.create_connection(server.getsockname()) as here:
                server.close()
                self.check(here, None)

    @IS_ROOT
    def test_another_user(self) -> None:
        for accepts in (True, False):
            with self.subTest(accepts), Listener(accepts) as server:
                with socket.create_connection((LOCAL, server.port)) as here:
                    self.check(here, NOBODY)

    def test_a_port_that_changes_hands_after_it_has_accepted(self) -> None:
        # The connection waits when it is looked up first; then its server accepts it and leaves the
        # port to a program of this user.
        answers = iter(
            (
                owners.Socket(owners.ESTABLISHED, 0, 0),
                owners.Socket(owners.LISTENS, os.geteuid(), 7),
                owners.Socket(owners.ESTABLISHED, 1_002, 8),
            )
        )
        with listening() as server, socket.create_connection(server.getsockname()) as here:
            self.assertEqual(owners.server_owner(lambda *_: next(answers), here), 1_002)

    def test_one_that_waits_at_no_known_server(self) -> None:
        waiting = owners.Socket(owners.ESTABLISHED, 0, 0)
        with listening() as server, socket.create_connection(server.getsockname()) as here:
            with self.assertRaises(owners.OwnerUnknown):
                owners.server_owner(lambda _, other: other and waiting, here)
            port = server.getsockname()[1]
            with mock.patch.object(
                owners, "find_lookup", lambda: lambda _, other: other and waiting
            ):
                with self.assertRaises(Failure) as caught:
                    Session.attach(port, "ada")
        why = f"cannot tell which user port {port} belongs to ({client.REMEDY})"
        self.assertEqual((str(caught.exception), caught.exception.status), (why, 2))


class Refused(unittest.TestCase):
    """A server of another user gets nothing, neither a line nor a token."""

    @IS_ROOT
    def test_prompt_and_trace(self) -> None:
        for accepts in (True, False):
            for words in (["sh", "--name", "ada"], ["sh"], ["trace"]):
                with self.subTest(words, accepts=accepts), Listener(accepts) as server:
                    told = run(*words, "--port", str(server.port), environment=TOKEN)
                    why = f"rdbg {words[0]}: {FOREIGN.format(server.port, NOBODY)}"
                    self.assertEqual(told, (2, "", why))
                    self.assertEqual(server.received(), b"")

    @IS_ROOT
    def test_anyone_connects(self) -> None:
        for words, said in (
            (["sh", "--name", "ada"], b"# token secret\n# name ada\n"),
            (["trace"], b"\n"),
        ):
            with self.subTest(words), Listener(True) as server:
                port = str(server.port)
                status, _, errors = run(*words, "--port", port, "--anyone", environment=TOKEN)
                self.assertEqual(server.received(), said)
                self.assertIn(f"the server at port {port} has closed the connection", errors)
                self.assertEqual(status, 1)

    @IS_ROOT
    def test_an_editor(self) -> None:
        for accepts in (True, False):
            with Listener(accepts) as server, mock.patch.dict(os.environ, TOKEN):
                with editor() as found:
                    why = self.refused(found, port=server.port, **{"as": "ada"})
                    text = f"port {server.port} belongs to a program of user {NOBODY}"
                    self.assertEqual(why, f'{text} (set "anyone" to true to connect anyway)')
                self.assertEqual(server.received(), b"")
        with Listener(True) as server, mock.patch.dict(os.environ, TOKEN), editor() as found:
            why = self.refused(found, port=server.port, anyone=True, **{"as": "ada"})
            self.assertEqual(server.received(), b"# token secret\n# name ada\n")
            self.assertIn("has closed the connection", why)

    def refused(self, found: Client, **given: Any) -> str:
        """Why `attach` is refused."""
        found.ask("initialize")
        return found.refused("attach", given)

    @IS_ROOT
    def test_root_s_server_is_another_user_s_too(self) -> None:
        with room("--anyone") as here:
            done = run_as_nobody("sh", "--port", str(here.port), "--name", "eve")
            why = f"rdbg sh: {FOREIGN.format(here.port, 0)}"
            self.assertEqual((done.returncode, done.stdout, done.stderr), (2, "", why))
            done = run_as_nobody("sh", "--port", str(here.port), "--name", "eve", "--anyone")
            self.assertEqual((done.returncode, done.stderr), (0, ""))
            self.assertIn("# you are eve, session ", done.stdout)

    def test_the_same_user_connects(self) -> None:
        with room() as here:
            status, output, errors = run("sh", "--port", str(here.port), "--name", "ada")
            self.assertEqual((status, errors), (0, ""))
            self.assertIn("# you are ada", output)

    def test_a_system_that_does_not_tell(self) -> None:
        with room("--anyone") as here:
            words = ("sh", "--port", str(here.port), "--name", "ada")
            status, output, errors = run(*words, head=before(UNTOLD))
            said = f"this system does not tell which user port {here.port} belongs to"
            self.assertEqual(errors, f"rdbg sh: {said}: connecting without checking\n")
            self.assertEqual(status, 0)
            self.assertIn("# you are ada", output)
            self.assertEqual(run(*words, "--anyone", head=before(UNTOLD))[2], "")

    def test_anyone_requires_a_port(self) -> None:
        for word in ("sh", "trace"):
            self.assertEqual(
                run(word, "--anyone"), (2, "", f"rdbg {word}: --anyone requires --port\n")
            )


if __name__ == "__main__":
    unittest.main()
