"""The address of a room's page: what the room prints of it, and that it lets nobody in who finds it
where it was opened."""
import contextlib
import errno
import functools
import http.server
import os
import pathlib
import signal
import stat
import subprocess
import sys
import tempfile
import threading
import unittest
from typing import BinaryIO, Iterator, List
from unittest import mock

from rdbg.client import LOCAL
from rdbg.failure import Failure
from rdbg.rooms.web_guard import Denied, Key, said
from tests.chromium import Browser
from tests.paths import COMPANION
from tests.rooms import LOST, free_port
from tests.web_rooms import (
    COMING,
    IS_HERE,
    OnPage,
    come_in,
    in_process,
    session,
    traded,
    web_room,
)

ADDRESS = r"http://127\.0\.0\.1:\d+/#[\w-]{32}"
NOBODY = (
    "This address does not let you into the room: each address works only once."
    " Open the address that the room printed last, on its terminal or in its file."
)


@contextlib.contextmanager
def at_a_terminal() -> Iterator[BinaryIO]:
    """What a room with a page prints where standard output is a terminal."""
    ours, theirs = os.openpty()
    words = [sys.executable, "-B", str(COMPANION), "room", LOST, "--port", str(free_port())]
    process = subprocess.Popen(
        [*words, "--sessions", "2", "--web", "0"], stdin=subprocess.DEVNULL, stdout=theirs
    )
    os.close(theirs)
    with os.fdopen(ours, "rb") as lines:
        try:
            yield lines
        finally:
            process.terminate()
            process.wait()


@contextlib.contextmanager
def foreign_page(port: int) -> Iterator[None]:
    """An empty page at a port that a room had before."""
    handler = http.server.SimpleHTTPRequestHandler
    with tempfile.TemporaryDirectory() as folder:
        (pathlib.Path(folder) / "index.html").write_text("<!DOCTYPE html><title>other</title>")
        quiet = type("Quiet", (handler,), {"log_message": lambda *_: None})
        serves = functools.partial(quiet, directory=folder)
        server = http.server.ThreadingHTTPServer((LOCAL, port), serves)
        thread = threading.Thread(target=server.serve_forever, daemon=True)
        thread.start()
        try:
            yield
        finally:
            server.shutdown()
            server.server_close()
            thread.join()


def next_address(lines: BinaryIO) -> str:
    """The next address that is printed."""
    while True:
        word, _, rest = lines.readline().decode().strip().partition(" ")
        if word == "web":
            return rest


def words_of(browser: Browser) -> List[str]:
    """The words with which the processes of a browser run, as `ps` tells them to everybody."""
    found = []
    for file in pathlib.Path("/proc").glob("[0-9]*/cmdline"):
        with contextlib.suppress(OSError):
            words = file.read_bytes().decode("utf-8", "replace").split("\0")
            if any(browser.folder.name in it for it in words):
                found += words
    return found


class Printed(unittest.TestCase):
    """What the room prints."""

    def test_a_file_of_the_user_alone_where_it_is_no_terminal(self) -> None:
        before = os.umask(0)
        self.addCleanup(os.umask, before)
        for number in (signal.SIGTERM, signal.SIGINT, signal.SIGHUP):
            with self.subTest(number), web_room() as room:
                self.assertEqual(f"http://{LOCAL}:{room.web}/", room.said)
                file, addresses, tokens = pathlib.Path(room.file), [], []
                for _ in range(3):
                    self.assertRegex(file.read_text(), rf"^{ADDRESS}\n$")
                    self.assertEqual(0o600, stat.S_IMODE(file.stat().st_mode))
                    addresses.append(room.address)
                    tokens.append(traded(room.address))
                self.assertEqual(0o700, stat.S_IMODE(file.parent.stat().st_mode))
                self.assertEqual((3, 1), (len(set(addresses)), len(set(tokens))))
                self.assertEqual([None] * 3, [traded(it) for it in addresses])
                room.end(number)
                self.assertFalse(file.parent.exists())
                keys = [it.split("#")[1] for it in addresses]
                for secret in (*keys, str(tokens[0])):
                    self.assertNotIn(secret, f"{room.said}{room.output}{room.errors}")

    def test_the_address_at_a_terminal(self) -> None:
        with at_a_terminal() as lines:
            first = next_address(lines)
            self.assertRegex(first, rf"^{ADDRESS}$")
            token = traded(first)
            second = next_address(lines)
            self.assertRegex(second, rf"^{ADDRESS}$")
            self.assertEqual(first.split("#")[0], second.split("#")[0])
            self.assertEqual((None, token), (traded(first), traded(second)))

    def test_without_a_number_it_takes_a_free_port(self) -> None:
        for words in (["--web", LOST], [LOST, "--web"], ["--web", "--sessions", "2", LOST]):
            at = ["--port", str(free_port())]
            process = subprocess.Popen(
                [sys.executable, "-B", str(COMPANION), "room", *at, *words],
                stdin=subprocess.DEVNULL,
                stdout=subprocess.PIPE,
                text=True,
            )
            with process:
                assert process.stdout is not None
                self.assertEqual(f"listening {at[1]}\n", process.stdout.readline())
                self.assertRegex(process.stdout.readline(), rf"^web http://{LOCAL}:\d+/ /\S+\n$")
                process.terminate()

    def test_a_file_that_cannot_be_written(self) -> None:
        full = OSError(errno.ENOSPC, os.strerror(errno.ENOSPC))
        with mock.patch("tempfile.mkdtemp", side_effect=full):
            with self.assertRaises(Failure) as caught, said("http://127.0.0.1:7001/#x", False):
                pass
        why = "cannot write the page's address: No space left on device"
        self.assertEqual((why, 2), (str(caught.exception), caught.exception.status))


class Once(OnPage):
    """An address in the browser is good once."""

    def check_refused(self, browser: Browser, *addresses: str) -> None:
        """None of the addresses lets a browser in, and each says so."""
        for address in addresses:
            browser.visit(address)
            browser.until(f"document.body.innerText.includes({NOBODY[:30]!r})")
            self.assertEqual(NOBODY, browser.text("body"))

    def test_what_is_seen_where_it_was_opened_lets_nobody_in(self) -> None:
        with web_room() as room, Browser() as fresh:
            address = room.address
            with Browser(address=address) as browser:
                browser.until(f"document.querySelector({COMING!r}) !== null")
                seen = [it for it in words_of(browser) if it.startswith("http:")]
                self.assertIn(address, seen)
                history = browser.call("Page.getNavigationHistory")["entries"]
                seen += [it[name] for it in history for name in ("url", "userTypedURL")]
                seen += [browser.value("location.href"), browser.value("document.referrer")]
                ours = sorted({it for it in seen if it.startswith(room.said)})
                self.assertEqual(sorted([address, room.said]), ours)
                self.check_refused(fresh, *ours)
                self.assertEqual([None] * len(ours), [traded(it) for it in ours])
                text = browser.value("document.documentElement.outerHTML")
                for secret in (browser.value("sessionStorage.getItem('way')"), address[-32:]):
                    self.assertNotIn(secret.strip("/"), text)
            self.assertTrue(come_in(fresh, room.address, "ada"))

    def test_a_second_browser_comes_by_the_next_address(self) -> None:
        with web_room() as room, Browser() as other, session(room, "left") as left:
            first = room.address
            self.visit_address(first, "ada")
            self.check_refused(other, first)
            self.assertTrue(come_in(other, room.address, "bo"))
            other.click(*other.middle("#tick"))
            self.at(1)
            self.assertEqual("moves 1 undone 0 kept 1", left.tell("show moves"))

    def test_it_comes_back_once_it_is_loaded_anew(self) -> None:
        with web_room() as room:
            self.visit(room, "ada")
            for count in (1, 2):
                self.value("window.isOld = true")
                self.browser.call("Page.reload")
                self.browser.until(f"window.isOld === undefined && {IS_HERE}")
                self.assertEqual(room.said, self.value("location.href"))
                self.assertEqual(["ada (session 1), you"], self.browser.texts("#people li"))
                self.click("#tick")
                self.at(count)

    def test_a_second_page_in_the_same_browser(self) -> None:
        self.spares_errors = True  # (the browser tells that the used address is refused)
        with web_room() as room:
            used = room.address
            self.visit_address(used, "ada")
            # (the token is the first page's alone)
            with self.browser.another_page():
                self.check_refused(self.browser, room.said, used)
            address = room.address
            with self.browser.another_page():
                # (by a name of its own, since the first page has its name)
                self.assertTrue(come_in(self.browser, address, "joe"))
                self.assertEqual(room.said, self.value("location.href"))
                self.click("#tick")
            self.said("joe: tick -> ok at 1")
            self.assertIsNone(traded(address))

    def test_an_earlier_page_of_the_same_port_does_not_find_the_token(self) -> None:
        self.spares_errors = True
        port = free_port()
        with foreign_page(port):
            self.browser.visit(f"http://{LOCAL}:{port}/")
            self.browser.until("document.title === 'other'")
        with web_room(LOST, "--web", str(port)) as room:
            with self.browser.another_page():
                self.visit(room, "ada")
                token = self.value("sessionStorage.getItem('way')").strip("/")
            stores = "[{...localStorage}, {...sessionStorage}, document.cookie]"
            self.assertEqual("other", self.value("document.title"))
            found = self.value(f"JSON.stringify({stores})")
            self.assertEqual('[{"name":"ada"},{},""]', found)
            self.assertNotIn(token, found)

    def test_an_address_that_is_typed_where_the_page_is(self) -> None:
        with web_room() as room:
            self.visit(room, "ada")
            address = room.address
            self.value("window.isOld = true")
            self.value(f"location.href = {address!r}")
            self.browser.until(f"window.isOld === undefined && {IS_HERE}")
            self.assertEqual(room.said, self.value("location.href"))
            self.assertIsNone(traded(address))

    def test_a_browser_that_stores_nothing(self) -> None:
        throws = "{get: () => { throw Error('none'); }}"
        none = "".join(
            f"Object.defineProperty(window, '{it}', {throws});"
            for it in ("localStorage", "sessionStorage")
        )
        method = "ScriptToEvaluateOnNewDocument"
        kept = self.browser.call(f"Page.add{method}", source=none)
        self.addCleanup(self.browser.call, f"Page.remove{method}", **kept)
        with web_room() as room:
            self.assertTrue(come_in(self.browser, room.address, "ada"))
            self.click("#tick")
            self.at(1)
            self.check_refused(self.browser, room.said)
            self.visit(room, "ada")
            self.at(1)

    def test_who_has_not_been_there_is_not_let_in(self) -> None:
        self.spares_errors = True
        with web_room() as room, web_room() as another, Browser() as fresh:
            key = room.address.split("#")[1]
            self.check_refused(fresh, room.said, f"{room.said}#{key[:-1]}", f"{another.said}#{key}")
            self.assertEqual(room.address, f"{room.said}#{key}")

    def test_a_room_that_cannot_say_its_next_address(self) -> None:
        self.spares_errors = True
        why = "the room cannot print its next address: No space left on device"
        with in_process(LOST) as (_, address):
            with mock.patch.object(Key, "use", side_effect=Denied(503, why)):
                self.browser.visit(address)
                self.browser.until("document.body.innerText.startsWith('rdbg')")
                self.assertEqual(f"rdbg: {why}: reload this page", self.browser.text("body"))
            self.browser.call("Page.reload")
            self.browser.until(f"document.querySelector({COMING!r}) !== null")


if __name__ == "__main__":
    unittest.main()
