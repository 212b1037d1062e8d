"""The program of a room in a network of its own: nobody connects to it, and it is as elsewhere."""
import contextlib
import errno
import os
import pathlib
import signal
import socket
import subprocess
import sys
import unittest
from typing import Iterator, List
from unittest import mock

from rdbg.client import LOCAL
from rdbg.failure import Failure
from rdbg.rooms import apart
from rdbg.rooms.host import Hindered, Host
from rdbg.driving.target import Limits
from rdbg.files.source import load
from tests.dap_schema import DEBIAN
from tests.rooms import LOST
from tests.strangers import IS_ROOT, become

PLACE = Host.__module__
NONE_HERE = "this system has no networks for its users"
SOURCE = pathlib.Path(apart.__file__).read_text()


def network(process: "subprocess.Popen[bytes]") -> str:
    """Which network a process has."""
    return os.readlink(f"/proc/{process.pid}/ns/net")


def ports(process: "subprocess.Popen[bytes]") -> List[int]:
    """The ports at which the network of a process has connections, one for each end."""
    rows = pathlib.Path(f"/proc/{process.pid}/net/tcp").read_text().splitlines()[1:]
    return [int(row.split()[1].split(":")[1], 16) for row in rows]


def port_of(host: Host) -> int:
    """At which port a program was to listen."""
    words = host._process.args
    assert isinstance(words, list)
    return int(words[words.index("--port") + 1])


def status(host: Host, name: str) -> str:
    """What the system says of a program."""
    rows = pathlib.Path(f"/proc/{host._process.pid}/status").read_text().splitlines()
    return next(row for row in rows if row.startswith(name))


@contextlib.contextmanager
def started(count: int) -> Iterator[Host]:
    """A program with so many sessions, whose audit is good."""
    host = Host.start(load(LOST), Limits(), count)
    try:
        yield host
    except BaseException:
        host.kill()
        raise
    assert host.close().is_good


@unittest.skipUnless(sys.platform == "linux", "of Linux alone")
class Apart(unittest.TestCase):
    """A program, and where the system has a network for it."""

    def check_apart(self, host: Host) -> None:
        """It has one; so has each that root starts."""
        if network(host._process) == os.readlink("/proc/self/ns/net"):
            self.assertNotEqual(0, os.geteuid())
            self.skipTest(NONE_HERE)

    def test_nobody_else_connects(self) -> None:
        came: List[int] = []
        listens = Host._listens

        def tried(host: Host) -> bool:
            is_there = listens(host)
            with socket.socket() as other:
                came.append(other.connect_ex((LOCAL, port_of(host))))
            return is_there

        with mock.patch.object(Host, "_listens", tried), started(5) as host:
            self.check_apart(host)
            self.assertEqual([111], came)
            # (five ends of its own, and five of the room's; nobody listens any more)
            found = ports(host._process)
            self.assertEqual((10, 5), (len(found), found.count(port_of(host))))

    def test_it_is_as_elsewhere(self) -> None:
        with started(3) as host:
            self.check_apart(host)
            self.assertEqual(["ok wheel"], host.tell_all(2, ["wheel take"]))
            self.assertEqual(["wheel 2", "no Held 2"], host.tell_all(3, ["show wheel", "tick"]))
            folder = pathlib.Path(f"/proc/{host._process.pid}")
            self.assertNotIn(b"apart.py", (folder / "cmdline").read_bytes())
            self.assertEqual(os.devnull, os.readlink(folder / "fd" / "0"))
            with mock.patch.object(apart, "IS_TRIED", False), started(3) as other:
                for name in ("SigIgn", "SigBlk", "Uid"):
                    self.assertEqual(status(other, name), status(host, name))

    def test_one_that_does_not_answer(self) -> None:
        listens = Host._listens

        def stopped(host: Host) -> bool:
            self.check_apart(host)
            is_there = listens(host)
            host._process.send_signal(signal.SIGSTOP)
            return is_there

        with mock.patch.object(Host, "_listens", stopped), mock.patch(f"{PLACE}.PATIENCE", 0.2):
            with self.assertRaisesRegex(
                Hindered, "^a new rdbg did not answer: the server at port "
            ):
                Host.start(load(LOST), Limits(), 3, 0.0)

    def test_where_descriptors_are_short(self) -> None:
        short = OSError(errno.EMFILE, os.strerror(errno.EMFILE))
        for what in ("socket.socketpair", "tempfile.TemporaryFile"):
            with self.subTest(what), mock.patch(f"{PLACE}.{what}", side_effect=short):
                with self.assertRaisesRegex(Failure, "^cannot start .*: Too many open files$"):
                    Host.start(load(LOST), Limits(), 3)

    def test_without_a_program(self) -> None:
        for is_tried in (True, False):
            with self.subTest(is_tried), mock.patch.object(apart, "IS_TRIED", is_tried):
                with mock.patch.dict(os.environ, {"RDBG_PROGRAM": "/nowhere/rdbg"}):
                    with self.assertRaises(Failure) as raised:
                        Host.start(load(LOST), Limits(), 3)
            said = "cannot start /nowhere/rdbg: No such file or directory"
            self.assertEqual((said, 2), (str(raised.exception), raised.exception.status))

    def test_where_there_is_none_it_is_started_without(self) -> None:
        nothing = [sys.executable, "-c", "pass"]
        with mock.patch.object(apart, "words", lambda count, program: nothing):
            with started(3) as host:
                self.assertEqual(os.readlink("/proc/self/ns/net"), network(host._process))
                self.assertEqual(["ok at 1"], host.tell_all(1, ["tick"]))

    @IS_ROOT
    def test_who_is_not_root_has_one_too(self) -> None:
        here, there = socket.socketpair()
        with here:
            words = [DEBIAN, "-I", "-S", "-c", SOURCE, "2", "/bin/sleep", "60"]
            with there:
                process = subprocess.Popen(words, stdin=there.fileno(), preexec_fn=become)
            with process:
                found = apart.received(here, 2)
                process.kill()
        if not found:
            self.skipTest(NONE_HERE)
        self.assertEqual([False, False], [it.get_inheritable() for it in found])
        with found[0] as one, found[1] as other, socket.socket() as another:
            one.bind((LOCAL, 0))
            one.listen()
            with self.assertRaises(ConnectionRefusedError):
                another.connect(one.getsockname())
            other.connect(one.getsockname())


if __name__ == "__main__":
    unittest.main()
