"""A program in a network of its own, where nobody connects but by sockets that were made there.

Started as a process, this makes such a network and the sockets, hands them to the room that has
started it, and becomes the program. Any user may have it on Linux, unless that was forbidden.
"""
import array
import contextlib
import ctypes
import fcntl
import os
import signal
import socket
import struct
import sys
from typing import List, Sequence

# Whether it is tried to be had.
IS_TRIED = sys.platform == "linux" and bool(sys.executable)
# What the system is asked for: a network, which is root's to make, but in a space of users of one's
# own; that this process ends with its parent, which may have been forgotten with the user.
NEW_NETWORK, NEW_USERS, PR_SET_PDEATHSIG = 0x40000000, 0x10000000, 1
# The one interface of a network is down at first.
GET_FLAGS, SET_FLAGS, IS_UP = 0x8913, 0x8914, 1
FLAGS = struct.Struct("16sH14x")
LOOPBACK = b"lo"
# Python ignores these, and a program shouldn't.
IGNORED = (signal.SIGPIPE, signal.SIGXFSZ)
# The room is told by this that the sockets are there; behind it stands only why nothing was
# started.
MADE = b"+"
MOST_TEXT = 1_000


def words(count: int, program: Sequence[str]) -> List[str]:
    """What starts a program so, with so many sockets, which are handed over at standard input."""
    here = os.path.abspath(__file__)
    return [sys.executable, "-I", "-S", "-B", here, str(count), *program]


def received(told: socket.socket, count: int) -> List[socket.socket]:
    """The sockets in the new network; none where there is none. Raises `OSError` for no program."""
    numbers = array.array("i")
    room = socket.CMSG_SPACE(count * numbers.itemsize)
    content, found, _, _ = told.recvmsg(len(MADE), room, socket.MSG_CMSG_CLOEXEC)
    for level, kind, data in found:
        if (level, kind) == (socket.SOL_SOCKET, socket.SCM_RIGHTS):
            numbers.frombytes(data[: len(data) - len(data) % numbers.itemsize])
    sockets = [socket.socket(fileno=number) for number in numbers]
    why = told.recv(MOST_TEXT) if content == MADE else b""
    if why or len(sockets) < count:
        for it in sockets:
            it.close()
        if why:
            raise OSError(0, why.decode("utf-8", "replace"))
        return []
    return sockets


def enter() -> None:
    """Enters a network of its own. Raises `OSError` where there is none to be had."""
    system = ctypes.CDLL(None, use_errno=True)
    if system.unshare(NEW_NETWORK) and system.unshare(NEW_NETWORK | NEW_USERS):
        raise OSError(ctypes.get_errno(), "unshare")
    system.prctl(PR_SET_PDEATHSIG, int(signal.SIGKILL), 0, 0, 0)
    with socket.socket(socket.AF_INET, socket.SOCK_DGRAM) as asked:
        row = fcntl.ioctl(asked, GET_FLAGS, FLAGS.pack(LOOPBACK, 0))
        fcntl.ioctl(asked, SET_FLAGS, FLAGS.pack(LOOPBACK, FLAGS.unpack(row)[1] | IS_UP))


def hand_over(told: socket.socket, count: int) -> None:
    """Makes so many sockets, and hands them to who is told."""
    with contextlib.ExitStack() as ends:
        made = [ends.enter_context(socket.socket()) for _ in range(count)]
        numbers = array.array("i", [it.fileno() for it in made])
        told.sendmsg([MADE], [(socket.SOL_SOCKET, socket.SCM_RIGHTS, numbers)])


def main(count: str, *program: str) -> None:
    """Becomes a program in a network of its own, or ends without a word."""
    # (a copy that is closed where this becomes the program)
    with socket.socket(fileno=os.dup(sys.stdin.fileno())) as told:
        with open(os.devnull, "rb") as nothing:
            os.dup2(nothing.fileno(), sys.stdin.fileno())
        try:
            enter()
            hand_over(told, int(count))
        except (OSError, AttributeError):
            return
        for number in IGNORED:
            signal.signal(number, signal.SIG_DFL)
        try:
            os.execvp(program[0], program)
        except OSError as error:
            told.sendall(str(error.strerror).encode())


if __name__ == "__main__":
    main(*sys.argv[1:])
