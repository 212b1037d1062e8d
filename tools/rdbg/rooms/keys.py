"""The standard input of a room: the line `free` gives back the wheel of a member who is away."""
import errno
import os
import signal
import sys
import threading
import time
from typing import Iterator

from rdbg.commands import MOST_BYTES
from rdbg.failure import Failure
from rdbg.rooms.room import Room

from rdbg.wording import counted

FREE = "free"
# Seconds until a terminal that belongs to another program for now is read again.
AGAIN = 1.0
# Seconds between two reads.
BREATH = 0.02


def receive(number: int) -> bytes:
    """Returns the next bytes of standard input; none at its end, or if it cannot be read. A room in
    the background waits until it is in the foreground again."""
    while True:
        try:
            return os.read(number, MOST_BYTES)
        except OSError as error:
            if error.errno != errno.EIO or not os.isatty(number):
                return b""
            time.sleep(AGAIN)


def lines_of(number: int) -> Iterator[str]:
    """Yields the lines of standard input, read slowly, up to its end or a line that is too long."""
    content, tail = b"-", b""
    while content and len(tail) <= MOST_BYTES:
        content = receive(number)
        *whole, tail = (tail + content).split(b"\n")
        if not content:
            whole.append(tail)
        yield from (line.decode("utf-8", "replace").strip() for line in whole)
        time.sleep(BREATH)


def usage(room: Room) -> str:
    """Returns what can be typed."""
    idle = counted(room.idle, "second")
    return f"type `{FREE}` to free the wheel if its holder is away, or idle for {idle}"


def hear(room: Room, number: int) -> None:
    """Executes the lines of standard input. Lines other than `free` get the usage at a terminal,
    and are ignored in a pipe, where they may be meant for another program."""
    for line in lines_of(number):
        is_free = line.lstrip("# ") == FREE
        if is_free or line and os.isatty(number):
            try:
                print(f"# {room.free_wheel() if is_free else usage(room)}", flush=True)
            except (Failure, OSError):
                return  # (the program has ended, or nobody reads the output)


def listen(room: Room) -> None:
    """Starts to read standard input, if there is one. At a terminal, prints the usage."""
    if sys.stdin is None:
        return
    if sys.stdin.isatty() and sys.stdout.isatty():
        print(f"# {usage(room)}", flush=True)
    # (reading a terminal from the background would stop the process)
    signal.signal(signal.SIGTTIN, signal.SIG_IGN)
    words = (room, sys.stdin.fileno())
    threading.Thread(target=hear, args=words, daemon=True).start()
