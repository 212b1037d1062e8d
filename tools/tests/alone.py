"""A network of its own, in which another user connects to each port that is new, as fast as it can,
while a room of root's opens, is asked lines, and ends. Prints what came of it as JSON.

usage: alone.py FILE PORT LINES COMPANION, or what starts one"""
import ctypes
import fcntl
import json
import os
import signal
import socket
import struct
import subprocess
import sys
import time
from typing import Iterable, List, Set

NEW_NETWORK, GET_FLAGS, SET_FLAGS, UP = 0x40000000, 0x8913, 0x8914, 1
NOBODY = 65534
# (as long as a room may take on a machine that has much to do)
PATIENCE = 600.0
# Prints an empty line where it begins to look. Then it connects to each port of root's that it
# finds, says two lines there, and prints its number.
ATTACKER = """
import contextlib, socket, threading
def come(port):
    with contextlib.suppress(OSError), socket.create_connection(("127.0.0.1", port), 1) as there:
        there.sendall(b"wheel take\\ntick\\n")
        there.settimeout(0.5)
        there.recv(100)
seen = set()
print(flush=True)
while True:
    with open("/proc/net/tcp") as table:
        rows = [row.split() for row in table.readlines()[1:]]
    ports = {int(row[1].split(":")[1], 16) for row in rows if row[3] == "0A" and row[7] == "0"}
    for port in ports - seen:
        print(port, flush=True)
        threading.Thread(target=come, args=(port,), daemon=True).start()
    seen = ports
"""


def enter() -> None:
    """Enters a network of its own, in which there is this machine alone."""
    if ctypes.CDLL(None, use_errno=True).unshare(NEW_NETWORK):
        raise OSError(ctypes.get_errno(), "unshare")
    with socket.socket(socket.AF_INET, socket.SOCK_DGRAM) as any_socket:
        asked = struct.pack("16sH14x", b"lo", 0)
        name, flags = struct.unpack("16sH14x", fcntl.ioctl(any_socket, GET_FLAGS, asked))
        fcntl.ioctl(any_socket, SET_FLAGS, struct.pack("16sH14x", name, flags | UP))


def become() -> None:
    """Becomes nobody."""
    os.setgid(NOBODY)
    os.setuid(NOBODY)


def ask_all(port: int, count: int) -> List[str]:
    """The replies to so many lines, each of which is asked again as long as the history is full."""
    replies: List[str] = []
    end = time.monotonic() + PATIENCE
    with socket.create_connection(("127.0.0.1", port)) as connection:
        lines = connection.makefile("rw", newline="\n")
        while len(replies) < count and time.monotonic() < end:
            print("tick" if len(replies) % 2 == 0 else "back 1", file=lines, flush=True)
            reply = lines.readline()
            while reply.startswith("#"):
                reply = lines.readline()
            if reply == "no HistoryFull\n":
                time.sleep(0.1)
            else:
                replies.append(reply.rstrip("\n"))
    return replies


def up_to(last: str, lines: Iterable[str]) -> Set[str]:
    """The lines up to the first one that says this."""
    found: Set[str] = set()
    for line in lines:
        found.add(line)
        if line == f"{last}\n":
            break
    return found


def main(file: str, port: str, count: str, *companion: str) -> None:
    """Says when the room listened, what it answered, how it ended, and where another came."""
    enter()
    attacker = subprocess.Popen(
        ["/usr/bin/python3", "-I", "-c", ATTACKER],
        preexec_fn=become,
        stdout=subprocess.PIPE,
        text=True,
    )
    assert attacker.stdout is not None
    attacker.stdout.readline()
    words = ["room", file, "--port", port, "--sessions", "8", "--history", "400"]
    room = subprocess.Popen(
        [*companion, *words], stdout=subprocess.PIPE, stderr=subprocess.PIPE, text=True
    )
    assert room.stdout is not None
    replies, found = [], set()  # type: List[str], Set[str]
    try:
        listening = room.stdout.readline()
        if listening:
            replies = ask_all(int(port), int(count))
            found = up_to(port, attacker.stdout)
        room.send_signal(signal.SIGTERM)
        output, errors = room.communicate(timeout=PATIENCE)
    finally:
        room.kill()
        attacker.kill()
        found.update(attacker.stdout)
        attacker.wait()
    print(json.dumps([listening, replies, output, errors, room.returncode, len(found)]))


if __name__ == "__main__":
    main(*sys.argv[1:])
