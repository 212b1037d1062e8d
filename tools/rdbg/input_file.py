"""Reads files that users name: never more than a limit, and never waiting for ever at a pipe."""
import os
import select
import stat
import sys
import time
from typing import List

from rdbg import links
from rdbg.failure import Failure
from rdbg.links import RefusedFile

MEBIBYTE = 1 << 20
# The most that is read of applications, their sources and lists of cases. rdbg accepts 1 MiB.
LARGEST_SOURCE = 16 * MEBIBYTE
# The most that is read of command lines and answers. The search accepts 16 MiB.
LARGEST_COMMANDS = 64 * MEBIBYTE
CHUNK_BYTES = 1 << 20
# How long a program may take to open a named pipe for writing, and how often that is looked for.
PIPE_PATIENCE_SECONDS, PIPE_POLL_MILLISECONDS = 10.0, 50
# Files in this folder are open already, such as the pipe of `<(command)` in a shell.
OPEN_ALREADY = "/proc/"


def too_large(limit: int) -> RefusedFile:
    """Returns the error for a file of more bytes than are read."""
    return RefusedFile(f"larger than {limit // MEBIBYTE} MiB")


def read_bounded(path: str, limit: int = LARGEST_SOURCE) -> bytes:
    """Returns the contents of a file of at most `limit` bytes.

    A named pipe must be the user's own, and a program must open it for writing in time.

    Raises `OSError` if the file cannot be read, and `RefusedFile`, which is one, if it is not."""
    number = os.open(path, os.O_RDONLY | os.O_NONBLOCK | os.O_CLOEXEC)
    try:
        status = os.fstat(number)
        if not stat.S_ISFIFO(status.st_mode):
            return read_open(number, limit)
        is_named = not os.path.realpath(path).startswith(OPEN_ALREADY)
        if is_named and status.st_uid != os.geteuid():
            raise RefusedFile(f"it is a pipe of another user (uid {status.st_uid})")
        return read_pipe(number, limit, is_named)
    finally:
        os.close(number)


def read_open(number: int, limit: int) -> bytes:
    """Returns what an open file contains, if that is at most `limit` bytes."""
    status = os.fstat(number)
    if stat.S_ISREG(status.st_mode) and status.st_size > limit:
        raise too_large(limit)
    os.set_blocking(number, True)
    chunks: List[bytes] = []
    size = 0
    while size <= limit:
        chunk = os.read(number, min(CHUNK_BYTES, limit + 1 - size))
        if not chunk:
            return b"".join(chunks)
        chunks.append(chunk)
        size += len(chunk)
    raise too_large(limit)


def read_pipe(number: int, limit: int, is_named: bool) -> bytes:
    """Returns what comes from a pipe that was opened without waiting, until all its writers have
    closed it. If it is a named one, waits first until a program has opened it for writing."""
    chunks: List[bytes] = []
    size, has_writer = 0, not is_named
    end = time.monotonic() + PIPE_PATIENCE_SECONDS
    poll = select.poll()
    poll.register(number, select.POLLIN)
    while size <= limit:
        try:
            chunk = os.read(number, min(CHUNK_BYTES, limit + 1 - size))
        except BlockingIOError:
            has_writer = True
            poll.poll()
            continue
        if chunk:
            chunks.append(chunk)
            size += len(chunk)
            has_writer = True
        elif has_writer:
            return b"".join(chunks)
        elif time.monotonic() > end:
            raise RefusedFile("no program writes to this pipe")
        else:
            has_writer = bool(poll.poll(PIPE_POLL_MILLISECONDS))
    raise too_large(limit)


def read_own(path: str, limit: int = LARGEST_SOURCE) -> bytes:
    """Returns the contents of a regular file that the current user owns and that not everybody may
    write, reached through no link of another user.

    Raises `RefusedFile` for any other file, and `OSError` if it cannot be read."""
    number = links.open_checked(links.resolve(path), os.O_RDONLY | os.O_NONBLOCK, 0, check_own)
    try:
        return read_open(number, limit)
    finally:
        os.close(number)


def check_own(status: os.stat_result) -> None:
    """Raises `RefusedFile` if a file is not one that only the user can have written."""
    is_own = status.st_uid == os.geteuid() and not status.st_mode & stat.S_IWOTH
    if not is_own or not stat.S_ISREG(status.st_mode):
        raise RefusedFile("it must be a regular file that you own and that not everybody can write")


def read_standard_input(limit: int = LARGEST_COMMANDS) -> bytes:
    """Returns all that comes by standard input. Raises `Failure` if that cannot be read."""
    try:
        content = sys.stdin.buffer.read(limit + 1)
    except (AttributeError, OSError):
        raise Failure("cannot read standard input", 2) from None
    if len(content) > limit:
        raise Failure(f"cannot read standard input: {too_large(limit).strerror}", 2)
    return content
