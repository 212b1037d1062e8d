"""Decides which requests a room's page port answers: small ones that come from the page itself, with
the token. A browser gets the token for the key in the page's address, which works once."""
import contextlib
import hmac
import io
import json
import os
import secrets
import socket
import sys
import threading
import urllib.parse
from email.message import Message
from typing import BinaryIO, Callable, Dict, Iterator, List, Optional, Tuple

from rdbg.client import LOCAL
from rdbg.digits import is_digits
from rdbg.temporary import temporary_file

# The most bytes of a request's head and of its body, and how many seconds both may take.
MOST_HEAD, MOST_BODY, SECONDS = 16_384, 4_096, 10.0
# How many connections may be open without a request: if there are more, the oldest is dropped.
MOST_UNREAD = 32
# The headers of each answer: it is not stored, its type is not guessed, links from it do not name it,
# and a page of another origin can neither embed nor read it.
HEADERS = (
    ("Cache-Control", "no-store"),
    ("X-Content-Type-Options", "nosniff"),
    ("Referrer-Policy", "no-referrer"),
    ("X-Frame-Options", "DENY"),
    ("Cross-Origin-Opener-Policy", "same-origin"),
    ("Cross-Origin-Resource-Policy", "same-origin"),
    ("Connection", "close"),
)
JSON = "application/json"
# How many random bytes a key and a token have.
BYTES = 24
USED = "this key is not the one of the address that the room printed last"
# What is printed at the start, and what announces another address in its place.
Said = Tuple[str, Callable[[str], object]]


class Denied(Exception):
    """A request that is refused, with the status and the reason."""

    def __init__(self, status: int, text: str) -> None:
        super().__init__(text)
        self.status, self.text = status, text


class Bounded(io.RawIOBase):
    """The bytes that a connection sends, up to a limit."""

    def __init__(self, connection: socket.socket, most: int) -> None:
        self._connection, self._left = connection, most
        self.is_over = False

    def readable(self) -> bool:
        return True

    def readinto(self, buffer: "memoryview") -> int:  # type: ignore[override]
        if not self._left:
            self.is_over = True
            return 0
        count = self._connection.recv_into(buffer[: self._left])
        self._left -= count
        return count


def refusal(why: str) -> bytes:
    """What a connection is answered of which nothing is read."""
    heads = ["HTTP/1.0 403 Forbidden", "Content-Type: text/plain; charset=utf-8"]
    heads += [f"{name}: {value}" for name, value in HEADERS]
    return "\r\n".join([*heads, "", f"rdbg: {why}\n"]).encode()


def one(headers: Message, name: str) -> Optional[str]:
    """Returns the value of a header, or `None`. Raises `Denied` if there are two."""
    found: List[str] = headers.get_all(name, [])
    if len(found) > 1:
        raise Denied(400, f"there is more than one header {name}")
    return found[0] if found else None


def check_origin(headers: Message, port: int, method: str) -> None:
    """Raises `Denied` for a request from a page of another origin, and for one by another name than
    the address at which the room listens. `localhost` may lead to another user's program, which
    listens at the same port of ::1. A browser sends the origin with each line."""
    host = one(headers, "Host")
    if host != f"{LOCAL}:{port}":
        raise Denied(403, f"this page is only served as http://{LOCAL}:{port}/")
    origin = one(headers, "Origin")
    if origin != f"http://{host}" and (origin is not None or method != "GET"):
        raise Denied(403, "the request comes from another origin")
    site = one(headers, "Sec-Fetch-Site")
    if site not in (None, "same-origin") and not (site == "none" and method == "GET"):
        raise Denied(403, "the request comes from another site")


def check_token(path: str, token: str) -> Tuple[str, str]:
    """What a path names behind the token, and what it asks. Raises `Denied` for another token, of
    which it takes as long to tell whichever it is."""
    given, slash, rest = path[1:].partition("/")
    is_same = hmac.compare_digest(given.encode("utf-8", "replace"), token.encode())
    if not is_same or not slash:
        raise Denied(403, "this token is not valid here")
    name, _, query = rest.partition("?")
    return name, query


def name_in(query: str) -> Optional[str]:
    """Returns the name in a query, or `None`. Raises `Denied` for a query of more."""
    try:
        names = urllib.parse.parse_qs(query, keep_blank_values=True, max_num_fields=1)
    except ValueError:
        raise Denied(400, "the query has too many parameters") from None
    return names["name"][0] if "name" in names else None


def body_of(headers: Message, stream: BinaryIO) -> Dict[str, str]:
    """Returns the texts in a request's body. Raises `Denied` if it is something else."""
    if (one(headers, "Content-Type") or "").split(";")[0].strip() != JSON:
        raise Denied(415, "the body is not JSON")
    length = one(headers, "Content-Length") or ""
    if one(headers, "Transfer-Encoding") is not None or not is_digits(length):
        raise Denied(411, "there is no valid Content-Length")
    if len(length) > 8 or int(length) > MOST_BODY:
        raise Denied(413, f"the body has more than {MOST_BODY} bytes")
    content = stream.read(int(length))
    if len(content) != int(length):
        raise Denied(400, "the body is shorter than Content-Length says")
    try:
        found = json.loads(content)
    except (ValueError, RecursionError):
        raise Denied(400, "the body is not JSON") from None
    if not isinstance(found, dict) or not all(isinstance(it, str) for it in found.values()):
        raise Denied(400, "the body must be an object whose values are strings")
    return found


def new() -> str:
    """Returns a text that nobody can guess."""
    return secrets.token_urlsafe(BYTES)


class Key:
    """The key in the address of a room's page. After its use, `say` announces the next one."""

    def __init__(self) -> None:
        self.text = new()
        self.say: Callable[[], object] = lambda: None
        self._guard = threading.Lock()

    def use(self, given: str) -> None:
        """Uses the key up. Raises `Denied` if `given` is another one, or if the next address cannot
        be announced; the key remains valid then."""
        self._check(given)  # (a wrong key does not wait for the lock)
        with self._guard:
            self._check(given)
            self.text = new()
            try:
                self.say()
            except OSError as error:
                self.text = given
                why = f"the room cannot print its next address: {error.strerror}"
                raise Denied(503, why) from None

    def _check(self, given: str) -> None:
        """Raises `Denied` for another one, of which it takes as long to tell whichever it is."""
        if not hmac.compare_digest(given.encode("utf-8", "replace"), self.text.encode()):
            raise Denied(403, USED)


@contextlib.contextmanager
def said(address: str, is_terminal: bool) -> Iterator[Said]:
    """All of it is said at a terminal; else where the page is and the path of a file that has the
    address, for its user alone, as long as the block goes on. Raises `Failure` where that can't be
    written; what says another one, `OSError`."""
    if is_terminal:
        # (in one piece, whatever else is printed meanwhile)
        yield address, lambda it: os.write(sys.stdout.fileno(), f"web {it}\n".encode())
        return
    with temporary_file("address", f"{address}\n", "the page's address") as path:

        def write(text: str) -> None:
            # (all addresses are as long)
            with open(path, "r+") as file:
                file.write(f"{text}\n")

        yield f"{urllib.parse.urldefrag(address).url} {path}", write
