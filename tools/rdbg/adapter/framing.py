"""Frames of the protocol: a header with a length, then as many bytes of JSON."""
import json
import re
import threading
from typing import IO, Any, Dict, Optional

from rdbg.adapter.messages import Unreadable
from rdbg.door import is_of_a_browser

# The most bytes of a header line, and of a message.
MOST_LINE, MOST_BODY = 4_096, 1 << 20
LENGTH = re.compile(rb"Content-Length:[ \t]*([0-9]{1,18})[ \t]*$", re.IGNORECASE)
# The bytes that are kept of the end of a longer line.
MOST_END = 64
# Header fields of a browser, whose requests are never answered.
OF_A_BROWSER = re.compile(rb"(Host|Origin|Referer|Cookie):", re.IGNORECASE)


class Frames:
    """Reads the frames of a stream."""

    def __init__(self, stream: IO[bytes]) -> None:
        self._stream = stream
        # The length of a frame whose header was read after a malformed one.
        self._length: Optional[int] = None

    def read(self) -> Optional[bytes]:
        """Returns the next message, or `None` at the end. Raises `Unreadable` for bytes that are
        not a frame; the next call continues after them."""
        try:
            length, self._length = self._length, None
            length = self._header() if length is None else length
            body = b"" if length is None else self._stream.read(length)
        except (OSError, ValueError):
            return None
        return body if len(body) == length else None

    def _header(self) -> Optional[int]:
        """Reads a header, and returns its length."""
        length: Optional[int] = None
        wrong = ""
        while True:
            line = self._line()
            if not line or is_of_a_browser(line) or OF_A_BROWSER.match(line):
                return None
            text = line.rstrip(b"\r\n")
            found = LENGTH.search(text)
            if found:
                length = int(found[1])
                wrong = wrong or ("" if found.start() == 0 else of_line(text))
            elif text:
                wrong = wrong or of_line(text)
            elif length is not None:
                break
            elif wrong:
                raise Unreadable(wrong)
        if length > MOST_BODY:
            raise Unreadable(f"a message of {length} bytes is too long: the limit is {MOST_BODY}")
        if wrong:
            self._length = length
            raise Unreadable(wrong)
        return length

    def _line(self) -> bytes:
        """Reads a line, and returns it; of a long one, only its beginning and end."""
        line = piece = self._stream.readline(MOST_LINE)
        end = b""
        while piece and not piece.endswith(b"\n"):
            piece = self._stream.readline(MOST_LINE)
            end = (end + piece)[-MOST_END:]
        return line + end


def of_line(text: bytes) -> str:
    """Returns what is wrong with a header line, or an empty text."""
    if text[:15].lower() == b"content-length:":
        return "Content-Length is not a number of bytes"
    if re.match(rb"[A-Za-z-]{1,64}:", text):
        return ""
    return "not a header line: expected Content-Length: N, and an empty line at the end"


class Sender:
    """Sends messages with sequence numbers, from any thread."""

    def __init__(self, stream: IO[bytes]) -> None:
        self._stream, self._lock, self._sent = stream, threading.Lock(), 0
        # Whether the editor has closed the connection.
        self.is_closed = False

    def send(self, message: Dict[str, Any]) -> None:
        """Sends a message. Does nothing if the connection is closed."""
        with self._lock:
            self._sent += 1
            body = json.dumps({"seq": self._sent, **message}).encode("ascii")
            try:
                self._stream.write(b"Content-Length: %d\r\n\r\n%s" % (len(body), body))
                self._stream.flush()
            except (OSError, ValueError):
                self.is_closed = True
