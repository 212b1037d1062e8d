"""Why `rdbg serve` cannot listen at its port: the program's own line only says that it cannot."""
import socket
from typing import Optional, Sequence

from rdbg import command_line
from rdbg.client import LOCAL


def cause(port: int) -> Optional[str]:
    """Returns why nothing can listen at `port` of this machine, or `None` if something could."""
    with socket.socket() as probe:
        # As the program does: connections that have ended do not keep a port.
        probe.setsockopt(socket.SOL_SOCKET, socket.SO_REUSEADDR, 1)
        try:
            probe.bind((LOCAL, port))
        except OSError as error:
            return error.strerror
    return None


def port_of(words: Sequence[str]) -> Optional[int]:
    """Returns the port in the words `serve ..`, or `None` if the program refuses the words."""
    if command_line.why(words) is not None:
        return None
    for word, following in zip(words, [*words[1:], ""]):
        option, has_value, value = word.partition("=")
        if option == "--port":
            return int(value if has_value else following)
    return None


def warning(words: Sequence[str]) -> Optional[str]:
    """Returns a line about the port in the words `serve ..`, or `None` if it is available."""
    port = port_of(words)
    found = None if port is None else cause(port)
    return None if found is None else f"port {port}: {found}"


def explained(line: str, port: int) -> str:
    """Returns the program's line that it cannot listen, with the port and, if known, the cause."""
    found = cause(port)
    return f"{line} (port {port})" if found is None else f"{line} (port {port}: {found})"
