"""Standard streams that were closed when a tool started."""
import os
import sys
from typing import Tuple

# Of each stream its number, its name, and modes by which the other direction alone is open: reading
# a closed standard input fails, and so does writing to a closed standard output. What is written to
# a closed standard error is dropped.
STREAMS: Tuple[Tuple[int, str, int, str], ...] = (
    (0, "stdin", os.O_WRONLY, "r"),
    (1, "stdout", os.O_RDONLY, "w"),
    (2, "stderr", os.O_WRONLY, "w"),
)


def open_closed() -> None:
    """Opens each closed standard stream, so that no other file takes its number."""
    for number, name, flags, mode in STREAMS:
        try:
            os.fstat(number)
        except OSError:
            made = os.open(os.devnull, flags)
            if made != number:
                os.dup2(made, number)
                os.close(made)
            os.set_inheritable(number, True)
        if getattr(sys, name) is None:
            setattr(sys, name, open(number, mode, encoding="utf-8", closefd=False))
