"""A debugger for editors: the Debug Adapter Protocol over standard input, or at a port."""
import os
import sys
from typing import Optional, Sequence

from rdbg.adapter.listening import listen
from rdbg.adapter.server import Server
from rdbg.options import Parser, port
from rdbg.door import Door

SUMMARY = "Serve an editor over the Debug Adapter Protocol"
EPILOG = (
    "An editor starts this command and talks to it over standard input and output, or, with --port,"
    " over a connection to 127.0.0.1. The editor's `launch` request names the model; `attach` names"
    " the port of a running `rdbg serve` or `rdbg room`. docs/guides/editors.md shows the setup for"
    " each editor."
)


def parser() -> Parser:
    """The parser of the command line."""
    made = Parser("rdbg dap", description=SUMMARY, epilog=EPILOG)
    made.word("--port", "P", "listen on port P of 127.0.0.1 instead of standard input", type=port)
    anyone = "accept connections of every user of this machine [default: only yours]"
    made.flag("--anyone", anyone)
    return made


def main(words: Sequence[str]) -> int:
    """Serves an editor, or several at a port."""
    made = parser()
    given = made.parse_args(words)
    number: Optional[int] = given.port
    if number is not None:
        listen(number, Door(given.anyone))
        return 0
    if given.anyone:
        made.error("--anyone needs --port")
    if sys.stdin.isatty():
        print(
            "rdbg dap: waiting for an editor (see docs/guides/editors.md); press Ctrl-D to end",
            file=sys.stderr,
        )
    # (streams of their own: no print comes between, and none is waited for at the end)
    lines = os.fdopen(os.dup(sys.stdin.fileno()), "rb")
    answers = os.fdopen(os.dup(sys.stdout.fileno()), "wb")
    Server(lines, answers).serve()
    return 0
