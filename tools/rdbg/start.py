"""The beginning and the end of a companion: before its modules are there, and where they end."""
import contextlib
import os
import re
import signal
import sys
from typing import Iterator, List, Sequence

from rdbg import caches
from rdbg.ending import ENDING, Terminated, name_output_errors

HERE = os.path.dirname(os.path.abspath(__file__))
# Where these are missing it does without.
NOT_NEEDED = ("readline",)
IMPORT = re.compile(r"\s*(?:import (\S+)\s*$|from (\S+) import )")


def used() -> Iterator[str]:
    """The modules that are imported, a line each."""
    for folder, _, files in os.walk(HERE):
        for file in files:
            if file.endswith(".py"):
                with open(os.path.join(folder, file), encoding="utf-8") as lines:
                    yield from (it[1] or it[2] for it in map(IMPORT.match, lines) if it)


def lacking() -> List[str]:
    """The modules that are missing, by name."""
    found: List[str] = []
    for name in sorted({*used()} - {*NOT_NEEDED}):
        if name.partition(".")[0] != "rdbg":
            try:
                __import__(name)
            except ImportError as error:
                found.append((error.name or name).partition(".")[0])
    return sorted({*found})


def start(words: Sequence[str]) -> int:
    """Runs a companion as a process of its own, and answers its status."""
    ENDING.install(" ".join(["rdbg", *words[:1]]))
    name_output_errors()
    caches.keep()
    try:
        from rdbg.main import main

        ENDING.is_running = True
        status = main(words)
        ENDING.check()
        return status
    except KeyboardInterrupt:
        ENDING.is_running = False
        with contextlib.suppress(OSError):
            sys.stdout.flush()
        ENDING.leave(signal.SIGINT)
    except Terminated:
        ENDING.leave(signal.SIGTERM)
    except ImportError as error:
        missing = lacking()
        lacks = f"this Python lacks {', '.join(missing)}: install python3"
        print(f"rdbg: {lacks if missing else error}", file=sys.stderr)
        return 2
    finally:
        ENDING.is_running = False
