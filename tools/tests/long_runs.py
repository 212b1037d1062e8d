"""Long runs, whose pages are made on two processors: how long that takes, and then in a browser."""
import json
import os
import pathlib
import resource
import subprocess
import sys
import time
from typing import Callable, Dict, List, NamedTuple, Sequence

from tests.chromium import Browser
from tests.paths import COMPANION

PROCESSORS = 2
Values = Dict[str, object]


def queue(name: str) -> Values:
    """A queue with room for two."""
    return {"name": name, "length": 2, "item": 1}


def task(name: str, priority: int, code: Sequence[str]) -> Values:
    """A task."""
    return {"name": name, "priority": priority, "code": code}


def of_many() -> Values:
    """32 tasks on 16 cores, at eight queues."""

    def code(number: int) -> List[str]:
        return [f"send q{number % 8} 2", "add r1 1", f"recv q{number % 7} 3", "jump 0"]

    tasks = [task(f"t{it}", it % 4, code(it)) for it in range(32)]
    return {
        "profile": 2,
        "cores": 16,
        "queues": [queue(f"q{it}") for it in range(8)],
        "tasks": tasks,
    }


def of_two() -> Values:
    """A task that sends, and one that receives."""
    codes = {"sender": "send q 2", "receiver": "recv q 3"}
    tasks = [task(name, 1, [call, "add r1 1", "jump 0"]) for name, call in codes.items()]
    return {"profile": 1, "cores": 2, "queues": [queue("q")], "tasks": tasks}


class Long(NamedTuple):
    """A long run: of what, how many moves it has, and within how many seconds its page is made."""

    name: str
    application: Callable[[], Values]
    moves: int
    seconds: float


RUNS = (Long("32 tasks", of_many, 20_000, 30), Long("two tasks", of_two, 100_000, 60))


class Took(NamedTuple):
    """Seconds by the clock, and those that processors have worked."""

    clock: float
    work: float


class Written(NamedTuple):
    """A page that was made, and what that took."""

    page: pathlib.Path
    took: Took


def use_two() -> None:
    """Has this process, and those that it starts, use two processors."""
    os.sched_setaffinity(0, sorted(os.sched_getaffinity(0))[:PROCESSORS])


def worked() -> float:
    """How many seconds processors have worked for processes that have ended."""
    used = resource.getrusage(resource.RUSAGE_CHILDREN)
    return used.ru_utime + used.ru_stime


def written(folder: pathlib.Path, run: Long) -> Written:
    """The page of a run, made on two processors."""
    app, commands, page = (folder / name for name in ("app.json", "run.commands", "page.html"))
    app.write_text(json.dumps(run.application()))
    commands.write_text(f"forward {run.moves}\n")
    words = ["trace", str(app), str(commands), "--moves", str(run.moves), "--page", str(page)]
    began, before = time.monotonic(), worked()
    subprocess.run(
        [sys.executable, "-B", str(COMPANION), *words],
        preexec_fn=use_two,
        stderr=subprocess.DEVNULL,
        check=True,
    )
    return Written(page, Took(time.monotonic() - began, worked() - before))


def opened(browser: Browser, page: pathlib.Path) -> Took:
    """What it takes until a page is there in a browser: by the clock, from where the browser begins
    to fetch it to where it has been drawn, and of work."""
    before = browser.busy()
    browser.open(page)
    clock: float = browser.value("performance.now()") / 1_000
    return Took(clock, browser.busy() - before)
