"""What the scripts of this folder share: the repository's crates, what the machine has free, and
processes that end with who started them."""
import contextlib
import ctypes
import os
import pathlib
import re
import shutil
import signal
import subprocess
import sys

TOP = pathlib.Path(__file__).resolve().parent.parent


def read_crates():
    """The repository's libraries that each crate stands on, itself not counted, lowest first.

    crates.txt names for a crate what its own sources name; what those stand on is added here.
    """
    text = (TOP / "crates.txt").read_text()
    lines = [line.partition("#")[0].strip() for line in text.splitlines()]
    named = {}
    for name, _, words in (line.partition(":") for line in lines if line):
        named[name.split()[0]] = words.split()
    below = {}

    def close(name):
        if name not in below:
            below[name] = set()
            for other in filter(named.__contains__, named[name]):
                below[name] |= {other, *close(other)}
        return below[name]

    closed = {name: close(name) for name in named}
    ordered = sorted(named, key=lambda name: len(closed[name]))
    return {name: [other for other in ordered if other in closed[name]] for name in named}


def processors():
    """How many to use: as many as RT_JOBS says, as for rt ci, or all."""
    return int(os.environ.get("RT_JOBS") or 0) or len(os.sched_getaffinity(0))


def free_memory():
    """In bytes."""
    text = pathlib.Path("/proc/meminfo").read_text()
    return int(re.search(r"MemAvailable:\s+(\d+)", text)[1]) << 10


# The signals that have come while a process was started.
WAITING = []
STARTING = []


def came(number, _frame):
    if STARTING:
        WAITING.append(number)
    else:
        sys.exit(128 + number)


def end_with_parent():
    """Has SIGTERM, SIGHUP and SIGINT end this process by way of what it has to clear up, and
    SIGTERM come where the process that started it ends first, in whichever way."""
    for number in (signal.SIGTERM, signal.SIGHUP, signal.SIGINT):
        signal.signal(number, came)
    parent_dies = 1
    ctypes.CDLL(None).prctl(parent_dies, signal.SIGTERM)


@contextlib.contextmanager
def starting():
    """As long as a process is started, and nobody knows yet that it has to be ended, signals that
    end this one wait."""
    STARTING.append(True)
    try:
        yield
    finally:
        STARTING.pop()
        if WAITING:
            sys.exit(128 + WAITING[0])


@contextlib.contextmanager
def running(words, **how):
    """A process, which is ended where it still runs at the end. Ctrl-C doesn't reach it."""
    process = None
    try:
        with starting():
            process = subprocess.Popen(words, start_new_session=True, **how)
        yield process
    finally:
        if process is not None:
            process.terminate()
            process.wait()


def copy_sources(scratch):
    """Copies what git tracks, and what it would, into a repository of its own."""
    words = ["git", "ls-files", "-co", "--exclude-standard", "-z"]
    listed = subprocess.run(words, cwd=TOP, check=True, capture_output=True).stdout.decode()
    for name in filter(None, listed.split("\0")):
        if (TOP / name).is_file():
            (scratch / name).parent.mkdir(parents=True, exist_ok=True)
            shutil.copy2(TOP / name, scratch / name)
    subprocess.run(["git", "init", "-q"], cwd=scratch, check=True)


def processor_seconds(process):
    """What the process and those below it have used of the processors."""
    below, spent = {}, {}
    for file in pathlib.Path("/proc").glob("[0-9]*/stat"):
        try:
            fields = file.read_text().rpartition(")")[2].split()
        except OSError:
            continue
        own = int(file.parent.name)
        below.setdefault(int(fields[1]), []).append(own)
        # Ticks of the process itself and of those below it that have ended, for the user and the
        # kernel.
        spent[own] = sum(map(int, fields[11:15]))
    around = [process]
    for each in around:
        around += below.get(each, [])
    return sum(spent.get(each, 0) for each in around) / os.sysconf("SC_CLK_TCK")
