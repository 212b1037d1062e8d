"""Installs Debian packages that a check needs."""
import os
import subprocess
import sys
import time

# How long to wait for another process that installs something.
LOCK_SECONDS = 600
LOCKED = "Could not get lock"


def apt_get(*words):
    """Runs apt-get once no other process holds its lock, and passes on its errors."""
    end = time.monotonic() + LOCK_SECONDS
    while True:
        asked = ["apt-get", "-q", "-q", *words]
        out = {"stdout": subprocess.DEVNULL, "stderr": subprocess.PIPE, "text": True}
        ran = subprocess.run(asked, check=False, env={**os.environ, "LC_ALL": "C"}, **out)
        if ran.returncode == 0 or LOCKED not in ran.stderr or time.monotonic() > end:
            print(ran.stderr, end="", file=sys.stderr, flush=True)
            return
        time.sleep(2)


def install(packages):
    """Installs packages. If that fails, apt-get says why, and the check that needs them fails."""
    apt_get("update")
    apt_get("install", "-y", "--no-install-recommends", *packages)
