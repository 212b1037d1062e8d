"""What the sessions of a room need from the system, and which limit says that it cannot be had."""
import contextlib
import os
import resource

from rdbg.failure import Failure
from rdbg.wording import counted

# How many descriptors a room needs besides those of its sessions, at least: for starting a program,
# and for a first connection.
SPARE_DESCRIPTORS = 8
# Taken where the system does not tell how many descriptors are open.
USUALLY_OPEN = 16


def open_descriptors() -> int:
    """Returns how many descriptors this process has open."""
    for folder in ("/proc/self/fd", "/dev/fd"):
        with contextlib.suppress(OSError):
            return len(os.listdir(folder)) - 1  # (one of them lists the folder)
    return USUALLY_OPEN


def remedy(sessions: int) -> str:
    """Says what the user can do: raise a limit, or have fewer sessions, if any are possible."""
    return f"raise it, or use --sessions {sessions}" if sessions > 0 else "raise it"


def check_descriptors(sessions: int) -> None:
    """Raises `Failure` if this process cannot have a descriptor for each session. Its program, which
    has the same limit, needs as many."""
    limit, _ = resource.getrlimit(resource.RLIMIT_NOFILE)
    possible = limit - open_descriptors() - SPARE_DESCRIPTORS
    if limit != resource.RLIM_INFINITY and possible < sessions:
        what = f"too few file descriptors for {counted(sessions, 'session')}"
        raise Failure(f"{what}: `ulimit -n` is {limit} ({remedy(possible)})", 2)


def no_memory(sessions: int, admitted: int) -> Failure:
    """Returns the failure of a program that has no memory for the threads of its sessions, and has
    admitted only so many. It suggests fewer, so that memory is left for the history."""
    address_space, _ = resource.getrlimit(resource.RLIMIT_AS)
    threads, _ = resource.getrlimit(resource.RLIMIT_NPROC)
    fewer = remedy(admitted * 3 // 4)
    if address_space != resource.RLIM_INFINITY:
        why = f"`ulimit -v` is {address_space // 1_024} ({fewer})"
    elif threads != resource.RLIM_INFINITY:
        why = f"the system has none left, or `ulimit -u`, which is {threads}, is reached ({fewer})"
    else:
        why = f"the system has none left (use --sessions {max(1, admitted * 3 // 4)})"
    return Failure(f"too little memory for {counted(sessions, 'session')}: {why}", 2)
