"""Processes that do jobs side by side, of which the answers are taken in the order of the jobs.

Each has its share of the jobs from its beginning on, and a pipe of its own, which takes one answer
more once the one before is read. They share no lock, so that each can be ended whatever it is at.
"""
import contextlib
import multiprocessing
import multiprocessing.connection
import multiprocessing.process
import signal
from typing import Callable, ContextManager, Iterator, List, Sequence, TypeVar

from rdbg import children
from rdbg.failure import Failure

Job = TypeVar("Job")
Answer = TypeVar("Answer")
Pipe = multiprocessing.connection.Connection


# What does jobs as long as a block goes on.
Begin = Callable[[], ContextManager[Callable[[Job], Answer]]]


def serve(
    begin: Begin[Job, Answer], jobs: Sequence[Job], answers: Pipe, others: Sequence[Pipe]
) -> None:
    """Does jobs until all are done, or nobody takes the answers any more. Ctrl-C is left to the
    process that started this one, and so are the pipes of the others, which it has too."""
    children.end_with_parent()
    signal.signal(signal.SIGINT, signal.SIG_IGN)
    for pipe in others:
        pipe.close()
    with contextlib.suppress(OSError):
        try:
            with begin() as work:
                for job in jobs:
                    answers.send((work(job), None))
        except Exception as error:
            answers.send((None, error))


def side_by_side(begin: Begin[Job, Answer], jobs: Sequence[Job], count: int) -> Iterator[Answer]:
    """The answers to jobs, by so many processes. What one of them raises is raised here."""
    context = multiprocessing.get_context("fork")
    processes: List[multiprocessing.process.BaseProcess] = []
    pipes: List[Pipe] = []
    try:
        for first in range(min(count, len(jobs))):
            here, there = context.Pipe(duplex=False)
            pipes.append(here)
            share = (begin, jobs[first::count], there, list(pipes))
            processes.append(context.Process(target=serve, args=share, daemon=True))
            processes[-1].start()
            there.close()
        for at in range(len(jobs)):
            try:
                answer, error = pipes[at % count].recv()
            except (EOFError, OSError):
                raise Failure("a process beside this one has ended") from None
            if error is not None:
                raise error
            yield answer
    finally:
        for pipe in pipes:
            pipe.close()
        for process in processes:
            process.terminate()
            process.join()
