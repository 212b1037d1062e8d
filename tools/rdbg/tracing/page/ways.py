"""The commands that lead to a place of a run."""
import itertools
import pathlib
import shlex
from typing import Dict, List, Optional, Sequence

from rdbg.files.source import LINES, Source
from rdbg.invocation import command
from rdbg.page.recorder import Recorder
from rdbg.driving.parts import Told


def settled(told: Sequence[Told]) -> List[List[object]]:
    """The lines of a run, each with how many moves are done behind it, and how few at the least
    behind it and all later ones: the moves up to there stay as they are. So a place is reached by
    the lines up to the first of which these are as many, and then `back` by as many as too many
    were made: this line made them, so they have records, whatever was trimmed before."""
    leasts = [*itertools.accumulate((it.place for it in reversed(told)), min)]
    return [[it.text, it.place, least] for it, least in zip(told, reversed(leasts))]


def file_of(source: Optional[Source]) -> str:
    """How the application's file is named: as it was, without a folder where its path is whole."""
    if source is None:
        return ""
    path = pathlib.PurePath(source.path)
    return path.name if path.is_absolute() else source.path


def words_of(source: Optional[Source]) -> List[str]:
    """The words of a command line that name the application, with the consts that were given."""
    if source is None:
        return []
    consts = [f"-D{name}={number}" for name, number in source.given.items()]
    return [shlex.quote(file_of(source)), *consts]


def of_run(
    source: Optional[Source], told: Sequence[Told], moves: Optional[int], base: int
) -> Dict[str, object]:
    """The way to the places of a run; `base` is the first to which `back` leads from its end."""
    name = file_of(source)
    words = words_of(source)
    more = ["--moves", str(moves)] if moves else []
    prompt = " ".join([command(), "sh", *words, *more])
    program = " ".join([command(), "run", *(["--app", *words] if words else []), *more])
    if name.endswith(LINES):
        program = ""  # (which reads JSON alone)
    lines = {"lines": settled(told), "base": base}
    return {"file": name, "prompt": prompt, "program": program, **lines}


def of_port(
    source: Optional[Source], port: int, done: int, recorder: Recorder
) -> Dict[str, object]:
    """The way to the places of the moves at a server, where so many are done: there, and by each
    move from boot where all of them are known."""
    name = file_of(source)
    words = words_of(source)
    prompt = " ".join([command(), "sh", *words])
    server = " ".join([command(), "sh", "--port", str(port), *words])
    is_known = recorder.first == 0 and all(recorder.lines) and source is not None
    told = [Told(line, place) for place, line in enumerate(recorder.lines, 1)] if is_known else []
    way = {"file": name, "prompt": prompt, "lines": settled(told)}
    return {**way, "server": server, "done": done, "known": is_known}
