"""Requests for threads, frames, variables, sources and expressions, and those that set variables
and breakpoints."""
import functools
from typing import Dict, Optional

from rdbg.adapter import names
from rdbg.adapter.breakpoints import DATA, FAILURES, NAME
from rdbg.adapter.debugger import Debugger, Request
from rdbg.adapter.messages import Arguments, Values, Wrong, event
from rdbg.adapter.sources import REFERENCE
from rdbg.adapter.threads import TIME, frame
from rdbg.adapter.variables import Shown, Variable, named, within

# Why a task has failed, in the words of docs/FORMATS.md.
PLACE = "the task had to wait as the reader or writer of a buffer that already has another one"
CAUSES: Dict[str, str] = {
    "SetFull": "an item was sent to a member of a set that has no space for its handle",
    "TwoReaders": PLACE,
    "TwoWriters": PLACE,
    "EmptyData": "the task wrote empty data to a buffer",
    "BadBits": "a call on an event group had bits above 16,777,215, or no bits to wait for",
}


def threads(it: Debugger, given: Arguments) -> Optional[Values]:
    """`threads`: the time, and the tasks."""
    look = it.look() if it.has_shell and not it.is_running else None
    return {"threads": it.threads.values(look, it.text)}


def stack(it: Debugger, given: Arguments) -> Optional[Values]:
    """`stackTrace`: the instruction of a task."""
    number = given.number("threadId")
    name = it.threads.task(number)
    look = it.look()
    if name is not None and name not in look.tasks:
        raise Wrong(f"task {name} no longer exists")
    frames = [frame(number, look.tasks[name] if name else None, look, it.text)]
    first = given.number("startFrame", 0)
    levels = given.number("levels", 0) or len(frames)
    return {"stackFrames": frames[max(first, 0) :][: max(levels, 0)], "totalFrames": len(frames)}


def scopes(it: Debugger, given: Arguments) -> Optional[Values]:
    """`scopes` of a frame, whose number is that of its thread."""
    return {"scopes": it.references.scopes(it.threads.task(given.number("frameId")), it.look())}


def is_hex(given: Arguments) -> bool:
    """Whether the request asks for hexadecimal numbers."""
    return given.part("format").flag("hex")


def variables(it: Debugger, given: Arguments) -> Optional[Values]:
    """`variables`: the children of a variable, or some of them."""
    shown = it.shown(is_hex(given))
    found = within(shown, it.references.path(given.number("variablesReference")))
    only = given.text("filter", "")
    if only in ("indexed", "named"):
        found = [each for each in found if each.is_indexed == (only == "indexed")]
    first, count = given.number("start", 0), given.number("count", 0)
    part = found[max(first, 0) :][: count if count > 0 else None]
    return {"variables": [it.references.value(each, shown) for each in part]}


def put(it: Debugger, variable: Variable, value: str) -> None:
    """Sets a variable by an edit. Raises `Wrong` if it is read-only."""
    if variable.put is None:
        raise Wrong(f"{variable.name} is read-only")
    it.edit(variable.put(value))
    if it.shows_invalidated:
        it.later.append(lambda: it.send(event("invalidated", {"areas": ["variables"]})))


def set_variable(it: Debugger, given: Arguments) -> Optional[Values]:
    """`setVariable`."""
    path = it.references.path(given.number("variablesReference"))
    name, value = given.text("name"), given.text("value")
    put(it, named(it.shown(), path, name), value)
    shown = it.shown(is_hex(given))
    found = it.references.value(named(shown, path, name), shown)
    return {key: found[key] for key in ("value", "variablesReference")}


def set_expression(it: Debugger, given: Arguments) -> Optional[Values]:
    """`setExpression`."""
    text, task = given.text("expression"), it.threads.task(given.number("frameId", it.focus))
    put(it, expressed(it.shown(), task, text), given.text("value"))
    return {"value": expressed(it.shown(is_hex(given)), task, text).value}


def expressed(shown: Shown, task: Optional[str], text: str) -> Variable:
    """Returns the variable that an expression names. Raises `Wrong` if there is none."""
    found = names.found(shown, task, text.strip())
    if found is None:
        raise Wrong(f"'{text[:100]}' is not a register, a part of a task, an object or a condition")
    return found


def value_of(it: Debugger, given: Arguments) -> Values:
    """Evaluates an expression that changes nothing."""
    text = given.text("expression").strip()
    said = names.view(it.shell, text)
    if said is not None:
        return {"result": said, "variablesReference": 0}
    shown = it.shown(is_hex(given))
    task = it.threads.task(given.number("frameId", it.focus))
    found = names.value(it.shell, lambda: shown, task, text)
    value = it.references.value(found, shown)
    return {"result": found.value, "variablesReference": value["variablesReference"]}


def source(it: Debugger, given: Arguments) -> Optional[Values]:
    """`source`: the text of the built-in model, which is not in a file."""
    asked = given.part("source")
    number = asked.number("sourceReference", 0) or given.number("sourceReference", 0)
    text = it.text.source
    if number != REFERENCE or text is None or not it.text.is_generated:
        raise Wrong(f"there is no source {number}")
    return {"content": text.text, "mimeType": "text/plain"}


def sources(it: Debugger, given: Arguments) -> Optional[Values]:
    """`loadedSources`."""
    return {"sources": [value for value in [it.text.value()] if value]}


def exception(it: Debugger, given: Arguments) -> Optional[Values]:
    """`exceptionInfo`: why a task has failed, or why nothing can continue."""
    name = it.threads.task(given.number("threadId", TIME))
    task = it.look().tasks.get(name) if name else None
    if task and task.phase.word == "failed":
        cause = task.phase.cause or "failed"
        text = f"{task.name} failed: {cause}: {CAUSES.get(cause, 'a call failed')}"
        return {"exceptionId": cause, "description": text, "breakMode": "always"}
    if not it.failure:
        raise Wrong("nothing has failed here")
    return {"exceptionId": it.failure, "description": it.why(it.failure), "breakMode": "always"}


def completions(it: Debugger, given: Arguments) -> Optional[Values]:
    """`completions` of a line in the console."""
    lines = given.text("text").split("\n")
    at = given.number("line", it.text.first_line) - it.text.first_line
    text = lines[at] if 0 <= at < len(lines) else lines[-1]
    column = given.number("column") - it.text.first_column
    found = names.completions(it.shell, text, min(max(column, 0), len(text)))
    for each in found:
        each["start"] += it.text.first_column
    return {"targets": found}


# Requests that need a stopped target.
LOOKING: Dict[str, Request] = {
    "stackTrace": stack,
    "scopes": scopes,
    "variables": variables,
    "setVariable": set_variable,
    "setExpression": set_expression,
    "exceptionInfo": exception,
    "completions": completions,
}


def all_of(kind: str, it: Debugger, given: Arguments) -> Optional[Values]:
    """`setFunctionBreakpoints` and `setDataBreakpoints`."""
    return {"breakpoints": it.breakpoints.put(kind, it.shell, it.text, given.parts("breakpoints"))}


def on_failures(it: Debugger, given: Arguments) -> Optional[Values]:
    """`setExceptionBreakpoints`."""
    filters = given.texts("filters")
    filters += [option.text("filterId") for option in given.parts("filterOptions")]
    unknown = [name for name in filters if name not in FAILURES]
    if unknown:
        raise Wrong(f"unknown filter '{unknown[0]}': expected {' or '.join(FAILURES)}")
    it.breakpoints.failures = list(dict.fromkeys(filters))
    return {"breakpoints": [{"verified": True} for _ in filters]}


def locations(it: Debugger, given: Arguments) -> Optional[Values]:
    """`breakpointLocations`: the instructions at some lines."""
    if not it.text.is_named(given.part("source")):
        return {"breakpoints": []}
    first = it.text.line_in(given)
    last = it.text.line_in(given, "endLine", first)
    return {"breakpoints": [it.text.place(spot) for spot in it.text.between(first, last)]}


def data_info(it: Debugger, given: Arguments) -> Optional[Values]:
    """`dataBreakpointInfo`: whether a variable can be watched."""
    name, number = given.text("name"), given.number("variablesReference", 0)
    variable = (
        named(it.shown(), it.references.path(number), name)
        if number
        else names.found(it.shown(), it.threads.task(it.focus), name)
    )
    watched = variable.watched if variable else ""
    if variable and variable.within and variable.within[0] == "object":
        watched = f"changes {' '.join(variable.within[1:])}"
    if not watched:
        return {"dataId": None, "description": f"{name} cannot be watched"}
    return {
        "dataId": watched,
        "description": watched if watched.startswith("changes") else f"{watched} changes",
        "accessTypes": ["write"],
        "canPersist": True,
    }


# Requests that are possible at any time.
SETTING: Dict[str, Request] = {
    "threads": threads,
    "source": source,
    "loadedSources": sources,
    "setBreakpoints": lambda it, given: {
        "breakpoints": it.breakpoints.put_lines(it.shell, it.text, given)
    },
    "setFunctionBreakpoints": functools.partial(all_of, NAME),
    "setDataBreakpoints": functools.partial(all_of, DATA),
    "setExceptionBreakpoints": on_failures,
    "breakpointLocations": locations,
    "dataBreakpointInfo": data_info,
}
