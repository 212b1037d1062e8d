"""Requests that begin and end a session, from `initialize` to `disconnect`."""
from typing import Dict, Optional

from rdbg.adapter import opening
from rdbg.adapter.breakpoints import FAILURES
from rdbg.adapter.debugger import LIMIT, Debugger, Request
from rdbg.adapter.messages import Arguments, Values, Wrong, event
from rdbg.adapter.moving import begin_run
from rdbg.adapter.threads import TIME
from rdbg.shell.shell import Shell

START = "at 0: the start"
# Why a target at a port is neither restarted nor ended.
AT_A_PORT = (
    "cannot restart a target at a port, because others share it: Reverse goes back to its start; to"
    " change the file, start the server again"
)
NO_END = "cannot end a target at a port, because others share it: Disconnect ends your session"
# What is supported, as the protocol has it behind that word.
CAN = (
    "ConfigurationDoneRequest FunctionBreakpoints ConditionalBreakpoints HitConditionalBreakpoints"
    " EvaluateForHovers StepBack SetVariable SetExpression GotoTargetsRequest CompletionsRequest"
    " RestartRequest ValueFormattingOptions ExceptionInfoRequest LoadedSourcesRequest"
    " DataBreakpoints BreakpointLocationsRequest LogPoints TerminateRequest CancelRequest"
).split()


def initialize(it: Debugger, given: Arguments) -> Optional[Values]:
    """`initialize`: what rdbg can do for an editor."""
    if given.text("pathFormat", "path") != "path":
        raise Wrong("pathFormat must be 'path'; URIs are not supported")
    firsts = [int(given.flag(f"{each}StartAt1", True)) for each in ("lines", "columns")]
    it.text.first_line, it.text.first_column = firsts
    it.shows_invalidated = given.flag("supportsInvalidatedEvent")
    it.progress.is_asked_for = given.flag("supportsProgressReporting")
    body: Values = {f"supports{name}": True for name in CAN}
    body["completionTriggerCharacters"] = [" "]
    body["exceptionBreakpointFilters"] = [
        {"filter": name, "label": label, "default": is_on}
        for name, (label, is_on) in FAILURES.items()
    ]
    return body


def started(it: Debugger, given: Arguments, shell: Shell) -> None:
    """Goes on with a target, once the request was answered."""
    it.given = given
    it.limit = opening.count(given, "limit", LIMIT)
    it.take(shell)
    it.later.append(lambda: it.send(event("initialized", {})))


def check_start(it: Debugger, given: Arguments) -> None:
    """Raises `Wrong` where nothing can begin."""
    if it.has_shell:
        raise Wrong("a debug session is already running")
    opening.count(given, "limit", LIMIT)


def launch(it: Debugger, given: Arguments) -> None:
    """`launch`: a program of its own."""
    check_start(it, given)
    started(it, given, opening.launch(given, it.pause, it.say))


def attach(it: Debugger, given: Arguments) -> None:
    """`attach`: one more session at a port."""
    check_start(it, given)
    shell = opening.attach(given, it.pause, it.hear)
    it.is_attached = True
    off = {f"supports{name}Request": False for name in ("Restart", "Terminate")}
    it.later.append(lambda: it.send(event("capabilities", {"capabilities": off})))
    started(it, given, shell)
    it.listen()


def configured(it: Debugger, given: Arguments) -> None:
    """`configurationDone`: the target stands at the start, or runs."""
    place = it.shell.target.places().done
    it.is_configured = True
    first = next((name for name in it.look().cores.running if name), None)
    it.focus = it.threads.number(first) if first else TIME
    if it.is_attached:
        it.later.append(lambda: it.stopped("entry", f"attached at {place}", it.focus))
    elif it.given.flag("stopOnEntry", True):
        it.later.append(lambda: it.stopped("entry", START, it.focus))
    else:
        begin_run(it, lambda runner: runner.begin(it.limit), it.stops)


def restart(it: Debugger, given: Arguments) -> None:
    """`restart`: a new program on the file as it is. A target of others isn't moved."""
    if it.is_attached:
        raise Wrong(AT_A_PORT)
    arguments = given.part("arguments")
    arguments.not_null("program", str)
    chosen = arguments if arguments.has("program") else it.given
    watches = sorted(it.shell.target.watches.items())
    shell = opening.launch(chosen, it.pause, it.say)
    it.failure = ""
    it.close()
    it.take(shell)
    it.given = chosen
    it.shell.target.tell_all([f"watch {text}" for _, text in watches])
    it.later.append(lambda: it.restarted(START))


def terminate(it: Debugger, given: Arguments) -> None:
    """`terminate`: the end of the program; a target of others goes on."""
    if it.is_attached:
        raise Wrong(NO_END)
    it.later.append(it.end)


def disconnect(it: Debugger, given: Arguments) -> None:
    """`disconnect`: the end of the session, and of a program of its own."""
    status = it.close()
    if status:
        it.say(f"rdbg has ended, with status {status}", category="stderr")
    it.is_done = True


SETUP: Dict[str, Request] = {
    "initialize": initialize,
    "launch": launch,
    "attach": attach,
    "configurationDone": configured,
    "restart": restart,
    "terminate": terminate,
    "disconnect": disconnect,
}
