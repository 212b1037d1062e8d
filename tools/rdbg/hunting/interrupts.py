"""Interrupts that may come in a hunt: those that a user names.

A handler is its calls, one behind the other with nothing between them. It may come once at any
place; who names it twice has it come up to twice."""
from typing import List, Sequence, Tuple

from rdbg import commands, kinds
from rdbg.application import NO_INTERRUPT, Application
from rdbg.failure import Failure
from rdbg.operands import Scope
from rdbg.reaching.handlers import BETWEEN, OPTION, WORD, Handler, handlers as by_name

SIGN = BETWEEN.strip()
# The profile from which on there are interrupts.
PROFILE = 2
FORMS = "use send Q HEX or notify K I N ACTION, with ; between the calls of one handler"


def handlers(texts: Sequence[str], application: Application) -> Tuple[Handler, ...]:
    """The handlers that are named, or all, with how often each may come. Raises `Failure`."""
    profile = application.profile
    if texts and [*texts] != [NO_INTERRUPT] and profile < PROFILE:
        raise Failure(
            f"NoIsr: {OPTION} needs profile {PROFILE}, but the model has profile {profile}", 2
        )
    found: List[Handler] = []
    # (those that the text names stand first: `after` has their numbers, and others may be joined)
    in_order = sorted(texts, key=lambda it: application.interrupt(it.strip()) is None)
    for it in by_name(in_order, application):
        calls = (call_of(part, it.calls, application) for part in it.calls.split(SIGN))
        handler = Handler(BETWEEN.join(calls), it.when)
        same = [at for at, other in enumerate(found) if other == handler.so_often(other.times)]
        if same and not it.when:
            found[same[0]] = handler.so_often(found[same[0]].times + 1)
        else:
            found.append(handler if it.when else handler.so_often(1))
    return tuple(found)


def call_of(part: str, text: str, application: Application) -> str:
    """A call as it is typed. Raises `Failure` where it is none, or names what isn't there."""
    words = part.split()
    call = " ".join(words[1:] if words[:1] == [WORD] else words)
    command = commands.read(f"{WORD} {call}")
    if command is None:
        raise Failure(f"{OPTION} '{text}': '{part.strip()}' is not a handler call ({FORMS})", 2)
    names = {kind.symbol: [it.name for it in application.of(kind)] for kind in kinds.ALL}
    scope = Scope(names, application.notes)
    for missing in filter(None, map(scope.missing, command.symbols, command.words)):
        raise Failure(f"{OPTION} '{text}': {missing}", 2)
    return call
