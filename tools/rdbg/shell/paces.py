"""Commands for paced runs, which bound the moves between two ticks: `pace`, `go`, `interrupts`."""
from typing import List, Optional, Sequence

from rdbg import commands
from rdbg.application import NO_INTERRUPT, Interrupt
from rdbg.driving.interrupt import Interrupted
from rdbg.driving.pacing import IS, NONE, TickPace, pace
from rdbg.driving.target import Unable
from rdbg.goals.paced import PacedWalk
from rdbg.shell.shell import Shell
from rdbg.wording import nearest

TICKS = ("tick", "ticks")


def put(shell: Shell, words: Sequence[str]) -> None:
    """Executes `pace M..N` and `pace none`; without words it shows the pace."""
    if len(words) > 1:
        raise Unable(f"the form is `pace 5..20` or `pace none`; {IS}")
    if words:
        found = pace(words[0])
        if found is None and words[0] != NONE:
            raise Unable(f"'{words[0]}' is not a pace; {IS}")
        take(shell, found, shell.coming if found or not shell.coming else None)
    shell.say(describe(shell))


def describe(shell: Shell) -> str:
    """Says what the pace is, and which interrupts occur by themselves."""
    if shell.pace is None:
        return "no pace: a run makes one instruction of each busy core per tick"
    most = "" if shell.pace.most is None else f", at most {shell.pace.most}"
    text = f"pace {shell.pace.text}: each busy core makes at least {max(1, shell.pace.least)}"
    coming = "".join(f"; {it.name} may occur" for it in shell.coming or ())
    return f"{text}{most} between two ticks, in go, until! and continue{coming}"


def take(shell: Shell, found: Optional[TickPace], coming: Optional[Sequence[Interrupt]]) -> None:
    """Sets the pace, if any, and the interrupts that may occur, if they were chosen."""
    if isinstance(shell.walk, PacedWalk):
        shell.walk.end()
    shell.pace, shell.coming = found, None if coming is None else tuple(coming)
    shell.walk = shell.walking(shell.target)


def interrupts(shell: Shell, words: Sequence[str]) -> None:
    """Executes `interrupts NAME ..` and `interrupts none`."""
    if words:
        let_come(shell, shell.pace, chosen(shell, words))
    shell.say(describe(shell))


def let_come(shell: Shell, found: Optional[TickPace], coming: Sequence[Interrupt]) -> None:
    """Sets the interrupts that occur by themselves; with any of them there must be a pace."""
    take(shell, found or (TickPace(1) if coming else None), coming)


def chosen(shell: Shell, words: Sequence[str]) -> List[Interrupt]:
    """The interrupts of these names; `none` is none. Raises `Unable` if one is not possible."""
    if [*words] == [NO_INTERRUPT]:
        return []
    application = shell.target.application
    there = {it.name: it for it in application.interrupts} if application else {}
    for name in words:
        if name not in there:
            near = nearest(name, there)
            known = f"; there is {', '.join(there)}" if there else "; the model has no interrupts"
            hint = f" (did you mean '{near}'?)" if near else known
            raise Unable(f"interrupt '{name}' is not defined{hint}")
        after = there[name].after
        if after is not None and after not in words:
            raise Unable(f"{name} occurs only after {after}; use `interrupts {after} {name}`")
    return [it for it in there.values() if it.name in words]


def go(shell: Shell, words: Sequence[str]) -> None:
    """Executes `go COUNT` and `go COUNT ticks`: makes moves at the pace."""
    is_ticks = len(words) == 2 and words[1] in TICKS
    if not words or not commands.is_count(words[0]) or len(words) > 1 + is_ticks:
        wrong = commands.out_of_range(words)
        forms = "`go 10` makes ten moves at the pace, `go 10 ticks` lets ten ticks pass"
        raise Unable(f"{wrong}{forms}")
    count, walk = int(words[0]), shell.walk
    if not isinstance(walk, PacedWalk):
        if is_ticks:
            raise Unable("`go COUNT ticks` needs a pace; set one with `pace 5..20`")
        shell.command(f"forward {count}")
        return
    with shell.wheel():
        start = shell.target.places().done
        before = shell.look() if shell.shows_moves else None
        walk.wall = ""
        try:
            walk.ticks(count) if is_ticks else walk.forward(count)
        except Interrupted:
            shell.stopped(f"at {shell.target.place}")
        if walk.wall:
            shell.answer(f"no {walk.wall}")
        shell.answer(f"ok at {shell.target.place}")
        if shell.target.place != start:
            shell.after(start, before)
