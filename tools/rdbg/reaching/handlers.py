"""Interrupts as the search takes them: those of a text by name, others by their calls."""
from collections import Counter
from typing import Container, Dict, Iterator, List, NamedTuple, Optional, Sequence, Tuple

from rdbg.application import ANY, MOST_TIMES, NO_INTERRUPT, Application, Interrupt
from rdbg.failure import Failure
from rdbg.wording import did_you_mean, nearest

OPTION, WORD, BETWEEN = "--isr", "isr", "; "
TIMES, EVER, AFTER = "times", "any", "after"


class Handler(NamedTuple):
    """An interrupt that may come: its calls, as they are typed, and when it comes, by the names
    that the program's options have, of one that is given by name."""

    calls: str
    when: Tuple[Tuple[str, str], ...] = ()

    @property
    def lines(self) -> Tuple[str, ...]:
        """The lines that make it."""
        return tuple(f"{WORD} {it}" for it in self.calls.split(BETWEEN))

    @property
    def is_endless(self) -> bool:
        """Whether it comes any number of times."""
        return dict(self.when).get(TIMES) == EVER

    @property
    def times(self) -> int:
        """How often it comes at the most, as far as that is counted."""
        return MOST_TIMES if self.is_endless else int(dict(self.when).get(TIMES, 1))

    def so_often(self, times: int) -> "Handler":
        """It, which comes so often at the most."""
        return Handler(self.calls, tuple({**dict(self.when), TIMES: str(times)}.items()))

    def options(self, said: Container[str] = ()) -> List[str]:
        """The words of a command line, on which these options of it stand already."""
        when = [(f"--{key}", it) for key, it in self.when if f"--{key}" not in said]
        return [OPTION, self.calls, *(word for pair in when for word in pair)]

    def line(self) -> str:
        """The line to the program where it answers lines."""
        return " ".join([WORD, self.calls, *(f"{key} {it}" for key, it in self.when)])


def handlers(texts: Sequence[str], application: Optional[Application]) -> List[Handler]:
    """Those that are named, or given by their calls, in their order; all that a text declares where
    nothing is named; and then those that end waits. One that comes after another stands behind
    that. Raises `Failure` where it doesn't."""
    found: List[Handler] = []
    numbers: Dict[str, int] = {}
    interrupts = application.interrupts if application else ()
    others = {other.name: other for other in interrupts}
    given = [] if [*texts] == [NO_INTERRUPT] else [*texts]
    for text in given or (application.declared() if application and not texts else ()):
        it = others.get(text.strip())
        if it is None:
            check_name(text, [*others])
            found.append(Handler(text))
            continue
        if it.after is not None and it.after not in numbers:
            why = f"this interrupt comes after {it.after} (put {OPTION} {it.after} before it)"
            raise Failure(f"{OPTION} {it.name}: {why}", 2)
        if it.name in numbers:
            raise Failure(
                f"duplicate {OPTION} {it.name} (its line in the model sets how often it may occur)",
                2,
            )
        numbers[it.name] = len(found)
        found.append(named(it, numbers, others))
    ends = [it for it in interrupts if it.is_of_wait and it.name not in numbers]
    return found + [named(it, numbers, {}) for it in ends]


def told(texts: Sequence[str], application: Optional[Application]) -> str:
    """Which declared interrupts may come where none was named, or which were left out."""
    declared = application.declared() if application else []
    names = [it for it in declared if it not in map(str.strip, texts)]
    noun = "interrupt" if len(names) == 1 else "interrupts"
    return f"{'without' if texts else 'with'} {noun} {', '.join(names)}" if names else ""


def coming(handlers: Sequence[Handler], lines: Sequence[str], at: int) -> Optional[Handler]:
    """The one whose lines stand there, of several the one that has the most."""
    there = [it for it in handlers if it.lines == (*lines[at : at + len(it.lines)],)]
    return max(there, key=lambda it: len(it.lines)) if there else None


def come(handlers: Sequence[Handler], lines: Sequence[str]) -> Iterator[Handler]:
    """Those that have come in these lines, one after the other."""
    at = 0
    while at < len(lines):
        it = coming(handlers, lines, at) if lines[at].startswith(WORD) else None
        if it is not None:
            yield it
        at += len(it.lines) if it is not None else 1


def left(handlers: Sequence[Handler], lines: Sequence[str]) -> List[Handler]:
    """Those that may still come behind these lines; all, where one comes after another."""
    if any(key == AFTER for it in handlers for key, _ in it.when):
        return [*handlers]
    came = Counter(come(handlers, lines))
    left = [it if it.is_endless else it.so_often(it.times - came[it]) for it in handlers]
    return [it for it in left if it.times > 0]


def times_of(it: Interrupt, others: Dict[str, Interrupt]) -> int:
    """How often one comes at the most: one that comes after another no more often than that."""
    bounds = [it.times, times_of(others[it.after], others) if it.after else ANY]
    return min((bound for bound in bounds if bound != ANY), default=ANY)


def named(it: Interrupt, numbers: Dict[str, int], others: Dict[str, Interrupt]) -> Handler:
    """One of a text, where these have these numbers, and those are there."""
    times = times_of(it, others)
    when = [(TIMES, EVER if times == ANY else str(times))]
    when += [(AFTER, str(numbers[it.after]))] if it.after is not None else []
    when += [("apart", str(it.apart))] if it.apart else []
    return Handler(BETWEEN.join(it.calls), tuple(when))


def check_name(text: str, names: Sequence[str]) -> None:
    """Raises `Failure` where a word was meant to be the name of an interrupt."""
    if names and len(text.split()) == 1:
        near = nearest(text.strip(), names)
        hint = did_you_mean(near) or f" (defined: {', '.join(names)})"
        raise Failure(f"{OPTION}: interrupt '{text.strip()}' is not defined{hint}", 2)
