"""The words of `rdbg reach`: those of the program that searches, and those of what starts it."""
from typing import Callable, Dict, Iterator, List, NamedTuple, Optional, Sequence, Tuple

from rdbg.application import NO_INTERRUPT
from rdbg.wording import shown
from rdbg.digits import is_digits, seconds
from rdbg.failure import Failure
from rdbg.reaching.handlers import OPTION, Handler

OUTPUT, WITHIN, SURPRISES, PAGE = "-o", "--within", "--surprises", "--page"
REPORT, LOST, PACE = "--report", "--lost", "--pace"
# A const of a text in lines; it may stand more than once.
DEFINE = "-D"
# Has the program say how far it is, which it always does here.
PROGRESS = "--progress"
# Has the program answer lines of standard input, in place of a goal.
ENGINE = "--engine"
# What stands behind each of these, which the program doesn't know.
OWN = {OUTPUT: "OUT", WITHIN: "SECONDS", PAGE: "OUT.html", REPORT: "FILE", DEFINE: "NAME=N"}
# Options of the program behind which a value stands; those among them that belong to an interrupt.
WHEN = ("--times", "--after", "--apart")
VALUED = {*"--from --moves --isr --states --memory --part".split(), SURPRISES, PACE, *WHEN}
# Behind it all words are a file and a goal.
NO_MORE = "--"


class Part(NamedTuple):
    """Words that belong together: an option and its value, where it has one; or a word of the file
    and the goal, which has no option."""

    words: Tuple[str, ...]
    option: str
    value: Optional[str]


def plain(word: str) -> Part:
    """A word of the file and the goal."""
    return Part((word,), "", word)


def parts(words: Sequence[str]) -> Iterator[Part]:
    """The words of a command line as parts, in their order."""
    left = list(words)
    while left:
        word = left.pop(0)
        option, has_value, behind = word.partition("=")
        value = behind if has_value else None
        if word.startswith((OUTPUT, DEFINE)):
            # (the value of a short one may stand behind it without a sign)
            option, behind = word[: len(OUTPUT)], word[len(OUTPUT) :]
            value = behind[behind.startswith("=") :] or None
        if word == NO_MORE:
            yield Part((word,), word, None)
            yield from map(plain, left)
            return
        if not word.startswith("-"):
            yield plain(word)
        elif value is None and left and option in (*VALUED, *OWN):
            value = left.pop(0)
            yield Part((word, value), option, value)
        else:
            yield Part((word,), option, value)


class Words(NamedTuple):
    """What was asked for: the words of the program, but `PROGRESS`; what its starter does, by its
    options; for how many seconds; and consts of a text."""

    parts: Tuple[Part, ...]
    own: Dict[str, str]
    seconds: Optional[float]
    consts: Tuple[str, ...]

    @property
    def program(self) -> List[str]:
        """The words of the program."""
        return [word for it in self.parts for word in it.words]

    def has(self, option: str) -> bool:
        """Whether an option of the program stands there."""
        return any(it.option == option for it in self.parts)

    def value(self, option: str) -> Optional[str]:
        """The value of an option of the program, the last where it stands more than once."""
        return next((it.value for it in reversed(self.parts) if it.option == option), None)

    def surprises(self) -> Optional[int]:
        """How many surprises an order has at the most, if that was asked."""
        asked = self.value(SURPRISES)
        return int(asked) if asked and is_digits(asked) else None

    def plain(self) -> List[str]:
        """The words that are no options: the file, and behind it those of a goal."""
        return [word for it in self.parts if not it.option for word in it.words]

    def goal(self) -> str:
        """Returns the goal as it was typed; it is empty for an engine."""
        return " ".join(self.plain()[1:])

    def put(self, file: str, goal: str) -> "Words":
        """The same with another file and, where it has one, goal."""
        new, found = [plain(file), plain(goal)], []
        for it in self.parts:
            if it.option:
                found.append(it)
            elif new:
                found.append(new.pop(0))
        return self._replace(parts=tuple(found))

    def interrupts(self) -> List[str]:
        """What is given of each interrupt."""
        return [it.value for it in self.parts if it.option == OPTION and it.value is not None]

    def with_interrupts(self, handlers: Callable[[List[str]], List[Handler]]) -> "Words":
        """The same with each interrupt as the program takes it, by what these are. What the command
        line says of when one comes counts in place of what the text says."""
        texts = self.interrupts()
        made = handlers(texts)
        given = [] if texts == [NO_INTERRUPT] else made[: len(texts)]
        others = [part for it in made[len(given) :] for part in parts(it.options())]
        found: List[Part] = []
        said: List[str] = []
        for it in reversed(self.parts):
            if it.option == OPTION and it.value is not None:
                found[:0] = parts(given.pop().options(said)) if given else ()
                said.clear()
            else:
                found.insert(0, it)
                said += [it.option] if it.option in WHEN else []
        behind = next((at for at, it in enumerate(found) if it.option == NO_MORE), len(found))
        return self._replace(parts=(*found[:behind], *others, *found[behind:]))

    def files(self) -> List[str]:
        """The words that may be files of the program, an option's among them."""
        return [it.value for it in self.parts if it.value]


def read(words: Sequence[str]) -> Words:
    """What words ask for. Raises `Failure` where one that isn't the program's is wrong."""
    program: List[Part] = []
    found: Dict[str, str] = {}
    consts: List[str] = []
    for it in parts(words):
        if it.option not in OWN:
            program += [it] if it.option != PROGRESS else []
        elif it.value is None:
            raise Failure(f"{it.option} needs a value ({OWN[it.option]})", 2)
        elif it.option == DEFINE:
            consts.append(it.value)
        elif it.option in found:
            raise Failure(f"duplicate option {it.option}", 2)
        else:
            found[it.option] = it.value
    text = found.get(WITHIN)
    limit = None if text is None else seconds(text)
    if text is not None and limit is None:
        raise Failure(f"{WITHIN} must be a number of seconds above 0, found '{shown(text)}'", 2)
    return Words(tuple(program), found, limit, tuple(consts))
