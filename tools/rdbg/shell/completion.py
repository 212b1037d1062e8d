"""What Tab puts behind the words of a line: the next words of a form, names of the right kind."""
import glob
from typing import Dict, Iterable, List, Sequence

from rdbg import commands, kinds
from rdbg.goals import reading, words as goal_words
from rdbg.shell import glossary, seek, views, words
from rdbg.shell.shell import Shell


def candidates(shell: Shell, before: Sequence[str], begun: str) -> List[str]:
    """The words that can come behind these and begin so."""
    if not before:
        found: Iterable[str] = [*commands.WORDS, *words.BY_NAME]
    else:
        found = [word for symbol in symbols(before) for word in of_symbol(shell, symbol, begun)]
    return sorted({word for word in found if word.startswith(begun)})


def symbols(before: Sequence[str]) -> List[str]:
    """What can stand behind these words."""
    found = commands.following(before) if before[0] in commands.WORDS else []
    behind, own = before[1:], words.BY_NAME.get(before[0])
    first = own.behind[0] if own and own.behind else ""
    if first.startswith("GOAL"):
        return found + goal(behind, first == "GOAL!")
    if first == "BREAK":
        return found + ([] if behind else ["K"]) + condition(behind)
    return [*found, *(own.behind[len(behind) : len(behind) + 1] if own else ())]


def goal(behind: Sequence[str], with_conditions: bool) -> List[str]:
    """What can stand behind the words of a goal."""
    if not behind or behind[-1] in (reading.NOT, reading.AND, reading.OR):
        return [*seek.FIRST[:-1], *(condition([]) if with_conditions or behind else [])]
    last = max(at for at, word in enumerate(behind) if at == 0 or behind[at - 1] in reading.JOINING)
    words = behind[last:]
    if len(words) == 1 and (words[0] in reading.OF_TASKS or words[0] == goal_words.WAKES):
        return ["K"]
    if words == [goal_words.CHANGES]:
        return ["OBJECT"]
    if words[0] == "waits" and len(words) == 2:
        return [*reading.PLACES, *reading.SIDES, reading.NOTE, reading.AND, reading.OR]
    return condition(words) if with_conditions or last else []


def condition(behind: Sequence[str]) -> List[str]:
    """What can stand behind the words of a condition."""
    return commands.following(["watch", *behind])


def of_symbol(shell: Shell, symbol: str, begun: str) -> List[str]:
    """The words that a symbol stands for."""
    target = shell.target
    tasks, objects = target.names.tasks, [name for _, name in target.names.objects]
    cores = range(target.application.cores) if target.application else ()
    forms = [form.word for form in (*commands.FORMS, *commands.CONDITIONS)]
    found: Dict[str, Iterable[str]] = {
        **{kind.symbol: target.names.of_kind(kind.word) for kind in kinds.ALL},
        "OP": commands.OPERATORS,
        "WORD": commands.PHASES,
        "ACTION": commands.ACTIONS,
        "R": "01234567",
        "C": [*map(str, cores), *tasks],
        "wN": [f"w{number}" for number in target.watches],
        "OBJECT": objects,
        "PART": [*tasks, *views.REGISTERS, *views.FIELDS, *objects],
        "INFO": [*tasks, *views.INFO_WORDS, *objects],
        "HELP": [*forms, *words.BY_NAME, "history", *words.SETTINGS, *glossary.WORDS],
    }
    if symbol == "FILE":
        return glob.glob(f"{glob.escape(begun)}*")
    others = [] if symbol in commands.SYMBOLS or not symbol else symbol.split("|")
    return list(found.get(symbol, others))


class Completer:
    """What readline asks, again and again, for the next candidate."""

    def __init__(self, shell: Shell) -> None:
        self.shell = shell
        self._found: List[str] = []

    def __call__(self, begun: str, state: int) -> "str | None":
        """The candidate of this number, or none."""
        import readline

        if state == 0:
            before = readline.get_line_buffer()[: readline.get_begidx()].split()
            self._found = candidates(self.shell, before, begun)
            if len(self._found) == 1:
                self._found[0] += " "
        return self._found[state] if state < len(self._found) else None
