"""Suggestions for words that are not a goal: repairs from the first wrong word on."""
import re
from typing import Iterable, List, Optional, Sequence

from rdbg import commands, kinds
from rdbg.goals import reading
from rdbg.goals.reading import NoGoal
from rdbg.goals.scope import Scope
from rdbg.looks import Names
from rdbg.operands import to_text
from rdbg.wording import nearest

# So many words are mended at the most, and so many names are said.
MOST_MENDED, MOST_SAID = 8, 8
OTHERS = {"&&": "and", "||": "or", "!": "not", "&": "and", "|": "or"}
QUOTES = re.compile(r"^[\"'`]+|[\"'`;,]+$")
APART = re.compile(r"([<>=!]=?)")


def with_meant(wrong: NoGoal, scope: Scope) -> NoGoal:
    """Returns the same refusal with a suggestion."""
    found = mended(wrong, scope)
    more = f" (did you mean `{' '.join(found)}`?)" if found else there_are(wrong, scope)
    return NoGoal(wrong.words, wrong.at, wrong.wanted, more)


def there_are(wrong: NoGoal, scope: Scope) -> str:
    """Which names there are where one is wanted, or which labels."""
    labels = labels_at(wrong.words, wrong.at, wrong.wanted, scope)
    instructions = instructions_at(wrong, scope)
    kind = reading.KIND_OF.get(wrong.wanted)
    names = labels if kind is None else scope.names.of_kind(kind)
    shown = ", ".join(names[:MOST_SAID]) + (", .." if len(names) > MOST_SAID else "")
    if labels:
        return f"{instructions}, or a label: {shown}"
    if instructions:
        return instructions
    if kind is None or scope.application is None:
        return ""
    return f" (defined: {shown})" if shown else " (none is defined)"


def instructions_at(wrong: NoGoal, scope: Scope) -> str:
    """Which numbers the instructions of a task have, if one is wanted where another number is."""
    at = wrong.at or 0
    if wrong.wanted != reading.INSTRUCTION or at < 1 or not wrong.words[at].isdecimal():
        return ""
    task = scope.application.task(wrong.words[at - 1]) if scope.application else None
    return f" ({task.name} has {to_text(0, len(task.code) - 1)})" if task else ""


def labels_at(words: Sequence[str], at: Optional[int], wanted: str, scope: Scope) -> List[str]:
    """The labels that can stand in place of a word, or at the end: those of the task before it."""
    place = len(words) if at is None else at
    is_there = wanted == reading.INSTRUCTION and place > 0
    return [*scope.labels.get(words[place - 1], ())] if is_there else []


def mended(wrong: NoGoal, scope: Scope) -> Optional[List[str]]:
    """The words as they may have been meant; none where that isn't known."""
    words = list(wrong.words)
    for _ in range(MOST_MENDED):
        if wrong.at is None or wrong.at < 0:
            return None
        is_last = words[wrong.at :] == words[-1:] != words
        if wrong.wanted == reading.JOIN and is_last and commands.is_count(words[-1]):
            return words[:-1]  # (it is how many moves a run makes)
        found = repaired(words, wrong.at, wrong.wanted, scope)
        if found is None or found == words:
            return None
        words = found
        try:
            reading.plain(words, scope)
            return words
        except NoGoal as still:
            wrong = still
    return None


def repaired(words: List[str], at: int, wanted: str, scope: Scope) -> Optional[List[str]]:
    """The words with the wrong one mended."""
    word = words[at]
    bare = QUOTES.sub("", word)
    labels = labels_at(words, at, wanted, scope)
    of_name = with_subject(words, at, scope.names) if wanted == reading.CLAIM else None
    if bare != word:
        other: Optional[str] = bare
    elif APART.search(word) and not APART.fullmatch(word):
        other = " ".join(APART.split(word))
    elif word in OTHERS and wanted in (reading.CLAIM, reading.JOIN):
        other = OTHERS[word]
    elif wanted == reading.COMPARISON or of_name:
        return of_name or as_comparison(words, at)
    else:
        other = near(word, labels) if labels else single(word, wanted, scope)
    return None if other is None else [*words[:at], *other.split(), *words[at + 1 :]]


def single(word: str, wanted: str, scope: Scope) -> Optional[str]:
    """What stands in place of one word."""
    small = word.lower()
    if wanted == reading.CLAIM:
        return near(small, (*reading.CLAIMS, *reading.JOINING))
    if wanted == reading.NUMBER:
        return as_number(small)
    if wanted == reading.REGISTER:
        return small[1:] if re.fullmatch("r[0-7]", small) else None
    if wanted == reading.PHASE:
        return "" if word == "=" else nearest(small, commands.PHASES)
    if wanted == reading.PLACE:
        return nearest(small, (*reading.PLACES, *reading.SIDES, reading.NOTE))
    kind = reading.KIND_OF.get(wanted)
    return None if kind is None else near(small, scope.names.of_kind(kind))


def near(word: str, others: Iterable[str]) -> Optional[str]:
    """The one of some words that this is, or is near to."""
    known = list(others)
    return word if word in known else nearest(word, known)


def as_number(word: str) -> Optional[str]:
    """The decimal number that a word is in another language."""
    if re.fullmatch("0x[0-9a-f]{1,8}|0b[01]{1,32}", word):
        return str(int(word, 0))
    if re.fullmatch(r"[0-9]{1,3}([,_'][0-9]{3})+", word):
        return re.sub(r"[,_']", "", word)
    return str(commands.MOST_NUMBER) if word in ("max", "portmax_delay") else None


def with_subject(words: List[str], at: int, names: Names) -> Optional[List[str]]:
    """Words in which a name stands for a claim of it, with what it lacks before it."""
    word, behind = words[at].lower(), (words[at + 1] if at + 1 < len(words) else "")
    for kind in names.kinds_of(word):
        amount, is_task = kinds.OF_WORD[kind].amount, kind == kinds.TASK.word
        if amount and behind[:1] in ("=", "<", ">", "!", "&"):
            return [*words[:at], amount, word, *words[at + 1 :]]
        if is_task and behind in commands.PHASES:
            return [*words[:at], "phase", word, *words[at + 1 :]]
        if is_task and behind in ("pc", "phase", *reading.OF_TASKS):
            return [*words[:at], behind, word, *words[at + 2 :]]
        if is_task and re.fullmatch("r[0-7]", behind):
            return [*words[:at], "reg", word, behind[1:], *words[at + 2 :]]
    return None


def with_operator(words: List[str], at: int) -> Optional[List[str]]:
    """Words with `==`, `>=` or `<=` as an operator that there is."""
    word, number = words[at], (words[at + 1] if at + 1 < len(words) else "")
    if word == "==":
        return [*words[:at], "=", *words[at + 1 :]]
    if word in (">=", "<=") and commands.is_number(number):
        value = int(number) + (1 if word == "<=" else -1)
        if value >= 0:
            return [*words[:at], word[0], str(value), *words[at + 2 :]]
    return None


def as_comparison(words: List[str], at: int) -> Optional[List[str]]:
    """An operator of another language as one that there is."""
    first = next((it for it in range(at - 1, -1, -1) if words[it] in reading.CONDITIONS), None)
    if words[at] == "!=" and first is not None:
        return [*words[:first], "not", *words[first:at], "=", *words[at + 1 :]]
    return with_operator(words, at)
