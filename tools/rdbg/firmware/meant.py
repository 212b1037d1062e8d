"""What a line was meant to be that begins with no word that lines begin with.

Such a line is refused. The names that it gives are kept all the same, so that the lines that use
them aren't refused as well."""
import re
from typing import Iterator, Optional, Sequence, Set, Tuple

from rdbg.checking.freertos import called, sentence
from rdbg.checking.slips import statement
from rdbg.firmware import blocks
from rdbg.firmware.numbers import LONGEST, NAME, near_to
from rdbg.firmware.objects import OBJECTS, SETTINGS, form_of
from rdbg.firmware.semaphores import FORMS, GIVE, MUTEX, Semaphore
from rdbg.firmware.tokens import Token, shown
from rdbg.instructions import FORM_OF
from rdbg.wording import by_word, nearest

OTHERS = (GIVE, "interrupt", "wait", "const")
FIRST_WORDS = (*FORM_OF, *OBJECTS, *SETTINGS, *blocks.WORDS, *FORMS, *OTHERS)
BLOCKS_ARE = "loop, while and if blocks end with end"
SEMAPHORE = "use semaphore NAME length N given, or mutex NAME"
# How that is written which FreeRTOS calls otherwise.
CALLS = {
    **{shape.freertos: form_of(word) for word, shape in OBJECTS.items()},
    **{key.freertos: form_of(word) for word, key in SETTINGS.items()},
    "xSemaphoreCreateBinary": "semaphore NAME",
    "xSemaphoreCreateCounting": "semaphore NAME length N, followed by given if it starts full",
    "xSemaphoreCreateMutex": "mutex NAME",
}
CREATED = {shape.freertos: word for word, shape in OBJECTS.items()}
# What things are called elsewhere, in small letters, and the word of their line.
OTHER_WORDS = by_word(
    {
        "group": "event events eventgroup event_group flags eventgrouphandle_t",
        "stream": "streambuffer stream_buffer streambufferhandle_t",
        "message": "messagebuffer message_buffer messagebufferhandle_t",
        "set": "queueset queue_set queuesethandle_t",
        "task": "thread taskhandle_t",
        "queue": "queuehandle_t",
    }
)
SEMAPHORES = ("semaphores", "sem", "mutexes", "lock", "semaphorehandle_t")
CONSTANTS = ("constant", "constexpr", "define", "static", "enum", "let", "cosnt", "conts", "cnst")
TYPES = re.compile(r"const|static|constexpr|unsigned|long|short|int|char|size_t|u?int[0-9]+_t")
STORAGE = re.compile("static|const|extern|volatile")
# So many words of a line are looked at.
MOST_TOKENS = 30
FIXED = ("const", "constexpr", "static", "define")
VARIABLES = re.compile(rf"{TYPES.pattern}|float|double|bool|struct|extern|volatile|[A-Za-z0-9_]+_t")
BRACES = re.compile(r"[{}]+")
JUMPS = ("jump", "jumpz", "goto")
ASSIGNS = re.compile(r"[-+*/|&]?=|\+\+|--")
NO_VARIABLES = "scripts have no variables, use r0 to r7"


def jumped_to(lines: Sequence[Sequence[Token]]) -> Set[str]:
    """The last words of lines that jump."""
    return {
        next((token.text for token in reversed(tokens) if token.is_word()), "")
        for tokens in lines
        if any(token.text in JUMPS for token in tokens[:MOST_TOKENS])
    }


def is_label(tokens: Sequence[Token], targets: Set[str]) -> bool:
    """Whether a line is a label without its colon: one word, to which some line jumps."""
    word = tokens[0].text
    return len(tokens) == 1 and NAME.fullmatch(word) is not None and word in targets


def object_of(tokens: Sequence[Token]) -> Tuple[str, Optional[Token]]:
    """The word of the object that a line was meant to give, and its name; empty for none."""
    while STORAGE.fullmatch(tokens[0].text) and len(tokens) > 1:
        tokens = tokens[1:]
    tokens = tokens[:MOST_TOKENS]
    words = [called(token.text) for token in tokens]
    for at, word in enumerate(words):
        if word in CREATED:
            name = tokens[at - 2] if at > 1 and words[at - 1] == "=" else None
            if name is None and CREATED[word] == "task":
                name = next((token for token in tokens[at + 1 :] if token.is_word()), None)
            return (CREATED[word], name) if name else ("", None)
    small = words[0].lower()
    meant = MUTEX if small in SEMAPHORES else OTHER_WORDS.get(small)
    meant = meant or near_object(small, words[2:])
    name = tokens[1] if len(tokens) > 1 and tokens[1].is_word() else None
    is_set = meant == "set" and not any(token.text == "length" for token in tokens)
    is_object = meant in OBJECTS or meant == MUTEX
    return (meant or "", name) if name and is_object and not is_set else ("", None)


def semaphores_of(lines: Sequence[Sequence[Token]]) -> Iterator[Tuple[str, Semaphore]]:
    """Those that lines were meant to give, by their names."""
    for tokens in (it for it in lines if it[0].text.lower() in SEMAPHORES):
        word, name = object_of(tokens)
        if name is not None and word == MUTEX:
            yield name.text, Semaphore(tokens[0], name.text, 1, True)


def near_object(word: str, others: Sequence[str]) -> str:
    """The word of an object's line that is near to another, if its keys stand behind it."""
    near = nearest(word[:LONGEST], FIRST_WORDS) or ""
    keys = OBJECTS[near].names()[1:] if near in OBJECTS else ()
    has_keys = any(nearest(other[:LONGEST], keys) for other in others[:6]) if keys else not others
    return near if near in OBJECTS and has_keys else ""


def as_const(tokens: Sequence[Token]) -> Optional[Sequence[Token]]:
    """The name and number of a const that is written otherwise, if one is: `const int RX = 5`."""
    words = [token.text for token in tokens[:MOST_TOKENS]]
    at = 0
    while at < len(words) and (TYPES.fullmatch(words[at]) or words[at].lower() in CONSTANTS):
        at += 1
    rest = [token for token in tokens[at:] if token.text != "="] if at else []
    is_one = len(rest) > 1 and NAME.fullmatch(rest[0].text) and re.match("[0-9(]", rest[1].text)
    return rest if is_one else None


def message_of(tokens: Sequence[Token], targets: Set[str]) -> str:
    """What to say of a line that begins with no word that lines begin with."""
    word = tokens[0].text
    meant = as_const(tokens)
    if meant is not None:
        value = "N" if meant[1].text == "(" else meant[1].text
        remedy = f"for a constant, write const {shown(meant[0].text)} {shown(value)}"
        is_variable = all(token.text not in FIXED for token in tokens[:MOST_TOKENS])
        if is_variable and TYPES.fullmatch(word):
            return f"'{shown(word)}' does not begin a line ({NO_VARIABLES}; {remedy})"
        return f"'{shown(word)}' does not begin a line ({remedy})"
    for name in (called(token.text) for token in tokens[:MOST_TOKENS]):
        if name in CALLS:
            return f"'{name}' is not a model line (use {CALLS[name]})"
    if word.lower() in SEMAPHORES:
        return f"'{shown(word)}' does not begin a line ({SEMAPHORE})"
    said = statement([token.text for token in tokens[:MOST_TOKENS]], True) or sentence(word, True)
    if said:
        return said
    if BRACES.fullmatch(word):
        return f"models have no braces ({BLOCKS_ARE})"
    other, behind = OTHER_WORDS.get(word.lower()), tokens[1:]
    is_of_c = behind and VARIABLES.fullmatch(word) and not other
    no_word = f"'{shown(word)}' does not begin a line"
    if is_of_c or (behind and NAME.fullmatch(word) and ASSIGNS.fullmatch(behind[0].text)):
        return f"{no_word} ({NO_VARIABLES})"
    if other and behind:
        return f"{no_word} (use {form_of(other)})"
    if is_label(tokens, targets):
        return f"{no_word} (a label needs a colon: {shown(word)}:)"
    return f"{no_word}{near_to(word, FIRST_WORDS)}"
