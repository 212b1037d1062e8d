"""Interrupts that a text names: `interrupt ping: notify dsp 0 1 set`."""
from typing import Callable, Dict, Iterator, List, Mapping, NamedTuple, Optional, Sequence, Tuple

from rdbg.application import ANY, MOST_APART, MOST_TIMES, NO_INTERRUPT, Interrupt
from rdbg.checking.freertos import FROM_ISR, called
from rdbg.firmware.numbers import NAME, Kept, near_to
from rdbg.firmware.operands import Operand, Operands
from rdbg.firmware.semaphores import GIVE, Semaphore
from rdbg.firmware.tokens import Refusal, Token, shown, without_parentheses
from rdbg.instructions import FORM_OF
from rdbg.operands import KIND_OF, Scope

WORD = "interrupt"
FORM = "interrupt NAME after NAME apart N times N: CALL; CALL"
COLON, SEMICOLON, ANY_TIMES = ":", ";", "any"
CALLS = "send Q HEX, notify K I N ACTION, or give NAME"
ROUND = "model it as a task of the highest priority that uses wait, see docs/guides/from-c.md"
NOTIFY, SEND = "notify", "send"
KEYS = AFTER, APART, TIMES = "after", "apart", "times"
# The operands of each call, and how they are read.
OPERANDS: Dict[str, Dict[str, Callable[[Operands], Operand]]] = {
    NOTIFY: {
        "K": Operands.task,
        "I": Operands.value,
        "N": Operands.value,
        "ACTION": Operands.word,
    },
    SEND: {"Q": Operands.word, "HEX": Operands.data},
}


class Call(NamedTuple):
    """A call of a handler: its words, and its tokens."""

    words: Tuple[str, ...]
    tokens: Tuple[Token, ...]


class Read(NamedTuple):
    """An interrupt as it was read: its name, what is said of when it comes, and its calls."""

    name: Token
    times: int = 1
    after: Optional[Token] = None
    apart: int = 0
    calls: Tuple[Call, ...] = ()

    def interrupt(self) -> Interrupt:
        """It without the places of its words."""
        after = self.after.text if self.after else None
        calls = tuple(" ".join(call.words) for call in self.calls)
        return Interrupt(self.name.text, calls, self.times, after, self.apart)


class InterruptLine:
    """Reads the line of one."""

    def __init__(
        self, tokens: Sequence[Token], kept: Kept, semaphores: Mapping[str, Semaphore]
    ) -> None:
        self._tokens, self._kept, self._semaphores = tokens, kept, semaphores

    def read(self) -> Read:
        """All of it. Raises `Refusal` where it is wrong."""
        texts = [token.text for token in self._tokens]
        if COLON not in texts:
            message = f"{FORM}: missing colon and calls"
            raise Refusal(self._tokens[-1].place, message)
        colon = texts.index(COLON)
        head = self._tokens[1:colon]
        if head and head[0].text == NO_INTERRUPT:
            message = (
                f"an interrupt cannot be named '{NO_INTERRUPT}', which stands for no interrupts"
            )
            raise Refusal(head[0].place, message)
        if not head or not NAME.fullmatch(head[0].text):
            raise Refusal(self._tokens[0].place, f"{FORM}: missing name")
        found = self._keys(Read(head[0]), Operands(head[1:], self._kept))
        return found._replace(calls=tuple(self._calls(self._tokens[colon:])))

    def _keys(self, it: Read, reader: Operands) -> Read:
        """It with what is said of when it comes."""
        for token in reader.each():
            if token.text not in KEYS:
                raise Refusal(token.place, f"unknown key '{shown(token.text)}' (expected {FORM})")
            if reader.next() is None:
                raise Refusal(token.place, f"{FORM}: missing value after {token.text}")
            if token.text == AFTER:
                reader.word()
                it = it._replace(after=reader.tokens[reader.at - 1])
            elif token.text == APART:
                it = it._replace(apart=self._bounded(reader, APART, 0, MOST_APART))
            elif reader.is_next(ANY_TIMES):
                it = it._replace(times=ANY)
            else:
                it = it._replace(times=self._bounded(reader, TIMES, 1, MOST_TIMES))
        return it

    def _bounded(self, reader: Operands, key: str, least: int, most: int) -> int:
        token, value = reader.next(), reader.number()
        if token is None or least <= value <= most:
            return value
        limits = f"{least} to {most}{', or any' if key == TIMES else ''}"
        self._kept.refuse(token.place, f"{key} must be {limits}, found {value}")
        return least

    def _calls(self, tokens: Sequence[Token]) -> Iterator[Call]:
        """The calls behind the colon, with semicolons between them."""
        part: List[Token] = []
        for token in [*tokens[1:], tokens[0]._replace(text=SEMICOLON)]:
            if token.text != SEMICOLON:
                part.append(token)
                continue
            if not part:
                raise Refusal(tokens[0].place, f"{FORM}: missing call ({CALLS})")
            plain = [part[0], *without_parentheses(part[1:])]
            yield Call(tuple(self._call(plain)), tuple(plain))
            part = []

    def _call(self, tokens: Sequence[Token]) -> List[str]:
        """The words of a call. Raises `Refusal` where an interrupt makes no such call."""
        word = tokens[0].text
        reader = Operands(tokens[1:], self._kept)
        if word == GIVE:
            return self._give(tokens)
        if word not in (NOTIFY, SEND):
            raise Refusal(tokens[0].place, why_no_call(word))
        found, form = [word], f"{word} {' '.join(OPERANDS[word])}"
        for symbol, read in OPERANDS[word].items():
            if reader.next() is None:
                raise Refusal(tokens[0].place, f"{form}: missing {KIND_OF[symbol].noun}")
            found.append(read(reader).text)
        reader.end(form)
        if word == SEND and found[1] in self._semaphores:
            self._give([tokens[0], tokens[1]])
            word = self._semaphores[found[1]].word.text
            raise Refusal(tokens[1].place, f"'{found[1]}' is a {word} (use give {found[1]})")
        return found

    def _give(self, tokens: Sequence[Token]) -> List[str]:
        """The call that gives a semaphore."""
        name = tokens[1].text if tokens[1:] else ""
        it = self._semaphores.get(name)
        if it is None or len(tokens) > 2:
            message = (
                f"give NAME: '{shown(name)}' is not a semaphore"
                if name
                else "give NAME: missing name"
            )
            raise Refusal(tokens[-1].place, message)
        if it.is_given:
            message = (
                f"an interrupt cannot give '{name}', whose queue holds an item while it is taken"
            )
            raise Refusal(tokens[1].place, f"{message} ({ROUND})")
        return [SEND, name, "00"]


def why_no_call(word: str) -> str:
    """What to say of a word that begins no call of an interrupt."""
    name = called(word)
    plain = name[: -len("FromISR")] if name.endswith("FromISR") else name
    if plain.lower() in FROM_ISR:
        return f"'{name}' is not a model call (use {FROM_ISR[plain.lower()][len('isr ') :]})"
    if plain.lower() == "xsemaphoregive":
        return f"'{name}' is not a model call (use give NAME)"
    if word in FORM_OF or plain != name:
        return f"an interrupt cannot call '{shown(name)}', only {CALLS} ({ROUND})"
    near = near_to(word, (NOTIFY, SEND, GIVE))
    return f"unknown call '{shown(word)}' of an interrupt{near or f' ({CALLS})'}"


def faults_of(
    it: Read, above: Sequence[Read], refused: Sequence[str], scope: Scope
) -> Iterator[Refusal]:
    """What is wrong with the names of an interrupt, where these stand above it, and others of which
    the line is refused."""
    named = {other.name.text: other for other in reversed(above)}
    if it.name.text in named:
        line = named[it.name.text].name.place.line
        yield Refusal(
            it.name.place, f"interrupt '{it.name.text}' is already defined in line {line}"
        )
    after = it.after.text if it.after else ""
    other = named.get(after)
    if it.after is not None and other is None and after not in refused:
        message = (
            f"interrupt '{shown(after)}' is not defined above this line{near_to(after, named)}"
        )
        yield Refusal(it.after.place, message)
    if it.after is not None and other and other.times == ANY and other.after is None:
        message = f"'{after}' may occur any number of times, so nothing can come after it"
        yield Refusal(it.after.place, f"{message} (give '{after}' a times N)")
    for call in it.calls:
        word, *operands = call.words
        for missing in filter(None, map(scope.missing, OPERANDS[word], operands)):
            yield Refusal(call.tokens[1].place, missing)
        if word == NOTIFY and not scope.fits("ACTION", operands[-1]):
            said = f"action must be {KIND_OF['ACTION'].choices}, found '{shown(operands[-1])}'"
            yield Refusal(call.tokens[-1].place, said)
