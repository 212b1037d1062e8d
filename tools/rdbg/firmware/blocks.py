"""Lines of a script that aren't instructions: `loop`, `while`, `if`, `else`, `end`, `break`.

A block begins with `loop`, `while TEST` or `if TEST`, and ends with `end`. Where none is open,
`end` is the instruction that ends the task, which inside of one is written `end task`."""
import dataclasses
from typing import TYPE_CHECKING, Callable, Dict, List, Optional, Sequence, Tuple

from rdbg.firmware.branches import Test, Tests, split
from rdbg.firmware.tokens import Refusal, Token, shown

if TYPE_CHECKING:
    from rdbg.firmware.code import Script

LOOP, WHILE, IF, ELSE, END = "loop", "while", "if", "else", "end"
BREAK, CONTINUE = "break", "continue"
GOTO = ("goto", "jump")
TASK_ENDS, JUMP = ("end", "task"), ("jump {target}",)
WORDS = (LOOP, WHILE, IF, ELSE, BREAK, CONTINUE)
NO_BRACES = "blocks have no braces (they end with end)"
# How a line is written that is one of these.
FORMS = {
    LOOP: "loop",
    WHILE: "while TEST",
    IF: "if TEST goto LABEL, or if TEST .. end",
    ELSE: "else",
    BREAK: "break",
    CONTINUE: "continue",
}


@dataclasses.dataclass(eq=False)
class Mark:
    """An instruction that is known later, by its number; and whether one jumps there."""

    at: Optional[int] = None
    is_used: bool = False


@dataclasses.dataclass
class Block:
    """A block that is open: its first word, the number of its first instruction, where it goes on
    behind its end, and, of an `if`, where it does where the test fails. The instructions of what
    stands in it begin at `inner`; `is_refused` says whether its line is refused."""

    word: Token
    head: int
    behind: Mark = dataclasses.field(default_factory=Mark)
    otherwise: Optional[Mark] = None
    inner: int = 0
    is_refused: bool = False

    @property
    def is_loop(self) -> bool:
        """Whether `break` can leave it."""
        return self.word.text != IF

    def put(self, at: int) -> None:
        """Its end stands before the instruction of this number."""
        self.behind.at = at
        if self.otherwise is not None:
            self.otherwise.at = at
            self.behind.is_used |= self.otherwise.is_used


class Blocks:
    """The blocks of a script that are open."""

    def __init__(self, script: "Script") -> None:
        self._script = script
        self._open: List[Block] = []
        self._closed: List[Block] = []

    def reads(self, tokens: Sequence[Token]) -> bool:
        """Whether a line is of a block; then it is read. Raises `Refusal` where it is wrong."""
        word = tokens[0].text
        if tuple(token.text for token in tokens) == TASK_ENDS:
            self._script.add(tokens, ("end",))
            return True
        if word not in READERS or (word == END and not self._open):
            return False
        try:
            READERS[word](self, tokens)
        except Refusal:
            if self._open and self._open[-1].word is tokens[0]:
                self._open[-1].is_refused = True
            raise
        return True

    def fill(self) -> None:
        """Takes note of a line that stands in a block, and is of no script."""
        for block in self._open[-1:]:
            block.inner = -1

    def close_all(self) -> None:
        """Refuses blocks that are open at the end, and those behind which nothing stands."""
        for block in self._open:
            if not block.is_refused:
                message = f"this {block.word.text} has no end"
                self._script.refuse(block.word, message)
            block.put(self._script.length)
        for block in () if self._open else self._closed:
            if block.behind.is_used and block.behind.at == self._script.length:
                word = block.word.text
                message = f"nothing follows this {word} (add end or jump after it)"
                self._script.refuse(block.word, message)
        self._open = []

    def _end_of_line(self, word: str, behind: Sequence[Token], what: str = "unexpected") -> None:
        """Refuses what stands behind the end of a line with this first word."""
        if behind:
            said = NO_BRACES if behind[0].text == "{" else f"{what} '{shown(behind[0].text)}'"
            raise Refusal(behind[0].place, f"{FORMS.get(word, word)}: {said}")

    def _alone(self, tokens: Sequence[Token]) -> None:
        """Refuses what stands behind a word that stands alone."""
        self._end_of_line(tokens[0].text, tokens[1:])

    def _loop(self, tokens: Sequence[Token]) -> None:
        self._open.append(Block(tokens[0], self._script.length))
        self._alone(tokens)

    def _while(self, tokens: Sequence[Token]) -> None:
        block = Block(tokens[0], self._script.length)
        self._open.append(block)
        test, rest = self._test(tokens)
        self._end_of_line(WHILE, rest)
        self._script.add(tokens, *test.turned().jump(), block.behind)

    def _if(self, tokens: Sequence[Token]) -> None:
        words = [token.text for token in tokens]
        is_block = not any(it in words for it in (*GOTO, BREAK, CONTINUE))
        otherwise = Mark()
        if is_block:
            self._open.append(Block(tokens[0], self._script.length, otherwise=otherwise))
        test, rest = self._test(tokens)
        if not rest and is_block:
            self._script.add(tokens, *test.turned().jump(), otherwise)
            self._open[-1].inner = self._script.length
        elif rest and rest[0].text in GOTO and len(rest) == 2 and rest[1].is_word():
            self._script.add(tokens, *test.jump(), rest[1])
        elif rest and rest[0].text in (BREAK, CONTINUE) and len(rest) == 1:
            self._script.add(tokens, *test.jump(), self._of_loop(rest[0]))
        else:
            self._end_of_line(IF, (rest or tokens)[-1:])

    def _test(self, tokens: Sequence[Token]) -> Tuple[Test, Sequence[Token]]:
        """The test behind the first word of a line, and what stands behind it."""
        if len(tokens) < 2:
            raise Refusal(tokens[0].place, f"{FORMS[tokens[0].text]}: missing test")
        tests = Tests([*split(tokens[1:])], self._script.kept)
        return tests.test(), tests.tokens[tests.at :]

    def _of_loop(self, word: Token) -> Mark:
        """Where `break` or `continue` goes on."""
        loops = [block for block in self._open if block.is_loop]
        if not loops:
            raise Refusal(word.place, f"{word.text} outside of loop and while")
        return loops[-1].behind if word.text == BREAK else Mark(loops[-1].head)

    def _leave(self, tokens: Sequence[Token]) -> None:
        self._alone(tokens)
        self._script.add(tokens, JUMP, target=self._of_loop(tokens[0]))

    def _else(self, tokens: Sequence[Token]) -> None:
        if tokens[1:] and tokens[1].text == IF:
            message = "else must stand alone (write the if on the next line, with its own end)"
            raise Refusal(tokens[1].place, message)
        self._alone(tokens)
        block = self._open[-1] if self._open else None
        if block is None or block.otherwise is None:
            raise Refusal(tokens[0].place, "else without if")
        self._check_lines(block, tokens[0])
        self._script.add(tokens, JUMP, target=block.behind)
        block.inner = block.otherwise.at = self._script.length
        block.otherwise = None

    def _end(self, tokens: Sequence[Token]) -> None:
        block = self._open[-1]
        if len(tokens) > 1 and tokens[1].text != block.word.text:
            message = f"this end closes the {block.word.text} of line {block.word.place.line}"
            raise Refusal(tokens[1].place, f"{message} (to end the task, write end task)")
        self._alone(tokens[1:] if len(tokens) > 1 else tokens)
        self._open.pop()
        if block.is_loop:
            self._script.add(tokens, JUMP, target=Mark(block.head), note=block.word.text)
        block.put(self._script.length)
        self._closed.append(block)
        self._check_lines(block, tokens[0])

    def _check_lines(self, block: Block, end: Token) -> None:
        """Refuses an `if` without a line in it, whose `end` was meant to end the task."""
        if block.inner == self._script.length and not block.is_loop:
            message = f"the if of line {block.word.place.line} is empty"
            raise Refusal(end.place, f"{message} (to end the task, write end task)")


READERS: Dict[str, Callable[[Blocks, Sequence[Token]], None]] = {
    LOOP: Blocks._loop,
    WHILE: Blocks._while,
    IF: Blocks._if,
    ELSE: Blocks._else,
    END: Blocks._end,
    BREAK: Blocks._leave,
    CONTINUE: Blocks._leave,
}
