"""What `if` and `while` look at, and the instructions that go on elsewhere by it.

A script has one test, `jumpz`, of a register that is 0 or isn't. Another number is compared by
taking it away from a copy, and bits are looked at by a notification entry of the task's own: the
value is put there, all other bits are cleared, and what is left is taken. The texts of instructions
have `{spare}` for a register and `{entry}` for an entry that the task doesn't use, `{own}` for the
task itself, `{target}` for where they jump, and `{here[N]}` for the Nth of them."""
import re
from typing import Iterator, NamedTuple, Optional, Sequence, Tuple

from rdbg.firmware.numbers import LARGEST, Numbers
from rdbg.firmware.tokens import Refusal, Token, shown
from rdbg.operands import REGISTER
from rdbg.wording import counted

# The pieces of a test: its signs, also where no spaces stand round them, and what they part.
PIECE = r"==|!=|<=|>=|&&|[=!<>&]|[^=!<>&]+"
NOT, EQUAL, UNEQUAL, BITS = ("!", "not"), ("=", "=="), ("!=",), ("&",)
ORDERED, JOINED = ("<", ">", "<=", ">="), ("&&", "||", "|", "and", "or")
BEHIND = (*EQUAL, *UNEQUAL, *BITS, *ORDERED, *JOINED)
ONE_TEST = "only one test is allowed per line"
# (parentheses within each other)
DEEPEST = 20
# How many instructions look at bits, before it is known whether they are there.
LOOKS_AT_BITS = (
    "move {{spare}} r0",
    "notify {{own}} {{entry}} {register} set",
    "vclear {{own}} {{entry}} {others}",
    "take {{entry}} clear 0",
)
ONE_OF = "for example r0, !r0, r0 = 7, r0 != 7 or r0 & STOP"


# Instructions that jump to their target or go on behind them, and what they cost in words.
Jump = Tuple[Tuple[str, ...], str]


def cost(goes_on: int, jumps: int) -> str:
    """Returns the cost in moves without and with the jump: `6 moves, or 7 if it jumps`."""
    moves = counted(goes_on, "move")
    return moves if goes_on == jumps else f"{moves}, or {jumps} if it jumps"


class Test(NamedTuple):
    """Whether a register, or those of its bits that `mask` has, are a number, or aren't."""

    register: str
    number: int
    mask: Optional[int] = None
    is_turned: bool = False

    def turned(self) -> "Test":
        """The test that is met where this one isn't."""
        return self._replace(is_turned=not self.is_turned)

    def jump(self) -> Jump:
        """The instructions that jump where the test is met."""
        if self.mask is not None:
            return self._by_bits(self.mask)
        # (behind what looks, the register is 0 where the number is this one)
        less, register = -self.number & LARGEST, "{spare}" if self.number else self.register
        looked = (f"move {{spare}} {self.register}", f"add {{spare}} {less}") if less else ()
        count = len(looked) + 1
        if not self.is_turned:
            return (*looked, f"jumpz {register} {{target}}"), cost(count, count)
        over = f"jumpz {register} {{here[{count + 1}]}}"
        return (*looked, over, "jump {target}"), cost(count, count + 1)

    def _by_bits(self, mask: int) -> Jump:
        """The same by bits. r0 is what it was again, whichever way it goes on."""
        others = ~mask & LARGEST
        looked = [it.format(register=self.register, others=others) for it in LOOKS_AT_BITS]
        if self.number:
            looked.append(f"add r0 {-self.number & LARGEST}")
        count, back = len(looked), "move r0 {spare}"
        same = f"jumpz r0 {{here[{count + 3}]}}"
        if self.is_turned:
            return (*looked, same, back, "jump {target}", back), cost(count + 2, count + 3)
        past = f"jump {{here[{count + 5}]}}"
        return (*looked, same, back, past, back, "jump {target}"), cost(count + 3, count + 3)


def split(tokens: Sequence[Token]) -> Iterator[Token]:
    """The tokens of a test, parted at its signs: `r0&STOP` is three."""
    for token in tokens:
        pieces = re.finditer(PIECE if token.is_word() else ".+", token.text, re.DOTALL)
        for it in pieces:
            gap = "" if it.start() else token.gap
            yield Token(it[0], token.place_of(it.start()), gap)


class Tests(Numbers):
    """Reads a test from the tokens of a line, which are parted at its signs."""

    def test(self, depth: int = 0) -> Test:
        """The next test. Raises `Refusal` where there is none."""
        turns = 0
        while self.is_next(*NOT):
            turns += 1
        if turns:
            found = self._plain(depth)
            self._no_more(
                f"! applies to {found.register} only (to negate the whole test, write !(..))"
            )
        else:
            found = self._compared(self._plain(depth), self.at)
        return found.turned() if turns % 2 else found

    def _last(self) -> Token:
        """The token that was passed last, or the first."""
        return self.tokens[max(0, self.at - 1)]

    def _no_more(self, why: str, signs: Sequence[str] = BEHIND) -> None:
        """Refuses a sign behind what was read."""
        token = self.next()
        if token is not None and token.text in signs:
            raise Refusal(token.place, why)

    def _plain(self, depth: int) -> Test:
        """A register, or a test in parentheses."""
        token = self.next()
        if token is None:
            raise Refusal(self._last().place, f"missing register ({ONE_OF})")
        self.at += 1
        if token.text == "(" and depth < DEEPEST:
            found = self.test(depth + 1)
            if not self.is_next(")"):
                raise Refusal(token.place, "this ( is not closed")
            return found
        if not re.fullmatch(REGISTER, token.text):
            raise Refusal(
                token.place,
                f"a test must begin with r0 to r7, found '{shown(token.text)}' ({ONE_OF})",
            )
        return Test(token.text, 0, is_turned=True)

    def _compared(self, left: Test, behind: int) -> Test:
        """A test with what it is compared with, or its bits, if these come next."""
        is_register = left == Test(left.register, 0, is_turned=True)
        is_closed = self.tokens[behind - 1].text == ")"
        if is_register and not is_closed and self.is_next(*BITS):
            left = left._replace(mask=self._number(BITS[0]))
            if not left.mask:
                raise Refusal(self._last().place, "the mask is 0, so no bit is tested")
            self._no_more("in C, this sign binds tighter than & (write (r0 & N) = N)")
            return left
        if self.is_next(*EQUAL):
            found = self._equal(left)
        elif self.is_next(*UNEQUAL):
            found = self._equal(left).turned()
        else:
            self._no_order()
            return left
        self._no_order()
        self._no_more(ONE_TEST)
        return found

    def _equal(self, left: Test) -> Test:
        """Whether a register or its bits are the next number."""
        token = self.next()
        number = self._number("=")
        if (left.number, left.is_turned) != (0, True):
            if not number:
                return left.turned()
            raise Refusal(self._last().place, "the result of a test can only be compared with 0")
        if left.mask is not None and number & ~left.mask and token is not None:
            raise Refusal(token.place, f"the bits {left.mask:#x} can never equal {number:#x}")
        return left._replace(number=number, is_turned=False)

    def _number(self, sign: str) -> int:
        """The number behind a sign. A `|` behind it would join more in C, and is refused."""
        token = self.next()
        if token is not None and re.fullmatch(REGISTER, token.text):
            message = "a register can only be compared with or masked by a number"
            raise Refusal(token.place, message)
        value = self.below_0()
        value = self.shifted() if value is None else value
        behind = self.next()
        if token is not None and behind is not None and behind.text == "|":
            what = f"(.. {sign} {shown(token.text)}) | .."
            message = f"in C, this means {what} (write {sign} ({shown(token.text)} | ..))"
            raise Refusal(behind.place, message)
        return value

    def _no_order(self) -> None:
        """Refuses signs of an order."""
        self._no_more("registers cannot be ordered (use = or !=)", ORDERED)
        self._no_more(ONE_TEST, JOINED)
