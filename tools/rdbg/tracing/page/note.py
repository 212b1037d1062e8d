"""A note in Markdown as HTML: paragraphs, headings, code, lists. Everything else stands as it was
typed, and no character of it is a tag."""
import collections
import html
import re
from typing import Callable, Iterator, List, Sequence

FENCE = re.compile(r"\s{0,3}(```+|~~~+)")
HEADING = re.compile(r"(#{1,6})\s+(.*?)\s*#*")
ITEM = re.compile(r"(\s*)(?:([-*+])|(\d{1,9})[.)])\s+(.*)")
CODE = re.compile(r"(`+)(.+?)\1")
# The title of the page is above those of a note, and those of the parts of the page beside them.
LEAST_HEADING, MOST_HEADING = 2, 6
TAB = 4


def words_of(text: str) -> str:
    """Words, with code between backticks."""
    found, at = "", 0
    for code in CODE.finditer(text):
        found += html.escape(text[at : code.start()])
        found += f"<code>{html.escape(code[2].strip())}</code>"
        at = code.end()
    return found + html.escape(text[at:])


def element(tag: str, inner: str) -> str:
    """An element of HTML."""
    return f"<{tag}>{inner}</{tag}>"


def is_more(line: str) -> bool:
    """Whether a line is one more of a paragraph."""
    return bool(line) and not any(it.match(line) for it in (FENCE, HEADING, ITEM))


class Blocks:
    """The blocks of a text, from its lines, of which those are taken that are gone through."""

    def __init__(self, lines: Sequence[str]) -> None:
        self._left = collections.deque(line.expandtabs(TAB).rstrip() for line in lines)

    def all(self) -> Iterator[str]:
        """Each block as HTML."""
        while self._left:
            line = self._left[0]
            if not line:
                self._left.popleft()
            elif FENCE.match(line):
                yield self._fenced()
            elif HEADING.fullmatch(line):
                yield self._heading()
            elif ITEM.fullmatch(line):
                yield self._items()
            elif line.startswith(" " * TAB):
                code = self._take(lambda it: not it or it.startswith(" " * TAB))
                yield element("pre", html.escape("\n".join(it[TAB:] for it in code).rstrip()))
            else:
                yield element("p", self._words(self._left.popleft().strip()))

    def _take(self, goes_on: Callable[[str], bool]) -> List[str]:
        """The next lines, for as long as they go on."""
        found: List[str] = []
        while self._left and goes_on(self._left[0]):
            found.append(self._left.popleft())
        return found

    def _words(self, first: str) -> str:
        """What a line says with those that go on with it."""
        return words_of(" ".join([first, *map(str.strip, self._take(is_more))]))

    def _fenced(self) -> str:
        opened = FENCE.match(self._left.popleft())
        assert opened is not None
        fence = opened[1]
        is_code = lambda it: not it.strip().startswith(fence) or it.strip(fence[0] + " ") != ""
        code = self._take(is_code)
        if self._left:
            self._left.popleft()
        return element("pre", html.escape("\n".join(code)))

    def _heading(self) -> str:
        found = HEADING.fullmatch(self._left.popleft())
        assert found is not None
        level = min(MOST_HEADING, LEAST_HEADING - 1 + len(found[1]))
        return element(f"h{level}", words_of(found[2]))

    def _items(self) -> str:
        """A list, with the lists in its items."""
        first = ITEM.fullmatch(self._left[0])
        assert first is not None
        indent, tag = len(first[1]), "ul" if first[2] else "ol"
        items: List[str] = []
        while self._left:
            found = ITEM.fullmatch(self._left[0])
            if found is None or len(found[1]) < indent:
                break
            if len(found[1]) > indent + 1:
                items[-1] += self._items()
                continue
            if bool(found[2]) != (tag == "ul"):
                break
            self._left.popleft()
            items.append(self._words(found[4]))
        return element(tag, "".join(element("li", it) for it in items))


def as_html(text: str) -> str:
    """A note as HTML."""
    return "\n".join(Blocks(text.splitlines()).all())
