"""Texts that other people chose, such as file names, in a form that is safe to print."""


def printable(text: str) -> str:
    """Returns a text in which each character that does not print is escaped, as in `\\x1b`.

    So no text can control a terminal, reverse the direction of what follows, or begin a new line.
    Letters of all languages stay as they are."""
    if text.isprintable():
        return text
    return "".join(it if it.isprintable() else it.encode("unicode_escape").decode() for it in text)
