"""What a number is: digits of ASCII, and not too many of them.

`str.isdigit` is true of others, as of `\u00b2`, and `int` refuses a few thousand digits."""
from typing import Optional

# A number of a line has no more of them (docs/FORMATS.md).
LONGEST = 10
# So many seconds are no limit that anybody waits for.
MOST_SECONDS = 1e9
# More of them, without the zeros in front, are more than any number that is taken.
MOST_DIGITS = 20


def is_digits(text: str) -> bool:
    """Whether a text is digits alone, of ASCII, and one at the least."""
    return text.isascii() and text.isdigit()


def natural(text: str, most: int, least: int = 0) -> Optional[int]:
    """The number that digits write; none where a text is none, or isn't within limits."""
    if not is_digits(text) or len(text.lstrip("0")) > MOST_DIGITS:
        return None
    value = int(text.lstrip("0") or "0")
    return value if least <= value <= most else None


def number(text: str, most: int, least: int = 0) -> Optional[int]:
    """The same of a text of at most 10 digits."""
    return natural(text, most, least) if len(text) <= LONGEST else None


def seconds(text: str) -> Optional[float]:
    """The number of seconds that a text is, above 0; none where it is none."""
    try:
        value = float(text) if text.isascii() else 0.0
    except ValueError:
        return None
    return value if 0 < value < MOST_SECONDS else None
