"""Reads the tables of the documents."""
import re
from typing import List, Set

from tests.paths import DOCS

CODE = re.compile(r"`([^`]+)`")


def section(page: str, title: str) -> str:
    """The text below a title of a page of docs/, up to the next of its rank."""
    text = (DOCS / page).read_text()
    return text.partition(f"\n## {title}\n")[2].partition("\n## ")[0]


def rows(text: str, head: str) -> List[List[str]]:
    """The rows of the first table with this head, as cells."""
    found = []
    for line in text.partition(f"\n{head}\n")[2].splitlines()[1:]:
        if not line.startswith("|"):
            break
        found.append([cell.strip() for cell in line.strip("|").split(" | ")])
    return found


def codes(cells: List[str]) -> Set[str]:
    """What stands in backticks in some cells."""
    return {code for cell in cells for code in CODE.findall(cell)}
