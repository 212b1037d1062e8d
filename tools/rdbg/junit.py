"""Reports in JUnit's XML, which build servers read: of cases that are tried, and of a search."""
from typing import Iterable, Sequence, Tuple
from xml.etree import ElementTree

from rdbg.printable import printable

# What a case that isn't as expected has in such a report, one of which that isn't known, and one
# that is as expected.
FAILURE, ERROR, AS_EXPECTED = "failure", "error", ""


def case(
    file: str, name: str, wrong: Tuple[str, str], lines: Sequence[str], **more: str
) -> ElementTree.Element:
    """A case of a file: what it has that isn't as expected, and why, the lines that are told of it,
    and more that is said of it. XML takes each character of them."""
    about = {"classname": printable(file), "name": printable(name), **more}
    made = ElementTree.Element("testcase", about)
    what, why = wrong
    if what != AS_EXPECTED:
        ElementTree.SubElement(made, what, {"message": printable(why)})
    if lines:
        ElementTree.SubElement(made, "system-out").text = "\n".join(map(printable, lines))
    return made


def with_notes(made: ElementTree.Element, notes: Iterable[str]) -> ElementTree.Element:
    """Adds notes to a case, as its `system-err`."""
    text = "\n".join(map(printable, notes))
    if text:
        ElementTree.SubElement(made, "system-err").text = text
    return made


def document(name: str, cases: Sequence[ElementTree.Element], **more: str) -> str:
    """The report on cases that belong together, with more that is said of them."""
    counted = {
        "tests": len(cases),
        "failures": sum(it.find(FAILURE) is not None for it in cases),
        "errors": sum(it.find(ERROR) is not None for it in cases),
    }
    numbers = {key: str(value) for key, value in counted.items()}
    whole = ElementTree.Element("testsuites", numbers)
    about = {"name": printable(name), **numbers, **more}
    ElementTree.SubElement(whole, "testsuite", about).extend(cases)
    text = ElementTree.tostring(whole, encoding="unicode")
    return f'<?xml version="1.0" encoding="utf-8"?>\n{text}\n'
