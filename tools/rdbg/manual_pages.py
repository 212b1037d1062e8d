"""The manual pages of the tools, rdbg-sh(1) and so on, made from what reads their command lines."""
import argparse
import os
import re
from typing import Iterator, List, Optional, Tuple

from rdbg import main, program_help
from rdbg.main import Entry
from rdbg.manual import Section, page, page_of, roff

# Words that only a checkout has.
OF_CHECKOUT = ("install", "uninstall", "prove")
# How the paragraph about exit statuses begins.
STATUS = "Exit status:"
# A line of a table in a help text: what may be written, and two spaces or more before its text.
ROW = re.compile(r" {2,6}(\S.*?)(?: {2,}(\S.*))?$")
# What a positional argument that may be missing, or repeated, looks like in a synopsis.
REPEATED = {"?": "[{}]", "*": "[{} ..]", "+": "{} ..", argparse.REMAINDER: "{} .."}


def words() -> List[str]:
    """The words that have a page of their own."""
    return sorted({*main.names(), *program_help.OF} - {*OF_CHECKOUT})


def page_of_tool(word: str, synopsis: str, sections: List[Section], version: str) -> str:
    """Puts a page together. The first section is the summary."""
    summary, *rest = sections
    source = f"rdbg {version}".strip()
    head = [f'.TH RDBG-{word.upper()} 1 "" "{source}" "User Commands"', ".SH NAME"]
    lines = [*head, f"rdbg\\-{word} \\- {roff(summary.text)}", ".SH SYNOPSIS"]
    lines += [f"\\fB{roff(synopsis)}\\fR", *map(page_of, rest), ".SH SEE ALSO"]
    return "\n".join([*lines, ".BR rdbg (1)"]) + "\n"


def placed(action: argparse.Action) -> str:
    """A positional argument in a synopsis."""
    name = str(action.metavar or action.dest.upper())
    return REPEATED.get(str(action.nargs), "{}").format(name)


def option(action: argparse.Action, text: str) -> Entry:
    """An option as an entry of its section."""
    value = "" if action.nargs == 0 else f" {action.metavar or action.dest.upper()}"
    return Entry(", ".join(action.option_strings) + value, text)


def page_of_parser(word: str, parser: argparse.ArgumentParser, version: str) -> str:
    """The page of a tool, from the parser of its command line."""
    actions = parser._actions  # pylint: disable=protected-access
    texts = [(it.help or "").replace("%%", "%") for it in actions]
    pairs: List[Tuple[argparse.Action, str]] = list(zip(actions, texts))
    arguments = [Entry(placed(it), text) for it, text in pairs if not it.option_strings]
    options = [option(it, text) for it, text in pairs if it.option_strings]
    named = " ".join(["[OPTIONS]", *(it.words for it in arguments)])
    sections = [
        Section("NAME", main.summary(word)),
        Section("ARGUMENTS", entries=tuple(arguments)),
        Section("OPTIONS", entries=tuple(options)),
        *sections_of_epilog(parser.epilog or ""),
    ]
    sections = [it for it in sections if it.text or it.entries]
    return page_of_tool(word, f"rdbg {word} {named}", sections, version)


def sections_of_epilog(text: str) -> Iterator[Section]:
    """Yields the sections of an epilog: its paragraphs, then its examples."""
    for block in text.split("\n\n"):
        first, *rest = block.split("\n")
        if rest:
            yield Section(
                first.rstrip(":").upper(), entries=tuple(Entry(it.strip(), "") for it in rest)
            )
        elif first.startswith(STATUS):
            yield Section("EXIT STATUS", first[len(STATUS) :].strip())
        else:
            yield Section("DESCRIPTION", first)


def rows_of(lines: List[str]) -> Tuple[Entry, ...]:
    """The entries of a table in a help text."""
    found: List[Entry] = []
    for line in lines:
        row = ROW.match(line)
        if row and len(line) - len(line.lstrip()) <= 6:
            found.append(Entry(row[1], row[2] or ""))
        elif found:
            last = found.pop()
            found.append(Entry(last.words, f"{last.text} {line.strip()}".strip()))
    return tuple(found)


def sections_of(text: str) -> Iterator[Section]:
    """The sections of a help text: each block is a table with a title, or a paragraph."""
    for block in text.split("\n\n"):
        first, *rest = block.split("\n")
        if rest and first.endswith(":") and rest[0].startswith("  "):
            yield Section(first[:-1].upper(), entries=rows_of(rest))
        else:
            yield Section("DESCRIPTION", " ".join(block.split()))


def page_of_help(word: str, text: str, version: str) -> str:
    """The page of a word that starts a program, from its help text."""
    summary, *rest = sections_of(text)
    usage = next(it for it in rest if it.text.startswith("Usage:"))
    others = [it for it in rest if it is not usage]
    synopsis = usage.text[len("Usage:") :].strip()
    return page_of_tool(word, synopsis, [summary, *others], version)


def write_all(folder: str, version: str) -> None:
    """Writes rdbg(1) and the page of each tool into a folder."""
    pages = {"rdbg": page(main.entries(), version)}
    for word in words():
        text: Optional[str] = program_help.OF.get(word)
        if text is None:
            parser: argparse.ArgumentParser = main.companion(word).parser()
            pages[f"rdbg-{word}"] = page_of_parser(word, parser, version)
        else:
            pages[f"rdbg-{word}"] = page_of_help(word, text, version)
    for name, content in pages.items():
        with open(os.path.join(folder, f"{name}.1"), "w", encoding="utf-8") as file:
            file.write(content)
