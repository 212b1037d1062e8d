"""The text of `rdbg --help` and the page rdbg(1), both made from one source."""
import textwrap
from typing import Iterator, NamedTuple, Sequence, Tuple

from rdbg.main import Entry
from rdbg.wording import rows

WIDTH = 79


class Section(NamedTuple):
    """A part of the manual: a text, then entries. The help leaves out those that are not brief."""

    title: str
    text: str = ""
    entries: Tuple[Entry, ...] = ()
    is_brief: bool = True


def entries(table: str) -> Tuple[Entry, ...]:
    """The entries of a table."""
    return tuple(Entry(words, text) for words, text in rows(table))


ABOUT = "a reverse debugger and model checker for FreeRTOS message passing"
OPTIONS = entries(
    """
--app FILE | model in JSON; run has a built-in model as default
--port PORT | serve: TCP port of 127.0.0.1, 1 to 65535
--sessions COUNT | serve: number of sessions, 1 to 64
--moves COUNT | maximum number of moves, 1 to 1000000 [default: 100000]
--history COUNT | maximum number of history entries, 2 to 1000000 [default: 100000]
-h, --help | print help
"""
)
# The groups of companions in the help.
GROUPS = {
    "DEBUG": ("sh", "trace", "room", "dap"),
    "ANALYSE": ("reach", "hunt", "join", "test"),
    "MODELS": ("check", "make"),
}
# The commands of the program.
STARTS = entries(
    """
rdbg run [OPTIONS] | Execute commands from standard input
rdbg serve --app FILE --port PORT --sessions COUNT [OPTIONS]
  | Execute commands from TCP sessions
"""
)
OTHERS = entries(
    """
rdbg help WORD | Show help for a command
rdbg --version | Show the version, the commit, the kit, and whether the program is proved
rdbg install PREFIX
  | Install below PREFIX (in a checkout)
rdbg uninstall PREFIX
  | Remove what install put below PREFIX (in a checkout)
rdbg prove
  | Prove and build the programs (in a checkout; takes half an hour or more). Until then, the
  other commands run the unproved build
rdbg --build
  | Print the path of the program, and build it if necessary (in a checkout); with rdreach, the
  path of the search program
rdbg --proved .., rdbg --unproved ..
  | Run the proved build, or refuse if there is none; run the unproved build
"""
)
STATUSES = entries(
    """
0 | the session ended, or help was shown
1 | the model was refused, memory ran out, or the port is not available
2 | the command line is wrong, or (companions) a file or a port is not available
"""
)
ENVIRONMENT = entries(
    """
RDBG_PROGRAM | program to run instead of the one that was built
RDBG_REACH | search program to run instead of the one that was built, for reach, hunt and sh
RDBG_HISTORY | file in which rdbg sh keeps its command history
RDBG_TOKEN | token of a room that requires one, for sh and dap with a name
"""
)
PAGES = entries(
    """
README.md | list of all pages: tutorials, guides, reference and explanation
tutorials/first-fault.md | from C to a first fault, its cause and its fix
guides/questions.md | which goal to ask for, and what to do if the answer is full
guides/from-c.md | how to write a model of C code
reference/calls.md | every line and every call of a model
reference/goals.md | every atom of a goal
COMMANDS.md, FORMATS.md | commands, refusals, files, replies and limits
SECURITY.md | which users may connect to a port, and which files are written
MODEL.md, PROMISES.md | the rules of the kernel, and what is proved
"""
)
DESCRIPTION = (
    "rdbg runs a model of a multicore FreeRTOS application, whose tasks are short scripts of kernel"
    " calls, forwards and backwards, one move at a time. The program reads one command per line and"
    " answers with one line. The companions are tools that use the program through these lines."
)


def synopsis(companions: Sequence[Entry]) -> Tuple[Entry, ...]:
    """Each way to call rdbg."""
    return (*STARTS, *(Entry(f"rdbg {it.words} ..", it.text) for it in companions), *OTHERS)


def grouped(companions: Sequence[Entry]) -> Iterator[Section]:
    """Yields the groups of commands; a companion without a group is one of the others."""
    by_name = {it.words: Entry(f"rdbg {it.words} ..", it.text) for it in companions}
    for title, names in GROUPS.items():
        yield Section(title, entries=tuple(by_name.pop(it) for it in names if it in by_name))
    yield Section("PROTOCOL", "For scripts and other tools:", STARTS)
    yield Section("OTHER", entries=(*by_name.values(), *OTHERS))


def sections(companions: Sequence[Entry]) -> Tuple[Section, ...]:
    """The sections of the manual, with these companions."""
    return (
        Section("DESCRIPTION", DESCRIPTION, is_brief=False),
        *grouped(companions),
        Section("OPTIONS", "For run and serve:", OPTIONS),
        Section("EXIT STATUS", entries=STATUSES, is_brief=False),
        Section("ENVIRONMENT", entries=ENVIRONMENT, is_brief=False),
        Section("PAGES", "In docs, in a checkout or below PREFIX/share/rdbg:", PAGES),
    )


def help_of(section: Section) -> str:
    """A section as lines for a terminal."""
    indent, hang = " " * 2, " " * 22
    lines = [f"{section.title.capitalize()}:"]
    if section.text:
        lines += textwrap.wrap(section.text, WIDTH, initial_indent=indent, subsequent_indent=indent)
    for entry in section.entries:
        words = f"{indent}{entry.words}"
        is_short = len(words) < len(hang) - 1
        first = words.ljust(len(hang)) if is_short else hang
        lines += [] if is_short else [words]
        lines += textwrap.wrap(entry.text, WIDTH, initial_indent=first, subsequent_indent=hang)
    return "\n".join(lines)


def help_text(companions: Sequence[Entry]) -> str:
    """Returns the text of `rdbg --help`."""
    brief = [help_of(section) for section in sections(companions) if section.is_brief]
    usage = "Usage: rdbg <COMMAND> [OPTIONS]"
    new = "Run `rdbg help COMMAND` for details. New here? See docs/tutorials/first-fault.md."
    return "\n\n".join([f"rdbg: {ABOUT}", usage, *brief, new])


def roff(text: str) -> str:
    """Escapes a text for roff."""
    escaped = text.replace("\\", "\\e").replace("-", "\\-")
    return f"\\&{escaped}" if escaped[:1] in ".'" else escaped


def page_of(section: Section) -> str:
    """A section of the page."""
    lines = [f".SH {section.title}"]
    if section.text:
        lines.append(roff(section.text))
    for entry in section.entries:
        lines += [".TP", f"\\fB{roff(entry.words)}\\fR", roff(entry.text)]
    return "\n".join(lines)


def page(companions: Sequence[Entry], version: str = "") -> str:
    """The page rdbg(1) of a version, as roff."""
    source = f"rdbg {version}".strip()
    head = [f'.TH RDBG 1 "" "{source}" "User Commands"', ".SH NAME", f"rdbg \\- {ABOUT}"]
    ways = "\n.br\n".join(f"\\fB{roff(it.words)}\\fR" for it in synopsis(companions))
    return "\n".join([*head, ".SH SYNOPSIS", ways, *map(page_of, sections(companions))])
