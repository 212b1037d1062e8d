"""The table of what was measured, bench/results.tsv, and the tables that pages have of it.

A row is a measure: commit, machine, what, figure and unit, with a tab between. Where instructions
are counted the machine is the counter. Rows of one thing stand in the order in which they came.
"""
import dataclasses
import re

from plots import Line, plot
from repository import TOP

RESULTS = TOP / "bench/results.tsv"
HEAD = ("commit", "machine", "what", "figure", "unit")
COMMIT = re.compile(r"[0-9a-f]{7,10}")
BLOCK = re.compile(r"(<!-- figures: (\w+) -->\n).*?(<!-- end -->)", re.DOTALL)
# The counter, over few lines as it was done once, and over the program without proof.
COUNTED, SHORT, UNPROVED = "callgrind", "callgrind, 6000 lines", "callgrind, unproved"
APPS = ("turns", "exchange", "cores", "sixteen", "wide", "kernel")
RUNS = ("forward", "redo", "back", "until", "back until")
MOVED = ("turns", "exchange", "kernel")
# What whole searches are counted by.
MADE_OF = ("states", "moves")
# What the gate takes: what a page calls it, and the table; in which unit.
MINUTES = (
    ("`rt ci` from nothing, but for the search's crates", "rt ci", "processor minutes"),
    ("of these the proofs", "the proofs", "processor minutes"),
    ("the tests", "the tests", "processor minutes"),
    ("the must-fail edits", "the must-fail edits", "processor minutes"),
    ("the search's crates", "the crates of the search", "processor minutes"),
    ("`rt ci` from nothing, but for the search's crates", "rt ci", "minutes by the clock"),
    ("`ci/companions`", "ci/companions", "processor minutes"),
    ("`ci/refused`, with four of its seven runs", "ci/refused", "processor minutes"),
)


@dataclasses.dataclass(frozen=True)
class Measure:
    """A row of the table."""

    commit: str
    machine: str
    what: str
    figure: float
    unit: str


class Faulty(Exception):
    """A row that is none, or a figure that a page asks for and the table lacks."""


def read_measures(text):
    """The measures that a table says."""
    lines = text.splitlines()
    if not lines or tuple(lines[0].split("\t")) != HEAD:
        raise Faulty(f"bench/results.tsv:1: the first line is '{' '.join(HEAD)}'")
    measures = []
    for at, line in enumerate(lines[1:], 2):
        fields = line.split("\t")
        if len(fields) != len(HEAD) or not all(fields) or not COMMIT.fullmatch(fields[0]):
            raise Faulty(f"bench/results.tsv:{at}: no commit, machine, what, figure and unit")
        try:
            measures.append(Measure(*fields[:3], float(fields[3]), fields[4]))
        except ValueError:
            raise Faulty(f"bench/results.tsv:{at}: {fields[3]} is no figure") from None
    return measures


def all_of(measures, what, unit, machines=()):
    """The measures of a thing in a unit, by these machines where some are named."""
    return [
        it
        for it in measures
        if (it.what, it.unit) == (what, unit) and (not machines or it.machine in machines)
    ]


def last(measures, what, unit, machines=()):
    """The last measure of a thing."""
    found = all_of(measures, what, unit, machines)
    if not found:
        raise Faulty(f"bench/results.tsv says nothing of '{what}' in {unit}")
    return found[-1]


def spelled(figure):
    return f"{figure:,.0f}" if figure == int(figure) else f"{figure:,}"


def row(label, found):
    """A row of figures."""
    return [label, *(spelled(it.figure) for it in found)]


def table(head, rows):
    lines = [head, ["---"] * len(head), *rows]
    return "".join(f"| {' | '.join(line)} |\n" for line in lines)


def lines_table(measures):
    of = lambda counter: [last(measures, f"line {app}", "instructions", (counter,)) for app in APPS]
    rows = [row("proved", of(COUNTED)), row("without proof", of(UNPROVED))]
    return table(["instructions of a line", *APPS], rows)


def moves_table(measures):
    units = (
        ("instructions, without proof", "instructions", UNPROVED),
        ("million a second, fast", "million a second", "fast"),
    )
    rows = []
    for said, unit, machine in units:
        for run in RUNS:
            found = [last(measures, f"{run} {app}", unit, (machine,)) for app in MOVED]
            rows.append(row(f"`{run}`: {said}", found))
    return table(["a move", *MOVED], rows)


def kept_table(measures):
    wanted = [
        ("an entry with its receipt, at the least", "entry least", "bytes"),
        ("at the most", "entry most", "bytes"),
        ("a kept move of `turns`", "kept move turns", "bytes"),
        ("of `kernel`", "kept move kernel", "bytes"),
        ("the audit of 225,000 entries", "audit 225000", "ms"),
        ("of 900,000", "audit 900000", "ms"),
        ("a line where 1,000 entries are kept", "kept 1000 a line", "instructions"),
        ("where 900,000 are", "kept 900000 a line", "instructions"),
        ("peak of a million moves", "peak of a million moves", "MiB"),
        ("with `trim 20000` behind each 10,000", "peak of a million moves trimmed", "MiB"),
        ("a trim, for each record that it keeps", "trim", "instructions a record"),
    ]
    rows = []
    for said, what, unit in wanted:
        it = last(measures, what, unit)
        rows.append([said, f"{spelled(it.figure)} {unit}"])
    return table(["what is kept", "figure"], rows)


def sessions_table(measures):
    unit = "million lines a second"
    found = [last(measures, f"sessions {count}", unit) for count in (1, 4, 64)]
    return table([unit, "1 session", "4 sessions", "64 sessions"], [row("fast", found)])


def named(measures, pattern):
    """The first group of what matches, each once, in the table's order."""
    found = (re.fullmatch(pattern, it.what) for it in measures)
    return list(dict.fromkeys(it[1] for it in found if it))


def search_table(measures):
    """Of each application the search that kept the most states."""
    rows = []
    for app in named(measures, r"search (\w+) key"):
        kept = named(measures, rf"search {app} (\d+) moves")[-1]
        columns = (
            ("tasks", "tasks"),
            ("key", "bytes"),
            ("move", "instructions"),
            (f"{kept} states", "a second"),
            (f"{kept} moved", "a second"),
            (f"{kept} state", "bytes"),
        )
        cells = [spelled(last(measures, f"search {app} {it}", unit).figure) for it, unit in columns]
        rows.append([app, *cells[:3], f"{int(kept):,}", *cells[3:]])
    head = ["application", "tasks", "bytes of a key", "instructions of a move", "states kept"]
    head += ["states a second", "moves a second", "bytes of a state"]
    return table(head, rows)


def whole_table(measures):
    columns = ((" states", "states"), (" moves", "moves"), ("", "seconds"))
    rows = []
    for app in named(measures, r"whole (\w+) states"):
        cells = [spelled(last(measures, f"whole {app}{it}", unit).figure) for it, unit in columns]
        rows.append([app, *cells])
    return table(["application", "states", "moves between them", "seconds"], rows)


def miscounted(measures, counts):
    """What the table of whole searches says otherwise than these counts of states and moves."""
    for app in named(measures, r"whole (\w+) states"):
        said = tuple(int(last(measures, f"whole {app} {it}", it).figure) for it in MADE_OF)
        if said != counts.get(app):
            due = counts.get(app, "none that ci/reach counts")
            yield f"bench/results.tsv: whole {app}: {said} is said, {due} is due"


def spin_table(measures):
    columns = [("states", "states")]
    for who in ("spin", "rdreach"):
        columns += [(who, "seconds"), (f"{who} moves", "moves"), (f"{who} peak", "MiB")]
    rows = []
    for begin in named(measures, r"(within \w+ \d+) states"):
        cells = [spelled(last(measures, f"{begin} {it}", unit).figure) for it, unit in columns]
        _, app, most = begin.split()
        rows.append([app, most, *cells])
    head = ["application", "moves at the most", "states"]
    head += [f"{who}: {it}" for who in ("SPIN", "rdreach") for it in ("seconds", "moves", "MiB")]
    return table(head, rows)


def minutes_table(measures):
    rows = []
    for said, what, unit in MINUTES:
        it = last(measures, what, unit)
        rows.append([said, spelled(it.figure), unit, it.machine])
    return table(["what", "figure", "unit", "machine"], rows)


TABLES = {
    "lines": lines_table,
    "moves": moves_table,
    "kept": kept_table,
    "sessions": sessions_table,
    "search": search_table,
    "whole": whole_table,
    "spin": spin_table,
    "minutes": minutes_table,
}


def with_tables(text, measures):
    """A page, each of whose tables has what was measured."""
    for _, name, _ in BLOCK.findall(text):
        if name not in TABLES:
            raise Faulty(f"figures: there is no table {name}")
    return BLOCK.sub(lambda it: f"{it[1]}\n{TABLES[it[2]](measures)}\n{it[3]}", text)


def drawn(chosen, names):
    """The numbers of the commits of some measures, in order, and a line for each of these names
    (what is measured, what the plot calls it), over them."""
    commits = list(dict.fromkeys(it.commit for it in chosen))
    lines = []
    for what, name in names.items():
        points = {
            commits.index(it.commit): it.figure for it in chosen if what in (it.what, it.unit)
        }
        if points:
            lines.append(Line(name, sorted(points.items())))
    return [str(at) for at in range(1, len(commits) + 1)], lines


def speed_plot(measures):
    names = {f"line {app}": app for app in APPS}
    counters = (SHORT, COUNTED, UNPROVED)
    chosen = [it for what in names for it in all_of(measures, what, "instructions", counters)]
    commits, lines = drawn(sorted(chosen, key=measures.index), names)
    return plot("Instructions of a line, by application", commits, lines, 3000, 500)


def gate_plot(measures):
    names = {"processor minutes": "of processors", "minutes by the clock": "by the clock"}
    chosen = [it for it in measures if it.what == "rt ci"]
    return plot("Minutes of rt ci, all of it from nothing", *drawn(chosen, names), 150, 30)


PAGES = ("docs/SPEED.md", "docs/GATE.md")
PLOTS = {"docs/images/speed.svg": speed_plot, "docs/images/gate.svg": gate_plot}


def wanted(measures):
    """What each page and plot has to have, by its path."""
    pages = {page: with_tables((TOP / page).read_text(), measures) for page in PAGES}
    return {**pages, **{path: draw(measures) for path, draw in PLOTS.items()}}


def differing(measures):
    """The pages and plots that don't have what was measured."""
    return [
        path
        for path, text in wanted(measures).items()
        if not (TOP / path).is_file() or (TOP / path).read_text() != text
    ]
