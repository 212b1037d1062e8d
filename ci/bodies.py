"""Makes wrong bodies of functions from the sources as they stand, by the rules of ci/rules.py, and
reads the lists of those that are planted.

A body's name is 'CRATE FUNCTION RULE PLACE WITH', as 'rd_ring ByteRing::set comparison 2 <=': at
the second place of the function at which the rule fits, this stands instead. FUNCTION is the end of
its path, as long as it takes for no other to have it, and in WITH `$` is what stands there. A list
is a table by tabs, crates/NAME/planted/by_rule.tsv, a row a body, which also says how what stands
there begins: where a place has come to have another number, the nearest where it stands is meant.
"""
import csv
import dataclasses
import functools
import hashlib
import itertools
import re

from crate_words import Unmade, crate_at
from repository import TOP, read_crates
from rules import BY_NAME, RULES
from spans import words_of, written

LIST = "by_rule.tsv"
HEAD = ["name", "function", "rule", "place", "was", "with", "known"]
SHOWN = 8


@dataclasses.dataclass(frozen=True)
class Row:
    """A body of a list: its name as a bug, by what rule it is made, and what is known of it."""

    name: str
    function: str
    rule: str
    place: int
    was: str
    given: str
    known: str

    def body(self, crate):
        return f"{crate} {self.function} {self.rule} {self.place} {self.given}".rstrip()


@dataclasses.dataclass(frozen=True)
class Made:
    """A wrong body: the function's path and file, what stands in its file from first to before last
    line instead, and the words of the whole body."""

    path: str
    file: str
    first: int
    last: int
    lines: list
    words: list


def begun(words):
    """How words begin, as a list shows it."""
    text = written(words[:SHOWN]) if len(words) <= SHOWN else written(words[: SHOWN - 1]) + " .."
    return re.sub(r"\s+", " ", text)


def shown(site, span):
    """How what stands at a place begins, or the statement behind it, where it is between two."""
    own, behind = site.own(span), site.body.words[span.first :]
    ends = (at for at, word in enumerate(behind) if word in (";", "{", "}"))
    return begun(own or behind[: next(ends, len(behind)) + 1])


def label_of(own, words):
    """How a list says what stands at a place: `$` is what stood there."""
    made, at = [], 0
    while at < len(words):
        is_own = bool(own) and words[at : at + len(own)] == own
        made.append("$" if is_own else words[at])
        at += len(own) if is_own else 1
    return written(made)


def words_of_label(own, label):
    return [it for word in words_of(label) for it in (own if word == "$" else [word])]


def label_made(rule, site, span, words):
    """The label by which the rule puts these words there, or nothing where it doesn't."""
    if rule.is_of_parts:
        found = rule.tries(site, span)
        return next((label for label, it in found.items() if it == words), None)
    is_made = rule.takes and words and rule.takes(site, span, words)
    if is_made or words in rule.tries(site, span):
        return label_of(site.own(span), words)
    return None


def equal_ends(one, other):
    """How many words two lists begin with that are equal, and how many they end with."""
    most = min(len(one), len(other))
    first = next((at for at in range(most) if one[at] != other[at]), most)
    last = next((at for at in range(most) if one[-1 - at] != other[-1 - at]), most)
    return first, last


def names_by(rule, crate, path, words):
    """The names by which the rule makes a body of a function, with how far each is from plain."""
    site = crate.site(path)
    old = site.body.words
    first, last = equal_ends(old, words)
    for place, span in enumerate(site.places(rule), 1):
        ends = len(words) - (len(old) - span.last)
        if span.first > first or len(old) - span.last > last or ends < span.first:
            continue
        label = label_made(rule, site, span, words[span.first : ends])
        if label is not None:
            row = Row("", crate.names[path], rule.name, place, shown(site, span), label, "refused")
            yield len(words_of(label)), span.first - span.last, place, row


def named(crate, path, words):
    """The plainest name of a body of a function, by the first rule that makes it, or none."""
    for rule in RULES:
        found = list(names_by(rule, crate, path, words))
        if found:
            return min(found, key=lambda it: it[:3])[3]
    return None


def place_of(site, row, rule):
    """The place that the row names, or the nearest at which what it says stands."""
    places = site.places(rule)
    if 0 < row.place <= len(places) and shown(site, places[row.place - 1]) == row.was:
        return places[row.place - 1]
    fits = [at for at, span in enumerate(places, 1) if shown(site, span) == row.was]
    if not fits:
        raise Unmade(f"{row.rule} {row.place}: nowhere in {row.function} stands '{row.was}'")
    return places[min(fits, key=lambda at: (abs(at - row.place), at)) - 1]


def words_made(site, row, rule, span):
    """The words that the row puts there."""
    if not rule.is_of_parts:
        return words_of_label(site.own(span), row.given)
    found = rule.tries(site, span)
    if row.given not in found:
        raise Unmade(f"{row.rule} {row.place}: '{row.given}' names no parts of '{row.was}'")
    return found[row.given]


def spliced(text, first, last, words):
    """The text with these words from first to before last, so that no two run into one."""
    middle, before, behind = written(words), text[:first], text[last:]
    if middle and (first == last or re.match(r"\w\w", before[-1:] + middle[:1])):
        middle = middle if first == last else f" {middle}"
    if middle and (first == last or re.match(r"\w\w", middle[-1:] + behind[:1])):
        middle += " "
    return before + middle + behind


def made(crate, row):
    """The body that the row names."""
    if row.rule not in BY_NAME:
        raise Unmade(f"there is no rule {row.rule}")
    path, rule = crate.path_of(row.function), BY_NAME[row.rule]
    file, function = crate.functions[path]
    site, text = crate.site(path), crate.texts[file]
    span = place_of(site, row, rule)
    words, old, begins = words_made(site, row, rule, span), site.body.words, function.opens + 1
    tokens = site.body.tokens
    first = begins + (tokens[span.first][1] if span.first < len(tokens) else 0)
    last = begins + tokens[span.last - 1][2] if span.last > span.first else first
    new = spliced(text, first, last, words)
    whole = old[: span.first] + words + old[span.last :]
    body = new[begins : function.closes + len(new) - len(text)]
    if whole == old:
        raise Unmade(f"{row.rule} {row.place}: it changes nothing")
    if words_of(body) != whole:
        raise Unmade(f"{row.rule} {row.place}: '{row.given}' runs into what stands beside it")
    line, behind = text.count("\n", 0, first), text.count("\n", 0, last) + 1
    ends = len(text.splitlines()) - behind
    lines = new.splitlines(keepends=True)
    return Made(path, file, line, behind, lines[line : len(lines) - ends], whole)


def is_body(name):
    """Whether it is the name of a body that a rule makes of a crate."""
    crate, function, rule, place, given = (name.split(" ", 4) + [""] * 5)[:5]
    try:
        path = crate_of(crate).path_of(function)
        site = crate_of(crate).site(path)
        was = shown(site, site.places(BY_NAME[rule])[int(place) - 1])
        return bool(made(crate_of(crate), Row("", function, rule, int(place), was, given, "")))
    except (Unmade, LookupError, ValueError):
        return False


# Bodies that no list has.


def fate(*words):
    """A number that hangs on the words alone."""
    return hashlib.sha256(" ".join(map(str, words)).encode()).hexdigest()


def in_turn(crate):
    """The places of all rules in the crate, each rule's in an order by chance that is always the
    same, and one of each rule after another."""
    places = {}
    for path in crate.functions:
        for rule in RULES:
            for place in range(1, len(crate.site(path).places(rule)) + 1):
                places.setdefault(rule.name, []).append((path, rule, place))
    for rule, found in places.items():
        found.sort(key=lambda it: fate(crate.name, it[0], rule, it[2]))
    rounds = itertools.zip_longest(*places.values())
    return [it for found in rounds for it in found if it]


def untried(crate, done):
    """Bodies that aren't among those of which the path and the words are given, one a place."""
    for path, rule, place in in_turn(crate):
        site = crate.site(path)
        span, old = site.places(rule)[place - 1], site.body.words
        tries = rule.tries(site, span)
        if not rule.is_of_parts:
            tries = {label_of(site.own(span), words): words for words in tries}
        for label in sorted(tries, key=lambda it: fate(path, rule.name, place, it)):
            whole = tuple(old[: span.first] + tries[label] + old[span.last :])
            if (path, whole) not in done and list(whole) != old:
                done.add((path, whole))
                was = shown(site, span)
                yield Row("", crate.names[path], rule.name, place, was, label, "")
                break


# Lists.


@functools.lru_cache(maxsize=None)
def crate_of(name):
    """A crate of the repository, as it stands."""
    below = [TOP / "crates" / it for it in read_crates()[name]]
    return crate_at(name, TOP / "crates" / name, tuple(below))


def list_of(name):
    return TOP / "crates" / name / "planted" / LIST


@functools.lru_cache(maxsize=None)
def rows_of(name):
    """The rows of a crate's list, by name."""
    file = list_of(name)
    return {row.name: row for row in rows_in(file)} if file.is_file() else {}


def rows_in(file):
    with file.open(newline="") as text:
        rows = list(csv.reader(text, delimiter="\t", quoting=csv.QUOTE_NONE))
    if rows[:1] != [HEAD]:
        raise SystemExit(f"{file}: its first line isn't '{' '.join(HEAD)}'")
    for at, row in enumerate(rows[1:], 2):
        if len(row) != len(HEAD) or not row[3].isdigit():
            raise SystemExit(f"{file}:{at}: it isn't a row of {len(HEAD)} columns")
    found = [Row(*row[:3], int(row[3]), *row[4:]) for row in rows[1:]]
    twice = [row.name for row in found if [it.name for it in found].count(row.name) > 1]
    if twice:
        raise SystemExit(f"{file}: {twice[0]} stands twice")
    return found


def line_of(row):
    return "\t".join(map(str, dataclasses.astuple(row))) + "\n"


def written_list(rows):
    """A list of these rows, by name."""
    return "\t".join(HEAD) + "\n" + "".join(map(line_of, sorted(rows, key=lambda it: it.name)))
