"""Tries the rules by which wrong bodies are made on a small source: from each name comes the body
that it must be, and from that body the name; a place that has another number is found, and a name
that fits nowhere is refused."""
import dataclasses

from bodies import Row, label_made, made, named, shown, untried
from crate_words import Crate, Unmade
from rules import BY_NAME, RULES
from spans import words_of

SOURCE = """
/// Which.
pub enum End {
    Front,
    Back,
}

impl List {
    /// Takes some of the bytes.
    pub fn take(&mut self, count: usize, low: usize, bytes: &[u8]) -> Result<Taken, Full>
        requires { count < low }
        ensures some { result ≡ taken (λ a. a < 1) }
    {
        if count < self.room && !self.is_full() {
            self.clear();
        }
        self.start += low - 1;
        self.name = "list";
        match self.end {
            End::Front => self.put(count, low, false),
            _ => Ok(Taken { count, end: End::Back, bytes: bytes.len() }),
        }
    }

    fn clear(&mut self) {
        self.len = 0;
        let title = "none";
    }
}
"""
# Rule, place, what stands there, what is said to stand there instead; and of the body, what this
# changes into what.
CASES = [
    ("comparison", 1, "<", "<=", "count < self", "count <= self"),
    ("connective", 1, "&&", "||", "&&", "||"),
    ("arithmetic", 1, "-", "+", "low - 1", "low + 1"),
    ("assignment", 1, "+=", "=", "+= low", "= low"),
    ("truth", 1, "false", "true", "false", "true"),
    ("number", 1, "1", "2", "- 1", "- 2"),
    ("text", 1, '"list"', '"none"', '"list"', '"none"'),
    ("word", 3, "room", "start", "self.room", "self.start"),
    ("word", 15, "Front", "Back", "End::Front", "End::Back"),
    ("operand", 4, "self.room", "low", "count < self.room", "count < low"),
    ("bound", 10, "low - 1", "$ + 1", "low - 1", "low - 1 + 1"),
    ("part", 23, "bytes", "&$[..0]", "bytes.len()", "&bytes[..0].len()"),
    ("tail", 16, "self.put(count, low ..", "$.or(Ok(()))", "false)", "false).or(Ok(()))"),
    ("more", 1, "count < self.room", "$ && low > 1", "room &&", "room && low > 1 &&"),
    ("turned", 3, "!self.is_full()", "self.is_full()", "!self.is_full", "self.is_full"),
    ("side", 2, "count < self.room && ! ..", "right", "count < self.room && ", ""),
    ("field", 1, "count", "$: low", "{ count,", "{ count: low,"),
    ("order", 1, "count, low, false", "1 2", "count, low", "low, count"),
    ("list", 1, "count, low, false", "without 3", "low, false", "low"),
    ("list", 1, "count, low, false", "twice 1", "put(count,", "put(count, count,"),
    (
        "statement",
        2,
        "self.clear();",
        "if low == 0 { $ }",
        "self.clear();",
        "if low == 0 { self.clear(); }",
    ),
    ("statement", 3, "self.start += low - 1;", "", "self.start += low - 1;", ""),
    (
        "statement",
        4,
        'self.name = "list";',
        "let _ = count;",
        'self.name = "list"',
        "let _ = count",
    ),
    (
        "return",
        4,
        'self.name = "list";',
        "if count == 0 { return None; }",
        "self.name",
        "if count == 0 { return None; } self.name",
    ),
    (
        "name",
        3,
        "self.start += low - 1;",
        "let low = count;",
        "self.start",
        "let low = count; self.start",
    ),
    (
        "call",
        3,
        "self.start += low - 1;",
        "self.clear();",
        "self.start",
        "self.clear(); self.start",
    ),
]
UNMADE = [
    Row("gone", "List::take", "comparison", 1, ">", "<", ""),
    Row("no_rule", "List::take", "guess", 1, "<", ">", ""),
    Row("no_function", "List::give", "comparison", 1, "<", ">", ""),
    Row("no_change", "List::take", "comparison", 1, "<", "<", ""),
    Row("no_parts", "List::take", "order", 1, "count, low, false", "1 9", ""),
]


def faults_of(crate, case):
    """What is wrong with what a rule makes."""
    rule, place, was, given, old, new = case
    row, path = Row("", "take", rule, place, was, given, "refused"), crate.path_of("take")
    body, site = crate.body(path), crate.site(path)
    whole = words_of(body.text.replace(old, new, 1))
    try:
        words = made(crate, row).words
        moved = made(crate, dataclasses.replace(row, place=place + 1)).words
    except Unmade as error:
        return [f"{rule}: {error}"]
    if words != whole or words == body.words:
        return [f"{rule}: it makes {' '.join(words)}"]
    places = site.places(BY_NAME[rule])
    if moved != whole and [shown(site, at) for at in places].count(was) == 1:
        return [f"{rule}: a place that has another number isn't found"]
    span, found = places[place - 1], named(crate, path, words)
    own = words[span.first : len(words) - (len(body.words) - span.last)]
    label = label_made(BY_NAME[rule], site, span, own)
    if label != given or not found or made(crate, found).words != words:
        return [f"{rule}: the body is named {found} and {label}"]
    return []


def is_unmade(crate, row):
    try:
        made(crate, row)
    except Unmade:
        return True
    return False


def faults():
    """What is wrong with the rules, one thing a line."""
    crate = Crate("small", {"src/lib.rt": SOURCE})
    found = [fault for case in CASES for fault in faults_of(crate, case)]
    found += [
        f"{rule.name} ({rule.says}) isn't tried"
        for rule in RULES
        if rule.name not in {it[0] for it in CASES}
    ]
    found += [f"{row.name} is made" for row in UNMADE if not is_unmade(crate, row)]
    rows = list(untried(crate, set()))
    bodies = {(row.function, tuple(made(crate, row).words)) for row in rows}
    tried = {row.rule for row in rows}
    found += [f"{rule.name} makes nothing by itself" for rule in RULES if rule.name not in tried]
    if len(bodies) != len(rows) or rows != list(untried(crate, set())):
        found.append("bodies that no list has are made twice, or others each time")
    return found
