"""The rules by which wrong bodies are made, in one table: at which places of a function each fits,
what it puts there by itself, and what it takes besides, where a name says so."""
import dataclasses
import re
import typing

from crate_words import CONSTANT, NOBODYS, NUMBER, TEXT, kind_of
from spans import ARITHMETIC, ASSIGNMENTS, COMPARISONS, Span, in_order, words_of

SUMS = ("+", "-", "*", "/", "%", "&", "|")
BOUNDS = ("saturating_sub", "saturating_add", "wrapping_add", "wrapping_sub", "min", "max")
# What may hang on a value, and what stands in the gap.
ADAPTERS = ["map(|_| {})", "and({})", "or({})", "filter(|_| {})", "unwrap_or({})"]
TAILS = "rev() skip(1) is_some() is_none() next() clone() copy() is_ok() is_err() len() as_slice()"
TAILS += " to_be_bytes() swap_bytes() reverse() is_empty() count() ok() get(1..).unwrap_or(&[])"
PARTS = ["..0", "1..", "..1", "..{}.len().saturating_sub(1)", "..{}.len() - 1", "..{}.len().min(1)"]
PARTS += ["..{}.len() / 2", "{}.len()..", "..{}.len() - {}.len().min(1)"]
METHODS = "first last min max len capacity push_front push_back pop_front pop_back to_be_bytes"
METHODS += " to_le_bytes saturating_add wrapping_add saturating_sub"
OF_TYPES = "from_le_bytes from_be_bytes MAX MIN"
WRAPPERS = ("Ok", "Err", "Some")
BEFORE_WHOLE = set("( , { } ; = => : if while return && || [ |".split())
BEHIND_WHOLE = set(") , } ; { && || ] =>".split())
ANSWERS = (*WRAPPERS, "None", "true", "false")


@dataclasses.dataclass(frozen=True)
class Rule:
    """A rule. What it tries is words, or, where it is one of parts, words by the label that says
    which parts."""

    name: str
    says: str
    places: typing.Callable
    tries: typing.Callable
    takes: typing.Callable = None
    is_of_parts: bool = False


# Single words.


def words_where(fits):
    def places(site):
        words = site.body.words
        return [Span(at, at + 1) for at in range(len(words)) if fits(words, at)]

    return places


def operators(among):
    def places(site):
        found = words_where(lambda words, at: words[at] in among)(site)
        return [span for span in found if site.body.is_spaced(span.first)]

    return places


def another(choices):
    """Each of the choices but what stands there."""

    def tries(site, span):
        own = site.own(span)
        return [[it] for it in dict.fromkeys(choices(site, span)) if [it] != own]

    return tries


def among(*words):
    return another(lambda _site, _span: words)


def near(site, span):
    """Numbers beside a number, and those of its function."""
    own = site.own(span)[0]
    digits = re.match(r"0x[\da-f_]+|[\d_]+", own)[0].replace("_", "")
    value = int(digits, 0) if digits.startswith("0x") else int(digits)
    return [str(it) for it in (value + 1, value - 1, value * 2) if it >= 0] + site.numbers


def is_number(_site, span, words):
    return len(words) == 1 and bool(NUMBER.match(words[0]) or CONSTANT.match(words[0]))


def is_text(_site, _span, words):
    return len(words) == 1 and bool(TEXT.match(words[0]))


def of_kind(site, span):
    """The words of its kind that stand in its function or its crate."""
    kind = kind_of(site.body.words, span.first)
    if kind == "variable":
        return site.variables + [*site.crate.words.get("constant", {})]
    found = [*site.crate.words.get(kind, {})]
    if kind == "method":
        found += METHODS.split()
    if kind == "constant":
        found += site.numbers
    return found + OF_TYPES.split() * kind.startswith("of ")


# Values.


def value_places(site):
    """All values, arguments, fields and arms, but for names of what is called, and `self` before
    what it has."""
    words = site.body.words
    parts = {part for _, parts in site.body.lists for part in parts}
    found = site.body.values | parts | {arm for _, arm in site.body.arms}
    behind = {it: "".join(words[it.last : it.last + 1]) for it in found}
    return in_order(
        it
        for it in found
        if (behind[it] != "(" or site.body.is_spaced(it.last))
        and (behind[it] != "." or site.own(it) != ["self"])
    )


def other_values(site, span):
    own = site.own(span)
    found = [words_of(it) for it in NOBODYS] + site.values
    return [it for it in found if it != own]


def is_other_value(site, span, words):
    return words != site.own(span) and (site.is_value(words) or is_wrapped(site, words))


def is_wrapped(site, words):
    """Whether it is a value in `Ok`, `Err` or `Some`."""
    wraps = words[:1] and words[0] in WRAPPERS and words[1:2] == ["("] and words[-1] == ")"
    return bool(wraps) and site.is_value(words[2:-1])


def is_small(site, words):
    return len(words) == 1 and bool(NUMBER.match(words[0])) or site.is_value(words)


def bounds(site, span):
    own = site.own(span)
    return [own + words_of(it) for it in ("+ 1", "- 1", *(f".{it}(1)" for it in BOUNDS))]


def is_bound(site, span, words, own=None):
    own = own or site.own(span)
    many, rest = len(own), words[len(own) :]
    if words[:many] == own and rest[:1] and rest[0] in SUMS and is_small(site, rest[1:]):
        return True
    front = words[:-many]
    if words[-many:] == own and front[-1:] and front[-1] in SUMS and is_small(site, front[:-1]):
        return True
    is_called = words[:many] == own and rest[:1] == ["."] and rest[1] in BOUNDS
    return is_called and rest[2:3] == ["("] and rest[-1] == ")" and is_small(site, rest[3:-1])


def with_tails(site, span):
    own = site.own(span)
    found = [f".{it}" for it in [*TAILS.split(), *(it.format("false") for it in ADAPTERS)]]
    return [own + words_of(it) for it in found + ["?", ".or(Ok(()))"]]


def is_adapted(site, span, words):
    own = site.own(span)
    rest = words[len(own) :]
    for template in ADAPTERS if words[: len(own)] == own else []:
        before, behind = (words_of(it) for it in f".{template}".split("{}"))
        if rest[: len(before)] == before and rest[-len(behind) :] == behind:
            held = rest[len(before) : -len(behind)]
            return is_small(site, held) or is_wrapped(site, held)
    return False


def in_parts(site, span, own=None):
    own = own or site.own(span)
    bare = own[1:] if own[0] == "&" else own
    found = []
    for part in PARTS:
        held = [
            it
            for word in words_of(part.replace("{}", "$"))
            for it in (bare if word == "$" else [word])
        ]
        found += [["&", *bare, "[", *held, "]"], [*bare, "[", *held, "]"]]
    return found


# Conditions.


def is_condition(site, words):
    """Whether the words compare a value with a small one, ask it something, or are one."""
    if words[:1] == ["!"]:
        return is_condition(site, words[1:])
    for at, word in enumerate(words):
        if word in COMPARISONS and site.is_value(words[:at]) and is_small(site, words[at + 1 :]):
            return True
    asks = words[-3:-2] and words[-3] in ("is_empty", "is_some", "is_none", "is_err", "is_ok")
    return site.is_value(words) or bool(asks) and site.is_value(words[:-4])


def with_more(site, span):
    own = site.own(span)
    return [own + ["&&", "false"], own + ["||", "true"]]


def is_with_more(site, span, words):
    own = site.own(span)
    for word in ("&&", "||"):
        if words[: len(own) + 1] == own + [word] and is_condition(site, words[len(own) + 1 :]):
            return True
        if words[-len(own) - 1 :] == [word] + own and is_condition(site, words[: -len(own) - 1]):
            return True
    return False


def turned(site, span):
    own = site.own(span)
    return [own[1:]] if own[0] == "!" else [["!", *own], ["!", "(", *own, ")"]]


def condition_places(site):
    """The values that are whole, or one side of `&&` or `||`."""
    words = ["{", *site.body.words, "}"]
    return [
        it
        for it in value_places(site)
        if words[it.first] in BEFORE_WHOLE and words[it.last + 1] in BEHIND_WHOLE
    ]


def binaries(site):
    return sorted(site.body.binaries, key=lambda it: (it[0].first, it[2].last, it[1]))


def side_places(site):
    return in_order({Span(one.first, other.last) for one, _, other in site.body.binaries})


def sides(site, span):
    for one, at, other in binaries(site):
        if (one.first, other.last) == (span.first, span.last):
            left, right = site.own(one), site.own(other)
            return {"left": left, "right": right, "exchanged": [*right, site.body.words[at], *left]}
    return {}


# Lists and fields.


def other_fields(site, span):
    own = site.own(span)
    found = ["0", "1", "None", "false", "true", *site.variables]
    return [own + [":", it] for it in found if [it] != own]


def is_other_field(site, span, words):
    own, given = site.own(span), words[2:]
    if words[:2] != own + [":"] or given == own:
        return False
    return is_other_value(site, span, given) or is_bound(site, span, given)


def list_places(site):
    return in_order({span for span, parts in site.body.lists if len(parts) > 1})


def parts_of(site, span):
    found = [parts for it, parts in site.body.lists if it == span and len(parts) > 1]
    return max(found, key=len)


def reordered(site, span):
    parts, words, found = parts_of(site, span), site.body.words, {}
    for at, one in enumerate(parts):
        for behind, other in enumerate(parts[at + 1 :], at + 2):
            before, after = words[span.first : one.first], words[other.last : span.last]
            between = words[one.last : other.first]
            made = before + site.own(other) + between + site.own(one) + after
            if made != site.own(span):
                found[f"{at + 1} {behind}"] = made
    return found


def relisted(site, span):
    """A list without one of its parts, or with one twice."""
    parts, words, found = parts_of(site, span), site.body.words, {}
    for at, part in enumerate(parts):
        is_last = at + 1 == len(parts)
        first = parts[at - 1].last if is_last else part.first
        last = span.last if is_last else parts[at + 1].first
        found[f"without {at + 1}"] = words[span.first : first] + words[last : span.last]
        twice = words[span.first : part.last] + [","] + words[part.first : span.last]
        found[f"twice {at + 1}"] = twice
    return found


# Statements.


def statement_places(site):
    return in_order(site.body.statements)


def other_statements(site, span):
    own = site.own(span)
    names = [it for it in dict.fromkeys(own) if it in site.variables and it != "self"]
    return [[], own + own, own + [";"], *(words_of(f"let _ = {name};") for name in names)]


def is_other_statement(site, span, words):
    """Whether it is the statement under a condition, one whose value is thrown away, or throws away
    what it used."""
    own = site.own(span)
    if words in (["let", "_", "=", *own], words_of("Ok(())")):
        return True
    if own[-1] == ";" and words[:1] == ["if"] and words[-len(own) - 2 :] == ["{", *own, "}"]:
        return is_condition(site, words[1 : -len(own) - 2])
    return is_spent(site, words)


def is_spent(site, words):
    if words[:3] != ["let", "_", "="] or words[-1] != ";" or ";" in words[:-1]:
        return False
    held = words[3:-1]
    if held[:1] == ["("] and held[-1:] == [")"]:
        return all(it in (*site.variables, ",") for it in held[1:-1])
    return site.is_value(held) or held[:1] == ["&"] and site.is_value(held[1:])


def before_places(site):
    return in_order({Span(it.first, it.first) for it in site.body.statements})


def early_returns(site, _span):
    answers = [it for it in site.values if it[0] in ANSWERS] + [[]]
    return [
        words_of(f"if {name} == 0 {{ return") + answer + [";", "}"]
        for name in site.variables
        for answer in answers
        if name != "self"
    ]


def new_names(site, _span):
    names = [it for it in site.variables if it != "self"]
    found = [f"let {it} = {it}.saturating_sub(1);" for it in names]
    found += [f"let {it} = {other};" for it in names for other in names if it != other]
    return [words_of(it) for it in found]


def other_calls(site, _span):
    return [it + [";"] for it in site.values if it[-1] in (")", "?")]


def is_answer(site, words):
    return not words or site.is_value(words) or is_wrapped(site, words)


def is_return(site, _span, words):
    """Whether it is 'if CONDITION { return VALUE; }', or 'return VALUE;'."""
    if words[:1] == ["return"] and words[-1] == ";":
        return is_answer(site, words[1:-1])
    if words[:1] != ["if"] or words[-2:] != [";", "}"] or "{" not in words:
        return False
    opens = words.index("{")
    is_early = words[opens + 1] == "return" and is_answer(site, words[opens + 2 : -2])
    return is_early and is_condition(site, words[1:opens])


def is_rebound(site, _span, words):
    """Whether it is 'let NAME = VALUE;', where the function has the name."""
    if words[:1] != ["let"] or words[-1] != ";" or ";" in words[:-1] or words[2] != "=":
        return False
    own, given = [words[1]], words[3:-1]
    is_near = is_small(site, given) or is_bound(site, None, given, own)
    return own[0] in site.variables and (is_near or given in in_parts(site, None, own))


def is_call(site, _span, words):
    """Whether it is a statement of a value that stands in the function or the crate."""
    if words[-1:] != [";"] or words.count(";") > 1 or words[0] == "let":
        return False
    value = words[:-2] if words[-2:-1] == ["?"] else words[:-1]
    return site.is_value(value)


RULES = [
    Rule("comparison", "another comparison", operators(COMPARISONS), among(*sorted(COMPARISONS))),
    Rule("connective", "`&&` for `||` and back", operators({"&&", "||"}), among("&&", "||")),
    Rule("arithmetic", "another operator", operators(ARITHMETIC), among(*sorted(ARITHMETIC))),
    Rule("assignment", "another assignment", operators(ASSIGNMENTS), among(*sorted(ASSIGNMENTS))),
    Rule(
        "truth",
        "the other truth",
        words_where(lambda words, at: words[at] in ("true", "false")),
        among("true", "false"),
    ),
    Rule(
        "number",
        "another number, or a constant",
        words_where(lambda words, at: NUMBER.match(words[at])),
        another(near),
        is_number,
    ),
    Rule(
        "text",
        "another text",
        words_where(lambda words, at: TEXT.match(words[at])),
        another(lambda site, _span: site.crate.words["text"]),
        is_text,
    ),
    Rule("word", "another word of its kind", words_where(kind_of), another(of_kind)),
    Rule("operand", "another value", value_places, other_values, is_other_value),
    Rule("bound", "a value by one, or by as much as is said", value_places, bounds, is_bound),
    Rule("part", "a part of a list", value_places, in_parts),
    Rule("tail", "a call behind a value", value_places, with_tails, is_adapted),
    Rule("more", "a condition more", condition_places, with_more, is_with_more),
    Rule("turned", "a condition turned round", condition_places, turned),
    Rule("side", "one side of an operator, or both exchanged", side_places, sides, None, True),
    Rule(
        "field",
        "a field that isn't what its name says",
        lambda site: in_order(site.body.shorthands),
        other_fields,
        is_other_field,
    ),
    Rule("order", "two arguments exchanged", list_places, reordered, None, True),
    Rule("list", "an argument less, or one twice", list_places, relisted, None, True),
    Rule(
        "statement",
        "none, twice, under a condition, or without its effect",
        statement_places,
        other_statements,
        is_other_statement,
    ),
    Rule("return", "an early return", before_places, early_returns, is_return),
    Rule("name", "a name given anew", before_places, new_names, is_rebound),
    Rule("call", "a call that stands elsewhere", before_places, other_calls, is_call),
]
BY_NAME = {rule.name: rule for rule in RULES}
