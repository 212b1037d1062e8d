"""What a crate's sources have, for the rules by which wrong bodies are made: its functions with
their bodies, the words of each kind, and the values that stand in them."""
import functools
import re

from functions import functions_of, homes_in
from spans import body_of, in_order, words_of

NUMBER, TEXT = re.compile(r"\d"), re.compile(r"b?[\"']")
CONSTANT = re.compile(r"[A-Z][A-Z0-9_]+$")
KEYWORDS = set("as break const continue crate else enum false fn for if impl in let loop".split())
KEYWORDS |= set("match mod move mut pub ref return static struct super true type unsafe".split())
KEYWORDS |= {"use", "where", "while"}
INTEGERS = {f"{sign}{bits}" for sign in "iu" for bits in (8, 16, 32, 64, 128, "size")}
TYPES = {*INTEGERS, "bool", "char", "str"}
# Values that any function may answer, whatever stands in its crate.
NOBODYS = ["true", "false", "0", "1", "None", "&[]", "&[][..]", '""', "Ok(())", "()", "{}"]
# Longer ones aren't put in the place of others.
LONGEST = 16


def kind_of(words, at):
    """What a word is: a method, a field, a function, .., or the type whose variant it is."""
    word, before, behind = words[at], words[at - 1 : at], words[at + 1 : at + 2]
    if (
        word == "_"
        or word in KEYWORDS
        or TEXT.match(word)
        or not (word[0].isalpha() or word[0] == "_")
    ):
        return None
    if behind == ["!"] and words[at + 2 : at + 3] in (["("], ["["], ["{"]):
        return None
    if word in TYPES and behind != ["::"]:
        return "type"
    if before == ["."]:
        return "method" if behind in (["("], ["::"]) else "field"
    if before == ["::"] and behind != ["::"]:
        of = words[at - 2]
        return f"of {of}" if of[0].isupper() else "constant" if CONSTANT.match(word) else "function"
    if CONSTANT.match(word):
        return "constant"
    if behind == ["::"] or word[0].isupper():
        return None
    return "function" if behind == ["("] else "variable"


def variants_of(text):
    """The enums that a source declares, with the names of their variants."""
    text = re.sub(r"//[^\n]*", "", text)
    for it in re.finditer(r"\benum\s+(\w+)[^{;]*\{(.*?)\n\}", text, re.DOTALL):
        inside = re.sub(r"\{[^{}]*\}|\([^()]*\)|#\[[^\]]*\]", "", it[2])
        yield it[1], re.findall(r"\b([A-Z]\w*)", inside)


DECLARED = re.compile(r"\bfn\s+(\w+)\s*(?:<[^(]*>)?\(\s*(&(?:'\w+ )?(?:mut )?self|self)?")


@functools.lru_cache(maxsize=None)
def declared_in(folder):
    """The words that the sources of a crate declare, by kind."""
    found = {}
    for file in sorted((folder / "src").rglob("*.rt")):
        text = file.read_text()
        for name, words in variants_of(text):
            found.setdefault(f"of {name}", []).extend(words)
        for it in DECLARED.finditer(text):
            found.setdefault("method" if it[2] else "function", []).append(it[1])
        found.setdefault("constant", []).extend(re.findall(r"\bconst\s+([A-Z]\w*)", text))
    return found


class Unmade(Exception):
    """Why a name names no body."""


class Crate:
    """A crate's functions, and the words and values that stand in them."""

    def __init__(self, name, texts, homes=(), below=()):
        self.name, self.texts, self.below = name, texts, below
        self.functions, self.bodies, self.sites = {}, {}, {}
        for file, text in texts.items():
            for it in functions_of(name, file, text, homes):
                if it.opens >= 0:
                    self.functions[it.path] = file, it

    def body(self, path):
        if path not in self.bodies:
            file, function = self.functions[path]
            self.bodies[path] = body_of(self.texts[file], function)
        return self.bodies[path]

    def head(self, path):
        """The words of a function before its clauses: its name and its parameters."""
        file, function = self.functions[path]
        first = len("".join(self.texts[file].splitlines(keepends=True)[: function.first]))
        head = self.texts[file][first : function.opens]
        return words_of(re.split(r"\s(?:requires|ensures|where)\b", head)[0])

    @functools.cached_property
    def words(self):
        """The words of each kind that stand in the crate's bodies, or are declared below."""
        found = {}
        for path in self.functions:
            words = self.body(path).words
            for at, word in enumerate(words):
                kind = "number" if NUMBER.match(word) else "text" if TEXT.match(word) else None
                kind = kind or kind_of(words, at)
                found.setdefault(kind, {})[word] = None
        for folder in self.below:
            for kind, words in declared_in(folder).items():
                found.setdefault(kind, {}).update(dict.fromkeys(words))
        return found

    @functools.cached_property
    def values(self):
        """The values that stand in the crate's bodies, each as its words, and those of nobody."""
        found = {tuple(words_of(it)) for it in NOBODYS}
        for path in self.functions:
            found.update(values_in(self.body(path)))
        for kind, words in self.words.items():
            if kind and kind.startswith("of "):
                found |= {(kind[3:], "::", word) for word in words}
            if kind in ("number", "text", "constant"):
                found |= {(word,) for word in words}
        return found

    @functools.cached_property
    def names(self):
        """The shortest name of each function that no other has, by path."""
        ends = {}
        for path in self.functions:
            parts = path.split("::")[1:]
            for at in range(len(parts)):
                ends.setdefault("::".join(parts[at:]), []).append(path)
        longest_first = sorted(ends.items(), key=lambda it: -len(it[0]))
        return {paths[0]: end for end, paths in longest_first if len(paths) == 1}

    def path_of(self, name):
        """The path of the function of that name."""
        found = [it for it in self.functions if f"::{it}".endswith(f"::{name}")]
        found = [it for it in found if it == f"{self.name}::{name}"] or found
        if len(found) != 1:
            raise Unmade(f"{len(found)} functions of {self.name} are named {name}")
        return found[0]

    def site(self, path):
        if path not in self.sites:
            self.sites[path] = Site(self, self.body(path), self.head(path))
        return self.sites[path]


def values_in(body):
    """The values of a body, each as its words, in their order."""
    spans = [it for it in in_order(body.values) if it.last - it.first <= LONGEST]
    return dict.fromkeys(tuple(body.text_of(it)) for it in spans)


class Site:
    """A function's body in its crate: what the rules look at."""

    def __init__(self, crate, body, head):
        self.crate, self.body, self.head, self.found = crate, body, head, {}

    @functools.cached_property
    def variables(self):
        words = [*self.head, *self.body.words]
        found = [it for at, it in enumerate(words) if kind_of(words, at) == "variable"]
        return list(dict.fromkeys([*found, "self"]))

    @functools.cached_property
    def values(self):
        names = [(name,) for name in self.variables]
        return [list(it) for it in dict.fromkeys([*values_in(self.body), *names])]

    @functools.cached_property
    def numbers(self):
        found = [word for word in self.body.words if NUMBER.match(word)]
        return list(dict.fromkeys(["1", "0", "2", *found]))

    def own(self, span):
        """The words that stand there."""
        return self.body.text_of(span)

    def is_value(self, words):
        """Whether they are a value that stands in the function or its crate, or one of nobody's."""
        return tuple(words) in self.crate.values or list(words) in self.values

    def places(self, rule):
        """Where the rule fits, in the order in which it stands."""
        if rule.name not in self.found:
            self.found[rule.name] = rule.places(self)
        return self.found[rule.name]


def crate_at(name, folder, below=()):
    """The crate of that name, whose sources stand in the folder."""
    files = sorted((folder / "src").rglob("*.rt"))
    texts = {str(file.relative_to(folder)): file.read_text() for file in files}
    return Crate(name, texts, homes_in(name, folder), (*below, folder))
