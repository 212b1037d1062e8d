"""Finds the functions of a source, with their lines and their paths as a check prints them."""
import bisect
import dataclasses
import functools
import pathlib
import re

QUOTED = re.compile(
    r"""//[^\n]*|/\*.*?\*/|b?"(?:\\.|[^"\\])*"|b?'(?:\\[^']*|[^\\'\n])'""", re.DOTALL
)
CLAUSE = re.compile(r"(?:\b(?:requires|ensures)\b\*?(?:\s+\w+)?|\bghost\s+\w+\s*:)\s*$")
IMPL = re.compile(
    r"\bimpl\b(?:\s*<[^{]*?>(?=\s+\w))?\s+"
    r"(?:(?P<trait>[\w:]+)(?:<(?P<of>[\w:]+).*?)?\s+for\s+)?(?P<type>\w+)"
)


@dataclasses.dataclass
class Function:
    """A function from its first line to its last, counted from 0, whether it belongs to a trait:
    then no other may stand beside it, and the places of the braces of its body."""

    first: int
    last: int
    path: str
    is_of_trait: bool = False
    opens: int = -1
    closes: int = -1


@dataclasses.dataclass
class Block:
    """An open brace: the type of an impl and what it adds to paths, the function whose body it
    is, and whether it belongs to a clause."""

    type: str
    name: str
    function: object
    is_clause: bool
    is_of_trait: bool


def blanked(text):
    """The text with comments and quoted text replaced by spaces."""
    return QUOTED.sub(lambda found: re.sub(r"[^\n]", " ", found[0]), text)


def module_of(crate, file):
    parts = pathlib.PurePath(file).with_suffix("").parts[1:]
    return "::".join([crate, *(part for part in parts if part not in ("lib", "main", "mod"))])


@functools.lru_cache(maxsize=None)
def homes_in(crate, folder):
    """The module of each type of the crate: a part of its methods' paths, wherever they stand. As
    pairs, for functions_of."""
    homes = {}
    for file in sorted((folder / "src").rglob("*.rt")):
        for name in re.findall(r"\b(?:struct|enum)\s+(\w+)", blanked(file.read_text())):
            homes[name] = module_of(crate, file.relative_to(folder))
    return tuple(homes.items())


def named(header):
    """The type of an impl, if the header opens one, and what the block adds to paths: an impl is
    named by its type, its trait and what that is of, as FaultFromIoError for 'From<io::Error>'."""
    found = IMPL.search(header)
    if found:
        of = [word[:1].upper() + word[1:] for word in (found["of"] or "").split("::")]
        trait = (found["trait"] or "").rpartition("::")[2]
        return found["type"], "".join([found["type"], trait, *of])
    found = re.search(r"\b(?:mod|trait)\s+(\w+)", header)
    return "", found[1] if found else ""


def path_of(module, blocks, name, homes):
    around = [block for block in blocks if block.name]
    home = homes.get(around[-1].type, module) if around else module
    return "::".join([home, *(block.name for block in around), name])


@functools.lru_cache(maxsize=None)
def functions_of(crate, file, text, homes=()):
    """The functions of a source, outer ones before those that stand in them."""
    text, homes = blanked(text), dict(homes)
    ends = [at for at, char in enumerate(text) if char == "\n"]
    found, blocks, header, begun, brackets = [], [], 0, None, 0
    for at, char in enumerate(text):
        brackets += (char in "([") - (char in ")]")
        in_clause = bool(blocks) and blocks[-1].is_clause
        if char == "{":
            head = text[header:at]
            name = re.search(r"\bfn\s+(\w+)", head)
            if name and not begun:
                path = path_of(module_of(crate, file), blocks, name[1], homes)
                first = bisect.bisect_left(ends, header + name.start())
                begun = Function(first, 0, path, any(block.is_of_trait for block in blocks))
                found.append(begun)
            is_clause = in_clause or bool(CLAUSE.search(head))
            is_of_trait = bool(re.search(r"\btrait\b|\bimpl\b.*\bfor\b", head, re.DOTALL))
            function = None if is_clause else begun
            if function:
                function.opens = at
            blocks.append(Block(*named(head), function, is_clause, is_of_trait))
            begun = begun if is_clause else None
        elif char == "}" and blocks:
            function = blocks.pop().function
            if function:
                function.last, function.closes = bisect.bisect_left(ends, at), at
        elif char == ";" and not brackets and not in_clause:
            begun = None
        if char in "{}" or char == ";" and not brackets:
            header = at + 1
    return found
