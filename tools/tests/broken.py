"""Broken applications, made from those of examples/ and bench/: the same ones each time.

A file is broken once, or a few times, by edits that are picked by a seed: of its keys and values,
of the words of its instructions, and of its bytes. Some of them are still accepted."""
import json
import pathlib
import random
from typing import Any, Callable, Dict, Iterator, List, Tuple

from rdbg.instructions import FORM_OF, FORMS
from rdbg.operands import NAMED
from rdbg.shapes import FILE, Shape
from tests.paths import TOP

Pair = Tuple[str, Any]
WRONG: Tuple[Any, ...] = (
    None, True, False, -1, -0.0, 0, 1, 5, 33, 65, 257, 1025, 2049, 1.0, 2.5, 1e3, 4294967295,
    4294967296, 18446744073709551615, 18446744073709551616, "", "5", "q0", "Jobs", "a b", "jump 0",
    [], [1], ["q0"], [[]], [{}],
)  # fmt: skip
WORDS = (
    "", "0", "1", "7", "10", "255", "256", "257", "4294967295", "4294967296", "99999999999", "007",
    "-1", "+1", "0x10", "1u", "1.0", "r0", "r7", "r8", "R1", "max", "MAX", "portMAX_DELAY", "any",
    "all", "keep", "clear", "dec", "none", "bits", "inc", "set", "setif", "-", "--", "0a", "0A",
    "abc", "zz", "00" * 256, "00" * 257, "a_name_of_16_abc", "a_name_of_17_abcd", "1st", "_a",
    "a-b", "\u00e9", "a\tb", "jobs,", "//", "end", "jump", "jumpz", "recv", "send", "over", "gwait",
    "take", "xQueueReceive", "recieve", "q0", "s0", "b0", "m0", "g0", "t0", "jobs",
)  # fmt: skip
RIGHT = {
    "R": ("r0", "r1", "r7"),
    "N": ("0", "4294967295"),
    "V": ("0", "r3", "16777216"),
    "T": ("max", "0", "5", "r2"),
    "L": ("0", "1", "2"),
    "I": ("0", "0", "1"),
    "ROOM": ("1", "256"),
    "HEX": ("-", "0aFf"),
    "ACTION": ("none", "bits", "inc", "set", "setif"),
    "WISH": ("any", "all"),
    "CLR": ("keep", "clear"),
    "clear|dec": ("clear", "dec"),
}
SIGNS = "\"{}[],:0123456789-+.eE \n\t\r\\/'#;=abunrt\u00e9\u201c\ufeff\u0000\u001f\u007f"
BYTES = (b"\xff", b"\xc0\x80", b"\xed\xa0\x80", b"\xe2\x82", b"\x80", b"\xf4\x90\x80\x80")


class Pairs(List[Pair]):
    """The members of an object, in order; a key may stand twice."""


def sources() -> List[pathlib.Path]:
    """The applications that files are made from."""
    return sorted([*TOP.glob("examples/*.json"), *TOP.glob("bench/*.json")])


def to_text(value: Any) -> str:
    """A value as JSON."""
    if isinstance(value, Pairs):
        members = ", ".join(f"{json.dumps(key)}: {to_text(it)}" for key, it in value)
        return "{" + members + "}"
    if isinstance(value, list):
        return "[" + ", ".join(map(to_text, value)) + "]"
    return json.dumps(value)


def holders(value: Any) -> Iterator[Any]:
    """Each list and object in a value, itself first."""
    if isinstance(value, Pairs):
        yield value
        for _, each in value:
            yield from holders(each)
    elif isinstance(value, list):
        yield value
        for each in value:
            yield from holders(each)


def copy(value: Any) -> Any:
    """The same value, with lists and objects of its own."""
    if isinstance(value, Pairs):
        return Pairs((key, copy(each)) for key, each in value)
    return [copy(each) for each in value] if isinstance(value, list) else value


def objects(app: Any) -> List[Pairs]:
    """The objects of an application, itself the first."""
    return [it for it in holders(app) if isinstance(it, Pairs)]


def a_member(app: Any, choose: random.Random) -> Tuple[Pairs, int]:
    """A member of some object. Those of small objects come as often as those of the large."""
    held = choose.choice([it for it in objects(app) if it] or [Pairs([("a", 1)])])
    return held, choose.randrange(len(held))


def drop_key(app: Any, choose: random.Random) -> None:
    """A key is missing."""
    held, at = a_member(app, choose)
    del held[at]


def double_key(app: Any, choose: random.Random) -> None:
    """A key stands twice, with the same value or another."""
    held, at = a_member(app, choose)
    key, value = held[at]
    held.insert(choose.randrange(len(held) + 1), (key, copy(choose.choice([value, value, *WRONG]))))


def rename_key(app: Any, choose: random.Random) -> None:
    """A key has a slip in it, or is another's."""
    held, at = a_member(app, choose)
    key, value = held[at]
    cut = choose.randrange(len(key) + 1)
    names = (key[:cut] + key[cut + 1 :], key[:cut] + "x" + key[cut:], key.upper(), "", "size", "a")
    held[at] = (choose.choice(names), value)


def swap_keys(app: Any, choose: random.Random) -> None:
    """Keys stand in another order, or have each other's values."""
    held, at = a_member(app, choose)
    other = choose.randrange(len(held))
    if choose.random() < 0.5:
        held[at], held[other] = held[other], held[at]
    else:
        (key, value), (other_key, other_value) = held[at], held[other]
        held[at], held[other] = (key, other_value), (other_key, value)


def change_value(app: Any, choose: random.Random) -> None:
    """A value is of a wrong kind, or a number out of its limits, or on their edge."""
    held, at = a_member(app, choose)
    wrong = [Pairs(), Pairs([("name", "q0")]), *WRONG]
    held[at] = (held[at][0], copy(choose.choice(wrong)))


def change_items(app: Any, choose: random.Random) -> None:
    """An item of a list is dropped, doubled, moved or another; or a list is far too long."""
    lists = [it for it in holders(app) if not isinstance(it, Pairs) and it]
    if not lists:
        return
    held = choose.choice(lists)
    at, way = choose.randrange(len(held)), choose.randrange(6)
    if way == 0:
        del held[at]
    elif way == 1:
        held.insert(choose.randrange(len(held) + 1), copy(held[at]))
    elif way == 2:
        held.append(held.pop(at))
    elif way == 3:
        held[at] = copy(choose.choice(WRONG))
    elif way == 4:
        held += [copy(held[at]) for _ in range(choose.choice((31, 32, 255, 256)))]
    else:
        del held[:]


def scripts(app: Any) -> List[List[Any]]:
    """The scripts that can be read as such."""
    found = [value for held in objects(app) for key, value in held if key == "code"]
    return [it for it in found if isinstance(it, list) and any(isinstance(x, str) for x in it)]


def change_words(app: Any, choose: random.Random) -> None:
    """A word of an instruction is dropped, doubled, moved or another."""
    found = scripts(app)
    if not found:
        return
    code = choose.choice(found)
    at = choose.choice([at for at, it in enumerate(code) if isinstance(it, str)])
    words = code[at].split(" ")
    word, other = choose.randrange(len(words)), choose.randrange(len(words))
    way = choose.randrange(7)
    if way == 0:
        del words[word]
    elif way == 1:
        words.insert(other, words[word])
    elif way == 2:
        words[word], words[other] = words[other], words[word]
    elif way == 3:
        words.insert(other, choose.choice(WORDS))
    elif way == 4:
        letter = choose.randrange(len(words[word]) + 1)
        words[word] = words[word][:letter] + choose.choice("ab0_ ") + words[word][letter + 1 :]
    else:
        words[word] = choose.choice(WORDS)
    code[at] = " ".join(words)


def members(app: Any, key: str) -> List[Pairs]:
    """The objects of a list of the file."""
    lists = [value for name, value in app if name == key] if isinstance(app, Pairs) else []
    return [
        it for value in lists if isinstance(value, list) for it in value if isinstance(it, Pairs)
    ]


def names_of(app: Any) -> Dict[str, List[str]]:
    """The names of each kind, under its symbol."""
    found: Dict[str, List[str]] = {}
    for key in FILE.keys:
        if key.of is not None:
            texts = [dict(it).get("name") for it in members(app, key.name)]
            found[key.of.symbol] = [it for it in texts if isinstance(it, str)]
    return found


def change_instruction(app: Any, choose: random.Random) -> None:
    """An instruction is another, with operands that are mostly right."""
    found = scripts(app)
    if not found:
        return
    code, names, over = choose.choice(found), names_of(app), FORM_OF["over"]
    form = choose.choice((*FORMS, *[over] * 6))
    words = [form.word]
    for symbol in form.symbols:
        if symbol in NAMED and names[symbol] and choose.random() < 0.9:
            words.append(choose.choice(names[symbol]))
        else:
            right = RIGHT.get(symbol, WORDS) if choose.random() < 0.9 else WORDS
            words.append(choose.choice(right))
    code[choose.randrange(len(code))] = " ".join(words)


def change_number(app: Any, choose: random.Random) -> None:
    """A number is on the edge of its limits, or just beyond."""
    places: List[Tuple[Pairs, Shape]] = [(app, FILE)] if isinstance(app, Pairs) else []
    for key in FILE.keys:
        if key.of is not None:
            places += [(it, key.of) for it in members(app, key.name)]
    numbers = [(it, key) for it, shape in places for key in shape.keys if key.holds == "number"]
    if not numbers:
        return
    held, key = choose.choice(numbers)
    most = dict(held).get(key.most_key)
    mosts = (*key.most_by_profile, most if isinstance(most, int) else key.most)
    edge = choose.choice((key.least, key.most, *mosts))
    held[:] = [it for it in held if it[0] != key.name]
    held.append((key.name, edge + choose.choice((-1, 0, 0, 1))))


def change_names(app: Any, choose: random.Random) -> None:
    """A name is another: one that stands already, or none."""
    named = [it for it in objects(app) if any(key == "name" for key, _ in it)]
    if not named:
        return
    held = choose.choice(named)
    others = [value for it in named for key, value in it if key == "name"]
    made = choose.choice([*others, *WORDS])
    held[:] = [(key, made if key == "name" else value) for key, value in held]


EDITS: Tuple[Callable[[Any, random.Random], None], ...] = (
    drop_key, double_key, rename_key, swap_keys, change_value, change_number, change_number,
    change_items, change_names, change_words, change_words, change_instruction, change_instruction,
)  # fmt: skip


def break_text(text: str, choose: random.Random) -> bytes:
    """A text of which characters are dropped, put in or others, or that is cut off."""
    at, way = choose.randrange(len(text) + 1), choose.randrange(7)
    if way == 0:
        return text[:at].encode()
    if way == 1:
        return text.encode()[:at] + choose.choice(BYTES) + text.encode()[at:]
    if way == 2:
        return (text[:at] + text[at + 1 :]).encode()
    if way == 3:
        return (
            text[:at] + choose.choice(("\\u0041", "\\ud800", "\\x", "//", "1e999")) + text[at:]
        ).encode()
    sign = choose.choice(SIGNS)
    return (text[:at] + sign + text[at + (way > 4) :]).encode()


def files(count: int, seed: int = 47) -> Iterator[bytes]:
    """So many files, no two the same, and the same ones for the same seed. One in four is broken as
    a text, and one in six of the others has two or three edits."""
    choose = random.Random(seed)
    texts = [path.read_text() for path in sources()]
    trees = [json.loads(text, object_pairs_hook=Pairs) for text in texts]
    seen = {to_text(tree).encode() for tree in trees}
    made = 0
    while made < count:
        if made % 4 == 0:
            content = break_text(texts[made // 4 % len(texts)], choose)
        else:
            app = copy(choose.choice(trees))
            for _ in range(choose.choice((1,) * 10 + (2, 3))):
                choose.choice(EDITS)(app, choose)
            content = to_text(app).encode()
        if content not in seen:
            seen.add(content)
            made += 1
            yield content
