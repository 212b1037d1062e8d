"""Lines that begin with `#`: requests to the room, which it answers with notices."""
from typing import TYPE_CHECKING, Callable, Dict, Optional, Tuple

from rdbg.commands import is_count
from rdbg.rooms.seats import Refusal

if TYPE_CHECKING:
    from rdbg.rooms.room import Member, Room

# The most moves, or notices, that one request shows; also the default.
MOST = 20


def name(room: "Room", member: "Member", rest: str) -> str:
    """`# name NAME`."""
    room.rename_in_turn(member, rest)
    return f"you are {member.name}, session {member.session}"


def who(room: "Room", member: "Member", rest: str) -> str:
    """`# who`."""
    text = room.who()
    member.hear(f"# {text}")
    return text


def say(room: "Room", member: "Member", rest: str) -> str:
    """`# say TEXT`."""
    if not rest:
        raise Refusal("`# say TEXT` needs a text")
    return room.tell(f"{member.name} says: {rest}")


def to(room: "Room", member: "Member", rest: str) -> str:
    """`# to NAME: TEXT`."""
    name, _, text = rest.partition(" ")
    name, text = name.rstrip(":"), text.strip()
    if not text:
        raise Refusal("`# to NAME: TEXT` needs a name and a text")
    room.tell_one(member, name, text)
    return f"told {name}"


def count_of(rest: str, form: str) -> int:
    """Returns the COUNT of a request, or the default. Raises `Refusal` if it is out of range."""
    count = int(rest) if is_count(rest) else 0 if rest else MOST
    if not 0 < count <= MOST:
        raise Refusal(f"`# {form}`: COUNT must be 1 to {MOST}")
    return count


def moves(room: "Room", member: "Member", rest: str) -> Optional[str]:
    """`# moves [COUNT]`."""
    text = room.tell_moves(member, count_of(rest, "moves COUNT"))
    return text if member.doing is None else None  # (a tool asked, not its user)


def help_on(room: "Room", member: "Member", rest: str) -> str:
    """`# help`."""
    width = max(len(form) for form in FORMS)
    for form, (does, _) in FORMS.items():
        member.hear(f"# # {form.ljust(width)}  {does}")
    member.hear(
        "# all other lines are commands of rdbg, for example `step 0`, `tick` or `wheel take`"
    )
    return room.tell_place(member)


Do = Callable[["Room", "Member", str], Optional[str]]
# Each request with its description and its function.
FORMS: Dict[str, Tuple[str, Do]] = {
    "name NAME": ("change your name to NAME", name),
    "who": ("list who is here, away or idle, and who has the wheel", who),
    "say TEXT": ("say TEXT to everybody", say),
    "to NAME: TEXT": ("say TEXT to NAME only", to),
    "talk COUNT": (
        f"show the last COUNT notices to everybody (at most {MOST}, the default)",
        lambda room, member, rest: room.tell_talk(member, count_of(rest, "talk COUNT")),
    ),
    "moves COUNT": (f"show what the last COUNT moves did (at most {MOST}, the default)", moves),
    "wheel": ("ask for the wheel", lambda room, member, _: room.wheel_wanted(member)),
    "reload": (
        "reload the edited file and repeat the moves (needs the wheel)",
        lambda room, member, _: room.begin_reload(member),
    ),
    "help": ("show this list", help_on),
}
# Brackets that a tool sends around the lines that one typed command takes; not rate-limited.
AROUND: Dict[str, Do] = {
    "does": lambda room, member, text: room.begin(member, text),
    "did": lambda room, member, text: room.end(member, text),
}
DO: Dict[str, Do] = {**{form.split(" ")[0]: do for form, (_, do) in FORMS.items()}, **AROUND}
*OTHERS, LAST = (f"`# {form}`" for form in FORMS)
WORDS = f"{', '.join(OTHERS)} or {LAST}"


def do(room: "Room", member: "Member", line: str) -> Optional[str]:
    """Executes a request, or says why not. Returns the text for the talk, `None` for no row."""
    word, _, rest = line.strip()[1:].strip().partition(" ")
    try:
        found = DO.get(word)
        if found is None:
            raise Refusal(f"unknown request; a line that begins with # is {WORDS}")
        if word not in ("who", *AROUND):
            member.check_pace()
        return found(room, member, rest.strip())
    except Refusal as refusal:
        member.hear(f"# no: {refusal}")
        return f"no: {refusal}"
