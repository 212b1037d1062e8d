"""Requests with typed arguments, responses and events."""
import dataclasses
import json
from typing import Any, Dict, List, Mapping, Optional, Type, TypeVar

Values = Dict[str, Any]
Kind = TypeVar("Kind")
# The most digits of a number, and characters of a string.
MOST_DIGITS = 1_000
MOST_TEXT = 65_536
KINDS = {str: "a string", int: "a number", bool: "true or false", dict: "an object", list: "a list"}


class Wrong(Exception):
    """A refused request, with the reason as a sentence for the user. Nothing has changed."""


class Unreadable(Exception):
    """Bytes that are not a message, or a message that is not a request, with its number and command
    if these can be read. Later messages can still be read."""

    def __init__(self, message: str, seq: int = 0, command: str = "") -> None:
        super().__init__(message)
        self.seq, self.command = seq, command


class Long:
    """Stands for a number of too many digits, which no argument accepts."""


def kind_of(value: Any) -> str:
    """Describes the type of a value."""
    if value is None or isinstance(value, bool):
        return {None: "null", True: "true", False: "false"}[value]
    if isinstance(value, float):
        return str(value)
    if isinstance(value, Long):
        return f"a number of more than {MOST_DIGITS} digits"
    return KINDS[type(value)]


def unlike(kind: type, value: Any) -> str:
    """Describes the expected and the actual type of a value."""
    whole = "a whole number" if kind is int and isinstance(value, float) else KINDS[kind]
    return f"{whole}, not {kind_of(value)}"


def clean(value: Any) -> Any:
    """Returns a value whose strings can be encoded as UTF-8."""
    if isinstance(value, str):
        return value.encode("utf-8", "replace").decode()
    if isinstance(value, list):
        return [clean(each) for each in value]
    if isinstance(value, dict):
        return {clean(key): clean(each) for key, each in value.items()}
    return value


class Arguments:
    """The arguments of a request. `null` counts as absent unless `not_null` refuses it."""

    def __init__(self, values: Mapping[str, Any], of: str) -> None:
        self._values, self._of = values, of

    def has(self, key: str) -> bool:
        """Whether an argument is present."""
        return self._values.get(key) is not None

    def _get(self, key: str, kind: Type[Kind], absent: Optional[Kind]) -> Kind:
        value = self._values.get(key)
        if value is None:
            if absent is None:
                raise Wrong(f"{self._of}: {key} is missing")
            return absent
        # (true and false are numbers to Python)
        if not isinstance(value, kind) or (kind is int and isinstance(value, bool)):
            raise Wrong(f"{self._of}: {key} must be {unlike(kind, value)}")
        return value

    def not_null(self, key: str, kind: type) -> None:
        """Raises `Wrong` if an argument is present and `null`."""
        if key in self._values and self._values[key] is None:
            raise Wrong(f"{self._of}: {key} must be {unlike(kind, None)}")

    def text(self, key: str, absent: Optional[str] = None) -> str:
        """Returns a string argument."""
        value = self._get(key, str, absent)
        if len(value) > MOST_TEXT:
            raise Wrong(f"{self._of}: {key} has more than {MOST_TEXT} characters")
        return value

    def number(self, key: str, absent: Optional[int] = None) -> int:
        """Returns a number argument."""
        return self._get(key, int, absent)

    def flag(self, key: str, absent: bool = False) -> bool:
        """Returns a boolean argument."""
        return self._get(key, bool, absent)

    def part(self, key: str) -> "Arguments":
        """Returns an object argument; an empty one if it is absent."""
        return Arguments(self._get(key, dict, {}), f"{self._of}.{key}")

    def parts(self, key: str) -> List["Arguments"]:
        """Returns a list of objects; an empty one if it is absent."""
        values = enumerate(self.all(key, dict, "objects"))
        return [Arguments(each, f"{self._of}.{key}[{at}]") for at, each in values]

    def all(self, key: str, kind: type = object, kinds: str = "") -> List[Any]:
        """Returns a list of elements of a type; an empty one if it is absent."""
        values = self._get(key, list, [])
        if not all(isinstance(each, kind) for each in values):
            raise Wrong(f"{self._of}: {key} must be a list of {kinds}")
        return values

    def texts(self, key: str) -> List[str]:
        """Returns a list of strings; an empty one if it is absent."""
        return self.all(key, str, "strings")


@dataclasses.dataclass(frozen=True)
class Request:
    """A request: its sequence number, command and arguments."""

    seq: int
    command: str
    arguments: Arguments


def whole(text: str) -> Any:
    """Parses a whole number, or returns `Long` if it has too many digits."""
    return int(text) if len(text) <= MOST_DIGITS else Long()


def read(body: bytes) -> Request:
    """Parses a request. Raises `Unreadable` if the message is not one."""
    try:
        # (NaN and infinities, which are not JSON, are refused by `int`)
        value = clean(json.loads(body.decode("utf-8"), parse_int=whole, parse_constant=int))
    except (ValueError, RecursionError):
        raise Unreadable("the message is not JSON") from None
    if not isinstance(value, dict):
        raise Unreadable("the message is not a JSON object")
    seq, command = value.get("seq"), value.get("command")
    is_number = isinstance(seq, int) and not isinstance(seq, bool)
    number: int = value["seq"] if is_number else 0
    name = command if isinstance(command, str) else ""
    if isinstance(seq, Long):
        raise Unreadable(f"the message cannot be read: its seq is {kind_of(seq)}", 0, name)
    if value.get("type") != "request":
        raise Unreadable("the message is not a request: its type must be 'request'", number, name)
    if not name or seq is None or number != seq:
        said = "a request needs a number as seq and a string as command"
        more = "" if is_number else f"; its seq must be {unlike(int, seq)}"
        raise Unreadable(said + more, number, name)
    arguments = {} if value.get("arguments") is None else value["arguments"]
    if not isinstance(arguments, dict):
        raise Unreadable(f"{name}: arguments must be an object", number, name)
    return Request(number, name, Arguments(arguments, name))


def event(name: str, body: Values) -> Values:
    """Returns an event."""
    return {"type": "event", "event": name, "body": body}


def done(request: Request, body: Optional[Values]) -> Values:
    """Returns the response to a successful request."""
    found: Values = {"type": "response", "request_seq": request.seq, "success": True}
    return {**found, "command": request.command, **({} if body is None else {"body": body})}


def failed(seq: int, command: str, why: str) -> Values:
    """Returns the response to a failed request, with a message for the user."""
    # (braces in a format are placeholders)
    error = {"id": 1, "format": why.replace("{", "(").replace("}", ")"), "showUser": True}
    found: Values = {"type": "response", "request_seq": seq, "success": False, "command": command}
    return {**found, "message": why, "body": {"error": error}}
