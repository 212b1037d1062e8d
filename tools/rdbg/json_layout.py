"""The JSON of an application, laid out to be read: an object a line, and a short script on one."""
import json
from typing import Any, Dict, List, Sequence, Tuple

from rdbg.application import Application, Named, Task
from rdbg.shapes import DEFAULTS, FILE, Shape
from rdbg.tree import MOST_BYTES

WIDTH = 112


def pairs(thing: Named, shape: Shape) -> List[Tuple[str, Any]]:
    """The keys of an object or a task with their values, in the documents' order."""
    if isinstance(thing, Task):
        code = [instruction.text for instruction in thing.code]
        return [("name", thing.name), ("priority", thing.priority), ("code", code)]
    members = [("members", thing.members)] if "members" in shape.names() else []
    return [("name", thing.name), *thing.numbers, *members]


def settings(app: Application) -> List[Tuple[str, int]]:
    """The keys of the file that are numbers, with those values that aren't there by themselves."""
    found = [(key.name, int(getattr(app, key.name))) for key in FILE.keys if key.of is None]
    return [(name, value) for name, value in found if DEFAULTS.get(name) != value]


def task_text(task: Task, shape: Shape) -> str:
    """A task: on one line where that is short, else with a line for each instruction."""
    found = dict(pairs(task, shape))
    line = json.dumps(found)
    if len(line) <= WIDTH - len("    ,"):
        return line
    head = json.dumps({**found, "code": []})
    code = ",\n".join(f"      {json.dumps(text)}" for text in found["code"])
    return f"{head[: -len(']}')]}\n{code}\n    ]}}"


def list_text(name: str, things: Sequence[str], is_short: bool) -> str:
    """A list: on one line where that is short, else with a line for each object."""
    line = f'  "{name}": [{", ".join(things)}]'
    if is_short and len(line) < WIDTH:
        return line
    return "\n".join([f'  "{name}": [', ",\n".join(f"    {it}" for it in things), "  ]"])


def json_of(app: Application) -> str:
    """The JSON of an application; on one line where rdbg would refuse it laid out, as too long."""
    parts = [f'  "{name}": {value}' for name, value in settings(app)]
    plain: Dict[str, Any] = dict(settings(app))
    for key in FILE.keys:
        things = getattr(app, key.name)
        if key.of is None or not things:
            continue
        plain[key.name] = [dict(pairs(it, key.of)) for it in things]
        if key.name == "tasks":
            parts.append(list_text(key.name, [task_text(it, key.of) for it in things], False))
        else:
            parts.append(list_text(key.name, list(map(json.dumps, plain[key.name])), True))
    laid_out = "{\n" + ",\n".join(parts) + "\n}\n"
    if len(laid_out) <= MOST_BYTES:
        return laid_out
    return json.dumps(plain, separators=(",", ":")) + "\n"
