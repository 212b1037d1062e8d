"""What a file of Chrome trace events has to keep: fields, nesting and flows."""
from typing import Any, Dict, Iterator, List, Tuple

Event = Dict[str, Any]
# The fields of each sort of event, with what they hold.
FIELDS: Dict[str, Dict[str, type]] = {
    "M": {"name": str, "pid": int, "tid": int, "args": dict},
    "X": {"name": str, "pid": int, "tid": int, "ts": int, "dur": int},
    "C": {"name": str, "pid": int, "ts": int, "args": dict},
    "i": {"name": str, "pid": int, "tid": int, "ts": int, "s": str},
    "s": {"name": str, "cat": str, "id": int, "pid": int, "tid": int, "ts": int},
    "f": {"name": str, "cat": str, "id": int, "pid": int, "tid": int, "ts": int, "bp": str},
}


def faults(file: Dict[str, Any]) -> List[str]:
    """What a file doesn't keep."""
    events: List[Event] = file["traceEvents"]
    wrong = [f"fields: {it}" for it in events if not has_fields(it)]
    return wrong or [*nesting(events), *flows(events), *names(events)]


def has_fields(event: Event) -> bool:
    """Whether an event has the fields of its sort, and times that are none below 0."""
    fields = FIELDS.get(str(event.get("ph")), {"": str})
    times = (event.get("ts", 0), event.get("dur", 0))
    return all(isinstance(event.get(key), kind) for key, kind in fields.items()) and min(times) >= 0


def slices(events: List[Event]) -> Dict[Tuple[int, int], List[Event]]:
    """The slices of each track, an outer one before those in it."""
    found: Dict[Tuple[int, int], List[Event]] = {}
    for it in events:
        if it["ph"] == "X":
            found.setdefault((it["pid"], it["tid"]), []).append(it)
    for track in found.values():
        track.sort(key=lambda it: (it["ts"], -it["dur"]))
    return found


def nesting(events: List[Event]) -> Iterator[str]:
    """The slices that are in another of their track in part."""
    for track in slices(events).values():
        ends: List[int] = []
        for it in track:
            while ends and ends[-1] <= it["ts"]:
                ends.pop()
            if ends and it["ts"] + it["dur"] > ends[-1]:
                yield f"nesting: {it}"
            ends.append(it["ts"] + it["dur"])


def flows(events: List[Event]) -> Iterator[str]:
    """The flows that don't lead from a slice to a later one."""
    tracks = slices(events)
    begun = {it["id"]: it for it in events if it["ph"] == "s"}
    ended = {it["id"]: it for it in events if it["ph"] == "f"}
    if begun.keys() != ended.keys() or len(begun) != sum(it["ph"] == "s" for it in events):
        yield "flows: ends that don't belong together"
    for it in [*begun.values(), *ended.values()]:
        track = tracks.get((it["pid"], it["tid"]), [])
        if not any(each["ts"] <= it["ts"] < each["ts"] + each["dur"] for each in track):
            yield f"flows: in no slice: {it}"
    yield from (
        f"flows: back in time: {it}"
        for key, it in begun.items()
        if key in ended and it["ts"] >= ended[key]["ts"]
    )


def names(events: List[Event]) -> Iterator[str]:
    """The tracks that have no name."""
    named = {(it["pid"], it["tid"]) for it in events if it["name"] == "thread_name"}
    yield from (f"names: {track}" for track in slices(events) if track not in named)
