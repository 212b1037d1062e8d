"""Divides the planted bugs of all crates into shares that cost much the same."""
import argparse
import dataclasses
import functools
import re

from edits import batches_of, can_stand_twice, edits_of, read_edit
from repository import TOP, read_crates


@dataclasses.dataclass(frozen=True)
class Share:
    """The number of a part, counted from 0, and how many there are."""

    number: int
    count: int


def share_of(word):
    """The share that 'K/N' names."""
    found = re.fullmatch(r"(\d+)/(\d+)", word)
    if not found or not 1 <= int(found[1]) <= int(found[2]):
        raise argparse.ArgumentTypeError(f"'{word}' is no share: K/N, with K from 1 to N")
    return Share(int(found[1]) - 1, int(found[2]))


# So many edits one check tries beside their functions at the most, where there are shares enough. A
# check of few costs nearly as much, since all that the functions call is proved with them.
TOGETHER = 48
# So many edits cost as much as what a check does beside them.
OF_A_CHECK = 8


def checks_for(edits):
    return -(-len(edits) // TOGETHER)


def parts_of(folder, edits, count):
    """The edits in so many parts, each tried by one check: as many as there are batches of edits
    that can't stand beside their functions have one of these, and as few of the other parts as will
    do have the rest. Where the batches are too many for that, some parts take several checks."""
    twins = [edit for edit in edits if can_stand_twice(folder, edit)]
    batches = batches_of([edit for edit in edits if edit not in twins])
    parts = [[] for _ in range(count)]
    for at, batch in enumerate(batches):
        parts[at % count] += batch
    free = [part for part in parts if not part] or parts
    free = free[: checks_for(twins)]
    for at, edit in enumerate(twins):
        free[at % len(free)].append(edit)
    return parts


@functools.lru_cache(maxsize=None)
def turns(count):
    """For each crate which share has each of its parts, such that shares cost much the same: the
    crate with the most edits comes first, and its longest part goes to the share with the least."""
    loads, shares = [0] * count, {}
    for crate in sorted(read_crates(), key=lambda it: -len(edits_of(it))):
        folder = TOP / "crates" / crate
        edits = [read_edit(crate, path, folder) for path in edits_of(crate)]
        parts = parts_of(folder, [edit for edit in edits if not edit.verdict], count)
        longest_first = sorted(range(count), key=lambda at: -len(parts[at]))
        shares[crate] = [0] * count
        for part, share in zip(longest_first, sorted(range(count), key=lambda at: loads[at])):
            shares[crate][part] = share
            loads[share] += len(parts[part]) and len(parts[part]) + OF_A_CHECK
    return shares


def parts_by_share(crate, folder, edits, count):
    """Those of the crate's edits that can be tried, in so many parts, the first share's first."""
    parts = parts_of(folder, [edit for edit in edits if not edit.verdict], count)
    order = turns(count)[crate]
    return [parts[order.index(share)] for share in range(count)]


def in_share(share, crate, folder, edits):
    """Those of the crate's edits that are in the share, or all. What can't be tried is in each."""
    if not share:
        return edits
    parts = parts_by_share(crate, folder, edits, share.count)
    return [edit for edit in edits if edit.verdict] + parts[share.number]


def is_one_check(folder, part):
    """Whether one check tries these edits: beside their functions, or as one batch."""
    beside_functions = [can_stand_twice(folder, edit) for edit in part]
    return all(beside_functions) or not any(beside_functions) and len(batches_of(part)) < 2
