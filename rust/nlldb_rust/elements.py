"""The elements of arrays and slices: which pieces overlap, and so are one field. Nothing here is proved.

Where an array is indexed by constants and by patterns alone, pieces that cannot overlap are fields of their own. An index that is a local may be
any element, and then all pieces are one field.
"""
from __future__ import annotations

import re
from typing import NamedTuple, Sequence

from .mir import Projection, Step

MOST_GROUPS = 12
SUBSLICE = re.compile(r"(\d*)(:|\.\.)(-?\d*)$")


class Piece(NamedTuple):
    """An element or a subslice. `first` counts from the start, or from the end where `from_end`. A subslice ends before `last`, or so many elements
    before the end of a slice where `from_end`. `length` is the least length that a pattern has asked for."""

    is_subslice: bool
    first: int
    last: int
    from_end: bool
    length: int


def piece_of(step: Projection) -> Piece:
    """Returns the piece that a projection takes: `1 of 4`, `-1 of 4` (from the end), `1:-2`, `1..3`."""
    if step.step is Step.CONSTANT_INDEX:
        length = int(step.text or 0)
        return Piece(False, abs(step.number), 0, step.number < 0, length)
    found = SUBSLICE.match(step.text)
    if not found:
        return Piece(True, 0, 0, True, 0)
    return Piece(True, int(found[1] or 0), abs(int(found[3] or 0)), found[2] == ":", 0)


def overlap(one: Piece, other: Piece) -> bool:
    """Whether two pieces of an array may share an element, as rustc judges it."""
    if one.is_subslice and other.is_subslice:
        return one.from_end or other.from_end or one.first < other.last and other.first < one.last
    if one.is_subslice or other.is_subslice:
        element, part = (other, one) if one.is_subslice else (one, other)
        if element.from_end:
            return not part.from_end or element.first > part.last
        return element.first >= part.first and (part.from_end or element.first < part.last)
    if one.from_end == other.from_end:
        return one.first == other.first
    front, back = (other, one) if one.from_end else (one, other)
    return front.first >= max(front.length, back.length) - back.first


def groups_of(pieces: Sequence[Piece]) -> dict[Piece, int]:
    """Returns a number for each piece, from 1: pieces that are tied by overlaps have one. All have 0 where there are too many."""
    groups: list[set[Piece]] = []
    for piece in sorted(set(pieces)):
        tied = [group for group in groups if any(overlap(piece, other) for other in group)]
        groups = [group for group in groups if group not in tied] + [{piece}.union(*tied)]
    groups.sort(key=min)
    several = len(groups) <= MOST_GROUPS
    return {piece: number if several else 0 for number, group in enumerate(groups, 1) for piece in group}
