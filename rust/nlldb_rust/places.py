"""Reads places and operands. Nothing here is proved."""
from __future__ import annotations

import re

from .mir import Access, Operand, Place, Projection, Step
from .refused import Refused
from .scan import group_end

LOCAL = re.compile(r"_(\d+)")
FIELD = re.compile(r"\.(\d+): (.*)$", re.S)
OPERAND = re.compile(r"(copy|move) ")
SOME_OPERAND = re.compile(r"(?<![\w'])(copy|move) (?=[_(])")
DEREF = Projection(Step.DEREF)


def read_place(text: str) -> Place:
    """Returns the place that a text spells. Refuses any other text."""
    place, end = place_at(text, 0)
    if end != len(text):
        raise Refused("parse: place")
    return place


def place_at(text: str, start: int) -> tuple[Place, int]:
    """Returns the place that begins at `start`, and the index after it."""
    if found := LOCAL.match(text, start):
        place, end = Place(int(found[1])), found.end()
    elif text.startswith("(", start):
        end = group_end(text, start)
        place = inner_place(text[start + 1 : end - 1])
    else:
        raise Refused("parse: place")
    while text.startswith("[", end):
        begin, end = end + 1, group_end(text, end)
        place = projected(place, element(text[begin : end - 1]))
    return place, end


def projected(place: Place, step: Projection) -> Place:
    """Returns the place one step further."""
    return Place(place.local, (*place.projections, step))


def inner_place(text: str) -> Place:
    """Returns the place in parentheses: `*P`, `P.2: TYPE`, `P as VARIANT`."""
    if text[0] == "*":
        return projected(read_place(text[1:]), DEREF)
    place, end = place_at(text, 0)
    rest = text[end:]
    if found := FIELD.match(rest):
        return projected(place, Projection(Step.FIELD, int(found[1]), found[2]))
    if rest.startswith(" as subtype ") or not rest:
        return place
    if rest.startswith(" as "):
        return projected(place, Projection(Step.VARIANT, text=rest[4:]))
    raise Refused("parse: place")


def element(text: str) -> Projection:
    """Returns the step in brackets: `_3`, `1 of 4` (`-1 of 4` from the end), or the bounds of a subslice."""
    if found := LOCAL.fullmatch(text):
        return Projection(Step.INDEX, int(found[1]))
    if " of " in text:
        index, length = text.split(" of ")
        return Projection(Step.CONSTANT_INDEX, int(index), length)
    return Projection(Step.SUBSLICE, text=text)


def read_operand(text: str) -> Operand:
    """Returns the operand that a text spells. What is neither a copy nor a move is a constant."""
    if found := OPERAND.match(text):
        return Operand(Access(found[1]), read_place(text[found.end() :]))
    return Operand(Access.CONSTANT, text=text)


def operands_in(text: str) -> tuple[Operand, ...]:
    """Returns all copies and moves that are written anywhere in a text."""
    found_operands, end = [], 0
    for found in SOME_OPERAND.finditer(text):
        if found.start() >= end:
            place, end = place_at(text, found.end())
            found_operands.append(Operand(Access(found[1]), place))
    return tuple(found_operands)
