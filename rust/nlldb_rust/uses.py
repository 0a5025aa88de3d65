"""Where a borrow is used later, and how places are told by the names that the source gives them. Nothing here is proved."""
from __future__ import annotations

from collections import deque
from typing import Iterable, Optional, Union

from .dump import Dump
from .mir import Assign, Call, Drop, GuardRead, Place, Point, Return, Statement, Step, StorageDead, TerminatorKind
from .places import read_place
from .refused import Refused
from .statements import places_read
from .survey import operands_at

Thing = Union[Statement, TerminatorKind]


def thing_at(dump: Dump, point: Point) -> Thing:
    """The statement or the terminator at a point."""
    block = dump.blocks[point.block]
    return block.statements[point.index] if point.index < len(block.statements) else block.terminator.kind


def points_after(dump: Dump, point: Point) -> Iterable[Point]:
    """The points that a point leads to, but for unwinding."""
    block = dump.blocks[point.block]
    if point.index < len(block.statements):
        return (Point(point.block, point.index + 1),)
    return (Point(target, 0) for target in block.terminator.targets)


def used_at(it: Thing) -> set[int]:
    """The locals that a statement or a terminator uses."""
    places = [operand.place for operand in operands_at(it)]
    used = {0} if isinstance(it, Return) else {it.local} if isinstance(it, GuardRead) else set()
    if isinstance(it, Assign):
        places += places_read(it.value)
    target = defined_place(it)
    if target is not None and target.projections or isinstance(it, Drop):
        places.append(target if target is not None else it.place)  # type: ignore[union-attr]
    for place in places:
        used.add(place.local)
        used.update(step.number for step in place.projections if step.step is Step.INDEX)
    return used


def defined_place(it: Thing) -> Optional[Place]:
    """The place that a statement or a terminator assigns."""
    return it.target if isinstance(it, Assign) else it.place if isinstance(it, Call) else None


def ends_value(it: Thing, local: int) -> bool:
    """Whether the value of a local ends here: it is assigned as a whole, or its storage ends."""
    if isinstance(it, StorageDead):
        return it.local == local
    target = defined_place(it)
    return target is not None and target.local == local and not target.projections


def next_use(dump: Dump, start: Point, locals: set[int]) -> Optional[Point]:
    """The nearest point from `start` on, itself too, that uses one of these locals before its value ends."""
    todo = deque((start, local) for local in sorted(locals))
    seen = set(todo)
    while todo:
        point, local = todo.popleft()
        it = thing_at(dump, point)
        if local in used_at(it):
            return point
        if not ends_value(it, local):
            for following in points_after(dump, point):
                if (following, local) not in seen:
                    seen.add((following, local))
                    todo.append((following, local))
    return None


def steps(place: Place) -> tuple[tuple[Step, int], ...]:
    """The projections of a place without types."""
    return tuple((it.step, it.number) for it in place.projections)


def place_name(dump: Dump, place: Place) -> str:
    """How the source calls a place: `*v`, `pair.0`. Empty for what has no name there."""
    name, rest = base_name(dump, place)
    if not name:
        return ""
    for number, (step, field) in enumerate(rest):
        if step is Step.DEREF:
            # a field of what a reference leads to is written without the star
            if number + 1 == len(rest):
                name = "*" + name
        elif step is Step.FIELD:
            name += f".{field}"
        elif step in (Step.INDEX, Step.CONSTANT_INDEX, Step.SUBSLICE):
            name += "[..]"
    return name


def base_name(dump: Dump, place: Place) -> tuple[str, tuple[tuple[Step, int], ...]]:
    """The name of the longest beginning of a place that has one, and the steps behind it."""
    whole = steps(place)
    best, rest = dump.names.get(place.local, ""), whole
    for text, name in dump.named_places:
        try:
            named = read_place(text)
        except (Refused, IndexError):
            continue
        begins = steps(named)
        if named.local == place.local and whole[: len(begins)] == begins and len(whole) - len(begins) < len(rest) + (not best):
            best, rest = name, whole[len(begins) :]
    return best, rest
