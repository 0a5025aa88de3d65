"""Why one region of a chain outlives the next: which constraints of rustc's say so, and at which points. Nothing here is proved."""
from __future__ import annotations

import re
from collections import defaultdict, deque
from typing import Iterable, Optional, Sequence

from .body import Text
from .dump import Constraint, Dump
from .mir import Aggregate, Assign, Call, Cast, Made, Point, Ref, Use
from .types import REGION
from .uses import place_name, thing_at

CALLEE = re.compile(r"\{(?:[^{}]|\{[^{}]*\})*\}(?=\)*$)")
GENERICS = re.compile(r"::<[^<>]*>|<[^<>]*>")
CATEGORIES = {
    "Return": "it is returned",
    "Yield": "it is yielded",
    "UseAsConst": "it is used as a constant",
    "UseAsStatic": "it is used as a static",
    "TypeAnnotation": "the type that is written here demands it",
    "Predicate": "a bound that has to hold here demands it",
    "OpaqueType": "the type `impl ..` demands it",
    "CopyBound": "it is copied",
    "SizedBound": "a bound that has to hold here demands it",
    "ClosureUpvar": "a closure captures it",
    "ClosureBounds": "a closure demands it",
}


class Constraints:
    """The constraints of a body by the regions that stand for those in them."""

    def __init__(self, dump: Dump, text: Text) -> None:
        self.text = text
        self.between: dict[int, dict[int, Constraint]] = defaultdict(dict)
        for constraint in dump.constraints:
            longer, shorter = self.find(constraint.longer), self.find(constraint.shorter)
            known = self.between[longer].get(shorter)
            # one at a point says more than one that holds everywhere
            if longer != shorter and (known is None or known.point is None and constraint.point is not None):
                self.between[longer][shorter] = constraint

    def find(self, region: int) -> int:
        while region in self.text.equal:
            region = self.text.equal[region]
        return region

    def path(self, longer: int, shorter: int) -> list[Constraint]:
        """The constraints that lead from one region to another, as few as there are; none where nothing leads there."""
        came: dict[int, Optional[Constraint]] = {longer: None}
        todo = deque([longer])
        while todo and shorter not in came:
            region = todo.popleft()
            for following, constraint in self.between[region].items():
                if following not in came:
                    came[following] = constraint
                    todo.append(following)
        found: list[Constraint] = []
        at = came.get(shorter)
        while at is not None:
            found.append(at)
            at = came[self.find(at.longer)]
        return found[::-1]

    def chain(self, regions: Sequence[int]) -> list[list[Constraint]]:
        """The constraints that lead along a chain, those of one point together."""
        groups: list[list[Constraint]] = []
        for longer, shorter in zip(regions, regions[1:]):
            for constraint in self.path(longer, shorter):
                if groups and groups[-1][0].point == constraint.point:
                    groups[-1].append(constraint)
                else:
                    groups.append([constraint])
        return groups


def function_name(callee: str) -> str:
    """The name of a called function: the last word of its path."""
    found = None
    for found in CALLEE.finditer(callee):
        pass
    path = found[0][1:-1] if found else ""
    while path != (path := GENERICS.sub("", path)):
        pass
    return re.sub(r"\W", "", path.rsplit("::", 1)[-1])


def regions_in(dump: Dump, constraints: Constraints, locals: Iterable[int]) -> set[int]:
    """The regions in the types of locals."""
    return {constraints.find(int(it)) for local in locals for it in REGION.findall(dump.locals.get(local, ""))}


def link_text(dump: Dump, constraints: Constraints, group: Sequence[Constraint]) -> str:
    """What happens at the point of some constraints, so that the borrow goes on."""
    for constraint in group:
        word = re.split(r"\W", constraint.category)[0]
        if word in CATEGORIES:
            return CATEGORIES[word]
    point = group[0].point
    return "the type here demands it" if point is None else point_text(dump, constraints, point, constraints.find(group[-1].shorter))


def point_text(dump: Dump, constraints: Constraints, point: Point, last: int) -> str:
    it = thing_at(dump, point)
    if isinstance(it, Call):
        name = f"`{name}`" if (name := function_name(it.callee)) else "a function"
        kept = "whose result keeps it" if last in regions_in(dump, constraints, [it.place.local]) else "which keeps it"
        return f"it is passed to {name}, {kept}"
    if isinstance(it, Assign):
        return assigned_text(dump, it)
    return "it is used here"


def assigned_text(dump: Dump, it: Assign) -> str:
    value, name = it.value, place_name(dump, it.target)
    into = f", into `{name}`" if name else ""
    if isinstance(value, Ref):
        return f"it is borrowed again{into}"
    if isinstance(value, Cast):
        return f"it is cast to another type{into}"
    if isinstance(value, Aggregate) and value.made is Made.CLOSURE:
        return f"the closure `{name}` captures it" if name else "a closure captures it"
    if isinstance(value, Aggregate):
        whole = "a tuple" if value.made is Made.TUPLE else f"`{last}`" if (last := value.path.rsplit("::", 1)[-1]) else "a value"
        return f"it is put into `{name}`" if name else f"it is put into {whole}"
    return f"it is assigned to `{name}`" if name and isinstance(value, Use) else "it is passed on"


def is_silent(dump: Dump, point: Optional[Point]) -> bool:
    """Whether a point only passes a borrow from one temporary to another, so that nothing has to be said of it."""
    if point is None:
        return True
    it = thing_at(dump, point)
    return isinstance(it, Assign) and isinstance(it.value, Use) and not place_name(dump, it.target)
