"""The regions of a body: equal ones are one, and the constraints are sorted by their points. Nothing here is proved."""
from __future__ import annotations

from collections import defaultdict
from typing import Iterable, NamedTuple, Optional, Union

from .dump import Constraint, Dump
from .graphs import Edge, strong_components, successors_of
from .mir import Point
from .types import STATIC, Type, TypeReader

# From here on regions are the writer's own.
OWN_REGIONS = 100_000
Seen = Union[Point, str]


class Demand(NamedTuple):
    """One region must outlive another, for a reason that rustc names."""

    longer: int
    shorter: int
    category: str


class Regions:
    """The regions of one body. With `merge_all` those that outlive each other by constraints at any points are one too: a body that has too many
    regions is written so."""

    def __init__(self, dump: Dump, merge_all: bool) -> None:
        self.dump = dump
        self.universal = dump.universal
        # the region of the body itself, which every universal region outlives
        self.body: Optional[int] = max(dump.universal) if len(dump.universal) > 1 else None
        self.parent: dict[int, int] = {}
        self.everywhere: list[Edge] = []
        self.at: dict[Point, list[Demand]] = defaultdict(list)
        # where each region is seen: points, or a word for other places
        self.seen: dict[int, set[Seen]] = defaultdict(set)
        self._merge_equal()
        if merge_all:
            self._merge_components()
        for constraint in dump.constraints:
            self._sort(constraint)
        for region in dump.universal:
            self.seen[region].add("header")
        self.own = OWN_REGIONS
        self._edges: dict[Point, frozenset[Edge]] = {}

    def find(self, region: int) -> int:
        """The region that stands for this one and for all that are equal to it."""
        while region in self.parent:
            region = self.parent[region]
        return region

    def _merge_equal(self) -> None:
        pairs = {(it.longer, it.shorter) for it in self.dump.constraints if it.point is None}
        for longer, shorter in sorted(pairs):
            if (shorter, longer) in pairs:
                one, other = self.find(longer), self.find(shorter)
                if one != other and not (one in self.universal and other in self.universal):
                    self.parent.update({one: other} if other in self.universal else {other: one})

    def _merge_components(self) -> None:
        edges = [(self.find(it.longer), self.find(it.shorter)) for it in self.dump.constraints]
        for component in strong_components(successors_of(edges)):
            first, *rest = sorted(component, key=lambda region: (region not in self.universal, region))
            self.parent.update({region: first for region in rest if region not in self.universal})

    def _sort(self, constraint: Constraint) -> None:
        longer, shorter = self.find(constraint.longer), self.find(constraint.shorter)
        if longer == shorter:
            return
        place: Seen = "everywhere" if constraint.point is None else constraint.point
        self.seen[longer].add(place)
        self.seen[shorter].add(place)
        if constraint.point is None:
            self.everywhere.append((longer, shorter))
        else:
            self.at[constraint.point].append(Demand(longer, shorter, constraint.category))

    def read(self, reader: TypeReader, text: str) -> Type:
        """Returns the type that a text spells, with the regions that stand for those in it."""
        found = reader.read(text)
        return Type(found.shape, tuple(self.find(region) for region in found.regions)) if found.regions else found

    def note_local(self, kind: Type) -> None:
        """Notes that the regions of a type are seen in a local."""
        for region in kind.regions:
            self.seen[region].add("local")

    def edges_at(self, point: Point) -> frozenset[Edge]:
        """The constraints at a point."""
        edges = self._edges.get(point)
        if edges is None:
            edges = self._edges[point] = frozenset((it.longer, it.shorter) for it in self.at.get(point, ()))
        return edges

    def outlives(self, longer: int, shorter: int) -> bool:
        """Whether one universal region is known to outlive another."""
        return longer == STATIC or shorter in self.universal[longer]

    def fresh(self) -> int:
        """Returns a region of the writer's own."""
        self.own += 1
        return self.own

    def demands(self, point: Point, interface: Iterable[int]) -> list[Edge]:
        """Returns the constraints at a point between regions that are seen elsewhere or are in the interface: those in between are left out."""
        edges = self.edges_at(point)
        if not edges:
            return []
        interface = set(interface)
        nodes = {node for edge in edges for node in edge}
        visible = {node for node in nodes if node in interface or self.seen[node] - {point}}
        successors = successors_of(edges)
        found: set[Edge] = set()
        for start in visible:
            seen: set[int] = set()
            todo = list(successors[start])
            while todo:
                node = todo.pop()
                if node in seen:
                    continue
                seen.add(node)
                if node in visible:
                    if node != start:
                        found.add((start, node))
                else:
                    todo.extend(successors[node])
        return sorted(found)
