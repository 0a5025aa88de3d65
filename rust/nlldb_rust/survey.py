"""The first look at a body: which blocks are reached, how each local is used, which fields are taken, which borrows have two phases.

Nothing here is proved.
"""
from __future__ import annotations

import re
from collections import defaultdict
from dataclasses import dataclass, field
from typing import Iterable, NamedTuple, Optional

from .declarations import note_invariance
from .dump import Dump
from .fields import Fields, Key, walk
from .mir import (
    Access, Aggregate, Assert, Assign, Borrow, Call, Discriminant, Drop, Intrinsic, Made, Nothing, Operand, Place, Point, Ref, Statement,
    StorageDead, StorageLive, Switch, TerminatorKind, Use,
)  # fmt: skip
from .refused import Refused
from .regions import Regions
from .scan import find_outside
from .statements import operands_read, places_read
from .types import Kind, Type, TypeReader

MOST_OPERANDS = 16
SILENT = (Nothing, StorageLive, StorageDead)
OPERATOR = re.compile(r"::(index_mut|deref_mut)\b")


class Usage(NamedTuple):
    """A use of a local: how, in which place, at which point."""

    how: str
    place: Place
    point: Point


class MadeStruct(NamedTuple):
    """A point that makes a struct or a tuple: its type, and of how many operands."""

    type: Type
    operands: int


@dataclass
class Survey:
    """What the first look finds."""

    reached: list[int] = field(default_factory=list)
    uses: dict[int, list[Usage]] = field(default_factory=lambda: defaultdict(list))
    definitions: dict[int, list[Point]] = field(default_factory=lambda: defaultdict(list))
    made: dict[Point, MadeStruct] = field(default_factory=dict)
    two_phase: set[int] = field(default_factory=set)


def reached_blocks(dump: Dump, unwind: bool) -> list[int]:
    """The blocks that paths from the first lead to, with those of unwinding or without."""
    seen: set[int] = set()
    todo = [0]
    while todo:
        block = todo.pop()
        if block in seen:
            continue
        seen.add(block)
        terminator = dump.blocks[block].terminator
        todo.extend(terminator.targets)
        if unwind and terminator.unwind is not None:
            todo.append(terminator.unwind)
    return sorted(seen)


def operands_at(it: Statement | TerminatorKind) -> tuple[Operand, ...]:
    """The copies and moves of a statement or a terminator, from left to right."""
    if isinstance(it, Assign):
        return operands_read(it.value)
    if isinstance(it, (Call, Intrinsic, Assert)):
        operands: tuple[Operand, ...] = it.operands
    elif isinstance(it, Switch):
        operands = (it.operand,)
    else:
        return ()
    return tuple(operand for operand in operands if operand.access is not Access.CONSTANT)


class Surveyor:
    """Looks at each reached point once, and notes what it finds in a `Survey` and in the fields."""

    def __init__(self, dump: Dump, locals: dict[int, Type], regions: Regions, reader: TypeReader, fields: Fields, unwind: bool) -> None:
        self.dump, self.locals, self.regions, self.reader, self.fields = dump, locals, regions, reader, fields
        self.found = Survey(reached_blocks(dump, unwind))
        self.points = list(self._points())

    def _points(self) -> Iterable[tuple[Point, Statement | TerminatorKind]]:
        """Each reached point with what is there, but for those that read and write nothing."""
        for block in self.found.reached:
            statements = self.dump.blocks[block].statements
            for index, statement in enumerate(statements):
                if not isinstance(statement, SILENT):
                    yield Point(block, index), statement
            yield Point(block, len(statements)), self.dump.blocks[block].terminator.kind

    def survey(self) -> Survey:
        """Looks at all points. Refuses a body whose fields cannot be told."""
        for point, it in self.points:
            self._look(point, it)
        self._find_two_phase()
        return self.found

    def walk(self, place: Place, point: Point) -> Type:
        return walk(self.fields, self.regions, self.reader, self.locals[place.local], place, point)

    def _use(self, how: str, place: Place, point: Point) -> Type:
        self.found.uses[place.local].append(Usage(how, place, point))
        return self.walk(place, point)

    def _look(self, point: Point, it: Statement | TerminatorKind) -> None:
        for operand in operands_at(it):
            self._use(operand.access.value, operand.place, point)
        if isinstance(it, Drop):
            self._use("drop", it.place, point)
        elif isinstance(it, Call):
            self._define(it.place, point)
        elif isinstance(it, Assign):
            target = self._define(it.target, point)
            for place in places_read(it.value):
                self._look_at_place(it.value, self._use("place", place, point))
            if isinstance(it.value, Aggregate) and not target.is_reference():
                self._look_at_aggregate(it.value, target, point)

    def _define(self, place: Place, point: Point) -> Type:
        if place.projections:
            return self._use("projection", place, point)
        self.found.definitions[place.local].append(point)
        return self.locals[place.local]

    def _look_at_place(self, value: object, kind: Type) -> None:
        """Notes the discriminant of what a value or a match guard looks at."""
        if isinstance(value, Ref) and value.borrow is Borrow.FAKE_SHALLOW:
            if kind.shape.kind not in (Kind.REFERENCE, Kind.POINTER) and kind.shape.key != "int":
                self.fields.note_hidden(kind.shape)
        elif isinstance(value, Discriminant) and kind.shape.kind is Kind.CONSTRUCTED:
            self.fields.note_hidden(kind.shape)

    def _look_at_aggregate(self, value: Aggregate, target: Type, point: Point) -> None:
        count = len(value.operands)
        if value.made is Made.CONSTRUCTED and target.shape.kind is Kind.CONSTRUCTED:
            self._look_at_struct(value, target, point)
        elif value.made.value == target.shape.kind.value and count == len(target.shape.parts):
            # (a closure is not made natively: what it requires is in the constraints at this point)
            edges = self.regions.edges_at(point)
            for number in range(count) if value.made in (Made.TUPLE, Made.CLOSURE) else ():
                self.fields.note(target, Key("", number), None, edges)
            if value.made is Made.TUPLE:
                self.found.made[point] = MadeStruct(target, count)

    def _look_at_struct(self, value: Aggregate, target: Type, point: Point) -> None:
        """Notes the fields of a struct that is made, where all of them can be told. A variant's path does not end with the type's name."""
        if value.path.split("::")[-1] != target.shape.name.split("::")[-1] or not value.operands or len(value.operands) > MOST_OPERANDS:
            return
        made = self.regions.read(self.reader, value.path + value.generics.replace("::<", "<", 1)) if value.generics else target
        if made.shape.key == target.shape.key and all(self._note_operand(made, at, it, point) for at, it in enumerate(value.operands)):
            self.found.made[point] = MadeStruct(made, len(value.operands))

    def _note_operand(self, made: Type, number: int, operand: Operand, point: Point) -> bool:
        """Notes an operand as a field. Returns whether its regions could be told."""
        key = Key("", number)
        known = self.fields.of.get(made.shape.key, {}).get(key)
        if known is not None and known.is_mapped():
            return True
        try:
            kind = self._type_of(operand, point)
            if kind is None:
                return False
            self.fields.note(made, key, kind, self.regions.edges_at(point))
        except Refused:
            return False
        if self.fields.of[made.shape.key][key].is_mapped():
            return True
        del self.fields.of[made.shape.key][key]
        return False

    def _type_of(self, operand: Operand, point: Point) -> Optional[Type]:
        if operand.access is not Access.CONSTANT:
            return self.walk(operand.place, point)
        text = constant_type(operand.text)
        return None if text is None else self.regions.read(self.reader, text)

    def _find_two_phase(self) -> None:
        """A temporary that a mutable borrow is put into, and that is moved once, into a call."""
        for local in self.locals:
            definitions, uses = self.found.definitions.get(local, ()), self.found.uses.get(local, ())
            if local not in self.dump.names and len(definitions) == 1 and len(uses) == 1:
                made, used = self._at(definitions[0]), self._at(uses[0].point)
                borrowed = isinstance(made, Assign) and isinstance(made.value, Ref) and made.value.borrow is Borrow.MUTABLE
                called = isinstance(used, Call) and not calls_operator(used.callee)
                if borrowed and called and uses[0].how == "move" and not uses[0].place.projections:
                    self.found.two_phase.add(local)

    def _at(self, point: Point) -> Statement | TerminatorKind:
        block = self.dump.blocks[point.block]
        return block.statements[point.index] if point.index < len(block.statements) else block.terminator.kind

    def note_variance(self) -> None:
        """Notes which regions are invariant: of a shape of which an assignment of one value to another ties regions both ways."""
        for point, it in self.points:
            if isinstance(it, Assign):
                target, source = self.walk(it.target, point), self._source(it, point)
                if isinstance(it.value, Ref) and source is not None:
                    if not target.is_reference():
                        continue
                    target = target.part(0)
                if source is not None and source.shape.key == target.shape.key:
                    note_invariance(self.fields, source, target, self.regions.edges_at(point))

    def _source(self, it: Assign, point: Point) -> Optional[Type]:
        """The type of what an assignment puts into its target, as far as it is told."""
        value = it.value
        try:
            if isinstance(value, Use) and value.operand.access is not Access.CONSTANT:
                return self.walk(value.operand.place, point)
            if isinstance(value, Ref) and value.borrow is Borrow.SHARED:
                return self.walk(value.place, point)
        except Refused:
            return None
        made = self.found.made.get(point)
        return made.type if made else None


def calls_operator(callee: str) -> bool:
    """Whether a callee is that of `a[b]` or `*a`, whose borrows are no two-phase ones."""
    return OPERATOR.search(callee) is not None


def constant_type(text: str) -> Optional[str]:
    """The type of a constant, as far as its text has it."""
    for word in ("const ConstValue(", "const ValTree("):
        if text.startswith(word) and text.endswith(")"):
            inner = text[len(word) : -1]
            if inner.startswith("ZeroSized: "):
                return inner[11:]
            colon = find_outside(inner, ": ")
            return inner[colon + 2 :] if colon >= 0 else None
    return None
