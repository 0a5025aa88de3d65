"""What is written of a body so far, and how regions, types and places are spelled. Nothing here is proved."""
from __future__ import annotations

from collections import Counter
from dataclasses import dataclass, field
from typing import Iterable, NamedTuple, Optional, Sequence

from .closures import DirectClosures
from .declarations import Declarations
from .drops import Initialized
from .dump import Dump
from .fields import Fields
from .mir import Operand, Place, Point, Projection, Step
from .refused import Refused
from .regions import OWN_REGIONS, Regions
from .survey import Survey
from .types import INT, STATIC, Kind, Type, TypeReader, reference_to

MOST_VARIABLES = 1023


class Label(NamedTuple):
    """A block that is written: rustc's of a number, one of the writer's own, or the one that stops."""

    kind: str
    number: int


STOP = Label("stop", 0)


class Line(NamedTuple):
    """A written point: its text without labels, the labels behind it, and the point of rustc that it was written for."""

    text: str
    labels: tuple[Label, ...]
    point: Point


class Written(NamedTuple):
    """A place as far as it can be written: its text and its type, and the steps that are left. A subslice has the type of its elements alone."""

    text: str
    type: Optional[Type]
    rest: tuple[Projection, ...] = ()
    element: Optional[Type] = None


class Argument(NamedTuple):
    """An operand of a call: its text and its type."""

    text: str
    type: Type


@dataclass
class Names:
    """The names of regions in the text: those of universal regions, and numbers for the others in the order in which they are written."""

    universal: dict[int, str]
    variables: dict[int, int] = field(default_factory=dict)

    def of(self, region: int) -> str:
        """The name of a region. Refuses a body with more variables than the language has."""
        name = self.universal.get(region)
        if name is not None:
            return name
        number = self.variables.setdefault(region, len(self.variables))
        if number > MOST_VARIABLES:
            raise Refused("limit: region variables > 1023")
        return f"'?{number}"


@dataclass
class Pending:
    """A two-phase borrow that is reserved: the local of its shared borrow, and the text that activates it with its point."""

    reserved: int
    text: str
    point: Point


@dataclass
class Writing:
    """The state of writing one body. The parts of the writer share it."""

    dump: Dump
    regions: Regions
    reader: TypeReader
    locals: dict[int, Type]
    fields: Fields
    declared: Declarations
    names: Names
    survey: Survey
    initialized: Initialized
    naive_two_phase: bool = False
    unwind: bool = False
    # the closures that are written as closures
    direct: DirectClosures = field(default_factory=DirectClosures)
    notes: Counter[str] = field(default_factory=Counter)
    # constraints that no written form makes
    wanted: set[tuple[int, int]] = field(default_factory=set)
    blocks: list[tuple[Label, list[Line]]] = field(default_factory=list)
    pending: dict[int, Pending] = field(default_factory=dict)
    needs_stop: bool = False
    _labels: int = 0
    _number: Optional[int] = None

    # points and blocks

    def begin(self, label: Label) -> None:
        """Begins a block."""
        self.blocks.append((label, []))

    def emit(self, text: str, point: Point) -> None:
        """Writes a statement."""
        self.blocks[-1][1].append(Line(text, (), point))

    def end(self, text: str, labels: Sequence[Label], point: Point) -> None:
        """Writes a terminator."""
        self.blocks[-1][1].append(Line(text, tuple(labels), point))

    def own_label(self) -> Label:
        self._labels += 1
        return Label("own", self._labels)

    # locals and types

    def new_local(self, kind: Type) -> int:
        """Adds a local. Returns its number."""
        local = len(self.locals)
        self.locals[local] = kind
        return local

    def number_local(self) -> int:
        """The local that takes numbers that nobody reads."""
        if self._number is None:
            self._number = self.new_local(INT)
        return self._number

    def text_of(self, kind: Type) -> str:
        return self.declared.text(kind.shape, [self.names.of(it) for it in kind.regions])

    def is_number(self, kind: Optional[Type]) -> bool:
        return kind is not None and self.fields.is_number(kind.shape)

    def same(self, one: Optional[Type], other: Optional[Type]) -> bool:
        return one is not None and other is not None and self.fields.same(one.shape, other.shape)

    def borrow(self, text: str, kind: Type, region: int, mutable: bool, point: Point) -> Argument:
        """Borrows a place into a local of its own. Returns that local as an operand."""
        local = self.new_local(reference_to(kind, region, mutable))
        self.emit(f"_{local} = &{self.names.of(region)} {'mut ' if mutable else ''}{text}", point)
        return Argument(f"move _{local}", self.locals[local])

    # places

    def place(self, place: Place) -> Written:
        """Writes a place, up to a dereference of a raw pointer, a cut field or a subslice."""
        kind, text, variant = self.locals[place.local], f"_{place.local}", ""
        for at, it in enumerate(place.projections):
            rest = place.projections[at:]
            if it.step is Step.VARIANT:
                variant = it.text
                continue
            if it.step is Step.DEREF and kind.is_reference():
                text, kind = text + ".*", kind.part(0)
                continue
            if it.step is Step.DEREF and kind.shape.kind is Kind.POINTER:
                return Written(text, kind, rest)
            key = self.fields.key_of(kind.shape, it, variant)
            if (kind.shape.key, key) in self.declared.cut:
                return Written(text, kind, rest)
            text += f".{self.declared.numbers[(kind.shape.key, key)]}"
            kind, variant = self.fields.of[kind.shape.key][key].type_in(kind), ""
            if it.step is Step.SUBSLICE:
                return Written(text, None, rest, kind)
        return Written(text, kind)

    def regions_along(self, place: Place) -> list[int]:
        """The regions that rustc prints in a place: of its local, and of the fields that it takes."""
        found = list(self.locals[place.local].regions)
        for step, _, text in place.projections:
            if step is Step.FIELD:
                found += self.regions.read(self.reader, text).regions
        return found

    def is_number_operand(self, operand: Operand) -> bool:
        """Whether an operand is written as an `int`."""
        if operand.text:
            return True
        written = self.place(operand.place)
        return not written.rest and self.is_number(written.type)

    # constraints

    def want(self, longer: int, shorter: int) -> None:
        """Notes a constraint that the text has to demand, unless it is known."""
        if longer == shorter or longer == STATIC or shorter == self.regions.body:
            return
        universal = self.names.universal
        if not (longer in universal and shorter in universal and self.regions.outlives(longer, shorter)):
            self.wanted.add((longer, shorter))

    def want_but(self, point: Point, interface: Iterable[int] = ()) -> None:
        """Notes the constraints at a point, but for those between regions of the interface, which the written form demands itself."""
        shown = set(interface)
        if shown:
            for demand in self.regions.at.get(point, ()):
                if demand.category.startswith(("Predicate", "TypeAnnotation")):
                    self.want(demand.longer, demand.shorter)
        for longer, shorter in self.regions.demands(point, shown):
            if not (longer in shown and shorter in shown):
                self.want(longer, shorter)


def is_own(region: int) -> bool:
    """Whether a region is one of the writer's own."""
    return region > OWN_REGIONS
