"""Which fields of which types a body touches, and which regions of a field are which of its struct. Nothing here is proved.

A dump has no lists of fields. A field is found where it is used, with its type there, and its regions are those of the struct that the constraints
at the use lead to, or have the same place for constructors whose arguments are their fields.
"""
from __future__ import annotations

from collections import Counter, defaultdict
from dataclasses import dataclass, field
from typing import AbstractSet, NamedTuple, Optional

from .elements import Piece, groups_of, piece_of
from .graphs import Edge, leads, successors_of
from .mir import Place, Point, Projection, Step
from .refused import Refused
from .regions import Regions
from .types import INT, STATIC, Kind, Shape, Type, TypeReader

# The numbers of the fields that rustc has no number for, and how a mapping says `'static`.
POINTEE, HIDDEN, AS_STATIC = -1, -2, -1


class Key(NamedTuple):
    """A field: the variant that it is in (empty for a struct), and its number."""

    variant: str
    number: int


HIDDEN_FIELD, POINTEE_FIELD, ANY_ELEMENT = Key("", HIDDEN), Key("", POINTEE), Key("", 0)


@dataclass
class Field:
    """The shape of a field, and for each of its regions the place among those of the struct, `AS_STATIC`, or None where it is not known yet."""

    shape: Shape
    mapping: list[Optional[int]]

    def type_in(self, owner: Type) -> Type:
        """The field's type in a struct with these regions."""
        regions = (STATIC if it is None or it == AS_STATIC else owner.regions[it] for it in self.mapping)
        return Type(self.shape, tuple(regions))

    def is_mapped(self) -> bool:
        return None not in self.mapping


# Constructors whose field is their argument: by name, variant and field.
ARGUMENTS = {
    ("Option", "Some", 0): 0, ("Result", "Ok", 0): 0, ("Result", "Err", 0): 1, ("Poll", "Ready", 0): 0, ("ControlFlow", "Continue", 0): 1,
    ("ControlFlow", "Break", 0): 0, ("Range", "", 0): 0, ("Range", "", 1): 0, ("Bound", "Included", 0): 0, ("Bound", "Excluded", 0): 0,
    ("Wrapping", "", 0): 0, ("Reverse", "", 0): 0, ("ManuallyDrop", "", 0): 0,
}  # fmt: skip


def known_part(owner: Type, key: Key) -> Optional[int]:
    """The part of a type that is this field, where its constructor says so."""
    shape = owner.shape
    if shape.kind in (Kind.TUPLE, Kind.CLOSURE) and key.number != POINTEE:
        part: Optional[int] = key.number
    elif shape.kind in (Kind.ARRAY, Kind.SLICE) or shape.name == "Box" and key.number == POINTEE:
        part = 0
    else:
        part = ARGUMENTS.get((shape.name, key.variant, key.number))
    return part if part is not None and part < len(shape.parts) else None


@dataclass
class Fields:
    """The fields that are seen, by the shapes of their structs."""

    of: dict[str, dict[Key, Field]] = field(default_factory=lambda: defaultdict(dict))
    shapes: dict[str, Shape] = field(default_factory=dict)
    # places in a struct's regions that are seen to be invariant
    invariant: dict[str, set[int]] = field(default_factory=lambda: defaultdict(set))
    # shapes of which a region is seen to be contravariant, as in `fn(&'a u32)`: no form of the language but a call assigns their values
    contravariant: set[str] = field(default_factory=set)
    # the shapes that are indexed by a local, and the pieces that are taken of the others, with the fields that these are in the end
    indexed: set[str] = field(default_factory=set)
    pieces: dict[str, dict[Piece, int]] = field(default_factory=lambda: defaultdict(dict))
    notes: Counter[str] = field(default_factory=Counter)

    def is_struct(self, shape: Shape) -> bool:
        """Whether a shape is written as a struct: it has regions or fields. Everything else that is no reference is an `int`."""
        return shape.kind is not Kind.REFERENCE and shape.key != "int" and bool(shape.regions or self.of.get(shape.key))

    def is_number(self, shape: Shape) -> bool:
        """Whether a shape is written as `int`."""
        return shape.kind is not Kind.REFERENCE and not self.is_struct(shape)

    def can_be_copied(self, shape: Shape) -> bool:
        return not shape.mutable if shape.kind is Kind.REFERENCE else not self.is_struct(shape)

    def is_contravariant(self, shape: Shape) -> bool:
        """Whether a value of this shape, or one that it refers to, has a region that is contravariant."""
        while shape.kind is Kind.REFERENCE:
            shape = shape.parts[0][0]
        return shape.key in self.contravariant

    def same(self, one: Shape, other: Shape) -> bool:
        """Whether two shapes are written alike."""
        if one.kind is Kind.REFERENCE or other.kind is Kind.REFERENCE:
            return one.kind is other.kind and one.mutable == other.mutable and self.same(one.parts[0][0], other.parts[0][0])
        if self.is_struct(one) != self.is_struct(other):
            return False
        return not self.is_struct(one) or one.key == other.key

    def note_hidden(self, shape: Shape) -> None:
        """Notes that the discriminant of a shape is read."""
        self.shapes.setdefault(shape.key, shape)
        self.of[shape.key][HIDDEN_FIELD] = Field(INT.shape, [])

    def note(self, owner: Type, key: Key, used_as: Optional[Type], edges: AbstractSet[Edge]) -> Type:
        """Notes a use of a field, with its type there and the constraints. Returns its type. Refuses one that has two shapes."""
        shape = owner.shape
        self.shapes.setdefault(shape.key, shape)
        number = known_part(owner, key)
        if number is not None and (used_as is None or shape.parts[number][0].key == used_as.shape.key):
            part, start = shape.parts[number]
            self.of[shape.key][key] = Field(part, list(range(start, start + part.regions)))
            return used_as or owner.part(number)
        if used_as is None:
            raise Refused("type: no element type")
        found = self.of[shape.key].get(key)
        if found is None:
            found = self.of[shape.key][key] = Field(used_as.shape, [None] * used_as.shape.regions)
        if found.shape.key != used_as.shape.key:
            raise Refused("field with two shapes")
        found.shape = used_as.shape
        if not found.is_mapped():
            map_regions(found, owner, used_as, edges)
        return used_as

    def key_of(self, shape: Shape, it: Projection, variant: str) -> Key:
        """The field that a projection takes."""
        if it.step is Step.FIELD:
            return Key(variant, it.number)
        if it.step is Step.DEREF:
            return POINTEE_FIELD
        if it.step is Step.INDEX or shape.key in self.indexed:
            return ANY_ELEMENT
        return Key("", self.pieces[shape.key].get(piece_of(it), 0))

    def note_element(self, shape: Shape, it: Projection) -> None:
        """Notes which element a projection takes."""
        if it.step is Step.INDEX:
            self.indexed.add(shape.key)
        elif it.step in (Step.CONSTANT_INDEX, Step.SUBSLICE):
            self.pieces[shape.key][piece_of(it)] = 0

    def settle_elements(self) -> None:
        """Gives pieces that cannot overlap fields of their own, once all are noted."""
        for key, pieces in self.pieces.items():
            if key not in self.indexed:
                pieces.update(groups_of(list(pieces)))
                element = self.of[key].pop(ANY_ELEMENT)
                self.of[key].update({Key("", number): element for number in pieces.values()})


def map_regions(found: Field, owner: Type, used_as: Type, edges: AbstractSet[Edge]) -> None:
    """Finds for regions of a field which of the struct's they are: the same, or one that the constraints at this use tie to it."""
    successors = None
    for place, region in enumerate(used_as.regions):
        if found.mapping[place] is not None:
            continue
        if region in owner.regions:
            found.mapping[place] = owner.regions.index(region)
            continue
        tied = next((at for at, it in enumerate(owner.regions) if (it, region) in edges or (region, it) in edges), None)
        if tied is None and (region == STATIC or (STATIC, region) in edges or (region, STATIC) in edges):
            tied = AS_STATIC
        if tied is None:
            successors = successors or successors_of(edges)
            tied = next((at for at, it in enumerate(owner.regions) if leads(successors, it, region) or leads(successors, region, it)), None)
        found.mapping[place] = tied


def walk(fields: Fields, regions: Regions, reader: TypeReader, start: Type, place: Place, point: Point) -> Type:
    """Notes the fields that a place takes. Returns its type; that of a subslice is the type of the whole."""
    kind, variant = start, ""
    if not place.projections:
        return kind
    edges = regions.edges_at(point)
    for it in place.projections:
        if it.step is Step.VARIANT:
            variant = it.text
            continue
        if it.step is Step.DEREF and kind.shape.kind in (Kind.REFERENCE, Kind.POINTER):
            kind = kind.part(0)
        elif it.step is Step.DEREF and kind.shape.name != "Box":
            raise Refused(f"deref of {kind.shape.kind.value}")
        else:
            used_as = regions.read(reader, it.text) if it.step is Step.FIELD else None
            fields.note_element(kind.shape, it)
            noted = fields.note(kind, fields.key_of(kind.shape, it, variant), used_as, edges)
            kind = kind if it.step is Step.SUBSLICE else noted
        variant = ""
    return kind
