"""The structs that are declared for the types of a body. Nothing here is proved."""
from __future__ import annotations

import re
from typing import AbstractSet, Callable, Iterable, Sequence

from .fields import AS_STATIC, HIDDEN_FIELD, Field, Fields, Key
from .refused import Refused
from .types import Kind, Shape, Type

MOST_REGIONS, MOST_FIELDS, MOST_STRUCTS, MOST_NAME = 8, 16, 64, 20
NO_WORD = re.compile(r"\W")


class Declarations:
    """The structs for the shapes that are seen, in an order in which each comes after those that it mentions. A field that closes a cycle of types
    is cut: it is no field of the declared struct. `has_drop` says which shapes look at their regions when they are dropped."""

    def __init__(self, fields: Fields, shapes: Iterable[Shape], has_drop: Callable[[Shape], bool]) -> None:
        self.fields, self.has_drop = fields, has_drop
        self.cut: set[tuple[str, Key]] = set()
        self.order: list[str] = []
        self.names: dict[str, str] = {}
        self.numbers: dict[tuple[str, Key], int] = {}
        self.marks: dict[str, set[int]] = {}
        self.texts: list[str] = []
        self._visiting: dict[str, bool] = {}
        for shape in shapes:
            self._visit(shape)
        for key in list(fields.of):
            self._visit(fields.shapes[key])
        for key in self.order:
            self._declare(key)
        if len(self.texts) > MOST_STRUCTS:
            raise Refused("limit: structs > 64")

    def _visit(self, shape: Shape) -> None:
        while shape.kind is Kind.REFERENCE:
            shape = shape.parts[0][0]
        key = shape.key
        if not self.fields.is_struct(shape) or key in self._visiting:
            return
        self._visiting[key] = True
        self.fields.shapes.setdefault(key, shape)
        for name, field in sorted(self.fields.of.get(key, {}).items(), key=lambda item: item[0]):
            if name != HIDDEN_FIELD:
                if self._is_being_visited(field.shape):
                    self.cut.add((key, name))
                    self.fields.notes["recursive type cut"] += 1
                else:
                    self._visit(field.shape)
        self._visiting[key] = False
        self.order.append(key)

    def _is_being_visited(self, shape: Shape) -> bool:
        while shape.kind is Kind.REFERENCE:
            shape = shape.parts[0][0]
        return self._visiting.get(shape.key, False)

    def fields_of(self, key: str) -> list[Key]:
        """The declared fields of a shape, in their order."""
        return sorted(name for name in self.fields.of.get(key, ()) if (key, name) not in self.cut)

    def _declare(self, key: str) -> None:
        shape = self.fields.shapes[key]
        name = self.names[key] = self._name(shape)
        if shape.regions > MOST_REGIONS:
            raise Refused("limit: regions of a struct > 8")
        names = self.fields_of(key)
        if len(names) > MOST_FIELDS:
            raise Refused("limit: fields of a struct > 16")
        invariant, texts = set(self.fields.invariant.get(key, ())), []
        for number, field_name in enumerate(names):
            self.numbers[(key, field_name)] = number
            field = self.fields.of[key][field_name]
            texts.append(self._field_text(shape, field) + ";")
            invariant |= {it for at in self._invariant_in(field.shape) if (it := field.mapping[at]) is not None and it != AS_STATIC}
        self.marks[key] = invariant
        marks = ", ".join(f"{'=' if at in invariant else '+'}'p{at}" for at in range(shape.regions))
        drop = " drop" if self.has_drop(shape) else ""
        self.texts.append(f"struct {name}{f'<{marks}>' if marks else ''}{drop} {{ {' '.join(texts)} }}")

    def _name(self, shape: Shape) -> str:
        word = NO_WORD.sub("", (shape.name or shape.kind.value).split("::")[-1])[:MOST_NAME] or "T"
        return (word if word[0].isalpha() else "T" + word)[:MOST_NAME] + str(len(self.names))

    def _field_text(self, owner: Shape, field: Field) -> str:
        if not field.is_mapped():
            if owner.regions:
                raise Refused("field region unmapped")
            field.mapping = [AS_STATIC if it is None else it for it in field.mapping]
            self.fields.notes["field region taken as static"] += 1
        return self.text(field.shape, ["'static" if it == AS_STATIC else f"'p{it}" for it in field.mapping])

    def _invariant_in(self, shape: Shape) -> set[int]:
        """The places of the regions in a type that are in invariant positions."""
        if shape.kind is Kind.REFERENCE:
            pointee = shape.parts[0][0]
            inner = set(range(pointee.regions)) if shape.mutable else self._invariant_in(pointee)
            return {1 + at for at in inner}
        return self.marks.get(shape.key, set()) if self.fields.is_struct(shape) else set()

    def text(self, shape: Shape, regions: Sequence[str]) -> str:
        """The text of a type with regions of these names."""
        if shape.kind is Kind.REFERENCE:
            return f"&{regions[0]} {'mut ' if shape.mutable else ''}{self.text(shape.parts[0][0], regions[1:])}"
        if not self.fields.is_struct(shape):
            return "int"
        return self.names[shape.key] + (f"<{', '.join(regions)}>" if regions else "")

    def holds_drop(self, shape: Shape, depth: int = 0) -> bool:
        """Whether the drop of such a value looks at its regions, or that of what it owns does."""
        if shape.kind is Kind.REFERENCE or depth > 8:
            return False
        if self.has_drop(shape):
            return True
        fields = ((name, field) for name, field in self.fields.of.get(shape.key, {}).items() if name != HIDDEN_FIELD)
        return any(self.holds_drop(field.shape, depth + 1) for name, field in fields if (shape.key, name) not in self.cut)

    def leads_to_reference(self, shape: Shape, depth: int = 0) -> bool:
        """Whether a reference is in a value of this shape, as far as its fields are seen."""
        if shape.kind is Kind.REFERENCE or depth > 6:
            return True
        fields = (field for name, field in self.fields.of.get(shape.key, {}).items() if name != HIDDEN_FIELD)
        return any(self.leads_to_reference(field.shape, depth + 1) for field in fields)


def note_invariance(fields: Fields, source: Type, target: Type, edges: AbstractSet[tuple[int, int]]) -> None:
    """Notes the regions of a shape that an assignment between two types of it ties both ways, or only against the assignment."""
    while source.is_reference():
        if source.shape.mutable:
            return
        source, target = source.part(0), target.part(0)
    for at, (one, other) in enumerate(zip(source.regions, target.regions)):
        if one != other and (other, one) in edges:
            fields.invariant[source.shape.key].add(at)
            if (one, other) not in edges:
                fields.contravariant.add(source.shape.key)
