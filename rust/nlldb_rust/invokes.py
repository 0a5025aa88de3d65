"""Writes the creation and the calls of closures that are only called. Nothing here is proved."""
from __future__ import annotations

from .closures import Direct, Unit
from .fields import Key
from .mir import Aggregate, Assign, Call, Place, Point
from .refused import Refused
from .types import Kind
from .values import Values
from .writing import Label, Writing


class Invokes:
    """Writes closures as closures. What it cannot write that way it refuses, and then they are written as functions."""

    def __init__(self, writing: Writing, values: Values) -> None:
        self.writing, self.values = writing, values

    def type_text(self, local: int) -> str:
        """The type of a local that holds such a closure."""
        unit, regions = self.writing.direct.units[local], self.writing.locals[local].regions
        return f"closure {unit.number}{self.given([self.writing.names.of(regions[at]) for at in unit.external])}"

    def given(self, names: list[str]) -> str:
        return f"<{', '.join(names)}>" if names else ""

    def make(self, it: Assign, direct: Direct, point: Point) -> None:
        """Writes the creation: the captures are made a struct, which is what the closure captures."""
        kind = self.writing.locals[direct.local]
        captured = "0"
        if self.writing.fields.is_struct(kind.shape):
            holder = self.writing.new_local(kind)
            assert isinstance(it.value, Aggregate)
            if not self.values.make_struct(Place(holder), it.value, kind, point):
                raise Refused("closure: its captures")
            captured = f"move _{holder}"
        self.writing.emit(f"_{direct.local} = {self.type_text(direct.local)}({captured})", point)

    def invoke(self, it: Call, direct: Direct, point: Point, label: Label) -> None:
        """Writes a call. Each local region of the closure is a new one here."""
        unit = self.writing.direct.units[direct.local]
        target, kind, rest, _ = self.writing.place(it.place)
        if rest or not self.writing.same(kind, unit.result):
            raise Refused("closure: its result")
        operands = self.operands(direct.calls[point], unit)
        names = [self.writing.names.of(self.writing.regions.fresh()) for _ in range(unit.local)]
        for demand in self.writing.regions.at.get(point, ()):
            if demand.category.startswith("Predicate"):
                self.writing.want(demand.longer, demand.shorter)
        self.writing.end(f"{target} = invoke _{direct.local}{self.given(names)}({', '.join(operands)})", [label], point)

    def operands(self, local: int, unit: Unit) -> list[str]:
        """The operands of a call: the elements of the tuple that they are in."""
        kind = self.writing.locals[local]
        parts = kind.shape.parts if kind.shape.kind is Kind.TUPLE else ()
        if len(parts) != len(unit.parameters):
            raise Refused("closure: its operands")
        texts = []
        for number, parameter in enumerate(unit.parameters):
            at = self.writing.declared.numbers.get((kind.shape.key, Key("", number)))
            if at is None or not self.writing.same(kind.part(number), parameter):
                raise Refused("closure: its operands")
            texts.append(f"move _{local}.{at}")
        return texts

