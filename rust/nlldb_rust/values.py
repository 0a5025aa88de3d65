"""Writes statements: what has a form of its own as that, and the rest as calls. Nothing here is proved."""
from __future__ import annotations

from typing import Optional, Sequence

from .calls import Calls
from .fields import HIDDEN_FIELD, Field, Key
from .guards import Guards
from .mir import (
    Access, Aggregate, Ascription, Assign, Borrow, Cast, Discriminant, GuardRead, Intrinsic, Made, Operand, Operation, Place, Point, RawRef, Ref, Statement,
    Step, StorageDead, Unread, Use,
)  # fmt: skip
from .refused import Refused
from .types import Kind, Type
from .writing import Argument, Pending, Writing, Written


class Values:
    """Writes the statements of a body."""

    def __init__(self, writing: Writing, calls: Calls, guards: Guards) -> None:
        self.writing, self.calls, self.guards = writing, calls, guards

    def statement(self, it: Statement, point: Point) -> None:
        """Writes a statement, if it means anything. Refuses what could not be read."""
        if isinstance(it, Assign):
            self.assign(it, point)
        elif isinstance(it, StorageDead):
            self.writing.emit(f"dead _{it.local}", point)
        elif isinstance(it, GuardRead):
            self.guards.read(it.local, point)
        elif isinstance(it, Ascription):
            self.writing.want_but(point)
        elif isinstance(it, Intrinsic):
            self.calls.step(None, it.operands, point, "intrinsic")
        elif isinstance(it, Unread):
            raise Refused(it.reason)

    def assign(self, it: Assign, point: Point) -> None:
        target, value = it.target, it.value
        if isinstance(value, Use):
            self.use(target, value.operand, point)
        elif isinstance(value, Cast):
            self.compute(target, value.operands, point, "cast")
        elif isinstance(value, Operation):
            self.compute(target, value.operands, point, "operation as a call")
        elif isinstance(value, RawRef):
            self.raw_reference(target, value, point)
        elif isinstance(value, Ref):
            self.reference(target, value, point)
        elif isinstance(value, Discriminant):
            self.discriminant(target, value.place, point)
        elif isinstance(value, Aggregate):
            self.aggregate(target, value, point)
        else:
            self.calls.step(target, (), point, "thread local")

    def takes_number(self, written: Written) -> bool:
        """Whether a target can be written and is an `int`."""
        return not written.rest and self.writing.is_number(written.type)

    def compute(self, target: Place, operands: Sequence[Operand], point: Point, why: str) -> None:
        """Writes an operation on numbers as `calc`, and any other as a call."""
        written = self.writing.place(target)
        if self.takes_number(written) and all(self.writing.is_number_operand(it) for it in operands):
            arguments = (self.calls.argument(it, point) for it in operands)
            self.writing.emit(f"{written.text} = calc({', '.join(it.text for it in arguments if it)})", point)
            self.writing.want_but(point)
        else:
            self.calls.step(target, operands, point, why)

    def use(self, target: Place, operand: Operand, point: Point) -> None:
        """Writes the assignment of an operand."""
        written = self.writing.place(target)
        if operand.access is Access.CONSTANT:
            if self.takes_number(written):
                self.writing.emit(f"{written.text} = 0", point)
                self.writing.want_but(point)
            else:
                self.calls.step(target, (), point, "constant")
            return
        source = self.writing.place(operand.place)
        if self.can_assign(written, source, operand.access):
            self.writing.emit(f"{written.text} = {operand.access.value} {source.text}", point)
            self.writing.want_but(point, self.interface(source, written, operand.place, target))
        else:
            self.calls.step(target, (operand,), point, "assignment as a call")

    def can_assign(self, target: Written, source: Written, access: Access) -> bool:
        """Whether an assignment has a form of its own."""
        if target.rest or source.rest or source.type is None or not self.writing.same(source.type, target.type):
            return False
        fields, shape = self.writing.fields, source.type.shape
        return not fields.is_contravariant(shape) and (fields.can_be_copied(shape) if access is Access.COPY else ".*" not in source.text)

    def interface(self, source: Written, target: Written, *places: Place) -> list[int]:
        """The regions between which an assignment makes the demands itself."""
        found = [region for it in (source, target) if it.type for region in it.type.regions]
        for place in places:
            found += self.writing.regions_along(place)
        return found

    def raw_reference(self, target: Place, value: RawRef, point: Point) -> None:
        """Writes `&raw`: a borrow that nobody keeps."""
        text, kind, rest, _ = self.writing.place(value.place)
        if rest or kind is None:
            self.calls.step(target, (Operand(Access.COPY, value.place),), point, "raw borrow")
            return
        borrowed = self.calls.handed_borrow(text, kind, value.mutable, point)
        self.writing.notes["raw borrow"] += 1
        written = self.writing.place(target)
        if self.takes_number(written):
            self.writing.emit(f"{written.text} = 0", point)
            self.writing.want_but(point)
        else:
            self.calls.step(target, (), point, "raw borrow", (borrowed,))

    def reference(self, target: Place, value: Ref, point: Point) -> None:
        """Writes a borrow."""
        if value.borrow not in (Borrow.SHARED, Borrow.MUTABLE):
            self.guards.borrow(target, value, point)
            return
        written, borrowed = self.writing.place(target), self.writing.place(value.place)
        if self.can_borrow(written, borrowed, value):
            self.native_borrow(target, written, borrowed, value, point)
        elif borrowed.type is None:
            self.borrow_of_subslice(target, borrowed, value, point)
        elif borrowed.rest and borrowed.rest[0].step is Step.DEREF and borrowed.type.shape.kind is Kind.POINTER:
            self.calls.step(target, (Operand(Access.COPY, value.place),), point, "borrow behind a raw pointer")
        else:
            argument = self.borrow_of(borrowed, value, point)
            self.calls.step(target, (), point, "borrow behind a cut" if borrowed.rest else "borrow as a call", (argument,))

    def can_borrow(self, target: Written, borrowed: Written, value: Ref) -> bool:
        """Whether a borrow has a form of its own."""
        if target.rest or borrowed.rest or target.type is None or not target.type.is_reference():
            return False
        if borrowed.type is None or self.writing.fields.is_contravariant(borrowed.type.shape):
            return False
        mutable = value.borrow is Borrow.MUTABLE
        return target.type.shape.mutable == mutable and self.writing.same(borrowed.type, target.type.part(0))

    def borrow_of(self, borrowed: Written, value: Ref, point: Point) -> Argument:
        assert borrowed.type is not None
        region = self.writing.regions.find(value.region)
        return self.writing.borrow(borrowed.text, borrowed.type, region, value.borrow is Borrow.MUTABLE, point)

    def native_borrow(self, target: Place, written: Written, borrowed: Written, value: Ref, point: Point) -> None:
        region, mutable = self.writing.regions.find(value.region), value.borrow is Borrow.MUTABLE
        interface = [region, *self.interface(borrowed, written, value.place)]
        reserved = None
        if mutable and not target.projections and target.local in self.writing.survey.two_phase:
            self.writing.notes["two-phase borrow"] += 1
            reserved = None if self.writing.naive_two_phase else self.reserve(borrowed, point)
        text = f"{written.text} = &{self.writing.names.of(region)} {'mut ' if mutable else ''}{borrowed.text}"
        if reserved is not None:
            self.writing.pending[target.local] = Pending(reserved, text, point)
        else:
            self.writing.emit(text, point)
            interface += self.writing.regions_along(target)
        self.writing.want_but(point, interface)

    def reserve(self, borrowed: Written, point: Point) -> int:
        """Writes the first phase of a borrow: a shared one. Returns its local. The second is written where the call is that takes it."""
        assert borrowed.type is not None
        argument = self.writing.borrow(borrowed.text, borrowed.type, self.writing.regions.fresh(), False, point)
        return int(argument.text.removeprefix("move _"))

    def borrow_of_subslice(self, target: Place, borrowed: Written, value: Ref, point: Point) -> None:
        """Writes the borrow of a subslice: one of the elements in it, which a call makes the slice of."""
        whole = Written(borrowed.text, borrowed.element)
        self.calls.step(target, (), point, "borrow of a subslice", (self.borrow_of(whole, value, point),))

    def discriminant(self, target: Place, place: Place, point: Point) -> None:
        """Writes the read of a discriminant: its field is copied."""
        written, looked_at = self.writing.place(target), self.writing.place(place)
        if looked_at.rest or written.rest or looked_at.type is None:
            self.calls.step(target, (Operand(Access.COPY, place),), point, "discriminant behind a raw pointer or a cut")
            return
        shape = looked_at.type.shape
        if not self.writing.declared.leads_to_reference(shape):
            self.calls.handed_borrow(looked_at.text, looked_at.type, False, point)
        number = self.writing.declared.numbers.get((shape.key, HIDDEN_FIELD))
        self.writing.emit(f"{written.text} = copy {looked_at.text}{'' if number is None else f'.{number}'}", point)

    def aggregate(self, target: Place, value: Aggregate, point: Point) -> None:
        """Writes a struct or a tuple as that where each of its fields is an operand, and any other aggregate as a call."""
        made = self.writing.survey.made.get(point)
        if made is None or not self.make_struct(target, value, made.type, point):
            self.calls.step(target, value.operands, point, "aggregate as a call")

    def make_struct(self, target: Place, value: Aggregate, made: Type, point: Point) -> bool:
        """Writes a struct that is made of its fields. Returns whether it has that form."""
        written = self.writing.place(target)
        if written.rest or written.type is None or not self.makes_all_fields(written, made.shape.key, value.operands):
            return False
        texts = ["0" if it.text else f"{it.access.value} {self.writing.place(it.place).text}" for it in value.operands]
        name, regions = self.writing.declared.names[written.type.shape.key], made.regions
        given = f"<{', '.join(self.writing.names.of(it) for it in regions)}>" if regions else ""
        self.writing.emit(f"{written.text} = {name}{given}({', '.join(texts)})", point)
        interface = [*regions, *written.type.regions]
        for it in value.operands:
            if not it.text:
                source = self.writing.place(it.place)
                interface += [*(source.type.regions if source.type else ()), *self.writing.regions_along(it.place)]
        if value.made is not Made.CLOSURE:
            # (what a closure requires is in the constraints at this point too, and nlldb finds it itself)
            self.writing.want_but(point, interface)
        return True

    def makes_all_fields(self, target: Written, key: str, operands: Sequence[Operand]) -> bool:
        """Whether the declared fields of a struct are these operands, each as it is."""
        assert target.type is not None
        shape = target.type.shape
        if not self.writing.fields.is_struct(shape) or shape.key != key:
            return False
        if self.writing.declared.fields_of(key) != [Key("", number) for number in range(len(operands))]:
            return False
        fields = self.writing.fields.of[key]
        return all(self.is_field(it, fields.get(Key("", number))) for number, it in enumerate(operands))

    def is_field(self, operand: Operand, field: Optional[Field]) -> bool:
        """Whether an operand can be put into a field as it is."""
        if field is None:
            return False
        if operand.text:
            return self.writing.fields.is_number(field.shape)
        text, kind, rest, _ = self.writing.place(operand.place)
        fields = self.writing.fields
        if rest or kind is None or not fields.same(kind.shape, field.shape) or fields.is_contravariant(kind.shape):
            return False
        return fields.can_be_copied(kind.shape) if operand.access is Access.COPY else ".*" not in text
