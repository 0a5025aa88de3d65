"""The fake borrows that rustc makes for the guards of a match. Nothing here is proved.

Such a borrow keeps what the match looks at from being changed until the guard ends. It is written as a borrow of the discriminant's field, or of the
whole place, that is read at the guard's end.
"""
from __future__ import annotations

from typing import NamedTuple, Optional

from .fields import HIDDEN_FIELD
from .mir import Borrow, Place, Point, Ref
from .types import INT, reference_to
from .writing import Writing


class Guard(NamedTuple):
    """The local that the borrow is put into, and the region of a borrow of the discriminant, if it is one."""

    local: int
    region: Optional[int]


class Guards:
    """Writes fake borrows and what reads them."""

    def __init__(self, writing: Writing) -> None:
        self.writing = writing
        self.known: dict[int, Optional[Guard]] = {}

    def guard(self, local: int) -> Optional[Guard]:
        """How the borrow in a local is written; None where it is left out."""
        if local not in self.known:
            self.known[local] = self._new(local)
        return self.known[local]

    def _new(self, local: int) -> Optional[Guard]:
        kind = self.writing.locals[local]
        if not kind.is_reference():
            return None
        looked_at = kind.part(0)
        if looked_at.is_reference() and looked_at.shape.mutable:
            return None
        if looked_at.is_reference() or not self.writing.fields.is_struct(looked_at.shape):
            return Guard(local, None)
        region = self.writing.regions.fresh()
        return Guard(self.writing.new_local(reference_to(INT, region, False)), region)

    def borrow(self, target: Place, value: Ref, point: Point) -> None:
        """Writes a fake borrow."""
        self.writing.notes["fake borrow"] += 1
        text, kind, rest, _ = self.writing.place(value.place)
        if value.borrow is not Borrow.FAKE_SHALLOW or rest or kind is None or target.projections:
            return
        guard = self.guard(target.local)
        if guard is None:
            self.writing.notes["fake borrow left out"] += 1
        elif guard.region is None:
            region = self.writing.regions.find(value.region)
            self.writing.emit(f"_{target.local} = &{self.writing.names.of(region)} {text}", point)
            self.writing.want_but(point)
        elif (number := self.writing.declared.numbers.get((kind.shape.key, HIDDEN_FIELD))) is not None:
            self.writing.emit(f"_{guard.local} = &{self.writing.names.of(guard.region)} {text}.{number}", point)

    def read(self, local: int, point: Point) -> None:
        """Writes the end of a guard."""
        guard = self.guard(local)
        if guard is not None:
            self.writing.emit(f"_{guard.local} = copy _{guard.local}", point)
