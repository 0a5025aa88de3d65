"""Tells an error of nlldb's in the words of the Rust source. Nothing here is proved."""
from __future__ import annotations

from dataclasses import dataclass, field
from typing import Optional, Sequence

from .closures import ENVIRONMENT
from .crate import Body
from .dump import Constraint
from .findings import Conflict, Finding, Lifetime, position_of
from .links import Constraints, function_name, is_silent, link_text, regions_in
from .mir import Access, Assign, Borrow, Call, Drop, Place, Point, RawRef, Ref, Return, StorageDead
from .regions import OWN_REGIONS
from .spans import Position
from .survey import operands_at
from .types import STATIC
from .uses import next_use, place_name, thing_at

# What is told of a lifetime error first: these say most, in this order.
TELLING = ("Return", "ClosureUpvar", "CallArgument", "Assignment", "TypeAnnotation", "Cast")


@dataclass(frozen=True)
class Mark:
    """A piece of the source and what is said of it. The first of an error is where it is."""

    at: Position
    text: str


@dataclass
class Told:
    """An error: a sentence, the marked pieces, why the borrow goes on (each link with its place, where it is found), and what else is said."""

    sentence: str
    marks: list[Mark] = field(default_factory=list)
    links: list[Mark] = field(default_factory=list)
    notes: list[str] = field(default_factory=list)


def tell(body: Body, finding: Finding) -> Told:
    """Returns what is told of an error of a body."""
    teller = Teller(body)
    return teller.conflict(finding) if isinstance(finding, Conflict) else teller.lifetime(finding)


class Teller:
    """Tells the errors of one body."""

    def __init__(self, body: Body) -> None:
        assert body.dump is not None and body.text is not None
        self.body, self.dump = body, body.dump
        self.constraints = Constraints(body.dump, body.text)

    def conflict(self, it: Conflict) -> Told:
        """What is told of an access that conflicts with a loan."""
        place, mutable = self.borrowed(it.loan)
        done, label = self.access(it, place)
        told = Told(f"{self.called(place)} {done} while it is borrowed{' mutably' if mutable else ''}")
        self.mark(told, it.at, label)
        self.mark(told, it.loan, f"borrowed{' mutably' if mutable else ''} here")
        for group in self.constraints.chain(it.chain):
            if group[0].point != it.loan and not is_silent(self.dump, group[0].point):
                self.link(told, group)
        self.end(told, it)
        return told

    def called(self, place: Place) -> str:
        """How a borrowed place is called in a sentence."""
        if self.body.within and place == Place(ENVIRONMENT):
            return "what the closure captures"
        name = place_name(self.dump, place)
        return f"`{name}`" if name else "a temporary value"

    def borrowed(self, loan: Point) -> tuple[Place, bool]:
        """The place that a loan is of, and whether it is mutable. A call or a discriminant borrows for itself."""
        it = thing_at(self.dump, loan)
        if isinstance(it, Assign) and isinstance(it.value, Ref):
            return it.value.place, it.value.borrow is Borrow.MUTABLE
        if isinstance(it, Assign) and isinstance(it.value, RawRef):
            return it.value.place, it.value.mutable
        operands = operands_at(it)
        return (operands[0].place if operands else Place(-1)), False

    def access(self, conflict: Conflict, loan: Place) -> tuple[str, str]:
        """What an access does to a place, as a verb and as a label."""
        it = thing_at(self.dump, conflict.at)
        if isinstance(it, StorageDead):
            return "does not live long enough: its storage ends", "its storage ends here"
        if isinstance(it, Return):
            return "does not live long enough: the function returns", "the function returns here"
        if isinstance(it, Drop):
            return "is dropped", "dropped here"
        if isinstance(it, Assign) and isinstance(it.value, (Ref, RawRef)) and it.value.place.local == loan.local:
            mutable = it.value.borrow is Borrow.MUTABLE if isinstance(it.value, Ref) else it.value.mutable
            return (f"is borrowed{' mutably' if mutable else ' again'}", f"borrowed{' mutably' if mutable else ''} here")
        for operand in operands_at(it):
            if operand.place.local == loan.local:
                return ("is moved", "moved here") if operand.access is Access.MOVE else ("is read", "read here")
        if isinstance(it, (Assign, Call)):
            return "is assigned", "assigned here"
        return "is used", "used here"

    def mark(self, told: Told, point: Point, text: str) -> None:
        if at := position_of(self.body, point):
            told.marks.append(Mark(at, text))

    def link(self, told: Told, group: Sequence[Constraint]) -> None:
        """Adds a link, where a place is known for it."""
        at = position_of(self.body, group[0].point) if group[0].point else None
        mark = Mark(at, link_text(self.dump, self.constraints, group)) if at else None
        if mark and mark not in told.links:
            told.links.append(mark)

    def end(self, told: Told, it: Conflict) -> None:
        """Adds what the chain ends with: a later use, or a region that lasts for the whole body."""
        last = it.chain[-1]
        if last in self.dump.universal:
            told.notes.append(f"the borrow has to last as long as {self.region_name(last)}")
            return
        use = next_use(self.dump, it.at, self.holders(it, last))
        if use is None:
            return
        at = thing_at(self.dump, use)
        if use == it.at:
            told.notes.append("the borrow is used there too")
        elif isinstance(at, Drop):
            self.mark(told, use, "the borrow is used here, by a drop")
        elif isinstance(at, Call) and (name := function_name(at.callee)):
            self.mark(told, use, f"the borrow is used here, by `{name}`")
        else:
            self.mark(told, use, "the borrow is used here")

    def holders(self, it: Conflict, region: int) -> set[int]:
        """The locals whose types have a region. A region of the writer's own is that of a two-phase borrow, which its temporary holds."""
        if region > OWN_REGIONS:
            made = thing_at(self.dump, it.loan)
            return {made.target.local} if isinstance(made, Assign) else set()
        return {local for local in self.dump.locals if region in regions_in(self.dump, self.constraints, [local])}

    def lifetime(self, it: Lifetime) -> Told:
        """What is told of a universal region that is not known to outlive another."""
        told = Told(f"{self.region_name(it.longer)} has to outlive {self.region_name(it.shorter)}, and nothing says that it does")
        groups = [group for group in self.constraints.chain(it.chain) if group[0].point is not None]
        for group in groups:
            self.link(told, group)
        best = min(groups, key=lambda group: (telling(group), -groups.index(group)), default=None)
        if best is not None and best[0].point is not None:
            self.mark(told, best[0].point, link_text(self.dump, self.constraints, best))
        return told

    def region_name(self, region: int) -> str:
        """How a universal region is told: by the parameters or the result whose types have it."""
        if region == STATIC:
            return "`'static`"
        for local in range(1, len(self.dump.parameters) + 1):
            if region in regions_in(self.dump, self.constraints, [local]):
                name = self.dump.names.get(local, "")
                return f"the lifetime in the type of `{name}`" if name else "a captured lifetime" if local == 1 else f"a lifetime of parameter {local}"
        if region in regions_in(self.dump, self.constraints, [0]):
            return "the lifetime in the type of the result"
        return "the body itself" if region == max(self.dump.universal) else "a lifetime of the function"


def telling(group: Sequence[Constraint]) -> int:
    """How much the constraints of a point tell: the less the number, the more."""
    words = [constraint.category.split("(")[0] for constraint in group]
    return min((TELLING.index(word) for word in words if word in TELLING), default=len(TELLING))


def first_position(told: Told) -> Optional[Position]:
    """Where an error is: its first mark, or else its first link."""
    marks = told.marks or told.links
    return marks[0].at if marks else None
