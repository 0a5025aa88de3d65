"""Closures that are made once and only called: they are written as closures of the language. Nothing here is proved.

Then nlldb itself finds what they require of their creator. Any other closure is passed on or borrowed longer than for a call, which the language has
no form for. It is written as a function, whose clauses are what rustc found that it requires.
"""
from __future__ import annotations

import re
from dataclasses import dataclass, field, replace
from typing import NamedTuple, Optional, Sequence

from .dump import Dump
from .mir import (
    Access, Aggregate, Assert, Assign, Block, Borrow, Call, Cast, Discriminant, Drop, Intrinsic, Made, Operand, Operation, Place, Point, RawRef, Ref,
    Rvalue, Statement, Switch, TerminatorKind, Use,
)  # fmt: skip
from .refused import Refused
from .survey import Survey, Usage
from .types import Kind, Type
from .uses import thing_at

CALLS = ("::call})", "::call_mut})", "::call_once})")
REFERENCE = re.compile(r"&'\?(\d+) (mut )?(?=\{)")
ENVIRONMENT = 1


class Direct(NamedTuple):
    """A closure that is only called: its local, the name of its body in the dumps without the crate, where it is made, where it is borrowed for a
    call, and each call with the local of its operands."""

    local: int
    body: str
    made: Point
    borrows: frozenset[Point]
    calls: dict[Point, int]


@dataclass
class Unit:
    """A closure as it is written: its number, the places in its captured regions that its external regions have, how many local ones it has, and
    the types of its parameters and of its result."""

    number: int
    external: list[int]
    local: int
    parameters: list[Type]
    result: Type


@dataclass
class DirectClosures:
    """The closures of a body that are only called, by the points that are about them."""

    made: dict[Point, Direct] = field(default_factory=dict)
    borrows: set[Point] = field(default_factory=set)
    calls: dict[Point, Direct] = field(default_factory=dict)
    units: dict[int, Unit] = field(default_factory=dict)

    def add(self, direct: Direct, unit: Unit) -> None:
        self.made[direct.made] = direct
        self.borrows |= direct.borrows
        self.calls.update(dict.fromkeys(direct.calls, direct))
        self.units[direct.local] = unit


def calls_closures(dump: Dump) -> bool:
    """Whether a body has a call that may be one of a closure of its own."""
    kinds = (block.terminator.kind for block in dump.blocks)
    return any(isinstance(it, Call) and it.callee.endswith(CALLS) for it in kinds)


def direct_closures(dump: Dump, survey: Survey, locals: dict[int, Type]) -> list[Direct]:
    """Returns the closures of a body that are only called."""
    found = (direct_closure(dump, survey, locals, local) for local in sorted(locals) if locals[local].shape.kind is Kind.CLOSURE)
    return [it for it in found if it is not None]


def direct_closure(dump: Dump, survey: Survey, locals: dict[int, Type], local: int) -> Optional[Direct]:
    """Returns the closure in a local, if it is made once, into that local, and only called."""
    definitions = survey.definitions.get(local, [])
    made = thing_at(dump, definitions[0]) if len(definitions) == 1 else None
    if not isinstance(made, Assign) or not isinstance(made.value, Aggregate) or made.value.made is not Made.CLOSURE:
        return None
    borrows: set[Point] = set()
    calls: dict[Point, int] = {}
    for use in survey.uses.get(local, []):
        call = call_of(dump, survey, use)
        if call is not None:
            calls[call[0]] = call[1]
            borrows.update({use.point} - {call[0]})
        elif use.how != "drop" or use.place.projections:
            return None
    body = locals[local].shape.name.replace("::", "-")
    return Direct(local, body, definitions[0], frozenset(borrows), calls) if calls else None


def call_of(dump: Dump, survey: Survey, use: Usage) -> Optional[tuple[Point, int]]:
    """The call that a use of a closure is for, and the local of its operands: of the closure itself, or of a borrow that is used for it alone."""
    it = thing_at(dump, use.point)
    if use.place.projections:
        return None
    if isinstance(it, Call) and use.how == "move":
        return called(dump, survey, use.point, use.place.local)
    if isinstance(it, Assign) and isinstance(it.value, Ref) and not it.target.projections:
        holder = it.target.local
        uses = survey.uses.get(holder, [])
        if len(uses) == 1 and uses[0].how == "move" and len(survey.definitions.get(holder, [])) == 1 and holder not in dump.names:
            return called(dump, survey, uses[0].point, holder)
    return None


def called(dump: Dump, survey: Survey, point: Point, holder: int) -> Optional[tuple[Point, int]]:
    """The call at a point, if it calls what a local holds with operands that are in a tuple of its own."""
    it = thing_at(dump, point)
    if not isinstance(it, Call) or not it.callee.endswith(CALLS) or len(it.operands) != 2:
        return None
    function, given = it.operands
    if function != Operand(Access.MOVE, Place(holder)) or given.access is not Access.MOVE or given.place.projections:
        return None
    operands = given.place.local
    definitions = survey.definitions.get(operands, [])
    made = thing_at(dump, definitions[0]) if len(definitions) == 1 and len(survey.uses[operands]) == 1 else None
    is_tuple = isinstance(made, Assign) and isinstance(made.value, Aggregate) and made.value.made is Made.TUPLE
    return (point, operands) if is_tuple else None


# The body of such a closure: its environment is a local that it borrows at its beginning, where rustc has a reference to it as a parameter.


def with_environment(dump: Dump) -> Dump:
    """Returns the body of a closure with what it captures in local 1. Refuses one whose environment has another form."""
    text = dump.locals[ENVIRONMENT]
    found = REFERENCE.match(text)
    if not found:
        if not text.startswith("{"):
            raise Refused("closure: environment")
        return dump
    region, holder = int(found[1]), max(dump.locals) + 1
    first = Assign(Place(holder), Ref(region, Borrow.MUTABLE if found[2] else Borrow.SHARED, Place(ENVIRONMENT)))
    blocks = [renamed_block(block, holder) for block in dump.blocks]
    blocks[0] = replace(blocks[0], statements=[first, *blocks[0].statements], spans=[dump.span, *blocks[0].spans])
    constraints = [
        it._replace(point=Point(0, it.point.index + 1)) if it.point is not None and it.point.block == 0 else it
        for it in dump.constraints
        if it.point is not None or region not in (it.longer, it.shorter)
    ]
    named = [(re.sub(r"\b_1\b", f"_{holder}", place), name) for place, name in dump.named_places]
    locals = dump.locals | {ENVIRONMENT: text[found.end() :], holder: text}
    return replace(dump, blocks=blocks, constraints=constraints, named_places=named, locals=locals, requirements=[])


def renamed_block(block: Block, local: int) -> Block:
    """A block with another local in place of the environment's."""
    statements = [renamed(it, local) for it in block.statements]
    terminator = block.terminator._replace(kind=renamed(block.terminator.kind, local))
    return replace(block, statements=statements, terminator=terminator)


def place_renamed(place: Place, local: int) -> Place:
    return place._replace(local=local) if place.local == ENVIRONMENT else place


def operands_renamed(operands: Sequence[Operand], local: int) -> tuple[Operand, ...]:
    return tuple(it._replace(place=place_renamed(it.place, local)) for it in operands)


def renamed(it: Statement | TerminatorKind, local: int) -> Statement | TerminatorKind:
    """A statement or a terminator with another local in place of the environment's."""
    if isinstance(it, Assign):
        return Assign(place_renamed(it.target, local), value_renamed(it.value, local))
    if isinstance(it, (Intrinsic, Assert)):
        return replace(it, operands=operands_renamed(it.operands, local))
    if isinstance(it, Call):
        return replace(it, place=place_renamed(it.place, local), operands=operands_renamed(it.operands, local))
    if isinstance(it, Switch):
        return replace(it, operand=operands_renamed((it.operand,), local)[0])
    return replace(it, place=place_renamed(it.place, local)) if isinstance(it, Drop) else it


def value_renamed(value: Rvalue, local: int) -> Rvalue:
    if isinstance(value, Use):
        return Use(operands_renamed((value.operand,), local)[0])
    if isinstance(value, (Cast, Aggregate)):
        return replace(value, operands=operands_renamed(value.operands, local))
    if isinstance(value, Operation):
        length_of = value.length_of and place_renamed(value.length_of, local)
        return Operation(operands_renamed(value.operands, local), length_of)
    return replace(value, place=place_renamed(value.place, local)) if isinstance(value, (Ref, RawRef, Discriminant)) else value
