"""The parts of rustc's MIR that a dump has: places, operands, values, statements, terminators. Nothing here is proved.

The names are those of rustc. What means nothing to a borrow check (`StorageLive`, `nop`, counters) is one statement, `Nothing`.
"""
from __future__ import annotations

from dataclasses import dataclass
from enum import Enum
from typing import NamedTuple, Optional, Union


class Point(NamedTuple):
    """A statement or a terminator of rustc's MIR: its block and its number there."""

    block: int
    index: int


class Step(Enum):
    """A projection of a place."""

    DEREF = "deref"
    FIELD = "field"
    VARIANT = "variant"
    INDEX = "index"
    CONSTANT_INDEX = "constant index"
    SUBSLICE = "subslice"


class Projection(NamedTuple):
    """A step, with the number of a field, and the text of what else it has: a field's type, a variant's name, the bounds of a subslice."""

    step: Step
    number: int = 0
    text: str = ""


class Place(NamedTuple):
    """A local and the projections that lead from it."""

    local: int
    projections: tuple[Projection, ...] = ()


class Access(Enum):
    """How an operand reads."""

    COPY = "copy"
    MOVE = "move"
    CONSTANT = "const"


class Operand(NamedTuple):
    """A copy or a move out of a place, or a constant, which has its text and no place."""

    access: Access
    place: Place = Place(-1)
    text: str = ""


class Borrow(Enum):
    """The kind of a borrow. A fake one is made for the guards of a match."""

    SHARED = "shared"
    MUTABLE = "mutable"
    FAKE_SHALLOW = "fake shallow"
    FAKE = "fake"


@dataclass(frozen=True, slots=True)
class Use:
    operand: Operand


@dataclass(frozen=True, slots=True)
class Cast:
    operands: tuple[Operand, ...]


@dataclass(frozen=True, slots=True)
class Ref:
    region: int
    borrow: Borrow
    place: Place


@dataclass(frozen=True, slots=True)
class RawRef:
    mutable: bool
    place: Place


@dataclass(frozen=True, slots=True)
class Discriminant:
    place: Place


@dataclass(frozen=True, slots=True)
class Operation:
    """An operation on numbers. `Len` has its place as `length_of`, and as its only operand."""

    operands: tuple[Operand, ...]
    length_of: Optional[Place] = None


@dataclass(frozen=True, slots=True)
class ThreadLocal:
    pass


class Made(Enum):
    """What an aggregate makes."""

    TUPLE = "tuple"
    ARRAY = "array"
    CLOSURE = "closure"
    CONSTRUCTED = "constructed"


@dataclass(frozen=True, slots=True)
class Aggregate:
    """A tuple, an array, a closure, or a struct or variant with its path and its generic arguments as `<..>`."""

    made: Made
    operands: tuple[Operand, ...]
    path: str = ""
    generics: str = ""


Rvalue = Union[Use, Cast, Ref, RawRef, Discriminant, Operation, ThreadLocal, Aggregate]


@dataclass(frozen=True, slots=True)
class Assign:
    target: Place
    value: Rvalue


@dataclass(frozen=True, slots=True)
class StorageDead:
    local: int


@dataclass(frozen=True, slots=True)
class StorageLive:
    local: int


@dataclass(frozen=True, slots=True)
class GuardRead:
    """The end of a match guard, where rustc reads a fake borrow."""

    local: int


@dataclass(frozen=True, slots=True)
class Ascription:
    """A type that the source gives, of which only the constraints matter."""


@dataclass(frozen=True, slots=True)
class Intrinsic:
    operands: tuple[Operand, ...]


@dataclass(frozen=True, slots=True)
class Nothing:
    pass


@dataclass(frozen=True, slots=True)
class Unread:
    """What the reader cannot read: the body is refused for this reason where a path leads there."""

    reason: str


Statement = Union[Assign, StorageDead, StorageLive, GuardRead, Ascription, Intrinsic, Nothing, Unread]


@dataclass(frozen=True, slots=True)
class Goto:
    target: int


@dataclass(frozen=True, slots=True)
class FalseEdge:
    """An edge that is never taken beside one that is."""

    real: int
    imaginary: int


@dataclass(frozen=True, slots=True)
class Switch:
    operand: Operand
    targets: tuple[int, ...]


@dataclass(frozen=True, slots=True)
class Return:
    pass


@dataclass(frozen=True, slots=True)
class Stop:
    """A terminator behind which nothing runs. `resume` goes on unwinding in the caller."""

    resume: bool = False


@dataclass(frozen=True, slots=True)
class Drop:
    place: Place
    target: int


@dataclass(frozen=True, slots=True)
class Assert:
    operands: tuple[Operand, ...]
    target: int


@dataclass(frozen=True, slots=True)
class Call:
    """A call; `callee` is its text. A function that is itself an operand is the first of the operands. Without `target` it does not return."""

    place: Place
    operands: tuple[Operand, ...]
    callee: str
    target: Optional[int]


TerminatorKind = Union[Goto, FalseEdge, Switch, Return, Stop, Drop, Assert, Call, Unread]


class Terminator(NamedTuple):
    """A terminator with where it leads: without unwinding (`targets`), and the block that unwinding goes to."""

    kind: TerminatorKind
    targets: tuple[int, ...] = ()
    unwind: Optional[int] = None
    dropped: Optional[int] = None


@dataclass(slots=True)
class Block:
    """The statements of a block and its terminator, and the text of the source span of each, the terminator's last."""

    statements: list[Statement]
    terminator: Terminator
    spans: list[str]
    cleanup: bool = False
