"""Which locals may hold a value where they are dropped, and which types look at their regions then. Nothing here is proved.

Whether a drop uses regions is in rustc's facts (`drop_of_var_derefs_origin`), but not for a local all of whose regions are universal.
"""
from __future__ import annotations

import re
from dataclasses import dataclass, field
from pathlib import Path
from typing import Iterable, Optional

from .dump import Dump
from .mir import Access, Assign, Call, Drop, Nothing, Operand, Statement, StorageDead, StorageLive, TerminatorKind
from .survey import operands_at
from .types import Shape

# Types of the standard library whose drop looks at their regions.
STANDARD_DROPS = frozenset("Ref RefMut MutexGuard RwLockReadGuard RwLockWriteGuard Drain PeekMut Splice".split())
LOCAL = re.compile(r'"_(\d+)"')
# The files of facts that are read: which locals are dropped, and which drops use regions.
DROP_FACTS = ("var_dropped_at.facts", "drop_of_var_derefs_origin.facts")


@dataclass(frozen=True)
class DropFacts:
    """What rustc's facts say of the drops in a body: the locals that are dropped, and those of them whose drop uses regions."""

    dropped: frozenset[int] = frozenset()
    uses_regions: frozenset[int] = frozenset()


def read_facts(folder: Optional[Path]) -> DropFacts:
    """Returns the facts of a body's folder; none where it is not there."""
    if folder is None or not folder.is_dir():
        return DropFacts()
    dropped, uses_regions = (locals_in(folder / name) for name in DROP_FACTS)
    return DropFacts(dropped, uses_regions)


def locals_in(path: Path) -> frozenset[int]:
    """The locals that the lines of a file begin with."""
    try:
        text = path.read_text()
    except OSError:
        return frozenset()
    return frozenset(int(found[1]) for line in text.splitlines() if (found := LOCAL.match(line)))


@dataclass
class DropMarks:
    """The shapes and the names of types whose drop looks at their regions."""

    keys: set[str] = field(default_factory=set)
    names: frozenset[str] = STANDARD_DROPS

    def has(self, shape: Shape) -> bool:
        return shape.key in self.keys or shape.name in self.names


def moved_whole(dump: Dump) -> set[int]:
    """The locals that are moved as a whole somewhere."""
    moved: set[int] = set()
    for block in dump.blocks:
        for it in (*block.statements, block.terminator.kind):
            moved.update(operand.place.local for operand in operands_at(it) if is_whole_move(operand))
    return moved


def is_whole_move(operand: Operand) -> bool:
    return operand.access is Access.MOVE and not operand.place.projections


@dataclass
class Initialized:
    """Which locals may hold a value, as bits: on entry to each block that is reached, unwinding too, before its terminator, and behind it."""

    entry: dict[int, int]
    before: dict[int, int] = field(default_factory=dict)
    behind: dict[int, int] = field(default_factory=dict)

    def at_terminator(self, block: int, local: int) -> bool:
        """Whether a local may hold a value before the terminator of a block."""
        return bool(self.before.get(block, 0) >> local & 1)

    def only_elsewhere(self, source: int, target: int, locals: Iterable[int]) -> list[int]:
        """Those of these locals that may hold a value in a block, but not where it is come to from another one."""
        bits = self.entry.get(target, 0) & ~self.behind.get(source, 0)
        return [local for local in locals if bits >> local & 1]


def maybe_initialized(dump: Dump) -> Initialized:
    """Returns which locals may hold a value."""
    found = Initialized({0: sum(1 << local for local in range(1, len(dump.parameters) + 1))})
    todo = [0]
    while todo:
        number = todo.pop()
        block = dump.blocks[number]
        held = found.entry[number]
        for statement in block.statements:
            held = after(held, statement)
        found.before[number] = held
        found.behind[number] = held = after(held, block.terminator.kind)
        for target in (*block.terminator.targets, block.terminator.unwind, block.terminator.dropped):
            if target is not None and (target not in found.entry or held & ~found.entry[target]):
                found.entry[target] = found.entry.get(target, 0) | held
                todo.append(target)
    return found


def dropped_whole(dump: Dump) -> list[int]:
    """The locals that are dropped as a whole somewhere."""
    ends = (block.terminator.kind for block in dump.blocks)
    return sorted({it.place.local for it in ends if isinstance(it, Drop) and not it.place.projections})


def after(held: int, it: Statement | TerminatorKind) -> int:
    """The locals that may hold a value after a point, of those that may before it."""
    if isinstance(it, Nothing):
        return held
    if isinstance(it, (StorageDead, StorageLive)):
        return held & ~(1 << it.local)
    for operand in operands_at(it):
        if is_whole_move(operand):
            held &= ~(1 << operand.place.local)
    if isinstance(it, Drop) and not it.place.projections:
        held &= ~(1 << it.place.local)
    if isinstance(it, Assign):
        held |= 1 << it.target.local
    elif isinstance(it, Call):
        held |= 1 << it.place.local
    return held
