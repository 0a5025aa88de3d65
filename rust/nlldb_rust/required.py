"""What closures require of their creators: by nlldb, and by rustc. Nothing here is proved.

A closure is written once more, as a function without clauses for what rustc found that it requires. Then each pair of its universal regions that it
needs and does not know is a lifetime error. Those of regions that it has from its creator are what it requires. The language takes any other for an
error of its own; rustc asks the creator for more where it can, for a region that is known to outlive the shorter one.
"""
from __future__ import annotations

from dataclasses import dataclass

from .checking import Checked
from .crate import Body
from .dump import Dump
from .findings import Answer, Lifetime
from .graphs import Edge, leads, successors_of
from .links import Constraints


@dataclass(frozen=True)
class Required:
    """The pairs of regions of a closure of which the first has to outlive the second, by both, and what is known of them anyway."""

    name: str
    ours: frozenset[Edge]
    theirs: frozenset[Edge]
    known: frozenset[Edge]

    def missed(self) -> list[Edge]:
        """The pairs of rustc's that do not follow from ours and what is known."""
        return not_implied(self.theirs, self.ours | self.known)

    def added(self) -> list[Edge]:
        """Our pairs that do not follow from rustc's and what is known."""
        return not_implied(self.ours, self.theirs | self.known)

    def agrees(self) -> bool:
        return not self.missed() and not self.added()


def not_implied(edges: frozenset[Edge], others: frozenset[Edge]) -> list[Edge]:
    successors = successors_of(others)
    return sorted(edge for edge in edges if not leads(successors, *edge))


def known_of(dump: Dump) -> frozenset[Edge]:
    """What is known of the universal regions of a body; `'static` outlives all."""
    pairs = {(longer, shorter) for longer, outlived in dump.universal.items() for shorter in outlived}
    return frozenset(pairs | {(0, region) for region in dump.universal})


def bounds_of(dump: Dump, region: int) -> list[int]:
    """Returns the region itself where the closure has it from its creator, or else the least of those that are known to outlive it: rustc asks the
    creator for these. There may be none."""
    if region in dump.external:
        return [region]
    bounds = [it for it in dump.external if it and region in dump.universal[it]]
    return [it for it in bounds if not any(other != it and other in dump.universal[it] for other in bounds)]


def required_of(body: Body, bare: Answer) -> Required:
    """Returns what a closure requires. `bare` is the answer to its text without clauses for that."""
    dump = body.plain or body.dump
    assert dump is not None and body.bare is not None
    constraints = Constraints(dump, body.bare)
    pairs = ((it.longer, it.shorter) for it in bare.findings if isinstance(it, Lifetime) and it.longer in dump.external)
    ours = frozenset((longer, bound) for longer, shorter in pairs for bound in bounds_of(dump, shorter))
    theirs = frozenset((constraints.find(longer), constraints.find(shorter)) for longer, shorter in dump.requirements)
    return Required(body.name, ours, theirs, known_of(dump))


def required_in(found: Checked) -> list[Required]:
    """Returns what each closure of a source requires that was asked without its clauses."""
    return [required_of(body, found.bare[body.name]) for body in found.bodies if body.name in found.bare]
