"""The answers of nlldb beside those of rustc, by function and by line. Nothing here is proved.

A function is compared together with its closures, since rustc may report at the one what nlldb reports at the other. An error of rustc's belongs to
the smallest function whose source has its place. By line they agree where each error of the one has one of the other at a line of its own: that of
the access, of the loan, or of a link of the chain.
"""
from __future__ import annotations

from collections import defaultdict
from dataclasses import dataclass, field
from typing import Iterable, NamedTuple, Optional

from .checking import Checked
from .crate import Body
from .explain import Teller
from .findings import Answer, Conflict, Finding, position_of
from .required import Required, required_in
from .rustc import Diagnostic
from .spans import Position, read_span


class Range(NamedTuple):
    """The lines of a file that a function has."""

    file: str
    first: int
    last: int

    def has(self, at: Position) -> bool:
        return at.file == self.file and self.first <= at.line <= self.last


class Theirs(NamedTuple):
    """An error of rustc's: its code and its line."""

    code: str
    line: int


@dataclass
class Root:
    """A function with its closures: the errors of both, where it is, and what is not written or not accepted of it."""

    name: str
    bodies: list[Body] = field(default_factory=list)
    range: Optional[Range] = None
    # the lines of each error of nlldb's
    ours: list[frozenset[int]] = field(default_factory=list)
    theirs: list[Theirs] = field(default_factory=list)
    refused: list[str] = field(default_factory=list)
    faults: list[str] = field(default_factory=list)

    def agrees(self) -> bool:
        """Whether both reject the function, or both accept it."""
        return bool(self.ours) == bool(self.theirs)

    def unmatched(self) -> tuple[list[frozenset[int]], list[Theirs]]:
        """The errors of each that the other has none for at a line of theirs."""
        lines = {error.line for error in self.theirs}
        every = frozenset().union(*self.ours)
        return [it for it in self.ours if not it & lines], [it for it in self.theirs if it.line not in every]

    def agrees_by_line(self) -> bool:
        return self.unmatched() == ([], [])


@dataclass
class Compared:
    """A source with its functions, and the errors of rustc's that are in none or of no kind that is compared."""

    source: str
    roots: list[Root]
    homeless: list[Diagnostic] = field(default_factory=list)
    others: list[Diagnostic] = field(default_factory=list)
    required: list[Required] = field(default_factory=list)

    def counts(self) -> dict[str, int]:
        """How many functions there are, and how many of each kind."""
        written = [root for root in self.roots if not root.refused]
        told = [root for root in written if not root.faults]
        return {
            "functions": len(self.roots),
            "written": len(written),
            "agree": sum(1 for root in told if root.agrees()),
            "rejected": sum(1 for root in told if root.agrees() and root.ours),
            "lines": sum(1 for root in told if root.agrees() and root.ours and root.agrees_by_line()),
            "differ": sum(1 for root in told if not root.agrees()),
            "faults": sum(1 for root in self.roots if root.faults),
            "closures": len(self.required),
            "requiring": sum(1 for it in self.required if it.ours or it.theirs),
            "required": sum(1 for it in self.required if (it.ours or it.theirs) and it.agrees()),
        }


def compared(found: Checked) -> Compared:
    """Returns the functions of a source with the errors of both."""
    roots: dict[str, Root] = {}
    for body in found.bodies:
        root = roots.setdefault(body.root(), Root(body.root()))
        root.bodies.append(body)
        note(root, body, found.answers.get(body.name))
    for root in roots.values():
        root.range = range_of(root)
    result = Compared(str(found.source), sorted(roots.values(), key=lambda root: root.name), others=found.run.other_errors())
    result.required = required_in(found)
    for error in found.run.errors:
        if error.is_of_borrows():
            place(result, error)
    return result


def note(root: Root, body: Body, answer: Optional[Answer]) -> None:
    """Adds what nlldb says of a body."""
    if body.text is None:
        root.refused.append(body.refused)
    elif answer and answer.fault:
        root.faults.append(answer.fault)
    elif answer and answer.findings:
        teller = Teller(body)
        root.ours += [lines_of(body, teller, finding) for finding in answer.findings]


def lines_of(body: Body, teller: Teller, finding: Finding) -> frozenset[int]:
    """The lines of an error: of the access and of the loan, and of each link of the chain."""
    groups = teller.constraints.chain(finding.chain)
    places = [position_of(body, group[0].point) for group in groups if group[0].point]
    if isinstance(finding, Conflict):
        places += [position_of(body, finding.at), position_of(body, finding.loan)]
    else:
        places += [read_span(constraint.span) for group in groups for constraint in group]
    return frozenset(at.line for at in places if at)


def range_of(root: Root) -> Optional[Range]:
    """The lines of a function: from where its result's type is written to its last point in that file."""
    first = next((body for body in root.bodies if body.name == root.name and body.dump), None) or next((it for it in root.bodies if it.dump), None)
    start = read_span(first.dump.span) if first and first.dump else None
    if start is None or first is None or first.dump is None:
        return None
    spans = [read_span(span) for block in first.dump.blocks for span in block.spans]
    lines = [line for span in spans if span and span.file == start.file for line in (span.line, span.end_line)]
    return Range(start.file, min([start.line, *lines]), max([start.end_line, *lines]))


def place(result: Compared, error: Diagnostic) -> None:
    """Gives an error of rustc's to the smallest function that has its place."""
    for at in error.primary[:1]:
        homes = [root for root in result.roots if root.range and root.range.has(at)]
        if homes:
            home = min(homes, key=lambda root: root.range.last - root.range.first if root.range else 0)
            home.theirs.append(Theirs(error.code, at.line))
            return
    result.homeless.append(error)


def summed(all_counts: Iterable[dict[str, int]]) -> dict[str, int]:
    """The sums of counts."""
    total: dict[str, int] = defaultdict(int)
    for counts in all_counts:
        for name, count in counts.items():
            total[name] += count
    return dict(total)
