"""The errors that nlldb reports, as points and regions of rustc's dump. Nothing here is proved."""
from __future__ import annotations

import re
from dataclasses import dataclass
from typing import Optional, Union

from .crate import Body
from .mir import Point
from .spans import Position, read_span

AT = re.compile(r"bb(\d+)\[(\d+)\]")


@dataclass(frozen=True)
class Conflict:
    """An access that conflicts with a loan: which access of which point of the text, both points in rustc's MIR, and the chain of regions."""

    access: int
    at: Point
    loan: Point
    chain: tuple[int, ...]


@dataclass(frozen=True)
class Lifetime:
    """A universal region that would have to outlive another, and the chain of regions that leads there."""

    longer: int
    shorter: int
    chain: tuple[int, ...]


Finding = Union[Conflict, Lifetime]


@dataclass
class Answer:
    """What nlldb says of a body: its errors, each place of the source once, or what it did not accept of the text."""

    body: Body
    findings: list[Finding]
    fault: str = ""


def position_of(body: Body, point: Point) -> Optional[Position]:
    """Where a point is in the source."""
    assert body.dump is not None
    return read_span(body.dump.blocks[point.block].spans[point.index])


def answer_of(body: Body, said: dict) -> Answer:
    """Returns what an object of nlldb's says of a body that was written."""
    outcome = said.get("outcome") or {}
    if outcome.get("kind") != "report":
        return Answer(body, [], fault_of(said))
    found: dict[object, Finding] = {}
    for error in next(it for it in outcome["bodies"] if it["name"] == body.unit_name())["errors"]:
        finding = finding_of(body, error)
        key = (position_of(body, finding.at), position_of(body, finding.loan)) if isinstance(finding, Conflict) else finding
        found.setdefault(key, finding)
    return Answer(body, list(found.values()))


def finding_of(body: Body, error: dict) -> Finding:
    assert body.text is not None
    chain = tuple(body.text.regions[word] for word in error["chain"])
    if error["kind"] == "conflict":
        return Conflict(error["access"], point_of(body, error["at"]), point_of(body, error["loan"]), chain)
    regions = body.text.regions
    return Lifetime(regions[str(error["longer"])], regions[str(error["shorter"])], chain)


def point_of(body: Body, text: str) -> Point:
    """The point of rustc's MIR that a point of the text was written for."""
    assert body.text is not None
    found = AT.fullmatch(text)
    assert found
    return body.text.points[int(found[1])][int(found[2])]


def fault_of(said: dict) -> str:
    """What nlldb did not accept, in a few words. It is a fault of the writer."""
    if "fault" in said:
        return f"{said['fault']} at {said.get('line', '?')}:{said.get('column', '?')}"
    outcome = said.get("outcome") or {}
    return " ".join(str(outcome[word]) for word in ("kind", "at", "index") if word in outcome) or "no outcome"
