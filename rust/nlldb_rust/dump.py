"""Reads a dump of rustc's borrow check of one body (`NAME.-------.nll.0.mir`). Nothing here is proved.

The form is debug output of the versions of rustc that `rustc.py` names. What is read is said in `docs/user/rust.md`.
"""
from __future__ import annotations

import re
from dataclasses import dataclass, field
from pathlib import Path
from typing import NamedTuple, Optional

from .mir import Block, Nothing, Point, Terminator, Stop
from .refused import Refused
from .scan import group_end, split_outside
from .statements import read_statement
from .terminators import read_terminator

REGION = re.compile(r"'\?(\d+)")
UNIVERSAL = re.compile(r"\| '\?(\d+) \| (Global|External|Local) \| \[(.*)\]")
CONSTRAINT = re.compile(r"\| '\?(\d+): '\?(\d+) due to (.*) at (?:All\(.*\)|Single\(bb(\d+)\[(\d+)\]\)) \((.*) \(#\d+\)")
REQUIREMENT = re.compile(r"\| where '\?(\d+): '\?(\d+)")
NAMED = re.compile(r"\s+debug (.*) => (_(\d+)|.*);")
LET = re.compile(r" +let (?:mut )?_(\d+): (.*); +// (return place )?in scope \d+ at (.*)$")
BLOCK = re.compile(r"    bb(\d+)( \(cleanup\))?: \{")
USER_TYPE = re.compile(r" as UserTypeProjection \{| as \[?UserType")
PARAMETER = re.compile(r"_(\d+): (.*)$", re.S)
CONSTANT_BODY = ("const ", "static ", "promoted")


class Constraint(NamedTuple):
    """`longer` must outlive `shorter`, at a point or everywhere, for a reason that rustc names, at a place in the source."""

    longer: int
    shorter: int
    category: str
    point: Optional[Point]
    span: str


@dataclass
class Dump:
    """What a dump says of a body."""

    head: str = ""
    # each universal region, with those that it is known to outlive
    universal: dict[int, list[int]] = field(default_factory=dict)
    # those of them that a closure has from its creator, and `'static`
    external: set[int] = field(default_factory=set)
    constraints: list[Constraint] = field(default_factory=list)
    # what a closure requires of its creator
    requirements: list[tuple[int, int]] = field(default_factory=list)
    # the text of each local's type, and the names that the source gives to locals and to other places
    locals: dict[int, str] = field(default_factory=dict)
    names: dict[int, str] = field(default_factory=dict)
    named_places: list[tuple[str, str]] = field(default_factory=list)
    parameters: list[str] = field(default_factory=list)
    blocks: list[Block] = field(default_factory=list)
    # where the result's type is written: the body's own file and line
    span: str = ""

    def points(self) -> int:
        return sum(len(block.spans) for block in self.blocks)


def read_dump(path: Path, unwind: bool = True) -> Dump:
    """Returns what a file says. Without `unwind` the blocks of unwinding are left empty. Refuses a coroutine, and what has another form."""
    lines = path.read_text(errors="replace").split("\n")
    dump = Dump()
    start = read_analysis(dump, lines)
    for number in range(start + 1, len(lines)):
        if lines[number].startswith("}"):
            break
    read_body(dump, lines[start + 1 : number], unwind)
    read_header(dump, "\n".join(lines[start : start + 2]))
    return dump


def trimmed(text: str) -> str:
    """Returns a dump without the lines that nothing here reads: the values that rustc found, and what it says of constants."""
    lines = (line for line in text.split("\n") if not line.lstrip().startswith("//"))
    return "\n".join(line for line in lines if not (line.startswith("|") and (" | U" in line or " live at " in line)))


def read_analysis(dump: Dump, lines: list[str]) -> int:
    """Reads the lines before the body. Returns the number of the body's header."""
    for number, line in enumerate(lines):
        if not line.startswith("|"):
            if line.startswith(("fn ", *CONSTANT_BODY)) or line.endswith("= {"):
                dump.head = line
                return number
        elif line.startswith("| '?"):
            if " due to " in line:
                read_constraint(dump, line)
            elif found := UNIVERSAL.match(line):
                dump.universal[int(found[1])] = [int(it) for it in REGION.findall(found[3])]
                if found[2] != "Local":
                    dump.external.add(int(found[1]))
        elif found := REQUIREMENT.match(line):
            dump.requirements.append((int(found[1]), int(found[2])))
    raise Refused("parse: no body")


def read_constraint(dump: Dump, line: str) -> None:
    if found := CONSTRAINT.match(line):
        longer, shorter, category, block, index, span = found.groups()
        point = Point(int(block), int(index)) if block else None
        dump.constraints.append(Constraint(int(longer), int(shorter), category, point, span))


def read_body(dump: Dump, lines: list[str], unwind: bool) -> None:
    """Reads the locals, and the blocks behind them."""
    texts: list[list[tuple[str, str]]] = []
    cleanup: set[int] = set()
    for line in lines:
        if "// bb" in line:
            if texts and not line.lstrip().startswith("//"):
                read_line(line, texts[-1])
        elif found := BLOCK.match(line):
            while len(texts) <= int(found[1]):
                texts.append([])
            if found[2]:
                cleanup.add(int(found[1]))
        elif not texts:
            read_local(dump, line)
    dump.blocks = [block_of(block, number in cleanup, unwind) for number, block in enumerate(texts)]


def read_local(dump: Dump, line: str) -> None:
    if found := LET.match(line):
        local = int(found[1])
        dump.locals[local] = USER_TYPE.split(found[2])[0]
        if found[3]:
            dump.span = found[4]
    elif found := NAMED.match(line):
        if found[3]:
            dump.names.setdefault(int(found[3]), found[1])
        else:
            dump.named_places.append((found[2], found[1]))


def read_line(line: str, texts: list[tuple[str, str]]) -> None:
    """Reads a statement or a terminator: its text, and its place behind `// bb0[1]: scope 0 at`."""
    start = line.rfind("// bb")
    span = line.find(" at ", start)
    if span >= 0:
        texts.append((line[:start].strip().removesuffix(";"), line[span + 4 :]))


def block_of(texts: list[tuple[str, str]], cleanup: bool, unwind: bool) -> Block:
    if not texts:
        return Block([Nothing()], Terminator(Stop()), ["", ""], cleanup)
    if cleanup and not unwind:
        return Block([], Terminator(Stop(resume=True)), [span for _, span in texts], cleanup)
    *statements, (last, _) = texts
    return Block([read_statement(text) for text, _ in statements], read_terminator(last), [span for _, span in texts], cleanup)


def read_header(dump: Dump, head: str) -> None:
    """Reads the types of the parameters and of the result."""
    if not dump.head.startswith("fn "):
        if "= {" not in dump.head:
            raise Refused("parse: header")
        return
    if "yields " in head:
        raise Refused("coroutine")
    start = dump.head.find("(_1: ")
    if start < 0:
        start = dump.head.rfind("() ->")
    if start < 0:
        raise Refused("parse: header")
    end = group_end(dump.head, start)
    for text in split_outside(dump.head[start + 1 : end - 1]):
        if not (found := PARAMETER.match(text)):
            raise Refused("parse: header")
        dump.parameters.append(found[2])
    for number, text in enumerate(dump.parameters):
        dump.locals.setdefault(number + 1, text)
    dump.locals.setdefault(0, dump.head[end:].strip().removeprefix("->").strip().rstrip("{").strip())
