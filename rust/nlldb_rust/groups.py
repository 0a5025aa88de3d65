"""Writes a body together with those of its closures that are only called. Nothing here is proved.

They are over the same declarations, so the fields of all are looked at before any is written. The closures are written first, since their creator
gives regions for those that they declare.
"""
from __future__ import annotations

import re
from dataclasses import dataclass, replace
from typing import Sequence

from .body import BodyWriter, Options, Prepared, Text, dropped_shapes, prepare, shapes_of, writing_of
from .calls import Externs
from .closures import ENVIRONMENT, Direct, Unit, direct_closures, with_environment
from .declarations import Declarations
from .drops import DropFacts, DropMarks
from .dump import Dump
from .fields import Fields
from .refused import Refused
from .types import STATIC, TypeReader

UNIVERSAL = re.compile(r"'u(\d+)")


@dataclass(frozen=True)
class Source:
    """What is known of a body before it is written."""

    dump: Dump
    facts: DropFacts


@dataclass
class Group:
    """A body and its closures as they are written, each closure by the name of its body in the dumps without the crate, with its dump as it is
    written. All have one text of declarations."""

    creator: Text
    closures: dict[str, tuple[Text, Dump]]


class ClosureWriter(BodyWriter):
    """Writes a closure. Its first local is what it captures."""

    def header_names(self, lines: Sequence[str]) -> list[int]:
        """Returns the universal regions that are written anywhere. Refuses one of the creator's that is not captured."""
        writing = self.writing
        header = {region for local in range(len(writing.dump.parameters) + 1) for region in writing.locals[local].regions}
        found = header | {int(it) for line in lines for it in UNIVERSAL.findall(line)}
        captured = set(writing.locals[ENVIRONMENT].regions)
        if any(it != STATIC and it not in captured and it in writing.dump.external for it in found):
            raise Refused("closure: a region of its creator that it does not capture")
        return sorted(found & set(writing.dump.universal) - {STATIC})

    def header_clauses(self, header: Sequence[int]) -> list[str]:
        """Returns what is known of the regions that are declared."""
        universal, names = self.writing.regions.universal, self.writing.names.universal
        pairs = [(longer, shorter) for longer in header for shorter in universal[longer] if shorter in header and shorter != longer]
        return [f"{names[longer]}: {names[shorter]}" for longer, shorter in pairs]

    def head(self, regions: list[int], clauses: list[str]) -> str:
        """Returns the header of a closure: the header of a function, with what is captured as a list of its own."""
        text = super().head(regions, clauses)
        captured = self.writing.text_of(self.writing.locals[ENVIRONMENT])
        before, behind = text.removeprefix("fn ").split(f"({captured}", 1)
        return f"closure {before}[{captured}] ({behind.removeprefix(', ')}"

    def unit(self, number: int) -> Unit:
        """Returns what the creator has to know of the closure, once it is written."""
        writing = self.writing
        captured = writing.locals[ENVIRONMENT].regions
        header = self.header_names([self.written])
        external = [captured.index(it) for it in header if it in captured]
        if len(set(captured)) != len(captured) or any(it not in writing.dump.universal for it in captured) or len(external) != len(captured):
            raise Refused("closure: captured regions")
        parameters = [writing.locals[local] for local in range(ENVIRONMENT + 1, len(writing.dump.parameters) + 1)]
        return Unit(number, external, len(header) - len(external), parameters, writing.locals[0])

    def text(self) -> Text:
        text = super().text()
        self.written = text.unit
        return text


def direct_in(it: Prepared, bodies: dict[str, Source]) -> list[Direct]:
    """Returns the closures of a body that are only called and whose bodies are there."""
    return [direct for direct in direct_closures(it.dump, it.survey, it.locals) if direct.body in bodies]


def write_group(creator: Source, bodies: dict[str, Source], reader: TypeReader, drop_names: frozenset[str], options: Options) -> Group:
    """Returns a body with its closures that are only called. Refuses one that has none, or where one cannot be written so."""
    fields = Fields()
    it = prepare(creator.dump, reader, fields, options)
    directs = direct_in(it, bodies)
    if not directs:
        raise Refused("closure: none is only called")
    inner = []
    keys = dropped_shapes(it, creator.facts)
    for direct in directs:
        source = bodies[direct.body]
        prepared = prepare(with_environment(source.dump), reader, fields, options)
        keys |= dropped_shapes(prepared, source.facts)
        inner.append(prepared)
    fields.settle_elements()
    shapes = [shape for locals in (it.locals, *(prepared.locals for prepared in inner)) for shape in shapes_of(locals)]
    declared = Declarations(fields, shapes, DropMarks(keys, drop_names).has)
    externs, units, texts = Externs(), [], {}
    for number, (direct, prepared) in enumerate(zip(directs, inner)):
        writer = ClosureWriter(writing_of(prepared, reader, fields, declared, options), externs)
        texts[direct.body] = writer.text(), prepared.dump
        units.append(writer.unit(number))
    writing = writing_of(it, reader, fields, declared, options)
    for direct, unit in zip(directs, units):
        writing.direct.add(direct, unit)
    text = BodyWriter(writing, externs).text()
    return Group(text, {name: (replace(closure, types=text.types), dump) for name, (closure, dump) in texts.items()})

