"""Writes one body as a text of the language. Nothing here is proved."""
from __future__ import annotations

from collections import Counter, defaultdict
from dataclasses import dataclass, field, replace
from typing import Sequence

from .calls import Calls, Externs
from .control import Control, block
from .declarations import Declarations
from .drops import DropFacts, DropMarks, Initialized, dropped_whole, maybe_initialized
from .dump import Dump
from .fields import Fields
from .guards import Guards
from .invokes import Invokes
from .mir import Assign, Nothing, Point, Statement, StorageLive
from .refused import Refused
from .regions import Regions
from .survey import Survey, Surveyor, reached_blocks
from .types import INT, STATIC, Shape, Type, TypeReader
from .values import Values
from .writing import STOP, Label, Names, Writing

MOST_DECLARED, MOST_CLAUSES, MOST_PARAMETERS, MOST_BLOCKS, MOST_POINTS, MOST_LOCALS, MOST_REGIONS = 15, 32, 16, 256, 4096, 256, 8


@dataclass(frozen=True)
class Options:
    """How bodies are written: with the blocks of unwinding or without; with two-phase borrows as such, or as mutable ones; with regions that
    outlive each other as one, or each by itself. Of closures, whether those that are only called are written as closures, whether what rustc
    found that the others require is a clause, and whether each is written without these clauses too."""

    unwind: bool = False
    naive_two_phase: bool = False
    merge_regions: bool = False
    native_closures: bool = True
    requirements: bool = True
    bare_closures: bool = False


@dataclass
class Text:
    """A written body: its declarations, its unit, the point of rustc that each written point stands for, and the region of rustc for each name in
    a chain (a variable as it is written, a universal region by its number). `equal` leads from regions to those that stand for them."""

    types: str
    unit: str
    points: list[list[Point]]
    regions: dict[str, int]
    equal: dict[int, int]
    sizes: dict[str, int]
    notes: Counter[str] = field(default_factory=Counter)
    two_phase: int = 0


def locals_of(dump: Dump, regions: Regions, reader: TypeReader) -> dict[int, Type]:
    """Returns the types of a body's locals. Numbers in between that no local has are `int`s."""
    known = {local: regions.read(reader, text) for local, text in dump.locals.items()}
    for kind in known.values():
        regions.note_local(kind)
    return {local: known.get(local, INT) for local in range(max(known) + 1)}


@dataclass
class Prepared:
    """A body that is looked at, and not written yet."""

    dump: Dump
    regions: Regions
    locals: dict[int, Type]
    surveyor: Surveyor
    survey: Survey
    initialized: Initialized


def prepare(dump: Dump, reader: TypeReader, fields: Fields, options: Options) -> Prepared:
    """Looks at a body, and notes the fields that it takes. Refuses one whose fields cannot be told, and one that is too long as rustc has it."""
    if len(dump.universal) - 2 > MOST_DECLARED:
        raise Refused("limit: declared regions > 15")
    if len(dump.locals) > MOST_LOCALS:
        raise Refused("limit: locals > 256")
    if len(reached_blocks(dump, options.unwind)) > MOST_BLOCKS:
        raise Refused("limit: blocks > 256")
    regions = Regions(dump, options.merge_regions)
    locals = locals_of(dump, regions, reader)
    surveyor = Surveyor(dump, locals, regions, reader, fields, options.unwind)
    survey = surveyor.survey()
    initialized = maybe_initialized(dump)
    surveyor.note_variance()
    return Prepared(dump, regions, locals, surveyor, survey, initialized)


def shapes_of(locals: dict[int, Type]) -> list[Shape]:
    """The shapes of locals, in their order."""
    return [locals[local].shape for local in sorted(locals)]


def dropped_shapes(it: Prepared, facts: DropFacts) -> set[str]:
    """The shapes of the locals of a body whose drop uses regions, by the facts."""
    return {it.locals[local].shape.key for local in facts.uses_regions if local in it.locals}


def writing_of(it: Prepared, reader: TypeReader, fields: Fields, declared: Declarations, options: Options) -> Writing:
    """Returns the beginning of writing a body."""
    names = Names({region: "'static" if region == STATIC else f"'u{region}" for region in it.dump.universal})
    dump = it.dump if options.requirements else replace(it.dump, requirements=[])
    parts = (dump, it.regions, reader, it.locals, fields, declared, names, it.survey, it.initialized)
    return Writing(*parts, options.naive_two_phase, options.unwind, notes=fields.notes)


def write_body(dump: Dump, reader: TypeReader, facts: DropFacts, drop_names: frozenset[str], options: Options) -> Text:
    """Returns the text of a body. Refuses one that cannot be written."""
    fields = Fields()
    it = prepare(dump, reader, fields, options)
    fields.settle_elements()
    declared = Declarations(fields, shapes_of(it.locals), DropMarks(dropped_shapes(it, facts), drop_names).has)
    return BodyWriter(writing_of(it, reader, fields, declared, options), Externs()).text()


class BodyWriter:
    """Writes the blocks, and the header, locals and declarations around them."""

    def __init__(self, writing: Writing, externs: Externs) -> None:
        self.writing, self.externs = writing, externs
        calls = Calls(writing, externs)
        self.values = Values(writing, calls, Guards(writing))
        self.invokes = Invokes(writing, self.values)
        self.control = Control(writing, calls, self.invokes)

    def text(self) -> Text:
        """Returns the whole text."""
        writing = self.writing
        self.write_blocks()
        for longer, shorter in writing.regions.everywhere:
            writing.want(longer, shorter)
        blocks, points = self.numbered_blocks()
        first = 1 + len(writing.dump.parameters)
        lets = [f"    let _{local}: {self.type_text(local)};" for local in writing.locals if local >= first]
        lets += self.demands()
        if first + len(lets) > MOST_LOCALS:
            raise Refused("limit: locals > 256")
        header = self.header_names([*lets, *blocks])
        unit = "\n".join([self.head(header, self.header_clauses(header)), *lets, *blocks, "}", ""])
        types = "\n".join([*writing.declared.texts, *self.externs.texts()]) + "\n"
        sizes = {
            "points": sum(len(it) for it in points),
            "blocks": len(blocks),
            "locals": first + len(lets),
            "structs": len(writing.declared.texts),
            "externs": len(self.externs.names),
            "regions": len(writing.names.variables),
            "loans": sum(text.count(" = &") for text in blocks),
        }
        names, equal = self.region_names(header), writing.regions.parent
        return Text(types, unit, points, names, equal, sizes, writing.notes, len(writing.survey.two_phase))

    def type_text(self, local: int) -> str:
        """The type of a `let` local."""
        return self.invokes.type_text(local) if local in self.writing.direct.units else self.writing.text_of(self.writing.locals[local])

    def header_names(self, _lines: Sequence[str]) -> list[int]:
        """Returns the universal regions that the unit declares, in their order."""
        writing = self.writing
        regions = [region for region in sorted(writing.dump.universal) if region not in (STATIC, writing.regions.body)]
        if writing.regions.body is not None and any(writing.regions.body in kind.regions for kind in writing.locals.values()):
            regions.append(writing.regions.body)
        if len(regions) > MOST_DECLARED:
            raise Refused("limit: declared regions > 15")
        if len(writing.dump.parameters) > MOST_PARAMETERS:
            raise Refused("limit: parameters > 16")
        return regions

    def header_clauses(self, _header: Sequence[int]) -> list[str]:
        """Returns what is known of the universal regions, and what a closure requires of its creator."""
        regions, names = self.writing.regions, self.writing.names.universal
        clauses: dict[str, None] = {}
        for longer, outlived in sorted(regions.universal.items()):
            for shorter in outlived:
                if longer not in (STATIC, regions.body) and shorter not in (longer, regions.body):
                    clauses[f"{names[longer]}: {names[shorter]}"] = None
        for longer, shorter in self.writing.dump.requirements:
            pair = names.get(regions.find(longer)), names.get(regions.find(shorter))
            if None not in pair:
                clauses[f"{pair[0]}: {pair[1]}"] = None
        if len(clauses) > MOST_CLAUSES:
            raise Refused("limit: clauses of a unit > 32")
        return list(clauses)

    def write_blocks(self) -> None:
        """Writes the reached blocks, and the one that calls lead to that do not return."""
        writing = self.writing
        for number in writing.survey.reached:
            source = writing.dump.blocks[number]
            writing.begin(block(number))
            for index, statement in enumerate(source.statements):
                if not isinstance(statement, (Nothing, StorageLive)):
                    self.statement(statement, Point(number, index))
            self.control.terminator(source.terminator, Point(number, len(source.statements)))
        if writing.needs_stop:
            writing.begin(STOP)
            writing.end("stop", [], Point(0, 0))
        self.end_values()

    def statement(self, it: Statement, point: Point) -> None:
        """Writes a statement. The borrow of a closure for a call is in the call."""
        direct = self.writing.direct
        if point in direct.made and isinstance(it, Assign):
            self.invokes.make(it, direct.made[point], point)
        elif point not in direct.borrows:
            self.values.statement(it, point)

    def end_values(self) -> None:
        """Writes that a local has no value where it has none on one path and is dropped behind the join with another: `dead`, on the edge."""
        writing = self.writing
        dropped = [it for it in dropped_whole(writing.dump) if writing.declared.holds_drop(writing.locals[it].shape)]
        if not dropped:
            return
        for _, lines in list(writing.blocks):
            end = lines[-1]
            lines[-1] = end._replace(labels=tuple(self.ended_on(label, end.point, dropped) for label in end.labels))

    def ended_on(self, label: Label, point: Point, dropped: Sequence[int]) -> Label:
        """Returns a label that leads to a block, by way of the ends of those of these locals that have a value there but not at a point."""
        writing = self.writing
        ended = writing.initialized.only_elsewhere(point.block, label.number, dropped) if label.kind == "block" else []
        if not ended:
            return label
        following = writing.own_label()
        writing.begin(following)
        for local in ended:
            writing.emit(f"dead _{local}", point)
        writing.end("goto", [label], point)
        return following

    def numbered_blocks(self) -> tuple[list[str], list[list[Point]]]:
        """Returns the text of each block, and the points in it. Refuses what is too long."""
        numbers = {label: number for number, (label, _) in enumerate(self.writing.blocks)}
        if len(numbers) > MOST_BLOCKS:
            raise Refused("limit: blocks > 256")
        if sum(len(lines) for _, lines in self.writing.blocks) > MOST_POINTS:
            raise Refused("limit: points > 4096")
        texts = []
        for number, (_, lines) in enumerate(self.writing.blocks):
            rows = ["".join((line.text, *(f" bb{numbers[label]}" for label in line.labels), ";")) for line in lines]
            texts.append(f"    bb{number} {{\n        " + "\n        ".join(rows) + "\n    }")
        return texts, [[line.point for line in lines] for _, lines in self.writing.blocks]

    def demands(self) -> list[str]:
        """Returns locals whose types demand the constraints that nothing else does: `&'b S<'a>` demands that `'a` outlives `'b`."""
        wanted: dict[int, list[int]] = defaultdict(list)
        for longer, shorter in sorted(self.writing.wanted):
            wanted[shorter].append(longer)
        self.writing.notes["injected demands"] = len(self.writing.wanted)
        texts, local, name_of = [], len(self.writing.locals), self.writing.names.of
        for shorter in sorted(wanted):
            longer = wanted[shorter]
            for start in range(0, len(longer), MOST_REGIONS):
                texts.append(f"    let _{local}: &{name_of(shorter)} {self.pack(longer[start : start + MOST_REGIONS])};")
                local += 1
        return texts

    def pack(self, regions: list[int]) -> str:
        """Returns a type with these regions, at most eight."""
        name_of = self.writing.names.of
        if len(regions) == 1:
            return f"&{name_of(regions[0])} int"
        declaration = f"struct All8<{', '.join(f'+{chr(39)}p{at}' for at in range(MOST_REGIONS))}> {{ }}"
        if declaration not in self.writing.declared.texts:
            self.writing.declared.texts.append(declaration)
        return f"All8<{', '.join(name_of(it) for it in (regions + [regions[-1]] * MOST_REGIONS)[:MOST_REGIONS])}>"

    def head(self, regions: list[int], clauses: list[str]) -> str:
        """Returns the header. Refuses one whose types have other regions than universal ones."""
        writing = self.writing
        header = [writing.locals[local] for local in range(len(writing.dump.parameters) + 1)]
        if any(region not in writing.names.universal for kind in header for region in kind.regions):
            raise Refused("header region that is no universal one")
        result, *parameters = (writing.text_of(kind) for kind in header)
        names = f"<{', '.join(writing.names.of(it) for it in regions)}> " if regions else ""
        where = f"where {', '.join(clauses)} " if clauses else ""
        return f"fn {names}{where}({', '.join(parameters)}) -> {result} {{"

    def region_names(self, header: list[int]) -> dict[str, int]:
        """Returns the regions of rustc by their words in a chain."""
        found = {str(number + 1): region for number, region in enumerate(header)}
        found["0"] = STATIC
        found.update({f"'?{number}": region for region, number in self.writing.names.variables.items()})
        return found
