"""Calls of extern functions, made for what no other form can say. Nothing here is proved.

An extern is made for a point. Its clauses are rustc's own constraints there, between the regions of its operands and of its result, closed over
regions that are seen nowhere else.
"""
from __future__ import annotations

from typing import Optional, Sequence

from .graphs import Edge, without_detours
from .mir import Access, Operand, Place, Point
from .refused import Refused
from .types import INT, STATIC, Type
from .writing import Argument, Label, Writing

MOST_EXTERNS, MOST_REGIONS, MOST_OPERANDS, MOST_CLAUSES = 64, 8, 16, 32


class Externs:
    """The extern functions that are declared: one for each signature. The bodies of one text share them."""

    def __init__(self) -> None:
        self.names: dict[str, str] = {}

    def named(self, signature: str) -> str:
        """Returns the name of the function with this signature, which is declared if it is not yet."""
        name = self.names.get(signature)
        if name is None:
            name = self.names[signature] = f"x{len(self.names)}"
            if len(self.names) > MOST_EXTERNS:
                raise Refused("limit: externs > 64")
        return name

    def texts(self) -> list[str]:
        return [f"extern {name}{signature}" for signature, name in self.names.items()]


class Calls:
    """Writes calls."""

    def __init__(self, writing: Writing, externs: Externs) -> None:
        self.writing, self.externs = writing, externs
        # borrows of places that are handed to calls: one region and one local for each type
        self.shared: dict[tuple[bool, str, tuple[int, ...]], tuple[int, int]] = {}

    def handed_borrow(self, text: str, kind: Type, mutable: bool, point: Point) -> Argument:
        """Borrows a place for as long as one call lasts."""
        key = (mutable, kind.shape.key, kind.regions)
        if key not in self.shared:
            region = self.writing.regions.fresh()
            argument = self.writing.borrow(text, kind, region, mutable, point)
            self.shared[key] = region, int(argument.text.removeprefix("move _"))
            return argument
        region, local = self.shared[key]
        self.writing.emit(f"_{local} = &{self.writing.names.of(region)} {'mut ' if mutable else ''}{text}", point)
        return Argument(f"move _{local}", self.writing.locals[local])

    def argument(self, operand: Operand, point: Point) -> Optional[Argument]:
        """Returns an operand as a call takes it, with what has to be written before; None for a constant. Refuses a subslice."""
        if operand.access is Access.CONSTANT:
            return None
        text, kind, rest, _ = self.writing.place(operand.place)
        if kind is None:
            raise Refused("subslice operand")
        fields, moves = self.writing.fields, operand.access is Access.MOVE
        is_pointer = bool(rest) and not kind.is_reference() and kind.shape.kind.value == "pointer"
        if rest:
            self.writing.notes["place behind a raw pointer or a cut"] += 1
            if is_pointer and not fields.is_struct(kind.shape):
                return Argument(f"copy {text}", kind)
            return self.handed_borrow(text, kind, moves and not is_pointer, point)
        if not moves and fields.can_be_copied(kind.shape):
            return Argument(f"copy {text}", kind)
        if not moves:
            self.writing.notes["copy of a struct"] += 1
            borrowed = self.handed_borrow(text, kind, False, point)
            return Argument(borrowed.text.replace("move ", "copy ", 1), borrowed.type)
        return self.handed_borrow(text, kind, True, point) if ".*" in text else Argument(f"move {text}", kind)

    def site(self, place: Optional[Place], operands: Sequence[Operand], point: Point, label: Label, why: str, more: Sequence[Argument] = ()) -> None:
        """Writes a point as a call that goes on at a label. Without a place nobody reads the result."""
        self.writing.notes[why] += 1
        arguments = [it for operand in operands if (it := self.argument(operand, point)) is not None]
        arguments += more
        target, kind = self.destination(place, arguments, point)
        self.call(target, kind, arguments, self.writing.regions.demands(point, regions_of(arguments, kind)), point, label)

    def step(self, place: Optional[Place], operands: Sequence[Operand], point: Point, why: str, more: Sequence[Argument] = ()) -> None:
        """Writes a statement as a call."""
        label = self.writing.own_label()
        self.site(place, operands, point, label, why, more)
        self.writing.begin(label)

    def destination(self, place: Optional[Place], arguments: list[Argument], point: Point) -> tuple[str, Type]:
        """Returns where the result goes. One behind a raw pointer or a cut goes nowhere, and what it lies in is borrowed."""
        nowhere = lambda: (f"_{self.writing.number_local()}", INT)  # noqa: E731
        if place is None:
            return nowhere()
        text, kind, rest, _ = self.writing.place(place)
        if kind is None:
            raise Refused("subslice target")
        if not rest:
            return text, kind
        self.writing.notes["write behind a raw pointer or a cut"] += 1
        is_pointer = kind.shape.kind.value == "pointer"
        if not is_pointer or self.writing.fields.is_struct(kind.shape):
            arguments.append(self.handed_borrow(text, kind, not is_pointer, point))
        return nowhere()

    def call(self, target: str, kind: Type, arguments: Sequence[Argument], edges: list[Edge], point: Point, label: Label) -> None:
        """Writes a call with clauses. One with more regions or operands than a function has is written in pieces: the result, then each operand."""
        regions = regions_of(arguments, kind)
        if len(arguments) > MOST_OPERANDS or len(regions) > MOST_REGIONS and (len(arguments) > 1 or arguments and kind.regions):
            self.in_pieces(target, kind, arguments, edges, point, label)
            return
        names = {region: f"'r{number}" for number, region in enumerate(regions)}
        clauses = self.clauses(names, edges)
        if len(names) > MOST_REGIONS:
            raise Refused("limit: regions of an extern > 8")
        parameters = ", ".join(self.signature_type(it.type, names) for it in arguments)
        where = f" where {', '.join(clauses)} " if clauses else ""
        declared = f"<{', '.join(names.values())}>" if names else ""
        name = self.externs.named(f"{declared}{where}({parameters}) -> {self.signature_type(kind, names)};")
        given = f"<{', '.join(self.writing.names.of(region) for region in names)}>" if names else ""
        self.writing.end(f"{target} = call {name}{given}({', '.join(it.text for it in arguments)})", [label], point)

    def clauses(self, names: dict[int, str], edges: list[Edge]) -> list[str]:
        """Returns the clauses of a function. What is not between its regions is demanded elsewhere."""
        known = names if STATIC in names else names | {STATIC: "'static"}
        between = [(longer, shorter) for longer, shorter in edges if longer in known and shorter in known]
        for longer, shorter in edges:
            if longer not in known or shorter not in known:
                self.writing.want(longer, shorter)
        texts = [(known[longer], known[shorter]) for longer, shorter in between if known[longer] != "'static"]
        if len(texts) > MOST_CLAUSES:
            numbers = {text: number for number, text in enumerate(dict.fromkeys(it for pair in texts for it in pair))}
            words = list(numbers)
            texts = [(words[one], words[other]) for one, other in without_detours([(numbers[one], numbers[other]) for one, other in texts])]
            if len(texts) > MOST_CLAUSES:
                raise Refused("limit: clauses > 32")
        return [f"{longer}: {shorter}" for longer, shorter in texts]

    def signature_type(self, kind: Type, names: dict[int, str]) -> str:
        return self.writing.declared.text(kind.shape, [names[region] for region in kind.regions])

    def in_pieces(self, target: str, kind: Type, arguments: Sequence[Argument], edges: list[Edge], point: Point, label: Label) -> None:
        self.writing.notes["call in pieces"] += 1
        for longer, shorter in edges:
            self.writing.want(longer, shorter)
        following = self.writing.own_label()
        self.call(target, kind, (), [], point, following)
        for number, argument in enumerate(arguments):
            self.writing.begin(following)
            result = self.writing.number_local()
            following = label if number == len(arguments) - 1 else self.writing.own_label()
            self.call(f"_{result}", INT, (argument,), [], point, following)


def regions_of(arguments: Sequence[Argument], kind: Type) -> list[int]:
    """The regions of the types of operands and of a result, each once."""
    return list(dict.fromkeys(region for it in (*(argument.type for argument in arguments), kind) for region in it.regions))
