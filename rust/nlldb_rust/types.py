"""Types as a dump prints them: a shape, and the regions in it. Nothing here is proved.

Two types have one shape where they are equal once regions are blanked. A shape knows its parts (a pointee, the arguments of a constructor, the
elements of a tuple, what a closure captures), each with the place of its regions among those of the whole.
"""
from __future__ import annotations

import re
from collections import defaultdict
from dataclasses import dataclass
from enum import Enum
from typing import Iterable, NamedTuple

from .refused import Refused
from .scan import group_end, is_group, split_outside

STATIC = 0
REGION = re.compile(r"'\?(\d+)")


class Kind(Enum):
    """What a type is, as far as the writer tells types apart."""

    LEAF = "leaf"
    REFERENCE = "reference"
    POINTER = "pointer"
    TUPLE = "tuple"
    ARRAY = "array"
    SLICE = "slice"
    CLOSURE = "closure"
    CONSTRUCTED = "constructed"


@dataclass(frozen=True, slots=True, eq=False)
class Shape:
    """A type without its regions: its spelling with blanks for them (`key`), how many there are, and its parts with where theirs begin."""

    kind: Kind
    key: str
    regions: int = 0
    parts: tuple[tuple["Shape", int], ...] = ()
    mutable: bool = False
    name: str = ""


class Type(NamedTuple):
    """A shape with its regions, in the order of the spelling."""

    shape: Shape
    regions: tuple[int, ...] = ()

    def part(self, number: int) -> "Type":
        """The type of a part, with its regions."""
        shape, start = self.shape.parts[number]
        return Type(shape, self.regions[start : start + shape.regions])

    def is_reference(self) -> bool:
        return self.shape.kind is Kind.REFERENCE


INT = Type(Shape(Kind.LEAF, "int"))
NUMBERS = frozenset("i8 i16 i32 i64 i128 isize u8 u16 u32 u64 u128 usize f16 f32 f64 f128 bool char ! ()".split())
REFERENCE = re.compile(r"&('\?\d+|'\^\d+(?:\.Named\((?:[^()]|\([^()]*\))*\))?|'\{erased\}|'static|'[a-z_]\w*)?\s*(mut )?")
RAW_POINTER = re.compile(r"\*(const|mut) ")
BOUND_REGION = re.compile(r"'\^\d+(\.Named\([^()]*\([^()]*\)\))?|'\{erased\}|'\^\S+")
PATH = re.compile(r"[A-Za-z_][\w:]*(::\{[^}]*\}[\w:]*)*")
INNER = re.compile(r"(::\w+)+")
ASSOCIATED = re.compile(r"\w+ = (.*)$")
CONSTANT = re.compile(r"(ValTree|ConstValue|\d|-|true|false)")
OPAQUE = ("dyn ", "for<", "fn(", "unsafe ", "extern ", "Opaque(", "<", "impl ", "Alias(", "(dyn")
FULL_PATH = re.compile(r"(?<![\w:'.])((?:\w+::)+)([A-Z]\w*)")

Paths = dict[str, set[str]]


def reference_to(pointee: Type, region: int, mutable: bool) -> Type:
    """Returns the type of a reference to a type."""
    key = "&" + ("mut " if mutable else "") + "'_ " + pointee.shape.key
    shape = Shape(Kind.REFERENCE, key, 1 + pointee.shape.regions, ((pointee.shape, 1),), mutable)
    return Type(shape, (region, *pointee.regions))


def note_paths(text: str, paths: Paths) -> None:
    """Adds the full paths of types in a text, by their last segments."""
    for found in FULL_PATH.finditer(text):
        paths[found[2]].add(found[1] + found[2])


def merged(all_paths: Iterable[Paths]) -> Paths:
    """Returns the paths of several texts as one."""
    together: Paths = defaultdict(set)
    for paths in all_paths:
        for last, full in paths.items():
            together[last] |= full
    return together


def opaque(text: str) -> Type:
    """Returns a type of which only the regions are known."""
    text = BOUND_REGION.sub("'b", text)
    regions = tuple(int(it) for it in REGION.findall(text))
    return Type(Shape(Kind.LEAF, REGION.sub("'_", text), len(regions)), regions)


class TypeReader:
    """Reads types. A constructor is known by its last segment, or by its whole path where several paths end with that."""

    def __init__(self, paths: Paths) -> None:
        self.paths = paths
        self.known: dict[str, Type] = {}

    def read(self, text: str) -> Type:
        """Returns the type that a text spells. Refuses a coroutine."""
        found = self.known.get(text)
        if found is None:
            found = self.known[text] = self._read(text.strip())
        return found

    def _read(self, text: str) -> Type:
        if text in NUMBERS:
            return INT
        first = text[0]
        if first == "&":
            return self._reference(text)
        if pointer := RAW_POINTER.match(text):
            return self._pointer(pointer[1], text[pointer.end() :])
        if first == "(":
            return self._parenthesized(text)
        if first == "[" and is_group(text):
            return self._sequence(text)
        if first == "{":
            return self._closure(text)
        if text.startswith(OPAQUE):
            return opaque(text)
        return self._constructed(text)

    def _reference(self, text: str) -> Type:
        found = REFERENCE.match(text)
        assert found
        region = found[1]
        if region == "'static":
            region = "'?0"
        if region is None or not region.startswith("'?"):
            return opaque(text)
        return reference_to(self.read(text[found.end() :]), int(region[2:]), bool(found[2]))

    def _pointer(self, word: str, text: str) -> Type:
        pointee = self.read(text)
        shape = Shape(Kind.POINTER, f"*{word} {pointee.shape.key}", pointee.shape.regions, ((pointee.shape, 0),), word == "mut")
        return Type(shape, pointee.regions)

    def _parenthesized(self, text: str) -> Type:
        if not is_group(text):
            return opaque(text)
        inner = text[1:-1].strip()
        if inner.startswith(("dyn ", "impl ", "for<")):
            return opaque(inner)
        return self._group(Kind.TUPLE, "(", ")", split_outside(inner))

    def _sequence(self, text: str) -> Type:
        parts = split_outside(text[1:-1], ";")
        element = self.read(parts[0])
        kind, end = (Kind.ARRAY, ";]") if len(parts) > 1 else (Kind.SLICE, "]")
        return Type(Shape(kind, f"[{element.shape.key}{end}", element.shape.regions, ((element.shape, 0),)), element.regions)

    def _closure(self, text: str) -> Type:
        if "yield_ty" in text or "coroutine" in text[:12]:
            raise Refused("coroutine")
        captured = text.find("upvar_tys=")
        start = captured + len("upvar_tys=")
        if captured < 0 or text[start] != "(":
            return opaque(text)
        name = text[1:].split(" ")[0]
        parts = split_outside(text[start + 1 : group_end(text, start) - 1])
        captures = self._group(Kind.CLOSURE, "{" + name + " ", "}", parts)
        # regions of the signature that are not captured: kept, behind the others
        more: list[int] = []
        for region in opaque(text[:captured]).regions:
            if region not in more and region not in captures.regions:
                more.append(region)
        shape, count = captures.shape, captures.shape.regions + len(more)
        whole = Shape(Kind.CLOSURE, shape.key + "+" + "_" * len(more), count, shape.parts, name=name)
        return Type(whole, (*captures.regions, *more))

    def _constructed(self, text: str) -> Type:
        found = PATH.match(text)
        if not found:
            return opaque(text)
        path, rest = found[0], text[found.end() :]
        while rest.startswith("<") and (end := group_end(rest, 0)) < len(rest) and (inner := INNER.match(rest, end)):
            # a type that is declared in a function, behind the generics of what that is in
            path, rest = path + inner[0], rest[inner.end() :]
        name = self._name(path)
        if not rest:
            return Type(Shape(Kind.CONSTRUCTED, name, name=name))
        if rest[0] == "<" and is_group(rest):
            return self._group(Kind.CONSTRUCTED, name + "<", ">", split_outside(rest[1:-1]), name)
        return opaque(text)

    def _name(self, path: str) -> str:
        """Returns the name of a constructor: its last segment, or if several paths end with that, the one of them that ends as this one does."""
        last = path.rsplit("::", 1)[-1]
        full = self.paths.get(last, ())
        if len(full) <= 1 or path in full:
            return path if len(full) > 1 else last
        ends = [it for it in full if it.endswith(f"::{path}")]
        return ends[0] if len(ends) == 1 else path

    def _group(self, kind: Kind, begin: str, end: str, texts: list[str], name: str = "") -> Type:
        keys: list[str] = []
        regions: list[int] = []
        parts: list[tuple[Shape, int]] = []
        for text in texts:
            if (found := REGION.fullmatch(text)) or text == "'static":
                regions.append(int(found[1]) if found else STATIC)
                keys.append("'_")
            elif text.startswith("'"):
                keys.append("'b")
            else:
                self._argument(text, keys, regions, parts)
        return Type(Shape(kind, begin + ",".join(keys) + end, len(regions), tuple(parts), name=name), tuple(regions))

    def _argument(self, text: str, keys: list[str], regions: list[int], parts: list[tuple[Shape, int]]) -> None:
        if found := ASSOCIATED.match(text):
            text = found[1]
        if CONSTANT.match(text) or text.endswith("/#const"):
            keys.append("c")
            return
        part = self.read(text)
        parts.append((part.shape, len(regions)))
        regions.extend(part.regions)
        keys.append(part.shape.key)
