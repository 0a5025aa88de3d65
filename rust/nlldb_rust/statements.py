"""Reads the statements of a dump. Nothing here is proved."""
from __future__ import annotations

import re

from .mir import (
    Aggregate, Ascription, Assign, Borrow, Cast, Discriminant, GuardRead, Intrinsic, Made, Nothing, Operand, Operation, Place, RawRef, Ref, Rvalue,
    Statement, StorageDead, StorageLive, ThreadLocal, Unread, Use, Access,
)  # fmt: skip
from .places import operands_in, place_at, read_operand, read_place
from .refused import Refused
from .scan import find_outside, group_end, is_group, last_group_start, split_outside

GUARD_READ = re.compile(r"FakeRead\(ForMatchGuard, _(\d+)\)")
STORAGE = re.compile(r"Storage(Dead|Live)\(_(\d+)\)$")
MEANS_NOTHING = re.compile(r"(FakeRead|PlaceMention|Coverage|ConstEvalCounter|nop|BackwardIncompatibleDropHint|Retag)\b|Deinit\(")
INTRINSIC = ("assume(", "copy_nonoverlapping(", "intrinsic")
RAW_REF = re.compile(r"&raw (const|mut)(?: \(fake\))? (.*)$", re.S)
REF = re.compile(r"&'\?(\d+) (fake shallow |fake deep |fake |mut )?(.*)$", re.S)
CALLED = re.compile(r"(\w+)\(")
OPERATIONS = frozenset(
    "Add Sub Mul Div Rem BitXor BitAnd BitOr Shl Shr Eq Lt Le Ne Ge Gt Cmp Offset AddWithOverflow SubWithOverflow MulWithOverflow AddUnchecked"
    " SubUnchecked MulUnchecked ShlUnchecked ShrUnchecked Not Neg Len PtrMetadata SizeOf AlignOf OffsetOf UbChecks ContractChecks CopyForDeref"
    " ShallowInitBox".split()
)
CONSTRUCTOR = re.compile(r"([\w:]*?)(::<.*>)?$", re.S)
UNIT_CONSTRUCTOR = re.compile(r"[\w:<>', ?&\[\]();{}#@~^.\-=*+/]+$")
NOTHING = Nothing()
BORROWS = {None: Borrow.SHARED, "mut ": Borrow.MUTABLE, "fake shallow ": Borrow.FAKE_SHALLOW}


def read_statement(text: str) -> Statement:
    """Returns the statement that a text spells, or an `Unread` with the reason."""
    try:
        return statement_of(text)
    except Refused as fault:
        return Unread(str(fault))


def statement_of(text: str) -> Statement:
    if text[0] in "_(":
        target, end = place_at(text, 0)
        if not text.startswith(" = ", end):
            raise Refused("parse: statement")
        return Assign(target, rvalue_of(text[end + 3 :]))
    if found := STORAGE.match(text):
        return (StorageDead if found[1] == "Dead" else StorageLive)(int(found[2]))
    if found := GUARD_READ.match(text):
        return GuardRead(int(found[1]))
    if MEANS_NOTHING.match(text):
        return NOTHING
    if text.startswith("AscribeUserType"):
        return Ascription()
    if text.startswith(INTRINSIC):
        return Intrinsic(operands_in(text))
    raise Refused("set discriminant" if text.startswith("discriminant(") else f"statement: {text.split('(')[0][:20]}")


def rvalue_of(text: str) -> Rvalue:
    """Returns the value that a text spells. Refuses what it does not know."""
    if text.startswith(("copy ", "move ", "const ")):
        cast = find_outside(text, " as ")
        return Cast(operands_in(text[:cast])) if cast >= 0 else Use(read_operand(text))
    if text[0] == "&":
        return reference_of(text)
    if text.startswith("discriminant(") and is_group(text[12:]):
        return Discriminant(read_place(text[13:-1]))
    found = CALLED.match(text)
    if found and found[1] in OPERATIONS and group_end(text, found.end() - 1) == len(text):
        if found[1] == "Len":
            place = read_place(text[4:-1])
            return Operation((Operand(Access.COPY, place),), place)
        return Operation(operands_in(text))
    return aggregate_of(text)


def reference_of(text: str) -> Rvalue:
    if text.startswith("&/*tls*/"):
        return ThreadLocal()
    if found := RAW_REF.match(text):
        return RawRef(found[1] == "mut", read_place(found[2]))
    if found := REF.match(text):
        return Ref(int(found[1]), BORROWS.get(found[2], Borrow.FAKE), read_place(found[3]))
    raise Refused("rvalue: " + text[:20])


def aggregate_of(text: str) -> Rvalue:
    """Returns a tuple, an array, a closure, a struct or a variant."""
    if text[0] in "([":
        if not is_group(text):
            raise Refused("rvalue: " + text[:20])
        if text[0] == "(":
            return Aggregate(Made.TUPLE, operands_of(split_outside(text[1:-1])))
        repeated = split_outside(text[1:-1], ";")
        return Aggregate(Made.ARRAY, operands_of(repeated[:1] if len(repeated) > 1 else split_outside(text[1:-1])))
    if text[0] == "{":
        rest = text[group_end(text, 0) :].strip()
        made = Made.CLOSURE if text.startswith("{closure@") else Made.ARRAY
        return Aggregate(made, operands_of(named_parts(rest[1:-1])) if rest else ())
    return constructed_of(text)


def constructed_of(text: str) -> Aggregate:
    """Returns a struct or a variant: `PATH::<ARGUMENTS>`, and its operands in braces or parentheses, if it has any."""
    if text[-1] in ")}":
        start = last_group_start(text)
        inner = text[start + 1 : -1]
        operands = operands_of(named_parts(inner) if text[-1] == "}" else split_outside(inner))
        found = CONSTRUCTOR.match(text[:start].strip())
        if found and text[0] not in "_(":
            return Aggregate(Made.CONSTRUCTED, operands, found[1], found[2] or "")
        return Aggregate(Made.ARRAY, operands)
    if UNIT_CONSTRUCTOR.match(text) and "copy " not in text and "move " not in text:
        return Aggregate(Made.ARRAY, ())
    raise Refused("rvalue: " + re.sub(r"\d+", "N", text[:24]))


def named_parts(text: str) -> list[str]:
    """Returns what stands behind the names in `x: V, y: W`."""
    return [part.split(": ", 1)[1] for part in split_outside(text)]


def operands_of(texts: list[str]) -> tuple[Operand, ...]:
    return tuple(read_operand(text) for text in texts)


def places_read(value: Rvalue) -> tuple[Place, ...]:
    """The places of a value that are in no operand."""
    if isinstance(value, (Ref, RawRef, Discriminant)):
        return (value.place,)
    if isinstance(value, Operation) and value.length_of is not None:
        return (value.length_of,)
    return ()


def operands_read(value: Rvalue) -> tuple[Operand, ...]:
    """The copies and moves of a value, from left to right."""
    if isinstance(value, Use):
        operands: tuple[Operand, ...] = (value.operand,)
    elif isinstance(value, (Cast, Aggregate)):
        operands = value.operands
    elif isinstance(value, Operation) and value.length_of is None:
        operands = value.operands
    else:
        return ()
    return tuple(it for it in operands if it.access is not Access.CONSTANT)
