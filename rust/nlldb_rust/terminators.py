"""Reads the terminators of a dump. Nothing here is proved."""
from __future__ import annotations

import re

from .mir import Assert, Call, Drop, FalseEdge, Goto, Operand, Return, Stop, Switch, Terminator, TerminatorKind, Unread
from .places import operands_in, place_at, read_operand, read_place
from .refused import Refused
from .scan import last_group_start, split_outside

TARGET = re.compile(r"(?:(\w+): )?bb(\d+)")
BLOCK = re.compile(r"\bbb(\d+)")
GOTO = re.compile(r"goto -> bb(\d+)")
FALSE_EDGE = re.compile(r"falseEdge -> \[real: bb(\d+), imaginary: bb(\d+)")
FALSE_UNWIND = re.compile(r"falseUnwind -> \[real: bb(\d+)")
SWITCH = re.compile(r"switchInt\((.*)\) -> \[(.*)\]$", re.S)
DROP = re.compile(r"drop\((.*)\) -> \[return: bb(\d+)", re.S)
ASSERT = re.compile(r"assert\((.*)\) -> \[success: bb(\d+)", re.S)
RETURNS = re.compile(r"return: bb(\d+)")
STOPS = frozenset(("unreachable", "abort", "coroutine_drop"))
UNKNOWN = ("yield", "asm!", "tailcall", "naked_asm", "become")


def read_terminator(text: str) -> Terminator:
    """Returns the terminator that a text spells, or an `Unread` with the reason."""
    try:
        kind = kind_of(text)
    except Refused as fault:
        kind = Unread(str(fault))
    return with_targets(kind, text)


def with_targets(kind: TerminatorKind, text: str) -> Terminator:
    """Adds where a terminator leads."""
    arrow = text.rfind(" -> ")
    if arrow < 0:
        return Terminator(kind)
    targets, unwind, dropped = [], None, None
    for found in TARGET.finditer(text, arrow):
        block = int(found[2])
        if found[1] == "unwind":
            unwind = block
        elif found[1] == "drop":
            dropped = block
        elif isinstance(kind, Call) and not found[1]:
            # a call that does not return has the block that unwinding goes to alone
            unwind = block
        else:
            targets.append(block)
    return Terminator(kind, tuple(targets), unwind, dropped)


def kind_of(text: str) -> TerminatorKind:
    if found := GOTO.match(text) or FALSE_UNWIND.match(text):
        return Goto(int(found[1]))
    if text == "return":
        return Return()
    if text == "resume" or text in STOPS or text.startswith("terminate"):
        return Stop(text == "resume")
    if found := FALSE_EDGE.match(text):
        return FalseEdge(int(found[1]), int(found[2]))
    if found := SWITCH.match(text):
        targets = dict.fromkeys(int(it) for it in BLOCK.findall(found[2]))
        return Switch(read_operand(found[1]), tuple(targets))
    if found := DROP.match(text):
        return Drop(read_place(found[1]), int(found[2]))
    if found := ASSERT.match(text):
        return Assert(operands_in(found[1]), int(found[2]))
    if text.startswith(UNKNOWN):
        raise Refused("terminator: " + re.split(r"[( ]", text)[0])
    return call_of(text)


def call_of(text: str) -> Call:
    """Returns a call: `P = CALLEE(OPERANDS) -> [return: bb1, ..]`."""
    end = text.rfind(") -> ")
    if end < 0 or text[0] not in "_(":
        raise Refused("terminator: " + text[:20])
    place, begin = place_at(text, 0)
    called = text[begin + 3 : end + 1]
    start = last_group_start(called)
    callee = called[:start]
    operands: list[Operand] = [read_operand(it) for it in split_outside(called[start + 1 : -1])]
    if callee.startswith(("move ", "copy ")):
        operands.insert(0, read_operand(callee))
    returns = RETURNS.search(text, end)
    return Call(place, tuple(operands), callee, int(returns[1]) if returns else None)
