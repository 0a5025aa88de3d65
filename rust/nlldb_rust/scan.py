"""Groups of brackets in the texts of a dump. Nothing here is proved.

A group is what stands between `(`, `[`, `{` or `<` and the bracket that closes it. Strings in double quotes and the arrow `->` hold none.
"""
from __future__ import annotations

import re

from .refused import Refused

OPENING, CLOSING = frozenset("([{<"), frozenset(")]}>")
TOKENS = re.compile(r'"(?:[^"\\]|\\.)*"?|->|[(\[{<)\]}>]', re.S)
SEPARATED = {sign: re.compile(TOKENS.pattern + "|" + re.escape(sign), re.S) for sign in (",", ";", " as ", ": ")}


def group_end(text: str, start: int) -> int:
    """Returns the index after the group that opens at `start`. Refuses a group that does not end."""
    depth = 0
    for found in TOKENS.finditer(text, start):
        sign = found[0]
        if sign in OPENING:
            depth += 1
        elif sign in CLOSING:
            depth -= 1
            if depth == 0:
                return found.end()
    raise Refused("parse: bracket")


def is_group(text: str) -> bool:
    """Whether the group that opens at the first byte ends with the last."""
    return group_end(text, 0) == len(text)


def split_outside(text: str, sign: str = ",") -> list[str]:
    """Returns the parts of a text between the signs that are in no group, without blanks around them. An empty last part is left out."""
    parts, depth, last = [], 0, 0
    for found in SEPARATED[sign].finditer(text):
        token = found[0]
        if token in OPENING:
            depth += 1
        elif token in CLOSING:
            depth -= 1
        elif token == sign and depth == 0:
            parts.append(text[last : found.start()].strip())
            last = found.end()
    rest = text[last:].strip()
    return [*parts, rest] if rest else parts


def find_outside(text: str, sign: str) -> int:
    """Returns the index of the first such sign that is in no group, or -1."""
    depth = 0
    for found in SEPARATED[sign].finditer(text):
        token = found[0]
        if token in OPENING:
            depth += 1
        elif token in CLOSING:
            depth -= 1
        elif token == sign and depth == 0:
            return found.start()
    return -1


def last_group_start(text: str) -> int:
    """Returns the index of the bracket that opens the group at the end of a text, or -1 where no group is closed."""
    open_at: list[int] = []
    start = -1
    for found in TOKENS.finditer(text):
        sign = found[0]
        if sign in OPENING:
            open_at.append(found.start())
        elif sign in CLOSING and open_at:
            start = open_at.pop()
    return start
