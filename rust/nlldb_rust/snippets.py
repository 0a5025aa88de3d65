"""Prints errors with their lines of the source, in the manner of rustc. Nothing here is proved."""
from __future__ import annotations

from typing import Iterable, Optional

from .explain import Mark, Told, first_position
from .spans import Position, Sources


def told_lines(told: Told, sources: Sources, function: str) -> Iterable[str]:
    """The lines that are printed of an error in a function."""
    at = first_position(told)
    yield f"error: {told.sentence}"
    if at is not None:
        margin = " " * margin_of(told)
        yield f"{margin}--> {at.start()} in {function}"
        yield from snippet(told.marks, sources, at.file, len(margin))
        if told.links:
            yield f"{margin} = why the borrow goes on:" if len(told.marks) > 1 else f"{margin} = why it has to:"
        for link in told.links:
            piece = sources.piece(link.at)
            yield f"{margin}     {place_of(link.at, at)} {link.text}" + (f": `{piece}`" if piece else "")
    else:
        margin = " "
        yield f" --> {function}"
    for note in told.notes:
        yield f"{margin} = {note}"
    yield ""


def place_of(at: Position, beside: Position) -> str:
    """A place, without its file where that is the same."""
    return f"{at.line}:{at.column}" if at.file == beside.file else at.start()


def margin_of(told: Told) -> int:
    """How wide the greatest line number is."""
    return max((len(str(mark.at.line)) for mark in told.marks), default=1)


def snippet(marks: list[Mark], sources: Sources, file: str, width: int) -> Iterable[str]:
    """The marked lines of a file, each with its marks below it. Marks in other files are told without their lines."""
    here = [mark for mark in marks if mark.at.file == file]
    yield f"{' ' * width} |"
    before: Optional[int] = None
    for number in sorted({mark.at.line for mark in here}):
        text = sources.line(file, number)
        if before is not None and number > before + 1:
            yield between(before, number, sources, file, width)
        before = number
        if text is None:
            yield f"{number:>{width}} | (the source is not there)"
        else:
            yield f"{number:>{width}} | {text}".replace("\t", " ")
        for mark in here:
            if mark.at.line == number:
                sign = "^" if mark is marks[0] else "-"
                yield f"{' ' * width} | {' ' * (mark.at.column - 1)}{sign * length_of(mark.at, text)} {mark.text}"
    for mark in marks:
        if mark.at.file != file:
            yield f"{' ' * width} ::: {mark.at.start()}: {mark.text}"


def between(before: int, number: int, sources: Sources, file: str, width: int) -> str:
    """What is printed between two marked lines: the one line between them, or dots."""
    text = sources.line(file, before + 1) if number == before + 2 else None
    return "..." if text is None else f"{before + 1:>{width}} | {text}".rstrip()


def length_of(at: Position, text: Optional[str]) -> int:
    """How many characters of a piece are in its first line."""
    end = at.end_column if at.line == at.end_line else len(text or "") + 1
    return max(1, end - at.column)
