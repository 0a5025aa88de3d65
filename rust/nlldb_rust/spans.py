"""Places in Rust sources, and the lines of these. Nothing here is proved."""
from __future__ import annotations

import re
from pathlib import Path
from typing import NamedTuple, Optional

SPAN = re.compile(r"(.+?):(\d+):(\d+): (\d+):(\d+)")


class Position(NamedTuple):
    """A piece of a source file: from a line and a column to another, both from 1. A column counts characters, and the last is the one behind."""

    file: str
    line: int
    column: int
    end_line: int
    end_column: int

    def start(self) -> str:
        """How the place is told: `FILE:LINE:COLUMN`."""
        return f"{self.file}:{self.line}:{self.column}"


def read_span(text: str) -> Optional[Position]:
    """Returns the place that a dump writes as `FILE:LINE:COLUMN: LINE:COLUMN`, or None for another text."""
    found = SPAN.match(text)
    return Position(found[1], *(int(found[number]) for number in range(2, 6))) if found else None


class Sources:
    """The lines of source files. Paths that are not absolute begin at a folder."""

    def __init__(self, root: Path) -> None:
        self.root = root
        self.files: dict[str, list[str]] = {}

    def line(self, file: str, number: int) -> Optional[str]:
        """A line of a file, or None where it cannot be read."""
        if file not in self.files:
            try:
                self.files[file] = (self.root / file).read_text(errors="replace").split("\n")
            except OSError:
                self.files[file] = []
        lines = self.files[file]
        return lines[number - 1] if 0 < number <= len(lines) else None

    def piece(self, at: Position, most: int = 48) -> str:
        """What a place has in its first line, shortened."""
        line = self.line(at.file, at.line)
        if line is None:
            return ""
        text = line[at.column - 1 : at.end_column - 1] if at.line == at.end_line else line[at.column - 1 :] + " .."
        return text if len(text) <= most else text[: most - 3] + ".."
