"""The suite: functions by subject (`rust/suite/NAME.rs`), with what the tested rustc dumps of them and reports (`rust/suite/kept`).

A line that rustc rejects is marked as in rustc's own tests: `//~ E0499` at its end, or `//~^ E0499` on the line below. An error without a code is marked
`//~ lifetime`. Nothing here is proved.
"""
from __future__ import annotations

import re
from pathlib import Path

from . import kept
from .rustc import Diagnostic, run_rustc

FOLDER = Path("rust/suite")
EDITION = "2021"
MARK = re.compile(r"//~(\^*) (E\d{4}|lifetime)$")


def subjects() -> list[str]:
    """Returns the names of all subjects, in their order."""
    return sorted(path.stem for path in FOLDER.glob("*.rs"))


def source_of(name: str) -> Path:
    """Returns the source of a subject."""
    return FOLDER / f"{name}.rs"


def archive_of(name: str) -> Path:
    """Returns the archive with what rustc dumped of a subject."""
    return FOLDER / "kept" / f"{name}.tar.xz"


def dumped(rustc: str, version: str, name: str, folder: Path) -> dict[str, bytes]:
    """Lets rustc check a subject and dump what it found into a folder; returns what is kept of that."""
    run_rustc(rustc, source_of(name), EDITION, [], folder)
    return kept.files_of(folder, kept.Made(version, EDITION, kept.digest_of(source_of(name))))


def differing(name: str, came: dict[str, bytes]) -> list[str]:
    """Returns the names of the files in which the archive of a subject differs from what rustc left now."""
    wanted = kept.unpacked(archive_of(name))
    return sorted(it for it in wanted.keys() | came.keys() if wanted.get(it) != came.get(it))


def marks_of(source: str) -> set[tuple[int, str]]:
    """Returns the lines of a source that are marked, each with its code."""
    marks = set()
    for number, line in enumerate(source.split("\n"), 1):
        if found := MARK.search(line):
            marks.add((number - len(found[1]), found[2]))
    return marks


def reported(errors: list[Diagnostic]) -> set[tuple[int, str]]:
    """Returns the lines at which rustc reported errors, each with its code."""
    return {(place.line, error.code or "lifetime") for error in errors for place in error.primary}


def wrong_marks(name: str, errors: list[Diagnostic]) -> list[str]:
    """Returns a line for each mark of a subject that is not what rustc reported, and for each error that is not marked."""
    marks, came = marks_of(source_of(name).read_text()), reported(errors)
    lines = [f"{source_of(name)}:{line}: marked {code}, which rustc does not report" for line, code in sorted(marks - came)]
    return lines + [f"{source_of(name)}:{line}: rustc reports {code}, which is not marked" for line, code in sorted(came - marks)]
