"""The tables of docs/user/rust.md, printed of what `figures` counts. Nothing here is proved."""
from __future__ import annotations

from collections import Counter
from typing import Any, Iterable, Mapping, Sequence

from .body import MOST_BLOCKS, MOST_LOCALS, MOST_POINTS
from .calls import MOST_EXTERNS
from .declarations import MOST_STRUCTS
from .writing import MOST_VARIABLES

# What is counted of a written body, in words, with the limit of the language.
SIZES = (
    ("points", "points", MOST_POINTS),
    ("blocks", "blocks", MOST_BLOCKS),
    ("locals", "locals", MOST_LOCALS),
    ("structs", "structs", MOST_STRUCTS),
    ("externs", "extern functions", MOST_EXTERNS),
    ("regions", "region variables", MOST_VARIABLES + 1),
    ("loans", "loans", None),
)
# What is timed of a crate, in words.
TIMES = {"rustc": "rustc s", "dumps": "with dumps s", "writer": "writer s", "nlldb": "nlldb s"}
Crates = Sequence[Mapping[str, Any]]


def table(head: Sequence[str], rows: Iterable[Sequence[object]]) -> list[str]:
    """Returns the lines of a table."""
    lines = [head, ["---"] + ["---:"] * (len(head) - 1), *rows]
    return ["| " + " | ".join(str(cell) for cell in line) + " |" for line in lines]


def total(crates: Crates, name: str) -> int:
    return sum(crate["counts"].get(name, 0) for crate in crates)


def crates_table(crates: Crates) -> list[str]:
    """A row for each crate: its functions, how many are written and agree, and the processor seconds that were taken."""
    times = {name: words for name, words in TIMES.items() if any(name in crate["seconds"] for crate in crates)}
    rows = []
    for it in crates:
        counts = [it["counts"].get(name, 0) for name in ("functions", "written", "agree")]
        rows.append([f"{it['name']} {it['version']}", *counts, it["bodies"], *(f"{it['seconds'].get(name, 0):.1f}" for name in times)])
    sums = [total(crates, name) for name in ("functions", "written", "agree")]
    spent = [f"{sum(it['seconds'].get(name, 0) for it in crates):.1f}" for name in times]
    rows.append([f"**{len(crates)} crates**", *sums, sum(it["bodies"] for it in crates), *spent])
    return table(["Crate", "Functions", "Written", "Agree", "Bodies", *times.values()], rows)


def refused_table(crates: Crates) -> list[str]:
    """A row for each reason for which a function is not written."""
    reasons: Counter[str] = Counter()
    for crate in crates:
        reasons.update(crate["refused"])
    return table(["Reason", "Functions"], [[f"`{reason}`", count] for reason, count in reasons.most_common()])


def share(values: Sequence[int], hundredths: int) -> int:
    """Returns the value that so many of a hundred do not exceed."""
    return values[min(len(values) - 1, len(values) * hundredths // 100)]


def sizes_table(crates: Crates) -> list[str]:
    """A row for each size: its median, the 99th of 100, the greatest, and the limit."""
    rows = []
    for name, words, limit in SIZES:
        values = sorted(size.get(name, 0) for crate in crates for size in crate["sizes"]) or [0]
        rows.append([words, share(values, 50), share(values, 99), values[-1], limit or ""])
    return table(["Of a written body", "Median", "99 of 100", "Most", "Limit"], rows)


def notes_table(crates: Crates) -> list[str]:
    """A row for each note of the writer's: in how many bodies it is, and how often."""
    bodies, times = Counter[str](), Counter[str]()
    for crate in crates:
        bodies.update(crate["noted_bodies"])
        times.update(crate["notes"])
    return table(["Note", "Bodies", "Times"], [[note, bodies[note], times[note]] for note, _ in bodies.most_common()])


def tables(crates: Crates) -> list[str]:
    """Returns the lines of all tables, and the functions that differ."""
    lines: list[str] = []
    for one in (crates_table, refused_table, sizes_table, notes_table):
        lines += [*one(crates), ""]
    differing = [f"{crate['name']}: {name}" for crate in crates for name in crate["differing"]]
    return lines + [f"{len(differing)} functions differ" + "".join(f"\n- {it}" for it in differing)]
