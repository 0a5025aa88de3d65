"""Keeps what rustc dumped of one file as an archive, so that the suite runs where that rustc is not. Nothing here is proved.

An archive (`NAME.tar.xz`) has `made.json`, which says of which source and by which rustc it was made, `errors.json`, rustc's own errors as lines of
JSON, `dumps/*.nll.0.mir`, and of each body the facts that are read, where there are any. What no reader looks at is left out: the values of regions that rustc
found, where regions are live, lines of comments, and the texts of errors as a terminal shows them.
"""
from __future__ import annotations

import hashlib
import io
import json
import lzma
import re
import tarfile
from dataclasses import dataclass
from pathlib import Path
from typing import Optional

from .rustc import DUMP_SUFFIX

FACTS = ("drop_of_var_derefs_origin.facts", "var_dropped_at.facts")
LEFT_OUT = re.compile(r"\| '\?\d+ \| U\d|\| '\?\d+ live at |\s+// ")
# Where the library's own source is, on this machine or in none.
LIBRARY = re.compile(r'[^\s()"]*/library/(?=\w+/src/)')
OF_AN_ERROR = ("message", "level", "code", "spans")
OF_A_SPAN = ("file_name", "line_start", "column_start", "line_end", "column_end", "is_primary", "label")


@dataclass(frozen=True)
class Made:
    """Of which source an archive was made: by which rustc, of which edition, and the SHA-256 of the source."""

    rustc: str
    edition: str
    source: str


def digest_of(source: Path) -> str:
    """Returns the SHA-256 of a source, in base 16."""
    return hashlib.sha256(source.read_bytes()).hexdigest()


def kept_dump(text: str) -> str:
    """Returns a dump without what no reader looks at."""
    lines = (line for line in text.split("\n") if not LEFT_OUT.match(line))
    return LIBRARY.sub("/rust/library/", "\n".join(lines))


def kept_span(span: dict) -> dict:
    """Returns a span of rustc's JSON without its text. If it is in a macro, it has that macro's call."""
    kept = {member: span[member] for member in OF_A_SPAN if span.get(member) not in (None, False)}
    if span.get("expansion"):
        kept["expansion"] = {"span": kept_span(span["expansion"]["span"])}
    return kept


def kept_errors(said: str) -> str:
    """Returns rustc's errors, one line of JSON each, in their order. Warnings, and errors without a place, are left out."""
    lines = []
    for line in said.splitlines():
        message = json.loads(line) if line.startswith("{") else {}
        if message.get("level") != "error" or not message.get("spans"):
            continue
        kept = {member: message.get(member) for member in OF_AN_ERROR}
        kept["code"] = kept["code"] and {"code": kept["code"]["code"]}
        kept["spans"] = [kept_span(span) for span in message["spans"]]
        lines.append(LIBRARY.sub("/rust/library/", json.dumps(kept, sort_keys=True)))
    return "".join(f"{line}\n" for line in lines)


def files_of(folder: Path, made: Made) -> dict[str, bytes]:
    """Returns what an archive has of a run of rustc that left `errors.json`, `dumps` and `facts` in a folder: each file by its name."""
    said = (folder / "errors.json").read_text(errors="replace")
    files = {"made.json": json.dumps(vars(made), sort_keys=True) + "\n", "errors.json": kept_errors(said)}
    for path in sorted((folder / "dumps").glob(f"*{DUMP_SUFFIX}")):
        files[f"dumps/{path.name}"] = kept_dump(path.read_text(errors="replace"))
    for path in sorted((folder / "facts").glob("*/*.facts")):
        if path.name in FACTS and path.stat().st_size:
            files[f"facts/{path.parent.name}/{path.name}"] = path.read_text(errors="replace")
    return {name: text.encode() for name, text in files.items()}


def pack(files: dict[str, bytes], archive: Path) -> None:
    """Writes an archive of these files. The same files give the same bytes."""
    told = io.BytesIO()
    with tarfile.open(fileobj=told, mode="w", format=tarfile.PAX_FORMAT) as out:
        for name, data in files.items():
            entry = tarfile.TarInfo(name)
            entry.size = len(data)
            out.addfile(entry, io.BytesIO(data))
    archive.parent.mkdir(parents=True, exist_ok=True)
    archive.write_bytes(lzma.compress(told.getvalue(), preset=9 | lzma.PRESET_EXTREME))


def unpacked(archive: Path) -> dict[str, bytes]:
    """Returns the files of an archive by their names, none where there is no archive."""
    if not archive.is_file():
        return {}
    with tarfile.open(archive) as kept:
        return {entry.name: kept.extractfile(entry).read() for entry in kept if entry.isfile()}


def made_of(files: dict[str, bytes]) -> Optional[Made]:
    """Returns of what source an archive with these files was made, or None where it does not say so."""
    try:
        return Made(**json.loads(files["made.json"]))
    except (KeyError, TypeError, ValueError):
        return None


def unpack(files: dict[str, bytes], folder: Path) -> None:
    """Writes the files of an archive into a folder, as `--keep-dumps` leaves them."""
    for name in ("dumps", "facts"):
        (folder / name).mkdir(parents=True, exist_ok=True)
    for name, data in files.items():
        (folder / name).parent.mkdir(parents=True, exist_ok=True)
        (folder / name).write_bytes(data)
