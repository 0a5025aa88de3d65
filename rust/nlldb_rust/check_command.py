"""The command `nlldb-rust`: the errors of a Rust source in its own lines. Nothing here is proved."""
from __future__ import annotations

import json
import sys
from pathlib import Path
from typing import Iterable, Sequence

from .checking import Checked, checked, shown_name, units_of
from .crate import Body
from .explain import Mark, Told, tell
from .refused import Stopped
from .rustc import TESTED_VERSIONS
from .snippets import told_lines
from .spans import Sources
from .words import parser_of, parted, request_of

ABOUT = """Checks the bodies of a Rust source by nlldb, and prints its answers in the lines of the source: each error with the chain of
what keeps the borrow in use. rustc dumps what it knows of the bodies; nothing of the way from there to nlldb is proved."""
END = f"""FILE is a file of Rust, the Cargo.toml of a crate, or a folder that --keep-dumps left. What stands behind -- goes to
rustc, or to `cargo rustc` (as -- --lib --features x). rustc has to be {' or '.join(TESTED_VERSIONS)}, and nightly options are turned on for it.

Exit status: 0 no body has an error, 1 one has, 2 a body is not written or rustc found other errors, 3 wrong use, or
something cannot be run, read or written."""


def command(words: Sequence[str]) -> int:
    """Checks a source and prints what nlldb answers. Returns the exit status."""
    own, arguments = parted(words)
    parser = parser_of("nlldb-rust", ABOUT, END)
    parser.usage = "nlldb-rust FILE [OPTIONS] [-- RUSTC ARGUMENTS]"
    parser.add_argument("file", metavar="FILE", type=Path)
    parser.add_argument("--keep", metavar="DIR", type=Path, help="leave the texts in DIR, one file of `nlldb check` for each body")
    given = parser.parse_args(own)
    found = checked(given.file, request_of(given, arguments))
    if given.keep:
        keep_texts(found, given.keep)
    if given.json:
        print(json.dumps(object_of(found), separators=(",", ":"), sort_keys=True))
    else:
        for line in lines_of(found):
            print(line)
    return tell_others(found)


def keep_texts(found: Checked, folder: Path) -> None:
    """Writes the text of each body into a folder."""
    try:
        folder.mkdir(parents=True, exist_ok=True)
        for body in found.bodies:
            if body.text and not body.within:
                closures = [it for it in found.bodies if it.within and it.within[0] == body.name]
                units = "".join(f"@put {name}\n{unit}" for name, unit in units_of(body, closures).items())
                (folder / f"{body.name}.nll").write_text(f"@types\n{body.text.types}{units}")
    except OSError as fault:
        raise Stopped(f"cannot write {folder}: {fault.strerror}") from fault


def told_of(found: Checked) -> Iterable[tuple[Body, Told]]:
    """The errors of all bodies, in the words of the source."""
    for body in found.bodies:
        answer = found.answers.get(body.name)
        for finding in answer.findings if answer else ():
            yield body, tell(body, finding)


def refusals(found: Checked) -> Iterable[tuple[str, str]]:
    """The bodies that nlldb has no report of, and why."""
    for body in found.bodies:
        answer = found.answers.get(body.name)
        if body.text is None:
            yield shown_name(body.name), f"not written: {body.refused}"
        elif answer and answer.fault:
            yield shown_name(body.name), f"not accepted: {answer.fault}"


def counts_of(found: Checked) -> dict[str, int]:
    """How many bodies there are, how many are written, and how many have errors."""
    erring = sum(1 for answer in found.answers.values() if answer.findings)
    written = sum(1 for body in found.bodies if body.text)
    errors = sum(len(answer.findings) for answer in found.answers.values())
    return {"bodies": len(found.bodies), "written": written, "erring": erring, "errors": errors}


def lines_of(found: Checked) -> Iterable[str]:
    sources = Sources(found.run.root)
    for body, told in told_of(found):
        yield from told_lines(told, sources, f"`{shown_name(body.name)}`")
    for name, why in refusals(found):
        yield f"`{name}` is {why}"
    counts = counts_of(found)
    bodies = "1 body" if counts["bodies"] == 1 else f"{counts['bodies']} bodies"
    errors = "1 error" if counts["errors"] == 1 else f"{counts['errors']} errors"
    yield f"{bodies}, {counts['written']} written, {counts['erring']} with errors: {errors}"


def object_of(found: Checked) -> dict[str, object]:
    """The same as an object."""
    told: dict[str, list[dict[str, object]]] = {body.name: [] for body in found.bodies}
    for body, it in told_of(found):
        told[body.name].append({"links": marks(it.links), "marks": marks(it.marks), "notes": it.notes, "sentence": it.sentence})
    why = dict(refusals(found))
    bodies = []
    for body in found.bodies:
        name = shown_name(body.name)
        reason = {"why": why[name]} if name in why else {}
        bodies.append({"errors": told[body.name], "name": name, "written": body.text is not None, **reason})
    return {"bodies": bodies, "counts": counts_of(found)}


def marks(them: Sequence[Mark]) -> list[dict[str, object]]:
    return [{**mark.at._asdict(), "text": mark.text} for mark in them]


def tell_others(found: Checked) -> int:
    """Tells on standard error what rustc found beside borrows. Returns the exit status."""
    # (where no body was dumped, an error was in the way, be it one of borrows: that of a crate that is needed before)
    others = found.run.other_errors() if found.bodies else found.run.errors
    if others:
        first = others[0].rendered.strip() or others[0].message
        count = "an error" if len(others) == 1 else f"{len(others)} errors"
        told = "that nlldb does not look for" if found.bodies else "before it checked a body"
        print(f"rustc found {count} {told}; the first:\n{first}", file=sys.stderr)
    if others or any(True for _ in refusals(found)):
        return 2
    return 1 if any(answer.findings for answer in found.answers.values()) else 0

