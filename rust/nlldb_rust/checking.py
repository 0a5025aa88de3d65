"""From a source to answers: rustc dumps, the bodies are written, nlldb is asked. Nothing here is proved."""
from __future__ import annotations

import os
import shutil
import tempfile
from collections import defaultdict
from contextlib import contextmanager
from dataclasses import dataclass, field, replace
from pathlib import Path
from typing import Iterator, Optional, Sequence

from .body import Options
from .crate import Body, write_crate
from .drops import DROP_FACTS
from .dump import trimmed
from .findings import Answer, answer_of
from .program import ask_all
from .refused import Stopped
from .rustc import DUMP_SUFFIX, VERSION_FILE, RustcRun, kept_run, require_tested, run_cargo, run_rustc


@dataclass(frozen=True)
class Request:
    """What is asked for: how rustc is run, which nlldb is asked, how bodies are written, and where the dumps are left."""

    program: str
    rustc: str = "rustc"
    edition: Optional[str] = None
    arguments: Sequence[str] = ()
    options: Options = Options()
    jobs: int = 0
    keep_dumps: Optional[Path] = None


@dataclass
class Checked:
    """A source with what rustc left of it, its bodies, and nlldb's answers to those that are written."""

    source: Path
    run: RustcRun
    bodies: list[Body]
    answers: dict[str, Answer] = field(default_factory=dict)
    # those to closures without clauses for what they require
    bare: dict[str, Answer] = field(default_factory=dict)


def is_kept(source: Path) -> bool:
    """Whether a folder has dumps that were left there before."""
    return (source / "dumps").is_dir()


@contextmanager
def dumped(source: Path, request: Request) -> Iterator[RustcRun]:
    """What rustc leaves of a source: a file of Rust, a `Cargo.toml`, or a folder with dumps. What it leaves is taken away at the end."""
    if is_kept(source):
        yield kept_run(source)
        return
    if not source.is_file():
        raise Stopped(f"cannot read {source}")
    version = require_tested(request.rustc)
    folder = Path(tempfile.mkdtemp(prefix="nlldb-rust-"))
    try:
        if source.name == "Cargo.toml":
            run = run_cargo(request.rustc, source, request.arguments, folder)
        else:
            run = run_rustc(request.rustc, source, request.edition, request.arguments, folder)
        if request.keep_dumps:
            (folder / VERSION_FILE).write_text(version + "\n")
            keep(folder, request.keep_dumps)
        yield run
    finally:
        shutil.rmtree(folder, ignore_errors=True)


def keep(folder: Path, target: Path) -> None:
    """Copies what is read of what rustc left: its dumps, its facts of drops where there are any, and its errors."""
    try:
        for path in sorted(folder.rglob("*")):
            if path.name in ("errors.json", VERSION_FILE, *DROP_FACTS) or path.name.endswith(DUMP_SUFFIX):
                text = path.read_text(errors="replace")
                place = target / path.relative_to(folder)
                if text:
                    place.parent.mkdir(parents=True, exist_ok=True)
                    place.write_text(trimmed(text) if path.name.endswith(DUMP_SUFFIX) else text)
    except OSError as fault:
        raise Stopped(f"cannot write {target}: {fault.strerror}") from fault


def checked(source: Path, request: Request) -> Checked:
    """Returns nlldb's answers about the bodies of a source."""
    with dumped(source, request) as run:
        bodies = write_crate(run.dumps, run.facts, request.options, request.jobs)
    bare = [replace(body, text=body.bare, within=None, dump=body.plain or body.dump) for body in bodies if body.bare]
    return Checked(source, run, bodies, asked(bodies, request.program), asked(bare, request.program))


def asked(bodies: Sequence[Body], program: str) -> dict[str, Answer]:
    """Returns nlldb's answers to the bodies that are written, by their names. A closure that is written as one is asked with its creator."""
    closures: dict[str, list[Body]] = defaultdict(list)
    for body in bodies:
        if body.within:
            closures[body.within[0]].append(body)
    asks = [body for body in bodies if body.text and not body.within]
    said = ask_all(program, [(body.text.types, units_of(body, closures[body.name])) for body in asks if body.text])
    answers = {}
    for body, outcome in zip(asks, said):
        for it in (body, *closures[body.name]):
            answers[it.name] = answer_of(it, outcome)
    return answers


def units_of(body: Body, closures: Sequence[Body]) -> dict[str, str]:
    """The units of a body and of its closures, by their names in the text."""
    return {it.unit_name(): it.text.unit for it in (body, *closures) if it.text}


def shown_name(name: str) -> str:
    """How a body is called: its path in the crate."""
    return name.split(".", 1)[-1].replace("-", "::")


def default_jobs() -> int:
    """As many as there are processors that this process may use."""
    return len(os.sched_getaffinity(0))
