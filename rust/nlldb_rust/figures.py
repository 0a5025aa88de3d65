"""The command `figures`: published crates through nlldb, and the tables of docs/user/rust.md. Nothing here is proved."""
from __future__ import annotations

import json
import os
import resource
import shutil
import subprocess
import sys
import tempfile
import time
from collections import Counter
from dataclasses import dataclass, field
from pathlib import Path
from typing import Callable, Sequence, TypeVar

from .agreement import Compared, compared
from .checking import Checked, Request, asked, is_kept, keep
from .crate import Body, write_crate
from .mir import Assign, Discriminant, Step
from .refused import Stopped
from .rustc import RustcRun, kept_run, require_tested, run_cargo
from .tables import tables
from .words import parser_of, parted, request_of

ABOUT = """Checks published crates by nlldb and by rustc, and prints the tables of docs/user/rust.md: how many functions agree, what is not written
and why, sizes beside the limits, what has no form of its own, and processor seconds."""
END = """CRATE is a crate of the registry, or CRATE:FEATURE,FEATURE for one without its default features. What Debian's packages
librust-CRATE-dev install is in /usr/share/cargo/registry. Cargo gets nothing from elsewhere. If --keep-dumps names a folder
that has the dumps of a crate, they are taken, with the seconds that they took."""
REGISTRY = Path("/usr/share/cargo/registry")
CONFIG = '[source.crates-io]\nreplace-with = "here"\n[source.here]\ndirectory = {}\n'
PACKAGE = '[package]\nname = "figures"\nversion = "0.0.0"\nedition = "2021"\n[workspace]\n[dependencies]\n'
Result = TypeVar("Result")


@dataclass
class Crate:
    """What is told of a crate. Times are seconds of a processor: rustc's check alone, with dumps, the writer, and nlldb."""

    name: str
    version: str
    counts: dict[str, int] = field(default_factory=dict)
    bodies: int = 0
    bodies_written: int = 0
    refused: Counter[str] = field(default_factory=Counter)
    differing: list[str] = field(default_factory=list)
    sizes: list[dict[str, int]] = field(default_factory=list)
    # in how many bodies a note is, and how often in all
    noted_bodies: Counter[str] = field(default_factory=Counter)
    notes: Counter[str] = field(default_factory=Counter)
    seconds: dict[str, float] = field(default_factory=dict)


def version_in(registry: Path, name: str) -> str:
    """Returns the version of a crate in the registry. Stops where it has none."""
    found = [path.name.removeprefix(f"{name}-") for path in registry.glob(f"{name}-[0-9]*")]
    if not found:
        raise Stopped(f"{registry} has no {name}")
    return sorted(found)[-1]


def make_project(folder: Path, registry: Path, crates: Sequence[str]) -> dict[str, str]:
    """Writes a package that depends on all crates. Returns their versions."""
    versions, lines = {}, []
    for word in crates:
        name, colon, features = word.partition(":")
        versions[name] = version_in(registry, name)
        fewer = f", default-features = false, features = {json.dumps([it for it in features.split(',') if it])}" if colon else ""
        lines.append(f'{name} = {{ version = "={versions[name]}"{fewer} }}\n')
    (folder / ".cargo").mkdir(parents=True)
    (folder / "src").mkdir()
    (folder / ".cargo" / "config.toml").write_text(CONFIG.format(json.dumps(str(registry))))
    (folder / "Cargo.toml").write_text(PACKAGE + "".join(lines))
    (folder / "src" / "lib.rs").write_text("")
    return versions


def timed(seconds: dict[str, float], name: str, work: Callable[[], Result]) -> Result:
    """Does some work; notes the seconds of a processor that it and its children took."""

    def spent() -> float:
        children = resource.getrusage(resource.RUSAGE_CHILDREN)
        return time.process_time() + children.ru_utime + children.ru_stime

    began = spent()
    result = work()
    seconds[name] = spent() - began
    return result


def cargo(words: Sequence[str], project: Path) -> None:
    """Runs cargo on the package. Stops where it fails."""
    ran = subprocess.run(["cargo", *words], cwd=project, capture_output=True, text=True, env=os.environ | {"RUSTC_BOOTSTRAP": "1"})
    if ran.returncode:
        raise Stopped(f"cargo {words[0]} fails: {' '.join(ran.stderr.split())[-300:]}", 2)


def dumped(crate: Crate, project: Path, request: Request, folder: Path) -> RustcRun:
    """Returns what rustc leaves of a crate, from the folder if it is there. What the crate depends on is checked before anything is timed."""
    told = folder / "seconds.json"
    if is_kept(folder) and told.is_file():
        crate.seconds.update(json.loads(told.read_text()))
        return kept_run(folder)
    of_it = ["--offline", f"--config={project / '.cargo' / 'config.toml'}", "--package", crate.name, "--lib"]
    cargo(["check", "--quiet", "--offline", "--package", crate.name], project)
    alone = ["rustc", "--quiet", "--profile=check", *of_it, "--", "--cap-lints=allow", "--cfg=figures"]
    timed(crate.seconds, "rustc", lambda: cargo(alone, project))
    left = project / "left"
    timed(crate.seconds, "dumps", lambda: run_cargo(request.rustc, project / "Cargo.toml", of_it, left))
    keep(left, folder)
    shutil.rmtree(left)
    told.write_text(json.dumps(crate.seconds))
    return kept_run(folder)


def figures_of(name: str, version: str, project: Path, request: Request, folder: Path) -> Crate:
    """Returns what is told of a crate. The folder is where its dumps are, or will be."""
    crate = Crate(name, version)
    run = dumped(crate, project, request, folder)
    bodies = timed(crate.seconds, "writer", lambda: write_crate(run.dumps, run.facts, request.options, 1))
    answers = timed(crate.seconds, "nlldb", lambda: asked(bodies, request.program))
    return told_of(crate, bodies, compared(Checked(project, run, bodies, answers)))


def told_of(crate: Crate, bodies: Sequence[Body], result: Compared) -> Crate:
    """Adds what is counted of the bodies."""
    crate.counts, crate.bodies = result.counts(), len(bodies)
    for root in result.roots:
        crate.refused.update(dict.fromkeys(root.refused, 1))
        if root.faults or not root.refused and not root.agrees():
            crate.differing.append(root.name)
    for body in bodies:
        if body.text is None:
            continue
        crate.bodies_written += 1
        crate.sizes.append(dict(body.text.sizes))
        notes = +(body.text.notes + forms_in(body))
        crate.notes.update(notes)
        crate.noted_bodies.update(notes.keys())
    return crate


def forms_in(body: Body) -> Counter[str]:
    """Counts what a body has that the language has no form of its own for, of what the writer does not note."""
    found: Counter[str] = Counter()
    for block in body.dump.blocks if body.dump else ():
        for it in block.statements:
            if isinstance(it, Assign):
                found["write to some element"] += any(step is Step.INDEX for step, _, _ in it.target.projections)
                found["read of a discriminant"] += isinstance(it.value, Discriminant)
    return found


def gathered(words: Sequence[str], registry: Path, request: Request) -> list[dict]:
    """Returns what is told of each crate that can be checked. The others are named on standard error."""
    crates = []
    with tempfile.TemporaryDirectory(prefix="figures-") as at:
        project, dumps = Path(at) / "project", request.keep_dumps or Path(at) / "dumps"
        for name, version in make_project(project, registry.resolve(), words).items():
            try:
                crates.append(vars(figures_of(name, version, project, request, dumps / f"{name}-{version}")))
                print(f"{name} {version}: {crates[-1]['counts']}", file=sys.stderr, flush=True)
            except Stopped as fault:
                print(f"{name} {version}: {fault}", file=sys.stderr, flush=True)
    return crates


def command(words: Sequence[str]) -> int:
    """Prints the tables of all crates. Returns the exit status."""
    own, _ = parted(words)
    parser = parser_of("figures", ABOUT, END)
    parser.usage = "figures CRATE .. [OPTIONS]\n       figures --read FILE"
    parser.add_argument("crates", metavar="CRATE", nargs="*")
    parser.add_argument("--registry", metavar="DIR", type=Path, default=REGISTRY, help=f"where the sources of crates are ({REGISTRY})")
    parser.add_argument("--read", metavar="FILE", type=Path, help="print the tables of what --json printed, and run nothing")
    given = parser.parse_args(own)
    if given.read:
        crates = json.loads(given.read.read_text())
    else:
        request = request_of(given, ())
        require_tested(given.rustc)
        crates = gathered(given.crates, given.registry, request)
    print(json.dumps(crates) if given.json else "\n".join(tables(crates)))
    return 1 if any(crate["differing"] for crate in crates) else 0
