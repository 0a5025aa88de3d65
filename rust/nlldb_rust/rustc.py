"""Runs rustc, or cargo, so that it dumps its borrow check. Nothing here is proved.

The dumps are debug output of rustc, and change between its versions. So only versions whose dumps were tested are accepted.
"""
from __future__ import annotations

import json
import os
import re
import subprocess
from dataclasses import dataclass, field
from pathlib import Path
from typing import Optional, Sequence

from .refused import Stopped
from .spans import Position

# The versions whose dumps the reader was tested with (`rust/tests`).
TESTED_VERSIONS = ("1.95.0",)
DUMP_SUFFIX = ".nll.0.mir"
# The file beside dumps that are kept which names the version that made them.
VERSION_FILE = "rustc-version"
# Codes of the errors of rustc's borrow check that are about loans and lifetimes. A lifetime error may have no code at all. E0700 is none of them: a text does
# not say which regions an `impl Trait` may capture.
BORROW_CODES = frozenset(
    "E0373 E0499 E0500 E0501 E0502 E0503 E0505 E0506 E0510 E0515 E0521 E0524 E0597 E0621 E0626 E0712 E0713 E0716 E0796".split()
)
LIFETIME_MESSAGES = ("lifetime may not live long enough", "borrowed data escapes", "captured variable cannot escape", "higher-ranked ")
DIRECTIVE = re.compile(r"//@? ?(edition|compile-flags): ?(.*)$", re.M)


@dataclass(frozen=True)
class Diagnostic:
    """One error that rustc reported: its code (empty where it has none), its message, where it is, and how rustc prints it."""

    code: str
    message: str
    primary: tuple[Position, ...]
    rendered: str

    def is_of_borrows(self) -> bool:
        """Whether the borrow check of loans and lifetimes found it: not that of moves, of what may be assigned, or of types."""
        return self.code in BORROW_CODES or not self.code and self.message.startswith(LIFETIME_MESSAGES)


@dataclass
class RustcRun:
    """What rustc left: the folders of its dumps and of its facts, its exit status, its errors, and the folder that paths in them begin at."""

    dumps: Path
    facts: Optional[Path]
    status: int
    root: Path
    errors: list[Diagnostic] = field(default_factory=list)

    def other_errors(self) -> list[Diagnostic]:
        """The errors that are not of borrows."""
        return [error for error in self.errors if not error.is_of_borrows()]


def version_of(rustc: str) -> str:
    """Returns the version that `rustc --version` prints. Stops where it cannot be run."""
    try:
        said = subprocess.run([rustc, "--version"], capture_output=True, text=True, check=True).stdout
    except (OSError, subprocess.CalledProcessError) as fault:
        raise Stopped(f"cannot run {rustc}: {fault}") from fault
    found = re.match(r"rustc (\S+)", said)
    return found[1] if found else said.strip()


def require_tested(rustc: str) -> str:
    """Returns rustc's version. Stops where its dumps were not tested."""
    return tested(version_of(rustc))


def tested(version: str) -> str:
    """Returns a version whose dumps were tested. Stops for any other."""
    if version not in TESTED_VERSIONS:
        raise Stopped(f"rustc {version} was not tested: its dumps may have another form (tested: {', '.join(TESTED_VERSIONS)})")
    return version


def dump_flags(folder: Path) -> list[str]:
    """Returns the options by which rustc dumps its borrow check into a folder."""
    return [
        "-Zverbose-internals",
        "-Zdump-mir=nll",
        f"-Zdump-mir-dir={folder / 'dumps'}",
        "-Zdump-mir-exclude-alloc-bytes",
        "-Znll-facts",
        f"-Znll-facts-dir={folder / 'facts'}",
    ]


def position_of(span: dict) -> Position:
    """Returns the place of a span of rustc's JSON: where the outermost macro is called, if it is in one."""
    while span.get("expansion"):
        span = span["expansion"]["span"]
    return Position(span["file_name"], span["line_start"], span["column_start"], span["line_end"], span["column_end"])


def errors_in(said: str) -> list[Diagnostic]:
    """Returns the errors in lines of JSON of rustc or of cargo. Other lines are left out."""
    errors = []
    for line in said.splitlines():
        try:
            message = json.loads(line)
        except ValueError:
            continue
        message = message.get("message", message) if isinstance(message, dict) and message.get("reason") else message
        if isinstance(message, dict) and message.get("level") == "error" and message.get("spans"):
            code = (message.get("code") or {}).get("code", "")
            places = tuple(position_of(span) for span in message["spans"] if span.get("is_primary"))
            errors.append(Diagnostic(code, message.get("message", ""), places, message.get("rendered") or ""))
    return errors


def directives_of(source: Path) -> tuple[Optional[str], list[str]]:
    """Returns the edition and the options that a test of rustc's asks for in its comments."""
    try:
        text = source.read_text(errors="replace")
    except OSError as fault:
        raise Stopped(f"cannot read {source}") from fault
    edition, options = None, []
    for word, value in DIRECTIVE.findall(text):
        if word == "edition":
            edition = value.strip().split("..")[0]
        else:
            options += value.split()
    return edition, options


def run_rustc(rustc: str, source: Path, edition: Optional[str], arguments: Sequence[str], folder: Path) -> RustcRun:
    """Lets rustc check a file and dump what it found into `folder`. It is a library unless the arguments or the name `main.rs` say otherwise."""
    asked, options = directives_of(source)
    words = [rustc, "--edition", edition or asked or "2021", "--emit=metadata", f"--out-dir={folder / 'out'}", "--error-format=json"]
    if not any(word.startswith("--crate-type") for word in (*arguments, *options)):
        words.append("--crate-type=bin" if source.name == "main.rs" else "--crate-type=lib")
    words += ["--cap-lints=allow", *dump_flags(folder), *options, *arguments, str(source)]
    return ran(words, folder, Path.cwd(), "stderr")


def run_cargo(rustc: str, manifest: Path, arguments: Sequence[str], folder: Path) -> RustcRun:
    """Lets cargo check a crate, and rustc dump what it found of it into `folder`. What the crate depends on is checked as usual."""
    words = ["cargo", "rustc", "--quiet", "--profile=check", "--message-format=json", f"--manifest-path={manifest}", *arguments]
    found = subprocess.run(
        ["cargo", "locate-project", "--workspace", "--message-format=plain", f"--manifest-path={manifest}"], capture_output=True, text=True
    )
    root = Path(found.stdout.strip()).parent if found.returncode == 0 else manifest.parent
    return ran([*words, "--", "--cap-lints=allow", *dump_flags(folder)], folder, root, "stdout", {"RUSTC": rustc})


def ran(words: Sequence[str], folder: Path, root: Path, stream: str, more: Optional[dict[str, str]] = None) -> RustcRun:
    """Runs rustc or cargo. Its errors are read as JSON from one of its outputs. Stops where cargo itself fails."""
    for name in ("dumps", "facts", "out"):
        (folder / name).mkdir(parents=True, exist_ok=True)
    environment = os.environ | {"RUSTC_BOOTSTRAP": "1"} | (more or {})
    try:
        left = subprocess.run(words, capture_output=True, text=True, errors="replace", env=environment)
    except OSError as fault:
        raise Stopped(f"cannot run {words[0]}: {fault}") from fault
    said = left.stdout if stream == "stdout" else left.stderr
    (folder / "errors.json").write_text(said)
    run = RustcRun(folder / "dumps", folder / "facts", left.returncode, root, errors_in(said))
    if left.returncode and not run.errors:
        lines = [line for line in (left.stderr.splitlines() or said.splitlines()) if line.strip()]
        raise Stopped(f"{words[0]} failed: {message_of(lines[0]) if lines else f'status {left.returncode}'}", 2)
    return run


def message_of(line: str) -> str:
    """The message of a line of JSON of rustc's, or the line."""
    try:
        return json.loads(line).get("message", line)
    except (ValueError, AttributeError):
        return line


def kept_run(folder: Path) -> RustcRun:
    """Returns what rustc left in a folder before: `dumps`, `facts` and `errors.json`, as `--keep-dumps` leaves them. Stops where the folder says that a
    rustc made them whose dumps were not tested."""
    try:
        errors = errors_in((folder / "errors.json").read_text(errors="replace"))
    except OSError:
        errors = []
    if not (folder / "dumps").is_dir():
        raise Stopped(f"cannot read {folder / 'dumps'}")
    if (folder / VERSION_FILE).is_file():
        tested((folder / VERSION_FILE).read_text().strip())
    return RustcRun(folder / "dumps", folder / "facts", 1 if errors else 0, Path.cwd(), errors)
