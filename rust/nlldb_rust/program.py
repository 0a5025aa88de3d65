"""Asks nlldb about written bodies, in one conversation (`nlldb serve`). Nothing here is proved; the program that is asked is.
"""
from __future__ import annotations

import json
import os
import shutil
import subprocess
from pathlib import Path
from typing import Iterable

from .refused import Stopped

HERE = Path(__file__).resolve().parent.parent.parent


def find_program(named: str | None) -> str:
    """Returns the path of nlldb: the one that is named, else $NLLDB, else the one that this repository built, proved or else unproved, else the one on
    the path."""
    folder = HERE / "crates" / "nlldb" / "out"
    built = [str(path) for path in (folder / "nlldb", folder / "unproved" / "nlldb") if path.is_file() and os.access(path, os.X_OK)]
    for candidate in (named, os.environ.get("NLLDB")):
        if candidate:
            found = shutil.which(candidate)
            if not found:
                raise Stopped(f"cannot run {candidate}")
            return os.path.abspath(found)
    found = built[0] if built else shutil.which("nlldb")
    if not found:
        raise Stopped("nlldb is not there: build it (.ci/program, or .ci/quick without the proof), or name it by --nlldb PATH or $NLLDB")
    return found


def requests_of(types: str, units: dict[str, str]) -> Iterable[dict]:
    """The requests for one root: its declarations, each of its units, and the ask. Closures of a root before may stay: nothing names them."""
    yield {"call": "types", "text": types}
    for name, text in units.items():
        yield {"call": "put", "name": name, "text": text}
    yield {"call": "ask", "name": min(units, key=len)}


def ask_all(program: str, bodies: list[tuple[str, dict[str, str]]]) -> list[dict]:
    """Returns the answer to each body's ask: an object with `outcome`, or with `fault` and its place.

    A body is its declarations, and its units by name. Stops where the program does not answer every request."""
    requests, asked = [], []
    for types, units in bodies:
        for request in requests_of(types, units):
            requests.append(json.dumps(request | {"id": len(requests)}))
        asked.append(len(requests))
    if not requests:
        return []
    try:
        ran = subprocess.run([program, "serve"], input="\n".join(requests) + "\n", capture_output=True, text=True, errors="replace")
    except OSError as fault:
        raise Stopped(f"cannot run {program}: {fault}") from fault
    lines = ran.stdout.splitlines()
    if ran.returncode or len(lines) != len(requests):
        raise Stopped(f"nlldb serve ended with status {ran.returncode} after {len(lines)} of {len(requests)} answers: {ran.stderr.strip()[:200]}")
    return answers_of([json.loads(line) for line in lines], asked)


def answers_of(lines: list[dict], asked: list[int]) -> list[dict]:
    """Returns one answer for each body, whose requests end before the numbers in `asked`: the first fault among them, or else the ask's."""
    answers, begin = [], 0
    for end in asked:
        faults = [line for line in lines[begin:end] if "fault" in line]
        answers.append(faults[0] if faults else lines[end - 1])
        begin = end
    return answers
