"""The command `agree`: nlldb's answers beside rustc's own. Nothing here is proved."""
from __future__ import annotations

import json
from concurrent.futures import ProcessPoolExecutor
from dataclasses import replace
from pathlib import Path
from typing import Iterable, Sequence, Union

from .agreement import Compared, Root, compared, summed
from .checking import Request, checked, default_jobs, is_kept, shown_name
from .refused import Stopped
from .words import parser_of, parted, request_of

ABOUT = """Compares nlldb's answers about the bodies of Rust sources with those of rustc, by function and by line. A difference is a bug of the
writer, unless the table of docs/user/rust.md explains it."""
END = """FILE is a file of Rust, the Cargo.toml of a crate, or a folder: one that --keep-dumps left, or one of files of Rust, each of
which is compared by itself. What stands behind -- goes to rustc or cargo. The last line has the counts.

Exit status: 0 no function differs, 1 one does, 2 nlldb did not accept a text or a source could not be compared, 3 wrong
use, or something cannot be run, read or written."""
Outcome = Union[Compared, str]


def command(words: Sequence[str]) -> int:
    """Compares all sources and prints what differs. Returns the exit status."""
    own, arguments = parted(words)
    parser = parser_of("agree", ABOUT, END)
    parser.usage = "agree FILE .. [OPTIONS] [-- RUSTC ARGUMENTS]"
    parser.add_argument("files", metavar="FILE", type=Path, nargs="+")
    parser.add_argument("--all", action="store_true", help="print a line for each function, not only for those that differ")
    parser.add_argument("--closures", action="store_true", help="compare what each closure requires of its creator too")
    given = parser.parse_args(own)
    request = request_of(given, arguments)
    request = replace(request, options=replace(request.options, bare_closures=given.closures))
    sources = [source for file in given.files for source in sources_of(file)]
    results = list(zip(sources, outcomes(sources, request)))
    total = summed(result.counts() for _, result in results if isinstance(result, Compared))
    failed = [(source, result) for source, result in results if isinstance(result, str)]
    if given.json:
        print(json.dumps(object_of(results, total), separators=(",", ":"), sort_keys=True))
    else:
        for source, result in results:
            for line in lines_of(source, result, given.all):
                print(line)
        if given.closures:
            print("{closures} closures, {requiring} require something, {required} of them what rustc found".format_map(total))
        print(last_line(total, len(failed)))
    return 2 if failed or total.get("faults") else 1 if total.get("differ") else 0


def sources_of(file: Path) -> list[Path]:
    """The sources that a word names. Stops where there is none."""
    if not file.is_dir() or is_kept(file):
        return [file]
    found = sorted(path.parent for path in file.rglob("dumps") if path.is_dir()) + sorted(file.rglob("*.rs"))
    if not found:
        raise Stopped(f"{file} has no file of Rust and no dumps")
    return found


def outcomes(sources: Sequence[Path], request: Request) -> Iterable[Outcome]:
    """What becomes of each source. Several are compared at a time."""
    jobs = min(request.jobs or default_jobs(), len(sources))
    if jobs == 1:
        return [outcome(source, request) for source in sources]
    with ProcessPoolExecutor(jobs) as pool:
        return list(pool.map(outcome, sources, [replace(request, jobs=1)] * len(sources)))


def outcome(source: Path, request: Request) -> Outcome:
    """What becomes of a source, or why it could not be compared."""
    if request.keep_dumps:
        request = replace(request, keep_dumps=request.keep_dumps / source.stem)
    try:
        found = checked(source, request)
        if found.run.errors and not found.bodies:
            return f"rustc found errors before it checked a body: {found.run.errors[0].message}"
        result = compared(found)
    except Stopped as fault:
        if fault.status == 3:
            raise
        return str(fault)
    for root in result.roots:
        root.bodies = []
    return result


def lines_of(source: Path, result: Outcome, all_of_them: bool) -> Iterable[str]:
    """The lines about a source."""
    if isinstance(result, str):
        yield f"{source}: {result}"
        return
    for error in result.homeless:
        yield f"{source}: no function has rustc's {error.code or 'error'} at {error.primary[0].start() if error.primary else 'no place'}"
    if result.others:
        codes = sorted({error.code or error.message[:40] for error in result.others})
        yield f"{source}: rustc found other errors, which are not compared: {', '.join(codes)}"
    for root in result.roots:
        if all_of_them or not root.agrees() or root.refused or root.faults or not root.agrees_by_line():
            yield f"{source}: {shown_name(root.name)}: {word_of(root)}"
    for it in result.required:
        if not it.agrees():
            parts = [f"{who} alone {pairs}" for who, pairs in (("nlldb", it.added()), ("rustc", it.missed())) if pairs]
            yield f"{source}: {shown_name(it.name)} requires other pairs of regions: {'; '.join(parts)}"


def word_of(root: Root) -> str:
    """What is told of a function."""
    if root.refused:
        return f"not written: {', '.join(dict.fromkeys(root.refused))}"
    if root.faults:
        return f"not accepted: {', '.join(root.faults)}"
    if not root.agrees():
        return f"DIFFERS: {'rejected by nlldb at ' + ours_of(root) if root.ours else 'rejected by rustc: ' + theirs_of(root)}"
    if root.agrees_by_line():
        return "both reject it" if root.ours else "both accept it"
    ours, theirs = root.unmatched()
    parts = [f"nlldb alone at {ours_of(root, ours)}"] if ours else []
    parts += [f"rustc alone: {theirs_of(root, theirs)}"] if theirs else []
    return f"both reject it, at other lines: {'; '.join(parts)}"


def ours_of(root: Root, errors: Sequence[frozenset[int]] = ()) -> str:
    return ", ".join("/".join(map(str, sorted(lines))) or "no line" for lines in errors or root.ours)


def theirs_of(root: Root, errors: Sequence[tuple[str, int]] = ()) -> str:
    return ", ".join(f"{code or 'lifetime'} at {line}" for code, line in errors or root.theirs)


def last_line(total: dict[str, int], failed: int) -> str:
    """The line of the counts."""
    counts = {name: total.get(name, 0) for name in ("functions", "written", "agree", "rejected", "lines", "differ")}
    line = "{functions} functions, {written} written, {agree} agree ({rejected} rejected, {lines} of them at the same lines), {differ} differ"
    return line.format(**counts) + (f"; {failed} sources not compared" if failed else "")


def object_of(results: Sequence[tuple[Path, Outcome]], total: dict[str, int]) -> dict[str, object]:
    """The same as an object: each function with the lines of nlldb's errors and the codes and lines of rustc's."""
    sources = []
    for source, result in results:
        if isinstance(result, str):
            sources.append({"source": str(source), "why": result})
            continue
        functions = [
            {
                "agrees": root.agrees(),
                "lines_agree": root.agrees_by_line(),
                "name": shown_name(root.name),
                "nlldb": [sorted(lines) for lines in root.ours],
                "not_written": root.refused,
                "rustc": [{"code": error.code, "line": error.line} for error in root.theirs],
            }
            for root in result.roots
        ]
        sources.append({"functions": functions, "source": str(source)})
    return {"counts": total, "sources": sources}
