"""Writes all bodies that rustc dumped of a crate, by several processes. Nothing here is proved.

How a type is named, and whether its drop looks at its regions, is known only when all bodies are read. So each process reads its bodies, all
exchange what they found, and then each writes its own.
"""
from __future__ import annotations

import gc
import os
import re
from collections import defaultdict
from contextlib import contextmanager
from dataclasses import dataclass, replace
from multiprocessing import get_context
from multiprocessing.connection import Connection
from pathlib import Path
from typing import Iterator, Optional, Sequence

from .body import Options, Text, write_body
from .closures import calls_closures
from .drops import STANDARD_DROPS, DropFacts, moved_whole, read_facts
from .dump import Dump, read_dump
from .groups import Source, write_group
from .refused import Refused, Stopped
from .regions import Regions
from .rustc import DUMP_SUFFIX
from .types import Paths, TypeReader, merged, note_paths

TAIL = re.compile(r"\.-+$")
FAULTS = (IndexError, KeyError, AttributeError, ValueError, TypeError, RecursionError, AssertionError)


@dataclass
class Body:
    """A body of a crate: its name in the dumps (`CRATE.PATH`), its text or why it is not written, and what the dump says of it. `bare` is the text
    of a closure without clauses for what rustc found that it requires, where that is asked for."""

    name: str
    text: Optional[Text] = None
    # of a closure that is written as a closure, the body that is asked for it, and its number there
    within: Optional[tuple[str, int]] = None
    bare: Optional[Text] = None
    refused: str = ""
    dump: Optional[Dump] = None
    # that of a closure that is written as a closure as rustc left it: `dump` has its environment in another local
    plain: Optional[Dump] = None
    mir_points: int = 0

    def is_closure(self) -> bool:
        return "-{closure" in self.name

    def unit_name(self) -> str:
        """The name of its unit in the text."""
        return f"f/{self.within[1]}" if self.within else "f"

    def root(self) -> str:
        """The function that a closure lies in; itself for a function."""
        return self.name.split("-{closure")[0]


def body_name(path: Path) -> str:
    """The name of a body by the name of its dump."""
    return TAIL.sub("", path.name.removesuffix(DUMP_SUFFIX))


def facts_folder(facts: Optional[Path], name: str) -> Optional[Path]:
    """The folder with the facts of a body. Its name has no crate."""
    return None if facts is None else facts / name.split(".", 1)[-1]


class Reader:
    """The bodies that one process reads and writes, in three rounds."""

    def __init__(self, paths: Sequence[Path], facts: Optional[Path], unwind: bool) -> None:
        self.bodies: list[Body] = []
        self.facts: dict[str, DropFacts] = {}
        for path in paths:
            body = Body(body_name(path))
            self.bodies.append(body)
            try:
                body.dump = read_dump(path, unwind)
                body.mir_points = body.dump.points()
                self.facts[body.name] = read_facts(facts_folder(facts, body.name))
            except Refused as fault:
                body.refused = str(fault)
            except FAULTS as fault:
                body.refused = fault_of(fault)

    def paths(self) -> Paths:
        """The full paths of types in these bodies. Those of parameters are left out: a header has shorter ones."""
        paths: Paths = defaultdict(set)
        for body in self.bodies:
            if body.dump is not None:
                count = len(body.dump.parameters)
                for text in {text for local, text in body.dump.locals.items() if not 0 < local <= count}:
                    note_paths(text, paths)
        return paths

    def drops(self, paths: Paths) -> tuple[set[str], set[str]]:
        """The names of types whose `Drop` is among these bodies, and of those that a drop here does not look into: they are `may_dangle`."""
        own, dangling = set(), set()
        reader = TypeReader(paths)
        for body in self.bodies:
            if body.dump is None:
                continue
            try:
                if body.name.endswith("-drop") and body.dump.parameters:
                    kind = reader.read(body.dump.parameters[0])
                    own.update({kind.part(0).shape.name} if kind.is_reference() else ())
                dangling |= not_looked_into(body.dump, self.facts[body.name], reader)
            except (Refused, *FAULTS):
                continue
        return own - {""}, dangling

    def write(self, paths: Paths, drop_names: frozenset[str], options: Options) -> list[Body]:
        """Writes the bodies. Returns them."""
        for body in self.bodies:
            if body.dump is not None:
                write_one(body, TypeReader(paths), self.facts[body.name], drop_names, options)
        if options.native_closures:
            for body in self.bodies:
                self.write_closures(body, TypeReader(paths), drop_names, options)
        return self.bodies

    def write_closures(self, creator: Body, reader: TypeReader, drop_names: frozenset[str], options: Options) -> None:
        """Writes a function anew with those of its closures that are only called, where that can be done."""
        begin = f"{creator.name}-{{closure"
        closures = {it.name.split(".", 1)[-1]: it for it in self.bodies if it.name.startswith(begin) and it.text and it.dump}
        if creator.is_closure() or not closures or not creator.text or not creator.dump or not calls_closures(creator.dump):
            return
        sources = {name: Source(it.dump, self.facts[it.name]) for name, it in closures.items() if it.dump}
        try:
            group = write_group(Source(creator.dump, self.facts[creator.name]), sources, reader, drop_names, options)
        except (Refused, *FAULTS):
            return
        creator.text = group.creator
        for number, (name, (text, dump)) in enumerate(group.closures.items()):
            closure = closures[name]
            closure.text, closure.within = text, (creator.name, number)
            closure.plain, closure.dump = closure.dump, dump


def not_looked_into(dump: Dump, facts: DropFacts, reader: TypeReader) -> set[str]:
    """The names of types of which a local is dropped, by the facts, without a use of its regions, though it has some that are not universal."""
    candidates = facts.dropped - facts.uses_regions
    if not candidates:
        return set()
    regions = Regions(dump, False)
    candidates -= moved_whole(dump)
    kinds = (regions.read(reader, text) for local, text in dump.locals.items() if local in candidates)
    return {kind.shape.name for kind in kinds if any(region not in dump.universal for region in kind.regions)}


def write_one(body: Body, reader: TypeReader, facts: DropFacts, drop_names: frozenset[str], options: Options) -> None:
    """Writes a body. One that is over a limit is tried again with fewer regions, and then without unwinding."""
    assert body.dump is not None
    tries = [options, replace(options, merge_regions=True)]
    if options.unwind:
        tries.append(replace(options, merge_regions=True, unwind=False))
    for turn in tries:
        try:
            body.text, body.refused = write_body(body.dump, reader, facts, drop_names, turn), ""
            if options.bare_closures and body.is_closure():
                body.bare = write_body(body.dump, reader, facts, drop_names, replace(turn, requirements=False))
            return
        except Refused as fault:
            body.refused = str(fault)
            if not body.refused.startswith("limit"):
                return
        except FAULTS as fault:
            body.refused = fault_of(fault)
            return


def fault_of(fault: BaseException) -> str:
    """How a fault of this program is told as a reason."""
    return f"fault of the writer: {type(fault).__name__} {str(fault)[:60]}"


@contextmanager
def without_collector() -> Iterator[None]:
    """Keeps Python from looking for cycles, of which nothing here has any: that takes a tenth of the time."""
    was_on = gc.isenabled()
    gc.disable()
    try:
        yield
    finally:
        if was_on:
            gc.enable()


def work(link: Connection, paths: Sequence[Path], facts: Optional[Path], options: Options) -> None:
    """What a process does: it reads its bodies, and tells and hears what they all need."""
    gc.disable()
    reader = Reader(paths, facts, options.unwind)
    link.send(reader.paths())
    full = link.recv()
    link.send(reader.drops(full))
    link.send(reader.write(full, link.recv(), options))
    link.close()


def drop_names_of(found: Sequence[tuple[set[str], set[str]]]) -> frozenset[str]:
    """The names of types whose drop looks at their regions, of what the processes found."""
    own = {name for names, _ in found for name in names}
    dangling = {name for _, names in found for name in names}
    return STANDARD_DROPS | (own - dangling)


def write_crate(dumps: Path, facts: Optional[Path], options: Options = Options(), jobs: int = 0) -> list[Body]:
    """Returns all bodies whose dumps are in a folder, written or refused, by their names. Without `jobs` there is a process for each processor, and
    no process more than pays."""
    paths = sorted(path for path in dumps.iterdir() if path.name.endswith(DUMP_SUFFIX))
    jobs = min(jobs or len(os.sched_getaffinity(0)), 1 + len(paths) // 64)
    if jobs == 1:
        with without_collector():
            reader = Reader(paths, facts, options.unwind)
            full = reader.paths()
            return reader.write(full, drop_names_of([reader.drops(full)]), options)
    return write_by_processes(shares_of(paths, jobs), facts, options)


def shares_of(paths: Sequence[Path], count: int) -> list[list[Path]]:
    """Divides dumps among processes. A function and its closures are in one share."""
    roots = {root: number for number, root in enumerate(dict.fromkeys(Body(body_name(path)).root() for path in paths))}
    shares: list[list[Path]] = [[] for _ in range(count)]
    for path in paths:
        shares[roots[Body(body_name(path)).root()] % count].append(path)
    return shares


def write_by_processes(shares: Sequence[Sequence[Path]], facts: Optional[Path], options: Options) -> list[Body]:
    """Returns the bodies of several processes' shares, by their names."""
    context = get_context("fork")
    links, processes = [], []
    for share in shares:
        here, there = context.Pipe()
        process = context.Process(target=work, args=(there, share, facts, options), daemon=True)
        process.start()
        there.close()
        links.append(here)
        processes.append(process)
    try:
        full = merged([link.recv() for link in links])
        for link in links:
            link.send(full)
        names = drop_names_of([link.recv() for link in links])
        for link in links:
            link.send(names)
        bodies = [body for link in links for body in link.recv()]
    except (EOFError, OSError) as fault:
        raise Stopped("a process that writes bodies has ended before its end") from fault
    for process in processes:
        process.join()
    return sorted(bodies, key=lambda body: body.name)
