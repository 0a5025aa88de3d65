"""What crates and functions take to prove, in units of what `bc_flow` takes in the same run, and what docs/dev/testing.md says they may take."""
import collections
import os
import re

ROOT = os.path.dirname(os.path.dirname(os.path.dirname(os.path.realpath(__file__))))
# The crate, and how many seconds its proof takes at least on any machine: where it was taken over, what is seen of it takes less.
UNIT, LEAST = "bc_flow", 20
PAGE, WHY, HEADING = "docs/dev/testing.md", "docs/dev/design-notes.md", "## What a crate and a function may cost"
# A row of a table there: a crate, or a function by its path from its crate on.
ROW = re.compile(r"^\| `(\w+(?:::[\w+]+)*)` \| ([\d.]+) \|$", re.M)
BUDGET = re.compile(r"Budget: (\d+) units")


def kept(folder):
    """The files of checked modules below a folder, each with the time when it was written, in that order."""
    found = []
    for at, _, files in os.walk(folder):
        found += [(os.stat(f"{at}/{it}").st_mtime, it.removesuffix(".oantt")) for it in files if it.endswith(".oantt")]
    return sorted(found)


def function_of(module, crate):
    """The function that a module is about: what stands in front of the last word of its path; of another library's, that library."""
    path = re.fullmatch(rf"Rattle-{crate}-(?:proofs|specs)\.(?:contracts\.)?(.+?)(?:\.decls)?", module)
    if not path:
        return "(what the crate stands on)"
    parts = path[1].split(".")
    return ".".join(parts[:-1] if len(parts) > 1 and parts[-1][0].isupper() else parts)


def by_function(folder, crate):
    """How many seconds by the clock each function of a crate took in the first check that kept its work in a folder."""
    files, took = kept(folder), collections.Counter()
    for (before, _), (time, module) in zip(files, files[1:]):
        took[function_of(module, crate)] += time - before
    return took


def of_functions(folder, crate, processor):
    """How many seconds of a processor each function took, of so many in all: as their times by the clock are to each other."""
    took = by_function(folder, crate)
    whole = sum(took.values())
    return {f"{crate}::{name.replace('.', '::')}": seconds * processor / whole for name, seconds in took.items() if whole and not name.startswith("(")}


def unit_of(by_crate):
    """The unit in seconds of a processor, by what the crates took by kind; 0 where its crate was not proved."""
    seconds = by_crate.get(UNIT, {}).get("libraries", 0)
    return seconds if seconds >= LEAST else 0


def allowed():
    """What the page allows: the crates and the functions that it lists, each with its units, and what the whole gate may take."""
    with open(f"{ROOT}/{PAGE}", encoding="utf-8") as it:
        page = it.read()
    rows = {name: float(units) for name, units in ROW.findall(page.partition(HEADING)[2].partition("\n## ")[0])}
    budget = BUDGET.search(page)
    return {it: of for it, of in rows.items() if "::" not in it}, {it: of for it, of in rows.items() if "::" in it}, int(budget[1]) if budget else None


def explained():
    """The crates and functions of which a design note says that they take so many units."""
    with open(f"{ROOT}/{WHY}", encoding="utf-8") as it:
        return re.findall(r"`([\w:+]+)`\s+takes\s+[\d.]+\s+units", it.read())


def wrong_of(took, listed, unit, why):
    """What took longer than anything that is listed, of what is not, and of which no design note says why: these do. Seconds by names."""
    if not unit or not listed:
        return []
    most = max(listed.values())
    dear = {it: seconds / unit for it, seconds in took.items() if seconds / unit > most and it not in listed and it not in why}
    return [f"{it} took {units:.2f} units; of what {PAGE} lists the dearest takes {most:.2f}, and {WHY} does not say why" for it, units in dear.items()]
