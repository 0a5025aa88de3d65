"""Times `check` over real bodies, and compares their sizes with those of the shapes of code that are timed (`bodies.py`).

`.ci/benchmarks/bench PROGRAM --rust DIR` uses it. DIR has files as `rust/nlldb-rust FILE --keep DIR` leaves them: each has a body, and those of its closures
that are written as closures, over declarations of its own. So `check` is run on each file by itself, and `serve` on a conversation of all, so that the
program is started once.
"""
import json, os, re, subprocess, sys, tempfile, time

import bodies
from timing import millis, ran

VARIABLE = re.compile(r"'\?\d+")
PUT = re.compile(r"^@put (\S+)\n", re.M)
# What an answer has if a text is not read, or is not checked.
FAULTS = ('"fault"', '"kind":"ill"', '"kind":"badtypes"', '"kind":"missing"')


class Sizes:
    """The sizes of a unit: its points, its loans, and its region variables."""

    def __init__(self, unit):
        blocks = unit[unit.index("bb0") :]
        self.points = blocks.count(";")
        self.loans = len(re.findall(r"= ?&", blocks))
        self.regions = len(set(VARIABLE.findall(unit)))


def parts_of(path):
    """The declarations of a file, and its units by the names that they are put under: the body's first, then those of its closures."""
    with open(path) as it:
        types, *puts = PUT.split(it.read())
    return types.removeprefix("@types\n"), dict(zip(puts[::2], puts[1::2]))


def requests(parts):
    """A conversation that puts the units of each file over its declarations, each under its own name, and asks for the body (`f`)."""
    for types, units in parts:
        puts = ({"call": "put", "name": name, "text": unit} for name, unit in units.items())
        for request in ({"call": "types", "text": types}, *puts, {"call": "ask", "name": "f"}):
            yield json.dumps(request) + "\n"


def conversed(program, lines):
    """The time of a conversation by the clock, and how many of its answers are faults."""
    with tempfile.TemporaryFile("w+") as asked, tempfile.TemporaryFile("w+") as said:
        asked.writelines(lines)
        asked.seek(0)
        began = time.perf_counter()
        status = subprocess.run([program, "serve"], stdin=asked, stdout=said).returncode
        took = time.perf_counter() - began
        said.seek(0)
        answers = said.readlines()
    faults = sum(any(fault in line for fault in FAULTS) for line in answers)
    return took, faults + (status != 0) + (len(answers) != len(lines))


def at(values, part):
    """The value that so great a part of them are no greater than."""
    ordered = sorted(values)
    return ordered[min(len(ordered) - 1, int(part * len(ordered)))]


def row(name, sizes):
    """A row of the table of sizes."""
    cells = []
    for what in ("points", "loans", "regions"):
        values = [getattr(it, what) for it in sizes]
        cells += [f"{at(values, 0.5):,}", f"{at(values, 0.99):,}", f"{max(values):,}"]
    return f"| {name} | {len(sizes):,} | {' | '.join(cells)} |"


def print_sizes(real):
    heads = [f"{what}: {part}" for what in ("points", "loans", "regions") for part in ("median", "99 of 100", "most")]
    print(f"\n**Sizes of bodies**\n\n| Bodies | How many | {' | '.join(heads)} |\n{'|---' * (len(heads) + 2)}|")
    print(row("real ones", real))
    for name, shape in bodies.SHAPES.items():
        print(row(f"the shape `{name}`", [Sizes(shape.text)]))


def longest(files, points):
    """The file at the median, the one at 99 of 100, and the longest, by the points of all its units, each with these points."""
    ordered = sorted(zip(points, files))
    yield from (("median", *ordered[len(ordered) // 2]), ("99 of 100", *ordered[int(0.99 * len(ordered))]), ("the longest", *ordered[-1]))


def main(program, folder, runs=9):
    files = sorted(os.path.join(folder, name) for name in os.listdir(folder) if name.endswith(".nll"))
    if not files:
        sys.exit(f"{folder} has no bodies: rust/nlldb-rust FILE --keep {folder} leaves some")
    parts = [parts_of(file) for file in files]
    by_file, lines = [[Sizes(unit) for unit in units.values()] for _, units in parts], list(requests(parts))
    sizes = [it for units in by_file for it in units]
    points = [sum(it.points for it in units) for units in by_file]
    talks = [conversed(program, lines) for _ in range(runs)]
    took = sorted(it for it, _ in talks)
    print(f"{runs} runs; load {os.getloadavg()[0]:.1f}\n\n| Real bodies | Least | Median | Part |\n|---|---|---|---|")
    each = f"{took[0] / len(sizes) * 1e6:,.0f} µs a body, {took[0] / sum(points) * 1e6:.2f} µs a point"
    what = f"one conversation: {len(lines):,} requests, {len(files):,} files, {len(sizes):,} bodies, {sum(points):,} points"
    print(f"| {what} | {millis(took[0])} | {millis(took[len(took) // 2])} | {each} |")
    with tempfile.TemporaryDirectory() as room:
        for name, count, file in longest(files, points):
            clocks = sorted(ran([program, "check", "--jobs", "1", file], f"{room}/out")[1][0] for _ in range(runs))
            print(f"| `check` of one file, {name} by points ({count:,}) | {millis(clocks[0])} | {millis(clocks[len(clocks) // 2])} | |")
    print_sizes(sizes)
    faults = max(it for _, it in talks)
    if faults:
        print(f"WRONG: {faults} answers of the conversation are faults")
    return 1 if faults else 0
