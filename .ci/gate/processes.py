"""What runs below a process, and how much of a processor that has taken, by crates and kinds. It is looked at once a second: what ends within less is missed."""
import collections
import os
import re
import threading

ROOT = os.path.dirname(os.path.dirname(os.path.dirname(os.path.realpath(__file__))))
TICKS = os.sysconf("SC_CLK_TCK")
KINDS = ("libraries", "tests", "programs", "wrong bodies", "other")


def read(path):
    with open(path, "rb") as it:
        return it.read()


def stat_of(pid):
    """The parent of a process, when it began, and the seconds of a processor that it took."""
    fields = read(f"/proc/{pid}/stat").rpartition(b")")[2].split()
    return int(fields[1]), int(fields[19]), (int(fields[11]) + int(fields[12])) / TICKS


def crate_and_kind(pid):
    """The crate that a process is about, and what it does with it."""
    words = read(f"/proc/{pid}/cmdline").decode(errors="replace").split("\0")
    folder = os.readlink(f"/proc/{pid}/cwd")
    name = words[words.index("--crate-name") + 1] if "--crate-name" in words else None
    of = re.search(r"/crates/(\w+)", " ".join([folder, *words]))
    name = name or (of and of[1])
    if name is None:
        return "", "other"
    if "wrong-body-" in folder or "/rt-edit" in folder:
        return name, "wrong bodies"
    if "--test" in words or f"{name}_tests" in " ".join(words):
        return name, "tests"
    return name, "libraries" if os.path.exists(f"{ROOT}/crates/{name}/src/lib.rt") else "programs"


def sample(top, seen):
    """Notes how much each process below a process has taken so far, and its greatest memory."""
    stats = {}
    for entry in os.listdir("/proc"):
        if entry.isdigit():
            try:
                stats[int(entry)] = stat_of(entry)
            except OSError:
                pass
    below = {top}
    for pid in sorted(stats, key=lambda it: stats[it][1]):
        if stats[pid][0] in below:
            below.add(pid)
    for pid in below - {top}:
        try:
            key = (pid, stats[pid][1])
            if key not in seen:
                seen[key] = [*crate_and_kind(pid), 0, 0]
            memory = re.search(rb"VmHWM:\s+(\d+)", read(f"/proc/{pid}/status"))
            seen[key][2:] = stats[pid][2], int(memory[1]) if memory else 0
        except (OSError, KeyError, ValueError):
            pass


class Watch:
    """Looks at what runs below a process until it is told to end."""

    def __init__(self, top):
        self.seen, self.end = {}, threading.Event()
        self.thread = threading.Thread(target=self.look, args=(top,), daemon=True)
        self.thread.start()

    def look(self, top):
        while not self.end.wait(1):
            sample(top, self.seen)

    def ended(self):
        """Ends, and gives what was seen: of each process its crate, its kind, its seconds of a processor and its kilobytes."""
        self.end.set()
        self.thread.join()
        return list(self.seen.values())


def by_crate(seen):
    """The seconds of a processor by crate, and then by kind."""
    found = collections.defaultdict(collections.Counter)
    for crate, kind, seconds, _ in seen:
        found[crate][kind] += seconds
    return found
