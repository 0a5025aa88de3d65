"""Which wrong bodies are tried next, by a clock that ends. `.ci/gate/wrong-bodies` asks; it tells what it began, and what that took."""
import dataclasses

# In how many turns all wrong bodies are tried.
TURNS = 16
# What a check takes before it tries an edit, in edits of a crate that stands on nothing: a seed, which is a check of the crate as it is, and a check of
# some functions alone. Each library that has to be read first makes an edit a seventh longer, and a check of some functions by these edits.
SEED, ALONE, LIBRARY = 30, 10, 0.7
# Before anything has been measured, an edit of the turn begins in this part of the time alone.
UNMEASURED = 1 / 4


def weight_of(edits, below, is_whole):
    """What so many edits of a crate take that stands on so many libraries, in edits of a crate that stands on nothing."""
    if not edits:
        return 0.0
    return (SEED if is_whole else ALONE + LIBRARY * below) + edits * (7 + below) / 7


def turns_of(weights):
    """The crates in turns that take about as long as each other, by what each takes: the longest first, each to the turn that has least to do."""
    turns = [[] for _ in range(TURNS)]
    for name in sorted(weights, key=lambda it: (-weights[it], it)):
        min(turns, key=lambda it: sum(weights[other] for other in it)).append(name)
    return turns


def order_of(weights, count, left):
    """The crates of a turn, by the number of commits: first those that the last turn left, then its own."""
    return list(dict.fromkeys([*(it for it in left if it in weights), *turns_of(weights)[count % TURNS]]))


@dataclasses.dataclass(eq=False)
class Task:
    """Edits of a crate that are tried together: its listed ones, which are tried each time, or all of them in its turn. What they take, and what the
    listed ones take alone; whether there are any; and the libraries that have to be proved before."""

    name: str
    weight: float = 0.0
    is_whole: bool = False
    listed: float = 0.0
    has_listed: bool = False
    needs: frozenset = frozenset()


class Schedule:
    """Which task begins next. Those that are tried each time come first, and always begin. One of the turn begins only if it ends in time, by what the
    run has measured so far: how many seconds of a processor its tasks took, and how many by the clock one of these takes now. Once nothing more will be
    proved, one that does not end in time is left, and of its crate the listed edits are tried."""

    def __init__(self, tasks, limit, lanes):
        self.waiting, self.running, self.left = list(tasks), {}, []
        self.limit, self.lanes, self.proved, self.is_ended = limit, lanes, set(), False
        self.weight = self.processor = 0.0
        # (since the proofs ended, or before that since the beginning)
        self.clock = self.busy = 0.0

    def tell(self, name):
        """Takes note that a crate is proved."""
        self.proved.add(name)

    def tell_end(self, lanes):
        """Takes note that nothing more will be proved, and that there are so many lanes from now on. Beside the proofs each task took longer."""
        self.is_ended, self.lanes, self.clock, self.busy = True, lanes, 0.0, 0.0

    def is_ready(self, task):
        """Whether all is proved that a task needs, or nothing more will be."""
        return self.is_ended or task.needs <= self.proved

    def seconds(self, weight):
        """How many seconds by the clock edits of this weight take now. None if nothing was measured."""
        if not self.weight:
            return None
        slowness = max(1.0, self.clock / self.busy) if self.busy else 1.0
        return weight * self.processor / self.weight * slowness

    def is_in_time(self, task, now):
        """Whether a task of the turn ends in time if it begins now, with room for all listed edits that have not begun."""
        if not task.weight:
            return True
        listed = sum(it.listed if it.is_whole else it.weight for it in self.waiting if it is not task)
        takes, others = self.seconds(task.weight), self.seconds(listed / self.lanes)
        return now < self.limit * UNMEASURED if takes is None else now + takes + others <= self.limit

    def next(self, now):
        """Takes the task that begins now. None if none does."""
        if len(self.running) >= self.lanes:
            return None
        for task in sorted(filter(self.is_ready, self.waiting), key=lambda it: it.is_whole):
            if task.is_whole and not self.is_in_time(task, now):
                if not self.is_ended:
                    continue
                self.left.append(task.name)
                self.waiting.remove(task)
                if not task.has_listed:
                    continue
                task = Task(task.name, task.listed)
            else:
                self.waiting.remove(task)
            self.running[task] = now
            return task
        return None

    def ended(self, task, now, processor):
        """Takes note that a task has ended, and how many seconds of a processor it took."""
        took = now - self.running.pop(task)
        if task.weight and processor:
            self.weight += task.weight
            self.processor += processor
            self.clock += took
            self.busy += processor

    def is_over(self):
        """Whether everything has begun or is left, and nothing more will be proved."""
        return self.is_ended and not self.waiting
