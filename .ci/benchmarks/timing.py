"""Runs of a program that is timed, and what they print. `.ci/benchmarks/bench` and `.ci/benchmarks/shapes` time by it."""
import contextlib, os, sys, time


def write_files(files):
    """Writes the parts of each file, in a process of its own: what a process has had of memory counts for those that it starts."""
    child = os.fork()
    if child == 0:
        for path, parts in files.items():
            with open(path, "w") as it:
                it.writelines(parts)
        os._exit(0)
    if os.waitpid(child, 0)[1]:
        sys.exit("the files could not be written")


def ran(words, out):
    """The status of a run, its time by the clock and of a processor in seconds, and its greatest memory in MB."""
    # (what a run before it printed is let go of outside its time)
    with contextlib.suppress(FileNotFoundError):
        os.remove(out)
    actions = [(os.POSIX_SPAWN_OPEN, 1, out, os.O_WRONLY | os.O_CREAT | os.O_TRUNC, 0o600)]
    start = time.perf_counter()
    child = os.posix_spawn(words[0], words, os.environ, file_actions=actions)
    _, status, used = os.wait4(child, 0)
    return os.waitstatus_to_exitcode(status), (time.perf_counter() - start, used.ru_utime, used.ru_maxrss / 1024)


def counted(path):
    """How many lines were printed, and how many of them are errors."""
    lines = errors = 0
    with open(path, "rb") as it:
        for printed in it:
            lines += 1
            errors += printed.startswith(b"  ") and not printed.startswith(b"    ")
    return lines, errors


def millis(seconds):
    return f"{seconds * 1e3:,.1f} ms"
