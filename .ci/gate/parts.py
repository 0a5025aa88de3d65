"""Parts of the gate: commands whose last line is 'N passed, M failed'."""
import os
import re
import subprocess

COUNTS = re.compile(r"(\d+) passed, (\d+) failed")


def said_by(words, hear):
    """Runs a part, prints what it prints, hands each line on, and gives its last line and its status."""
    last = ""
    with subprocess.Popen(words, stdin=subprocess.DEVNULL, stdout=subprocess.PIPE, text=True, errors="replace") as ran:
        for line in ran.stdout:
            last = line.strip() or last
            print(line, end="", flush=True)
            hear(line)
    return last, ran.returncode


def counts_in(words, last, status):
    """How much of a part that ended passed, and how much failed."""
    counts = COUNTS.fullmatch(last)
    if not counts:
        print(f"{words[0]} ended with status {status}, and did not say how much passed")
        return 0, 1
    passed, failed = int(counts[1]), int(counts[2])
    if status and not failed:
        print(f"{words[0]} ended with status {status}")
        return passed, 1
    return passed, failed


def counts_of(words, programs, hear=lambda line: None):
    """Runs a part that tries these programs; how much of it passed, and how much failed."""
    print(f"== {' '.join(words)}", flush=True)
    if absent := [it for it in programs if not os.path.isfile(it)]:
        print(f"not run: {' and '.join(absent)} was not built")
        return 0, 1
    return counts_in(words, *said_by(words, hear))


def tell(ended):
    """Prints what came of each part, of its name, how much passed, how much failed, and its seconds."""
    for name, passed, failed, seconds in ended:
        print(f"{name}: {passed} passed, {failed} failed, {seconds:.0f} s")


def tell_sum(ended):
    """Prints the sum over all parts as the last line, and gives the status."""
    failed = sum(it[2] for it in ended)
    print(f"{sum(it[1] for it in ended)} passed, {failed} failed")
    return 1 if failed else 0
