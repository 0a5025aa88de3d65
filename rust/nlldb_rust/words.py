"""The words of a command line. Nothing here is proved."""
from __future__ import annotations

import argparse
import sys
from pathlib import Path
from typing import Callable, NoReturn, Sequence

from .body import Options
from .checking import Request
from .program import find_program
from .refused import Stopped


class Words(argparse.ArgumentParser):
    """A parser whose faults are wrong use."""

    def error(self, message: str) -> NoReturn:
        raise Stopped(f"wrong use: {message} (--help tells more)")


def parser_of(name: str, about: str, end: str) -> Words:
    """Returns a parser with the options that both commands have."""
    words = Words(prog=name, description=about, epilog=end, formatter_class=argparse.RawDescriptionHelpFormatter, allow_abbrev=False)
    words.add_argument("--edition", help="the edition of Rust (2021, or what a comment `//@ edition: ..` of the file says)")
    words.add_argument("--nlldb", metavar="PATH", help="the program to ask ($NLLDB, the one that this repository built, or the one on the path)")
    words.add_argument("--rustc", metavar="PATH", default="rustc", help="the rustc to run (rustc)")
    words.add_argument("--jobs", metavar="N", type=int, default=0, help="how many processes write (as many as there are processors)")
    words.add_argument("--unwind", action="store_true", help="write the blocks of unwinding too")
    words.add_argument("--json", action="store_true", help="print an object in place of the lines")
    words.add_argument("--keep-dumps", metavar="DIR", type=Path, help="leave rustc's dumps in DIR, which is then a source like FILE")
    return words


def parted(words: Sequence[str]) -> tuple[list[str], list[str]]:
    """Returns the words before `--` and those behind it, which are for rustc or cargo."""
    words = list(words)
    at = words.index("--") if "--" in words else len(words)
    return words[:at], words[at + 1 :]


def request_of(given: argparse.Namespace, arguments: Sequence[str]) -> Request:
    """Returns what the words ask for. Stops where there is no nlldb, or N is no number of processes."""
    if not 0 <= given.jobs <= 255:
        raise Stopped("wrong use: --jobs takes 1 to 255")
    options = Options(unwind=given.unwind)
    return Request(find_program(given.nlldb), given.rustc, given.edition, arguments, options, given.jobs, given.keep_dumps)


def ended(command: Callable[[Sequence[str]], int]) -> NoReturn:
    """Runs a command and ends with its status. What stops it is one line on standard error."""
    try:
        status = command(sys.argv[1:])
        sys.stdout.flush()
    except Stopped as fault:
        print(fault, file=sys.stderr)
        status = fault.status
    except BrokenPipeError:
        sys.stderr.close()
        status = 3
    except OSError as fault:
        print(f"cannot write: {fault.strerror}", file=sys.stderr)
        status = 3
    except KeyboardInterrupt:
        status = 130
    sys.exit(status)
