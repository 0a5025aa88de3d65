"""What stops a body, or the whole work, by name. Nothing here is proved.

A body that cannot be written is refused with a short reason (`coroutine`, `limit: locals > 256`), and the others go on. What stops all the
work is a `Stopped`, with the line for standard error and the exit status.
"""


class Refused(Exception):
    """A body cannot be written. Its text is the reason, in a few words."""


class Stopped(Exception):
    """The work cannot go on. Its text is one line for standard error."""

    def __init__(self, line: str, status: int = 3) -> None:
        super().__init__(line)
        self.status = status
