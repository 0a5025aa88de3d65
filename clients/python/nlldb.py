"""A client for conversations with `nlldb serve`: one file for Python 3.9 or newer, which needs the standard library alone.

    import nlldb

    with nlldb.Conversation("nlldb") as talk:
        print(talk.put("one", "fn () -> int { bb0 { _0 = 1; return; } }")["reply"])
        futures = [talk.send.ask("one") for _ in range(1000)]
        print(futures[-1].result()["outcome"])
        try:
            talk.put("one", "fn () -> int { bb0 { _0 = 1 return; } }")
        except nlldb.Fault as fault:
            print(fault)

docs/user/conversation.md says what each call does, and what its answer has. An answer is the object of JSON that came, so that members of later versions
are in it too, and `call` makes calls that have no method here.

A thread reads all answers as they come, whatever the caller waits for. So `serve` never waits for this client, and no order of calls can make both wait for
each other. Methods may be called from several threads.
"""
from __future__ import annotations

import concurrent.futures
import contextlib
import itertools
import json
import os
import subprocess
import tempfile
import threading
from concurrent.futures import Future
from typing import Any, BinaryIO, Callable, Dict, Iterable, List, Literal, NamedTuple, Optional, Sequence, TypedDict, Union

# A line of more bytes is answered without its id and its session.
MOST_LINE = 4_194_304
# How many seconds a program may take to end after its output has ended. Then it is killed.
GRACE = 5
# How deep members may nest, and which whole numbers they may have. `serve` reads what keeps to that, and answers a line that it cannot read without its id.
MOST_DEPTH, LEAST, MOST = 100, -(2**63), 2**64 - 1


class Conflict(TypedDict):
    """An access at a point, counted from 0, conflicts with the loan that another point makes. The chain explains why the loan has not ended."""

    kind: Literal["conflict"]
    at: str
    access: int
    loan: str
    chain: List[str]


class Lifetime(TypedDict):
    """The universal region `longer` must outlive `shorter`, and the body does not know that it does. The chain explains why it must."""

    kind: Literal["lifetime"]
    longer: int
    shorter: int
    chain: List[str]


class Body(TypedDict):
    """A body and its errors."""

    name: str
    errors: List[Union[Conflict, Lifetime]]


class Report(TypedDict):
    """The errors of a body and of its closures, its own first."""

    kind: Literal["report"]
    bodies: List[Body]


class Missing(TypedDict):
    """This closure is not stored, and a body names it."""

    kind: Literal["missing"]
    name: str


class Ill(TypedDict):
    """This body breaks a typing rule at this point, or at its `header`."""

    kind: Literal["ill"]
    name: str
    at: str


class BadTypes(TypedDict):
    """This declaration, counted from 0, is bad."""

    kind: Literal["badtypes"]
    index: int


class NoBody(TypedDict):
    """The name holds nothing."""

    kind: Literal["nobody"]


Outcome = Union[Report, Missing, Ill, BadTypes, NoBody]


class Root(TypedDict):
    """A function and its outcome."""

    name: str
    outcome: Outcome


class Written(TypedDict):
    """The answer to `types`, `put` and `remove`. `number` counts the earlier calls of the session."""

    id: int
    session: int
    number: int
    reply: Literal["stored", "added", "replaced", "full", "wrongkind", "removed", "absent"]


class Asked(TypedDict):
    """The answer to `ask`."""

    id: int
    session: int
    number: int
    outcome: Outcome


class AskedAll(TypedDict):
    """The answer to `askall`, in the order of names."""

    id: int
    session: int
    number: int
    roots: List[Root]


class Glanced(TypedDict):
    """The answer to `glance`. The outcome is None if none is published."""

    id: int
    session: int
    outcome: Optional[Outcome]


class Place(NamedTuple):
    """A place in a text: its byte from 0, its line from 1, and its column from 1, in bytes."""

    at: int
    line: int
    column: int


class End(NamedTuple):
    """How a conversation ended: the status of the program (None over streams, negative if a signal ended it), and its standard error."""

    status: Optional[int]
    stderr: str


class Fault(Exception):
    """A request was answered with a fault: its `words`, its `place` in the text if the answer has one, and the whole `answer`."""

    def __init__(self, answer: Dict[str, Any], call: str) -> None:
        self.answer, self.call, self.words = answer, call, str(answer["fault"])
        self.place = Place(answer["at"], answer["line"], answer["column"]) if {"at", "line", "column"} <= answer.keys() else None
        super().__init__(f"{call}: {self.words}" + (f" at line {self.place.line}, column {self.place.column}" if self.place else ""))


class Ended(Exception):
    """The conversation ended before the request was answered, which may have been made; or, at the end of a `with` block, with a status that is not 0.

    `end` says how it ended, None if that is not known.
    """

    def __init__(self, end: Optional[End] = None) -> None:
        self.end = end
        how = f", with status {end.status}: {end.stderr.strip() or 'nothing on standard error'}" if end else ""
        super().__init__(f"the conversation has ended{how}")


class Unexpected(Exception):
    """The program wrote a `line` that answers no request. Nothing that comes later can be relied on, so this ends the conversation."""

    def __init__(self, line: bytes) -> None:
        self.line = line
        super().__init__(f"a line that answers no request: {line[:200]!r}")


class _Request(NamedTuple):
    """A request that waits for its answer."""

    call: str
    session: int
    is_long: bool
    future: Future[Any]


# The member that the answer to a call has, unless it is a fault.
_MEMBERS = {"types": "reply", "put": "reply", "remove": "reply", "ask": "outcome", "askall": "roots", "glance": "outcome"}


def _check(value: Any, depth: int = 0) -> None:
    """Raises ValueError for a value that `serve` would not read, and so would answer without an id."""
    if depth > MOST_DEPTH:
        raise ValueError(f"a member nests over {MOST_DEPTH} deep")
    if isinstance(value, int) and not LEAST <= value <= MOST:
        raise ValueError(f"{value} has no 64 bits")
    if isinstance(value, (dict, list, tuple)):
        for it in value.values() if isinstance(value, dict) else value:
            _check(it, depth + 1)


class Calls:
    """Sends calls without waiting: each method returns the future of the answer. The answers of one session come in the order of its requests.

    A method returns once the line is written, so it waits while `serve` takes no more. `result` of the future raises `Fault`, `Ended` or `Unexpected`.
    With asyncio, await `asyncio.wrap_future` of the future. A callback of a future may neither call nor wait: it keeps the next answer waiting.
    """

    def __init__(self, talk: Conversation) -> None:
        self._send = talk._send

    def types(self, text: str, *, session: int = 0) -> Future[Written]:
        """Stores declarations in place of all before."""
        return self._send("types", session, {"text": text})

    def put(self, name: str, text: str, *, session: int = 0) -> Future[Written]:
        """Stores a unit in place of the body of this name."""
        return self._send("put", session, {"name": name, "text": text})

    def remove(self, name: str, *, session: int = 0) -> Future[Written]:
        """Removes the body of this name."""
        return self._send("remove", session, {"name": name})

    def ask(self, name: str, *, session: int = 0) -> Future[Asked]:
        """Finds the outcome of this name."""
        return self._send("ask", session, {"name": name})

    def askall(self, *, session: int = 0) -> Future[AskedAll]:
        """Finds the outcomes of all functions that are stored."""
        return self._send("askall", session, {})

    def glance(self, name: str, *, session: int = 0) -> Future[Glanced]:
        """Reads the published outcome of this name, without waiting for another session."""
        return self._send("glance", session, {"name": name})

    def call(self, call: str, *, session: int = 0, **members: Any) -> Future[Dict[str, Any]]:
        """Makes any call with these members, such as one of a later version."""
        if "id" in members:
            raise TypeError("the client chooses the id")
        return self._send(call, session, members)


class Conversation:
    """A conversation with a program `nlldb serve`, or over given streams (`over`).

    Each method waits for the answer to its call and returns it. It raises `Fault` if the answer is a fault, `Ended` or `Unexpected` if none can come,
    TimeoutError if none comes within `timeout` seconds (the call may still be made), and TypeError or ValueError, before anything is sent, for a member or
    a session that is no JSON as `serve` reads it. `send` has the same methods without waiting.

    At the end of a `with` block the conversation is closed; `Ended` is raised if its status is not 0. After an exception in the block it is killed.
    `process` is the program, None over streams.
    """

    def __init__(
        self,
        program: Union[str, os.PathLike[str], Sequence[str]] = "nlldb",
        *,
        sessions: Optional[int] = None,
        solver: Optional[str] = None,
        capacity: Optional[int] = None,
        options: Iterable[str] = (),
        timeout: Optional[float] = None,
    ) -> None:
        """Starts the program, or the words of a command, with `serve` and these options. Raises OSError if it cannot be started."""
        words = [os.fspath(program)] if isinstance(program, (str, os.PathLike)) else list(program)
        named = {"--sessions": sessions, "--solver": solver, "--capacity": capacity}
        chosen = [word for option, value in named.items() if value is not None for word in (option, str(value))]
        # (standard error is a file, so that the program never waits for someone to read it)
        self._stderr: Optional[BinaryIO] = tempfile.TemporaryFile()
        pipe = subprocess.PIPE
        try:
            self.process: Optional[subprocess.Popen[bytes]] = subprocess.Popen(
                [*words, "serve", *chosen, *options], stdin=pipe, stdout=pipe, stderr=self._stderr, bufsize=1 << 16
            )
        except OSError:
            self._stderr.close()
            raise
        assert self.process.stdout and self.process.stdin
        self._begin(self.process.stdout, self.process.stdin, timeout)

    @classmethod
    def over(cls, reader: BinaryIO, writer: BinaryIO, *, timeout: Optional[float] = None) -> Conversation:
        """Converses over streams of bytes: answers are read from `reader` up to its end, and `close` closes `writer`."""
        talk = cls.__new__(cls)
        talk.process = talk._stderr = None
        talk._begin(reader, writer, timeout)
        return talk

    def _begin(self, reader: BinaryIO, writer: BinaryIO, timeout: Optional[float]) -> None:
        self.timeout = timeout
        self._reader, self._writer = reader, writer
        # One thread writes at a time. The other lock is for what is below, and nobody waits while it is taken.
        self._writing, self._lock = threading.Lock(), threading.Lock()
        self._ids = itertools.count()
        # The requests that wait for their answers by their ids, in the order in which they were sent.
        self._sent: Dict[int, _Request] = {}
        # Makes what a request raises that can no longer be answered: one for each, since an exception keeps where it was raised.
        self._failure: Optional[Callable[[], Exception]] = None
        self._is_closed = False
        self._end: Optional[End] = None
        self.send = Calls(self)
        self._thread = threading.Thread(target=self._read, name="nlldb answers", daemon=True)
        self._thread.start()

    def types(self, text: str, *, session: int = 0) -> Written:
        """Stores declarations in place of all before."""
        return self._wait(self.send.types(text, session=session))

    def put(self, name: str, text: str, *, session: int = 0) -> Written:
        """Stores a unit in place of the body of this name."""
        return self._wait(self.send.put(name, text, session=session))

    def remove(self, name: str, *, session: int = 0) -> Written:
        """Removes the body of this name."""
        return self._wait(self.send.remove(name, session=session))

    def ask(self, name: str, *, session: int = 0) -> Asked:
        """Finds the outcome of this name."""
        return self._wait(self.send.ask(name, session=session))

    def askall(self, *, session: int = 0) -> AskedAll:
        """Finds the outcomes of all functions that are stored."""
        return self._wait(self.send.askall(session=session))

    def glance(self, name: str, *, session: int = 0) -> Glanced:
        """Reads the published outcome of this name, without waiting for another session."""
        return self._wait(self.send.glance(name, session=session))

    def call(self, call: str, *, session: int = 0, **members: Any) -> Dict[str, Any]:
        """Makes any call with these members, such as one of a later version."""
        return self._wait(self.send.call(call, session=session, **members))

    def close(self, timeout: Optional[float] = None) -> End:
        """Ends the input, waits until what is left is answered and the program has ended, and returns how. It may be called again.

        Raises TimeoutError if that takes longer than so many seconds: `kill` ends it.
        """
        self._refuse_reader()
        if not self._writing.acquire(timeout=-1 if timeout is None else timeout):
            raise TimeoutError("a request is still being written")
        try:
            self._is_closed = True
            with contextlib.suppress(OSError, ValueError):
                self._writer.close()
        finally:
            self._writing.release()
        self._thread.join(timeout)
        if self._end is None:
            raise TimeoutError("the conversation has not ended")
        return self._end

    def kill(self) -> None:
        """Kills the program, if one was started. Requests without an answer raise `Ended`."""
        if self.process:
            self.process.kill()

    def __enter__(self) -> Conversation:
        return self

    def __exit__(self, kind: Any, *_: Any) -> None:
        if kind is not None:
            self.kill()
            with contextlib.suppress(TimeoutError):
                self.close(GRACE)
        elif not self._is_closed and (end := self.close()).status:
            raise Ended(end)

    def _refuse_reader(self) -> None:
        """Raises RuntimeError in the thread that reads answers: if that waited, no answer would come."""
        if threading.current_thread() is self._thread:
            raise RuntimeError("a callback of a future may not call: it keeps the next answer waiting")

    def _wait(self, future: Future[Any]) -> Any:
        try:
            return future.result(self.timeout)
        except concurrent.futures.TimeoutError:
            # (which is another exception before Python 3.11)
            raise TimeoutError(f"no answer in {self.timeout} seconds") from None

    def _send(self, call: str, session: int, members: Dict[str, Any]) -> Future[Any]:
        """Writes a request, and returns the future of its answer."""
        self._refuse_reader()
        if type(session) is not int:
            raise TypeError(f"a session is a whole number, and not {session!r}")
        if not 0 <= session <= MOST:
            raise ValueError(f"a session is numbered from 0, and not {session}")
        key, future = next(self._ids), Future[Any]()
        future.set_running_or_notify_cancel()
        _check(members)
        request = {**members, "id": key, "call": call, "session": session}
        line = json.dumps(request, ensure_ascii=False, allow_nan=False, separators=(",", ":")).encode() + b"\n"
        with self._writing:
            self._expect(key, _Request(call, session, len(line) - 1 > MOST_LINE, future))
            try:
                self._writer.write(line)
                self._writer.flush()
            except (OSError, ValueError):
                self._give_up(key)
        return future

    def _expect(self, key: int, request: _Request) -> None:
        """Notes a request that is written next, or raises why no more are taken."""
        with self._lock:
            if self._failure:
                raise self._failure()
            if self._is_closed:
                raise Ended()
            self._sent[key] = request

    def _give_up(self, key: int) -> None:
        """Has a request that could not be written fail, and all later ones. Those before it may still be answered."""
        # (a program whose input is closed has ended, or is about to: how it ended is known once its output has ended, too)
        self._thread.join(GRACE)
        with self._lock:
            self._failure = failure = self._failure or Ended
            request = self._sent.pop(key, None)
        if request:
            request.future.set_exception(failure())

    def _read(self) -> None:
        """Takes all lines up to the end of the output."""
        try:
            for line in self._reader:
                # (the last line may be cut off)
                if line.endswith(b"\n"):
                    self._take(line)
        except (OSError, ValueError):
            pass
        finally:
            end = self._end = self._end_of_program()
            self._fail(lambda: Ended(end))

    def _take(self, line: bytes) -> None:
        """Hands a line to the request that it answers."""
        try:
            answer = json.loads(line)
        except (ValueError, RecursionError):
            answer = None
        request = self._request_of(answer) if isinstance(answer, dict) else None
        if request is None:
            self._fail(lambda: Unexpected(line))
        elif "fault" in answer:
            request.future.set_exception(Fault(answer, request.call))
        else:
            request.future.set_result(answer)

    def _request_of(self, answer: Dict[str, Any]) -> Optional[_Request]:
        """Takes the request that an answer answers, if there is one, from those that wait."""
        session, is_fault = answer.get("session"), "fault" in answer
        with self._lock:
            key = answer.get("id")
            if key is None and is_fault:
                # (memory was refused for the first one of its session, or a line was too long to be read)
                waiting = (it for it, request in self._sent.items() if (request.is_long if session is None else request.session == session))
                key = next(waiting, None)
            request = self._sent.get(key) if type(key) is int else None
            is_its = request is not None and (session == request.session or (session is None and is_fault))
            if not is_its or not (is_fault or _MEMBERS.get(request.call, "id") in answer):
                return None
            del self._sent[key]
            return request

    def _fail(self, failure: Callable[[], Exception]) -> None:
        """Has all requests that wait fail, and all later ones, unless these have a reason already."""
        with self._lock:
            self._failure = self._failure or failure
            left = list(self._sent.values())
            self._sent.clear()
        for request in left:
            request.future.set_exception(failure())

    def _end_of_program(self) -> End:
        """Waits for the end of the program, whose output has ended, and returns how it ended."""
        if not self.process or not self._stderr:
            return End(None, "")
        try:
            self.process.wait(GRACE)
        except subprocess.TimeoutExpired:
            self.process.kill()
        status = self.process.wait()
        self._reader.close()
        self._stderr.seek(0)
        with self._stderr:
            return End(status, self._stderr.read().decode(errors="replace"))
