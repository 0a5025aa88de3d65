"""Conversations with `nlldb serve` in which a request may be refused for want of memory. `.ci/gate/refused-memory` holds them."""
import collections
import dataclasses
import json
import os
import select
import subprocess

# How many seconds a line of the output or the end may take, and how many a reply is waited for before the input is closed.
LIMIT = 60
PATIENCE = (0.05, 1, LIMIT)
AGAIN, LOST, LATE = "a request refused, and sent again", "an answer lost", "which was told once the input was closed"
# What tells that memory was refused for a request, and that it was for an answer.
REFUSED, UNTOLD = "no memory", "no memory for the answer"


@dataclasses.dataclass(frozen=True)
class Left:
    """What a run left: its status, and what it wrote on both outputs; of a conversation also how it went, if a request was refused or it stopped."""

    status: int | None
    out: bytes
    err: bytes
    went: str = dataclasses.field(default="", compare=False)


def written(value):
    return json.dumps(value, sort_keys=True, separators=(",", ":"), ensure_ascii=False).encode()


def member(line, key):
    """A member of an object on a line, or nothing where that is none."""
    try:
        return json.loads(line).get(key)
    except (ValueError, AttributeError):
        return None


def told_by(reply):
    """What the reply to a glance tells: the outcome that is published, or the fault of the name."""
    return member(reply, "outcome"), member(reply, "fault")


@dataclasses.dataclass(frozen=True)
class Request:
    """A line to be sent; the session that it names, if any; the name that it calls, if it is a call of one; and whether it is a glance before such a
    call, or a look behind one that was refused."""

    line: bytes
    session: int | None = None
    name: str | None = None
    kind: str = ""

    @classmethod
    def of(cls, line, sessions):
        session = member(line, "session") or 0
        if not isinstance(member(line, "call"), str) or session not in range(sessions):
            return cls(line)
        return cls(line, session, member(line, "name") if member(line, "call") in ("put", "remove", "ask") else None)

    def reads(self, kind):
        """A glance at the same name by the same session."""
        return Request(written({"id": kind, "session": self.session, "call": "glance", "name": self.name}), self.session, None, kind)

    def refused(self):
        """The replies that tell that memory for it was refused: for its call, or for the line itself."""
        return [written({"fault": REFUSED, "id": it, "session": self.session or 0}) for it in (member(self.line, "id"), None)]

    def untold(self):
        """The reply that tells that memory for its answer was refused."""
        return written({"fault": UNTOLD, "id": None, "session": self.session or 0})


def lanes_of(file, sessions, are_beside):
    """The requests of a file in lanes, of each of which the next one is sent once the one before is answered: a lane for each session, or one of all, with
    a glance before each call of a name."""
    with open(file, "rb") as it:
        requests = [Request.of(line, sessions) for line in it.read().splitlines()]
    if are_beside:
        return [[dataclasses.replace(it, name=None) for it in requests if it.session == session] for session in range(sessions)]
    return [[sent for it in requests for sent in ([it.reads("glance")] if it.name else []) + [it]]]


class Lane:
    """Requests that are sent one behind the other's reply, the replies that came but for those that refused, how many requests were refused and how many
    answers lost, and what was wrong."""

    def __init__(self, requests):
        self.waiting, self.replies, self.wrong, self.refused, self.lost, self.published = collections.deque(requests), [], [], 0, 0, None

    def next(self):
        """The request that is sent next, or whose reply is waited for."""
        return self.waiting[0] if self.waiting else None

    def take(self, reply):
        """Takes the reply to a request. One that was refused is sent once more, with a look before it at what it may have changed."""
        request = self.waiting.popleft()
        self.lost += reply == request.untold()
        if reply in request.refused():
            self.refused += 1
            self.waiting.extendleft([request] + ([request.reads("look")] if request.name else []))
        elif request.kind == "look":
            if told_by(reply) != self.published:
                self.wrong.append(b"a refused call left another answer: " + reply)
        else:
            self.published = told_by(reply) if request.kind == "glance" else None
            self.replies.append(reply)


class Talk:
    """A running conversation of lanes. Where there is one alone, each reply is its."""

    def __init__(self, words, lanes, how):
        pipe = subprocess.PIPE
        self.lanes, self.is_open, self.is_late, self.has_ended, self.behind, self.stray = [Lane(it) for it in lanes], True, False, False, b"", []
        self.running = subprocess.Popen(words, stdin=pipe, stdout=pipe, stderr=pipe, bufsize=0, **how)

    def is_answered(self):
        return not any(lane.next() for lane in self.lanes)

    def send(self, lane):
        """Sends the next request of a lane, if one is left."""
        try:
            if self.is_open and lane.next():
                self.running.stdin.write(lane.next().line + b"\n")
        except BrokenPipeError:
            self.close()

    def close(self):
        self.is_open = False
        self.running.stdin.close()

    def take(self, line):
        """Takes a reply, and sends the request behind the one that it answers."""
        session = member(line, "session") if len(self.lanes) > 1 else 0
        lane = self.lanes[session] if session in range(len(self.lanes)) else None
        if lane and lane.next():
            lane.take(line)
            self.send(lane)
        else:
            self.stray.append(line)

    def lines(self, patience):
        """The lines that come, until none does for so many seconds, or the output ends, which is noted."""
        while select.select([self.running.stdout], [], [], patience)[0]:
            more = os.read(self.running.stdout.fileno(), 1 << 16)
            if not more:
                self.has_ended = True
                return
            *lines, self.behind = (self.behind + more).split(b"\n")
            yield from lines

    def follow(self, patience):
        """Sends all requests, takes the replies, and closes the input: once all are answered, or none comes for so many seconds."""
        for lane in self.lanes:
            self.send(lane)
        for line in self.lines(patience):
            self.take(line)
            if self.is_answered():
                break
        self.is_late = not self.is_answered() and not self.has_ended
        if self.is_open:
            self.close()
        for line in self.lines(LIMIT):
            self.take(line)

    def left(self):
        """What it left: the replies of the lanes, one lane behind the other, and below them what was wrong."""
        try:
            status = self.running.wait(LIMIT)
        except subprocess.TimeoutExpired:
            return Left(None, b"", f"no end after {LIMIT} s".encode())
        lines = [line for lane in self.lanes for line in (*lane.replies, *lane.wrong)]
        lines += [b"answers nothing: " + line for line in self.stray] + [it for it in [self.behind] if it]
        return Left(status, b"".join(line + b"\n" for line in lines), self.running.stderr.read(), self.went())

    def went(self):
        """How it went, where a request was refused or an answer lost, or it went on until the input was closed."""
        refused, lost = (sum(getattr(lane, it) for lane in self.lanes) for it in ("refused", "lost"))
        known = {(0, 0): "", (1, 0): AGAIN, (0, 1): LOST}
        return LATE if self.is_late else known.get((refused, lost), f"{refused} requests refused, {lost} answers lost")

    def kill(self):
        self.running.kill()
        self.running.wait()
        for end in (self.running.stdin, self.running.stdout, self.running.stderr):
            end.close()


def hold(words, lanes, how):
    """What a conversation left. One that a slow reply ended early is held again with more patience."""
    for patience in PATIENCE:
        talk = Talk(words, lanes, how)
        try:
            talk.follow(patience)
            left = talk.left()
        finally:
            talk.kill()
        if not talk.is_late:
            return left
    return left


def are_told(replies, whole):
    """Whether replies are those of the whole conversation, but for answers that were lost."""
    return len(replies) == len(whole) and all(mine == its or member(mine, "fault") == UNTOLD for mine, its in zip(replies, whole))


def is_beginning(out, whole):
    """Whether replies are a beginning of each session's of the whole conversation, but for answers that were lost."""
    mine, all_of = collections.defaultdict(list), collections.defaultdict(list)
    for replies, found in ((out, mine), (whole, all_of)):
        for line in replies.splitlines():
            found[member(line, "session")].append(line)
    return all(are_told(lines, all_of[session][: len(lines)]) for session, lines in mine.items())


def is_well(left, whole):
    """Whether a conversation ended as it has to."""
    if left.status == 0:
        return left == whole and left.went in ("", AGAIN)
    stopped = left.status == 3 and left.err in (b"no memory\n", b"cannot start a thread\n")
    if left.went == LOST and len(left.out.splitlines()) != len(whole.out.splitlines()):
        return False
    return stopped and left.went in ("", AGAIN, LOST) and is_beginning(left.out, whole.out)


def told_of(left, whole):
    """What a conversation left that did not end as it has to, without the replies that are right."""
    mine, all_of = left.out.splitlines(), whole.out.splitlines()
    others = [line for line in mine if line not in all_of]
    return f"status {left.status}, {left.err}, {left.went}, {len(mine)} of {len(all_of)} replies, and these others: {others}"
