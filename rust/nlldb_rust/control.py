"""Writes terminators. Nothing here is proved."""
from __future__ import annotations

from .calls import Calls
from .invokes import Invokes
from .mir import Access, Assert, Call, Drop, FalseEdge, Goto, Point, Return, Stop, Switch, Terminator, Unread
from .refused import Refused
from .types import INT
from .writing import STOP, Label, Writing


def block(number: int) -> Label:
    """The label of a block of rustc's."""
    return Label("block", number)


class Control:
    """Writes the terminators of a body."""

    def __init__(self, writing: Writing, calls: Calls, invokes: Invokes) -> None:
        self.writing, self.calls, self.invokes = writing, calls, invokes

    def terminator(self, it: Terminator, point: Point) -> None:
        """Writes a terminator. Refuses what could not be read."""
        kind, end = it.kind, self.writing.end
        if self.writing.unwind and it.unwind is not None:
            following = self.writing.own_label()
            end("if 0", [following, block(it.unwind)], point)
            self.writing.begin(following)
        if isinstance(kind, Goto):
            end("goto", [block(kind.target)], point)
        elif isinstance(kind, FalseEdge):
            end("if 0", [block(kind.real), block(kind.imaginary)], point)
        elif isinstance(kind, Return) or isinstance(kind, Stop) and kind.resume and self.writing.unwind:
            end("return", [], point)
        elif isinstance(kind, Stop):
            end("stop", [], point)
        elif isinstance(kind, Switch):
            self.switch(kind, point)
        elif isinstance(kind, Drop):
            self.drop(kind, point)
        elif isinstance(kind, Assert):
            self.check(kind, point)
        elif isinstance(kind, Call):
            self.call(kind, point)
        elif isinstance(kind, Unread):
            raise Refused(kind.reason)

    def switch(self, kind: Switch, point: Point) -> None:
        """Writes a branch to several blocks as one `if` after the other."""
        self.writing.want_but(point)
        looked_at = self.looked_at(kind, point)
        targets = [*kind.targets, *kind.targets] if len(kind.targets) == 1 else list(kind.targets)
        for number, target in enumerate(targets[:-1]):
            is_last = number == len(targets) - 2
            other = block(targets[-1]) if is_last else self.writing.own_label()
            self.writing.end(f"if {looked_at if number == 0 else '0'}", [block(target), other], point)
            if not is_last:
                self.writing.begin(other)

    def looked_at(self, kind: Switch, point: Point) -> str:
        """Returns what a branch looks at, as an operand. What is no `int` is handed to a call that returns one."""
        operand = kind.operand
        if operand.access is Access.CONSTANT:
            return "0"
        if self.writing.is_number_operand(operand):
            return f"{operand.access.value} {self.writing.place(operand.place).text}"
        argument = self.calls.argument(operand, point)
        assert argument is not None
        result, following = self.writing.number_local(), self.writing.own_label()
        edges = self.writing.regions.demands(point, argument.type.regions)
        self.calls.call(f"_{result}", INT, (argument,), edges, point, following)
        self.writing.begin(following)
        return f"copy _{result}"

    def drop(self, kind: Drop, point: Point) -> None:
        """Writes a drop, if what is dropped may hold a value."""
        text, dropped, rest, _ = self.writing.place(kind.place)
        if rest or dropped is None:
            self.writing.notes["drop behind a raw pointer or a cut"] += 1
        elif ".*" in text:
            self.writing.notes["drop behind a reference"] += 1
            if self.writing.declared.holds_drop(dropped.shape):
                self.calls.handed_borrow(text, dropped, True, point)
        elif not self.writing.initialized.at_terminator(point.block, kind.place.local):
            self.writing.notes["drop of what was moved out"] += 1
        else:
            self.writing.emit(f"drop {text}", point)
        self.writing.want_but(point, self.writing.locals[kind.place.local].regions)
        self.writing.end("goto", [block(kind.target)], point)

    def check(self, kind: Assert, point: Point) -> None:
        """Writes an assertion: its operands are read."""
        self.writing.want_but(point)
        result = self.writing.number_local()
        operands = [it for it in kind.operands if self.writing.is_number_operand(it)]
        arguments = (self.calls.argument(it, point) for it in operands)
        self.writing.emit(f"_{result} = calc({', '.join(it.text for it in arguments if it)})", point)
        self.writing.end("goto", [block(kind.target)], point)

    def call(self, kind: Call, point: Point) -> None:
        """Writes a call. Two-phase borrows that it takes are activated before it."""
        for operand in kind.operands:
            pending = None
            if operand.access is Access.MOVE and not operand.place.projections:
                pending = self.writing.pending.get(operand.place.local)
            if pending is not None:
                self.writing.emit(f"_{pending.reserved} = copy _{pending.reserved}", point)
                self.writing.emit(pending.text, pending.point)
        if kind.target is None:
            self.writing.needs_stop = True
        label = STOP if kind.target is None else block(kind.target)
        if point in self.writing.direct.calls:
            self.invokes.invoke(kind, self.writing.direct.calls[point], point, label)
        else:
            self.calls.site(kind.place, kind.operands, point, label, "call")
