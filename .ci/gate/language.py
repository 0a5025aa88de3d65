"""The texts of `docs/user/language.md` read once more, by a reader that shares nothing with the program: what a text spells, as far as a put
asks for it, or the first fault with its place, and what a chain of regions has to keep to. `.ci/gate/damaged-files` compares the program with it.
"""
import re, typing

KEYWORDS = set("fn closure where let int mut copy move calc dead drop nop goto if call invoke return stop struct extern".split())
RUN = re.compile(rb"[A-Za-z0-9_]+")
MOST_BYTES = 1_048_576


class Fault(Exception):
    """The first bad token of a text: its kind, in the words of a report, and its place."""


class Unit(typing.NamedTuple):
    """What is kept of a unit: whether it is a function, the numbers of its closures, its universal regions, its region variables, those of them
    that stand in the type of a local, and the region of each borrow by its point. Regions are words of a chain."""

    is_function: bool
    closures: frozenset
    universals: frozenset
    variables: frozenset
    in_locals: frozenset
    loans: dict


class Token:
    """A token: what kind it is of, its word (of one that is numbered the number), and where it begins."""

    def __init__(self, kind, word, at, end):
        self.kind, self.word, self.at, self.end = kind, word, at, end


def is_number(word):
    return bool(re.fullmatch(r"0|[1-9][0-9]*", word))


def token_of_run(word, at, end):
    for kind, front in (("number", ""), ("local", "_"), ("label", "bb")):
        if word.startswith(front) and is_number(word[len(front) :]):
            return Token(kind, int(word[len(front) :]), at, end)
    if not word[0].isalpha():
        raise Fault("token", at)
    return Token("keyword" if word in KEYWORDS else "word", word, at, end)


def token_at(text, at):
    """The token that comes next."""
    while text[at : at + 1] in (b" ", b"\n"):
        at += 1
    byte = text[at : at + 1]
    if not byte:
        return Token("end", "", at, at)
    if byte >= b"\x80":
        raise Fault("not ascii", at)
    quoted = at + 2 if text[at : at + 2] == b"'?" else at + 1 if byte == b"'" else at
    run = RUN.match(text, quoted)
    word = run[0].decode() if run else ""
    if quoted == at + 2 and is_number(word):
        return Token("variable", int(word), at, run.end())
    if quoted == at + 1 and re.fullmatch(r"[a-z][a-z0-9_]*", word):
        return Token("region", word, at, run.end())
    if quoted == at and run:
        return token_of_run(word, at, run.end())
    if text[at : at + 2] == b"->":
        return Token("sign", "->", at, at + 2)
    if quoted == at and byte in b"(){}[]<>,;:=+&.*":
        return Token("sign", byte.decode(), at, at + 1)
    raise Fault("token", at)


class Reader:
    """Goes through a text token by token. Of what may stand at a token, its kind is looked at first, then limits, then what else is asked."""

    def __init__(self, text):
        self.text, self.next = text, token_at(text, 0)
        self.regions, self.in_body, self.locals, self.points, self.children = [], False, 0, 0, set()
        self.variables, self.in_locals, self.loans, self.here = set(), frozenset(), {}, ""

    def take(self):
        taken, self.next = self.next, token_at(self.text, self.next.end)
        return taken

    def grammar(self):
        raise Fault("grammar", self.next.at)

    def check(self, is_within, is_well=True):
        """Refuses the next token where it goes past a limit, or breaks another rule."""
        if not is_within:
            raise Fault("limit", self.next.at)
        if not is_well:
            self.grammar()

    def sees(self, *words):
        return self.next.kind in ("sign", "keyword") and self.next.word in words

    def eat(self, *words):
        return self.take() if self.sees(*words) else None

    def expect(self, *words):
        return self.eat(*words) or self.grammar()

    def numbered(self, kind, most):
        if self.next.kind != kind:
            self.grammar()
        self.check(self.next.word <= most)
        return self.take().word

    def name(self):
        if self.next.kind != "word":
            self.grammar()
        self.check(len(self.next.word) <= 32)
        return self.take().word

    def items(self, item, most, close):
        """A list of items with commas between them, of which so many are read, up to the sign that closes it."""
        count = 0
        while True:
            item(count < most)
            count += 1
            if not self.eat(","):
                break
        self.expect(close)
        return count

    def some(self, item, most, close):
        return 0 if self.eat(close) else self.items(item, most, close)

    def declared(self, is_within):
        """A region that is declared here."""
        if self.next.kind != "region":
            self.grammar()
        self.check(is_within and len(self.next.word) <= 16, self.next.word != "static" and self.next.word not in self.regions)
        self.regions.append(self.take().word)

    def marked(self, is_within):
        if not self.sees("+", "="):
            self.grammar()
        self.check(is_within)
        self.take()
        self.declared(True)

    def region(self, is_within=True):
        """A region that was declared, or a variable: its word in a chain."""
        if self.in_body and self.next.kind == "variable":
            self.check(is_within and self.next.word <= 1023)
        elif self.next.kind == "region":
            self.check(is_within and len(self.next.word) <= 16, self.next.word == "static" or self.next.word in self.regions)
        else:
            self.grammar()
        token = self.take()
        if token.kind == "variable":
            self.variables.add(f"'?{token.word}")
            return f"'?{token.word}"
        return "0" if token.word == "static" else str(1 + self.regions.index(token.word))

    def names(self, most):
        if self.eat("<"):
            self.items(self.declared, most, ">")

    def clause(self, is_within):
        self.region(is_within)
        self.expect(":")
        self.region()

    def where(self):
        count = 0
        more = self.eat("where")
        while more:
            self.clause(count < 32)
            count += 1
            more = self.eat(",")

    def args(self):
        if self.eat("<"):
            self.items(self.region, 15, ">")

    def type(self, is_within=True):
        depth = 1
        while self.sees("&"):
            self.check(is_within and depth <= 8)
            self.take()
            self.region()
            self.eat("mut")
            depth += 1
        if self.sees("int"):
            self.check(is_within and depth <= 8)
            self.take()
            return
        if self.next.kind != "word":
            self.grammar()
        self.check(is_within and depth <= 8 and len(self.next.word) <= 32)
        self.take()
        self.args()

    def place(self, is_within=True):
        if self.next.kind != "local":
            self.grammar()
        self.check(is_within and self.next.word <= 255, self.next.word < self.locals)
        self.take()
        count = 0
        while self.sees("."):
            self.check(count < 8)
            self.take()
            if not self.eat("*"):
                self.numbered("number", 15)
            count += 1

    def operand(self, is_within=True):
        if self.sees("copy", "move"):
            self.check(is_within)
            self.take()
            return self.place()
        if self.next.kind != "number":
            self.grammar()
        self.check(is_within and self.next.word <= 4_294_967_295)
        self.take()

    def operands(self):
        self.expect("(")
        self.some(self.operand, 16, ")")

    def label(self):
        return self.numbered("label", 255)

    def closure(self):
        self.children.add(self.numbered("number", 63))
        self.args()

    def assigned(self):
        """What stands behind the sign of an assignment. Tells whether it ends the block."""
        if self.eat("&"):
            self.loans[self.here] = self.region()
            self.eat("mut")
            self.place()
        elif self.eat("closure"):
            self.closure()
            self.operands()
        elif self.eat("calc"):
            self.operands()
        elif self.eat("call"):
            self.name()
            self.args()
            self.operands()
            self.label()
            return True
        elif self.eat("invoke"):
            self.place()
            self.args()
            self.operands()
            self.label()
            return True
        elif self.next.kind == "word":
            self.name()
            self.args()
            self.operands()
        else:
            self.operand()
        return False

    def point(self):
        """A statement or a terminator. Tells whether it ends the block."""
        if self.next.kind != "local" and not self.sees("dead", "drop", "nop", "goto", "if", "return", "stop"):
            self.grammar()
        self.check(self.points < 4096)
        self.points += 1
        if self.next.kind == "local":
            self.place()
            self.expect("=")
            return self.assigned()
        word = self.take().word
        if word == "dead":
            if self.next.kind != "local":
                self.grammar()
            self.check(self.next.word <= 255, self.next.word < self.locals)
            self.take()
        elif word == "drop":
            self.place()
        elif word == "goto":
            self.label()
        elif word == "if":
            self.operand()
            self.label()
            self.label()
        return word in ("goto", "if", "return", "stop")

    def block(self, number):
        if self.next.kind != "label":
            self.grammar()
        self.check(self.next.word <= 255, self.next.word == number)
        self.take()
        self.expect("{")
        ends, index = False, 0
        while not ends:
            self.here = f"bb{number}[{index}]"
            ends = self.point()
            self.expect(";")
            index += 1
        self.expect("}")

    def body(self):
        self.in_body = True
        self.expect("{")
        while self.eat("let"):
            if self.next.kind != "local":
                self.grammar()
            self.check(self.next.word <= 255, self.next.word == self.locals)
            self.take()
            self.locals += 1
            self.expect(":")
            if self.eat("closure"):
                self.closure()
            else:
                self.type()
            self.expect(";")
        self.in_locals = frozenset(self.variables)
        self.block(0)
        number = 1
        while not self.eat("}"):
            self.block(number)
            number += 1

    def end(self):
        if self.next.kind != "end":
            self.grammar()

    def unit(self):
        """What is kept of it."""
        head = self.expect("fn", "closure").word
        self.names(15)
        self.where()
        self.locals = 1
        if head == "closure":
            self.expect("[")
            self.locals += self.some(self.type, 16, "]")
        self.expect("(")
        self.locals += self.some(self.type, 16, ")")
        self.expect("->")
        self.type()
        self.body()
        self.end()
        universals = frozenset(str(number) for number in range(1 + len(self.regions)))
        return Unit(head == "fn", frozenset(self.children), universals, frozenset(self.variables), self.in_locals, self.loans)

    def structure(self):
        self.name()
        if self.eat("<"):
            self.items(self.marked, 8, ">")
        self.eat("drop")
        self.expect("{")
        count = 0
        while not self.eat("}"):
            self.type(count < 16)
            self.expect(";")
            count += 1

    def function(self):
        self.name()
        self.names(8)
        self.where()
        self.expect("(")
        self.some(self.type, 16, ")")
        self.expect("->")
        self.type()
        self.expect(";")

    def types(self):
        counts = {"struct": 0, "extern": 0}
        while self.sees("struct", "extern"):
            self.check(counts[self.next.word] < 64)
            word = self.take().word
            counts[word] += 1
            self.regions = []
            if word == "struct":
                self.structure()
            else:
                self.function()
        self.end()


def read(text, what):
    """What `what` of a reader gives of a text, or the words of its first fault."""
    if len(text) > MOST_BYTES:
        return None, "too long"
    try:
        return what(Reader(text)), None
    except Fault as it:
        kind, at = it.args
        return None, f"{kind} at {at}"


def read_unit(text):
    """What is kept of a unit, and what is wrong with its text, if anything is."""
    return read(text, Reader.unit)


def read_types(text):
    """What is wrong with a text of declarations, if anything is."""
    return read(text, Reader.types)[1]


def is_chain(unit, error, words):
    """Whether words may be the chain of an error of a unit, as far as its text tells: regions of the unit, none twice. Of a conflict the first is
    that of the loan, and the last one is universal, or in the type of a local; of a lifetime error the first is the longer one, and the last the
    shorter or `'static`. No universal region of a conflict, and neither of these two, comes before the last."""
    what, at, *_, other = error.split()
    if what == "conflict":
        first, ends, may_end = unit.loans.get(other), unit.universals, unit.universals | unit.in_locals
    else:
        first, ends, may_end = at, {other, "0"}, {other, "0"}
    are_regions = len(set(words)) == len(words) and set(words) <= unit.universals | unit.variables
    return are_regions and words[0] == first and words[-1] in may_end and not ends & set(words[:-1])
