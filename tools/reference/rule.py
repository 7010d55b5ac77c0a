#!/usr/bin/env python3
"""A second, independent implementation of the rule language.

It exists to produce expected values for tests, so it is written for plainness
and not for speed, and it shares no design with the engine it is compared to.
It answers every text twice:

* the text is read into a tree of Python objects, the names of the tree are
  checked, the tree is translated into code, and a small machine runs the code
  over a list of frames;
* the same tree is walked directly, with environments that bind names to
  values, locations or routines.  This walk never sees the code, nor the pairs
  of hops and offsets that the name check works out.

Both answers have to agree in outcome, place, steps and entries, otherwise the
program stops with an error.

    python3 rule.py              run the rule on standard input
    python3 rule.py --code       list its code: POSITION NUMBER A B C PLACE
    python3 rule.py --self-test  check this file against itself
"""

import random
import re
import sys
import threading
from collections import Counter, namedtuple

# ---------------------------------------------------------------------------
# Limits, sheet, answers
# ---------------------------------------------------------------------------

LOWEST = -2_147_483_648
HIGHEST = 2_147_483_647

TEXT_BYTES = 32_768      # refusal 3 above
NAME_BYTES = 16          # refusal 5 above
NEST = 64                # refusal 8 above
NODES = 4_096            # refusal 9 above
NESTED_FRAMES = 16       # refusal 14 above, the sheet's frame included
BLOCK_SLOTS = 64         # refusal 15 above
PARAMETERS = 8           # refusal 15 above


class Limits:
    """What a run may use.  The self-test also runs rules in smaller spaces."""

    def __init__(self, steps=1_000_000, frames=256, slots=2_048, waiting=512):
        self.steps = steps
        self.frames = frames
        self.slots = slots
        self.waiting = waiting


# kind: 0 number, 1 truth.  kept: False for a constant entry, True for a
# variable.  value: an int, for a truth 1 or 0.
Entry = namedtuple("Entry", "name kind kept value")

SHEET = (
    Entry("days", 0, False, 3),
    Entry("fee", 0, True, 0),
    Entry("open", 1, True, 0),
)

# fault and place are None when the run is done.  entries: the plain values.
Outcome = namedtuple("Outcome", "fault place steps entries")


class Refused(Exception):
    """The text is no rule: a number and a place."""

    def __init__(self, number, place):
        super().__init__(number, place)
        self.number = number
        self.place = place


class Fault(Exception):
    """A run stopped: a number and a place."""

    def __init__(self, number, place):
        super().__init__(number, place)
        self.number = number
        self.place = place


class Disagreement(Exception):
    """The machine and the tree walk answered differently: a bug in this file."""


# ---------------------------------------------------------------------------
# (A) Words
# ---------------------------------------------------------------------------

# The class of a word is its own spelling for reserved words and marks, and
# one of these three otherwise.
NAME, NUMBER, END = "<name>", "<number>", "<end>"

RESERVED = frozenset(
    "call if then else while do const var fun proc let in or and not true false".split()
)
ONE_BYTE_MARKS = frozenset(b"(){};=<+-*,")
BLANKS = frozenset((9, 10, 13, 32))
LETTERS = frozenset(b"abcdefghijklmnopqrstuvwxyzABCDEFGHIJKLMNOPQRSTUVWXYZ")
DIGITS = frozenset(b"0123456789")
NAME_PART = LETTERS | DIGITS | frozenset(b"_")

# value: the spelling of a name, the number of a number, else None.
Word = namedtuple("Word", "cls value place")


def read_words(text):
    """All words of the text and an END word; or the earliest of 4, 5 and 6.

    The text is read from the left, so the first trouble met is the earliest.
    """
    words = []
    at = 0
    size = len(text)
    while at < size:
        start = at
        byte = text[at]
        if byte in BLANKS:
            at += 1
        elif byte in LETTERS:
            while at < size and text[at] in NAME_PART:
                at += 1
            if at - start > NAME_BYTES:
                raise Refused(5, start)
            spelling = text[start:at].decode("ascii")
            if spelling in RESERVED:
                words.append(Word(spelling, None, start))
            else:
                words.append(Word(NAME, spelling, start))
        elif byte in DIGITS:
            value = 0
            while at < size and text[at] in DIGITS:
                # Stays just above the highest number once it is passed, so a
                # long run of digits costs nothing.
                value = min(value * 10 + (text[at] - 48), HIGHEST + 1)
                at += 1
            if value > HIGHEST:
                raise Refused(6, start)
            words.append(Word(NUMBER, value, start))
        elif byte in ONE_BYTE_MARKS:
            words.append(Word(chr(byte), None, start))
            at += 1
        elif text[at:at + 2] == b":=":
            words.append(Word(":=", None, start))
            at += 2
        else:
            raise Refused(4, start)
    words.append(Word(END, None, size))
    return words


# ---------------------------------------------------------------------------
# (A) The tree
# ---------------------------------------------------------------------------


class Node:
    """A construct.  place: its first byte, brackets around it not counted."""

    fields = ()

    def __init__(self, place, *parts):
        self.place = place
        if len(parts) != len(self.fields):
            raise TypeError(type(self).__name__)
        for field, part in zip(self.fields, parts):
            setattr(self, field, part)

    def held(self):
        """The nodes this one holds directly, in the order of the text."""
        for field in self.fields:
            part = getattr(self, field)
            if isinstance(part, Node):
                yield part
            elif isinstance(part, list):
                for one in part:
                    if isinstance(one, Node):
                        yield one


# Commands

class Block(Node):
    fields = ("data", "routines", "commands")


class Assign(Node):
    fields = ("name", "expr")           # the name stands at the node's place


class ProcCall(Node):
    fields = ("name", "name_place", "args")


class IfCommand(Node):
    fields = ("test", "yes", "no")


class While(Node):
    fields = ("test", "body")


# Declarations

class Datum(Node):
    fields = ("is_var", "name", "name_place", "expr")


class Routine(Node):
    # params: a list of (name, place); body: an expression for a function, a
    # command for a procedure.
    fields = ("is_fun", "name", "name_place", "params", "body")


# Expressions

class Number(Node):
    fields = ("value",)


class Truth(Node):
    fields = ("value",)


class Name(Node):
    fields = ("name",)


class FunCall(Node):
    fields = ("name", "args")           # the name stands at the node's place


class Unary(Node):
    fields = ("op", "operand")


class Binary(Node):
    fields = ("op", "left", "right")


class IfExpr(Node):
    fields = ("test", "yes", "no")


class Let(Node):
    fields = ("name", "name_place", "value", "body")


# ---------------------------------------------------------------------------
# (A) The reader
# ---------------------------------------------------------------------------

BEGINS_PREFIX = frozenset(("-", "not", NUMBER, "true", "false", NAME, "("))
BEGINS_EXPR = BEGINS_PREFIX | {"if", "let"}
BEGINS_COMMAND = frozenset(("{", NAME, "call", "if", "while"))


class Reader:
    """One method for each line of the grammar, one word looked at.

    Nest counts the methods command, expr and prefix entered and not left.  A
    word that cannot begin the line is refused before the line is counted, so
    that of 7 and 8 at one word 7 is answered.
    """

    def __init__(self, words, nest_limit=NEST):
        self.words = words
        self.at = 0
        self.nest = 0
        self.nest_limit = nest_limit
        self.nodes = []                 # in the order in which they end

    @property
    def word(self):
        return self.words[self.at]

    def wrong(self):
        return Refused(7, self.word.place)

    def take(self, cls):
        word = self.word
        if word.cls != cls:
            raise self.wrong()
        self.at += 1
        return word

    def enter(self, beginners):
        word = self.word
        if word.cls not in beginners:
            raise self.wrong()
        self.nest += 1
        if self.nest > self.nest_limit:
            raise Refused(8, word.place)
        return word

    def leave(self):
        self.nest -= 1

    def ended(self, node):
        node.number = len(self.nodes)
        self.nodes.append(node)
        return node

    def rule(self):
        tree = self.command()
        self.take(END)
        return tree

    # command

    def command(self):
        first = self.enter(BEGINS_COMMAND)
        if first.cls == "{":
            node = self.block()
        elif first.cls == NAME:
            self.take(NAME)
            self.take(":=")
            expr = self.expr()
            self.take(";")
            node = Assign(first.place, first.value, expr)
        elif first.cls == "call":
            self.take("call")
            name = self.take(NAME)
            args = self.args()
            self.take(";")
            node = ProcCall(first.place, name.value, name.place, args)
        elif first.cls == "if":
            self.take("if")
            test = self.expr()
            self.take("then")
            yes = self.command()
            self.take("else")
            no = self.command()
            node = IfCommand(first.place, test, yes, no)
        else:
            self.take("while")
            test = self.expr()
            self.take("do")
            node = While(first.place, test, self.command())
        self.leave()
        return self.ended(node)

    def block(self):
        brace = self.take("{")
        data, routines, commands = [], [], []
        while self.word.cls in ("const", "var"):
            data.append(self.datum())
        while self.word.cls in ("fun", "proc"):
            routines.append(self.routine())
        while self.word.cls != "}":
            commands.append(self.command())
        self.take("}")
        return Block(brace.place, data, routines, commands)

    def datum(self):
        first = self.take(self.word.cls)
        name = self.take(NAME)
        self.take("=")
        expr = self.expr()
        self.take(";")
        return self.ended(
            Datum(first.place, first.cls == "var", name.value, name.place, expr))

    def routine(self):
        first = self.take(self.word.cls)
        name = self.take(NAME)
        params = self.params()
        is_fun = first.cls == "fun"
        if is_fun:
            self.take("=")
            body = self.expr()
            self.take(";")
        else:
            body = self.command()
        return self.ended(
            Routine(first.place, is_fun, name.value, name.place, params, body))

    def params(self):
        found = []
        self.take("(")
        if self.word.cls != ")":
            while True:
                name = self.take(NAME)
                found.append((name.value, name.place))
                if self.word.cls != ",":
                    break
                self.take(",")
        self.take(")")
        return found

    def args(self):
        found = []
        self.take("(")
        if self.word.cls != ")":
            while True:
                found.append(self.expr())
                if self.word.cls != ",":
                    break
                self.take(",")
        self.take(")")
        return found

    # expr

    def expr(self):
        first = self.enter(BEGINS_EXPR)
        if first.cls == "if":
            self.take("if")
            test = self.expr()
            self.take("then")
            yes = self.expr()
            self.take("else")
            node = self.ended(IfExpr(first.place, test, yes, self.expr()))
        elif first.cls == "let":
            self.take("let")
            name = self.take(NAME)
            self.take("=")
            value = self.expr()
            self.take("in")
            body = self.expr()
            node = self.ended(Let(first.place, name.value, name.place, value, body))
        else:
            node = self.either()
        self.leave()
        return node

    # An operator's construct begins with the first word of its left operand,
    # and a bracket around that operand is part of the construct.

    def grouped(self, signs, operand):
        place = self.word.place
        node = operand()
        while self.word.cls in signs:
            op = self.take(self.word.cls).cls
            node = self.ended(Binary(place, op, node, operand()))
        return node

    def either(self):
        return self.grouped(("or",), self.both)

    def both(self):
        return self.grouped(("and",), self.test)

    def test(self):
        place = self.word.place
        node = self.sum()
        if self.word.cls in ("=", "<"):
            op = self.take(self.word.cls).cls
            node = self.ended(Binary(place, op, node, self.sum()))
        return node

    def sum(self):
        return self.grouped(("+", "-"), self.product)

    def product(self):
        return self.grouped(("*",), self.prefix)

    def prefix(self):
        first = self.enter(BEGINS_PREFIX)
        if first.cls in ("-", "not"):
            self.take(first.cls)
            node = self.ended(Unary(first.place, first.cls, self.prefix()))
        else:
            node = self.atom()
        self.leave()
        return node

    def atom(self):
        first = self.take(self.word.cls)
        if first.cls == NUMBER:
            return self.ended(Number(first.place, first.value))
        if first.cls in ("true", "false"):
            return self.ended(Truth(first.place, first.cls == "true"))
        if first.cls == NAME:
            if self.word.cls == "(":
                return self.ended(FunCall(first.place, first.value, self.args()))
            return self.ended(Name(first.place, first.value))
        node = self.expr()              # the word was a bracket
        self.take(")")
        return node


def read_rule(text):
    """The tree of a text and its nodes as they end, or refusal 3 to 9."""
    if len(text) > TEXT_BYTES:
        raise Refused(3, 0)
    reader = Reader(read_words(text))
    tree = reader.rule()
    if len(reader.nodes) > NODES:
        raise Refused(9, 0)
    return tree, reader.nodes


# ---------------------------------------------------------------------------
# (B) Names
# ---------------------------------------------------------------------------

# sort: "const", "var", "fun" or "proc"; count: parameters of a routine.
Declared = namedtuple("Declared", "sort offset count")


class NameCheck:
    """Walks the whole tree, gathers all violations, and gives uses their pair.

    A frame is a dictionary of what is visible in it just now.  The first
    declaration of a name in a frame is the one that is meant, so names only
    enter by setdefault.
    """

    def __init__(self, sheet):
        self.violations = []            # (place, number)
        self.frames = [{}]
        for offset, entry in enumerate(sheet):
            sort = "var" if entry.kept else "const"
            self.frames[0][entry.name] = Declared(sort, offset, None)

    def check(self, tree):
        self.command(tree)
        if self.violations:
            place, number = min(self.violations)
            raise Refused(number, place)

    def violation(self, number, place):
        self.violations.append((place, number))

    def open_frame(self, place, names, most):
        """names: (name, place) of all slots of the frame, in their order."""
        self.frames.append({})
        if len(self.frames) > NESTED_FRAMES:
            self.violation(14, place)
        seen = set()
        for index, (name, name_place) in enumerate(names):
            if name in seen:
                self.violation(11, name_place)
            seen.add(name)
            if index == most:
                self.violation(15, name_place)

    def close_frame(self):
        self.frames.pop()

    def show(self, name, sort, offset, count=None):
        self.frames[-1].setdefault(name, Declared(sort, offset, count))

    def use(self, node, place, sorts, count=None):
        """Resolve node.name; it has to be of one of the sorts."""
        node.pair = None
        for hops, frame in enumerate(reversed(self.frames)):
            if node.name in frame:
                found = frame[node.name]
                break
        else:
            self.violation(10, place)
            return
        if found.sort not in sorts:
            self.violation(12, place)
        elif count is not None and count != found.count:
            self.violation(13, place)
        node.pair = (hops, found.offset)

    def command(self, node):
        if isinstance(node, Block):
            self.block(node)
        elif isinstance(node, Assign):
            self.use(node, node.place, ("var",))
            self.expr(node.expr)
        elif isinstance(node, ProcCall):
            self.use(node, node.name_place, ("proc",), len(node.args))
            for arg in node.args:
                self.expr(arg)
        elif isinstance(node, IfCommand):
            self.expr(node.test)
            self.command(node.yes)
            self.command(node.no)
        else:
            self.expr(node.test)
            self.command(node.body)

    def block(self, node):
        names = [(one.name, one.name_place) for one in node.data + node.routines]
        self.open_frame(node.place, names, BLOCK_SLOTS)
        for offset, datum in enumerate(node.data):
            self.expr(datum.expr)       # sees the earlier data of this block
            self.show(datum.name, "var" if datum.is_var else "const", offset)
        for offset, routine in enumerate(node.routines, len(node.data)):
            sort = "fun" if routine.is_fun else "proc"
            self.show(routine.name, sort, offset, len(routine.params))
        for routine in node.routines:
            self.routine(routine)
        for command in node.commands:
            self.command(command)
        self.close_frame()

    def routine(self, node):
        self.open_frame(node.place, node.params, PARAMETERS)
        for offset, (name, _) in enumerate(node.params):
            self.show(name, "const", offset)
        if node.is_fun:
            self.expr(node.body)
        else:
            self.command(node.body)
        self.close_frame()

    def expr(self, node):
        if isinstance(node, Name):
            self.use(node, node.place, ("const", "var"))
        elif isinstance(node, FunCall):
            self.use(node, node.place, ("fun",), len(node.args))
            for arg in node.args:
                self.expr(arg)
        elif isinstance(node, Let):
            self.open_frame(node.place, [(node.name, node.name_place)], 1)
            self.expr(node.value)       # inside the frame, the name unseen
            self.show(node.name, "const", 0)
            self.expr(node.body)
            self.close_frame()
        else:
            for one in node.held():
                self.expr(one)


# ---------------------------------------------------------------------------
# (C) Code
# ---------------------------------------------------------------------------

PUSH, LOAD, MINUS, NOT, ADD, SUB, MUL, EQ, LESS, AND, OR = 1, 2, 4, 5, 6, 7, 8, 9, 10, 11, 12
PICK, FORK, SKIP, LEAVE, AGAIN = 13, 14, 15, 16, 17
OPEN, FILL, SHUT, FUN, PROC, CALL, DO, BACK, STORE, LET = 18, 19, 20, 21, 22, 23, 24, 25, 26, 27

OPERATORS = {"+": ADD, "-": SUB, "*": MUL, "=": EQ, "<": LESS, "and": AND, "or": OR}

Instruction = namedtuple("Instruction", "number a b c")


class Translator:
    """Turns a tree with resolved names into code and a list of places.

    A distance is known only when what it leads past has been put down, so its
    instruction is put down with a zero and replaced later.
    """

    def __init__(self):
        self.code = []
        self.places = []

    def put(self, node, number, a=0, b=0, c=0):
        self.code.append(Instruction(number, a, b, c))
        self.places.append(node.place)
        return len(self.code) - 1

    def lead(self, position, field="a"):
        """Let the instruction at position lead to what comes next."""
        distance = len(self.code) - position
        self.code[position] = self.code[position]._replace(**{field: distance})

    def command(self, node):
        if isinstance(node, Block):
            self.put(node, OPEN, len(node.data) + len(node.routines))
            for offset, datum in enumerate(node.data):
                self.expr(datum.expr)
                self.put(datum, FILL, offset, 1 if datum.is_var else 0)
            for offset, routine in enumerate(node.routines, len(node.data)):
                self.routine(routine, offset)
            for command in node.commands:
                self.command(command)
            self.put(node, SHUT)
        elif isinstance(node, Assign):
            self.expr(node.expr)
            self.put(node, STORE, *node.pair)
        elif isinstance(node, ProcCall):
            for arg in node.args:
                self.expr(arg)
            self.put(node, DO, *node.pair, len(node.args))
        elif isinstance(node, IfCommand):
            self.choice(node, FORK, self.command)
        else:
            test = len(self.code)
            self.expr(node.test)
            leave = self.put(node, LEAVE)
            self.command(node.body)
            self.put(node, AGAIN, test - len(self.code))
            self.lead(leave)

    def choice(self, node, number, part):
        self.expr(node.test)
        pick = self.put(node, number)
        part(node.yes)
        skip = self.put(node, SKIP)
        self.lead(pick)
        part(node.no)
        self.lead(skip)

    def routine(self, node, offset):
        at = self.put(node, FUN if node.is_fun else PROC, offset, 0, len(node.params))
        if node.is_fun:
            self.expr(node.body)
        else:
            self.command(node.body)
        self.put(node, BACK)
        self.lead(at, "b")

    def expr(self, node):
        if isinstance(node, Number):
            self.put(node, PUSH, 0, node.value)
        elif isinstance(node, Truth):
            self.put(node, PUSH, 1, 1 if node.value else 0)
        elif isinstance(node, Name):
            self.put(node, LOAD, *node.pair)
        elif isinstance(node, FunCall):
            for arg in node.args:
                self.expr(arg)
            self.put(node, CALL, *node.pair, len(node.args))
        elif isinstance(node, Unary):
            self.expr(node.operand)
            self.put(node, MINUS if node.op == "-" else NOT)
        elif isinstance(node, Binary):
            self.expr(node.left)
            self.expr(node.right)
            self.put(node, OPERATORS[node.op])
        elif isinstance(node, IfExpr):
            self.choice(node, PICK, self.expr)
        else:
            self.put(node, LET)
            self.expr(node.value)
            self.put(node, FILL, 0, 0)
            self.expr(node.body)
            self.put(node, SHUT)


def translate(tree):
    translator = Translator()
    translator.command(tree)
    return translator.code, translator.places


# ---------------------------------------------------------------------------
# (D) The machine
# ---------------------------------------------------------------------------


class Frame:
    __slots__ = ("parent", "slots", "depth")

    def __init__(self, parent, slots, depth):
        self.parent = parent            # a frame number or None
        self.slots = slots              # None (unset), (kind, value) or ("at", position)
        self.depth = depth              # length of the parent chain, itself included


class Machine:
    """Runs code.  A value is a pair (kind, value), kind 0 number, 1 truth."""

    def __init__(self, code, places, sheet, limits):
        self.code = code
        self.places = places
        self.sheet = sheet
        self.limits = limits
        self.frames = [Frame(None, [(entry.kind, entry.value) for entry in sheet], 1)]
        self.standing = len(sheet)      # slots of all frames
        self.waiting = []
        self.returns = []
        self.steps = 0
        self.position = 0

    def run(self):
        before = [entry.value for entry in self.sheet]
        try:
            while self.position < len(self.code):
                if self.steps == self.limits.steps:
                    raise self.fault(26)
                self.steps += 1
                self.step()
        except Fault as fault:
            return Outcome(fault.number, fault.place, self.steps, before)
        if len(self.frames) != 1 or self.waiting or self.returns:
            raise Disagreement("the machine ended out of balance")
        first = self.frames[0].slots
        after = [first[i][1] if entry.kept else entry.value
                 for i, entry in enumerate(self.sheet)]
        return Outcome(None, None, self.steps, after)

    def fault(self, number):
        return Fault(number, self.places[self.position])

    def hop(self, hops):
        at = len(self.frames) - 1
        for _ in range(hops):
            at = self.frames[at].parent
        return at

    def add_frame(self, parent, size):
        if len(self.frames) >= self.limits.frames:
            raise self.fault(23)
        if self.standing + size > self.limits.slots:
            raise self.fault(24)
        depth = self.frames[parent].depth + 1
        if depth > NESTED_FRAMES:
            raise Disagreement("a parent chain over the bound in a checked rule")
        self.frames.append(Frame(parent, [None] * size, depth))
        self.standing += size

    def drop_frame(self):
        self.standing -= len(self.frames.pop().slots)

    def add_waiting(self, value):
        if len(self.waiting) >= self.limits.waiting:
            raise self.fault(25)
        if value is None or value[0] not in (0, 1):
            raise Disagreement("a slot without a value was loaded")
        self.waiting.append(value)

    def take_truth(self):
        kind, value = self.waiting.pop()
        if kind != 1:
            raise self.fault(21)
        return value == 1

    def step(self):
        number, a, b, c = self.code[self.position]
        go_to = self.position + 1
        if number == PUSH:
            self.add_waiting((a, b))
        elif number == LOAD:
            self.add_waiting(self.frames[self.hop(a)].slots[b])
        elif number in (MINUS, NOT):
            kind, value = self.waiting.pop()
            if kind != (0 if number == MINUS else 1):
                raise self.fault(21)
            if number == NOT:
                self.waiting.append((1, 1 - value))
            else:
                if -value > HIGHEST:
                    raise self.fault(22)
                self.waiting.append((0, -value))
        elif ADD <= number <= OR:
            self.operate(number)
        elif number in (PICK, FORK, LEAVE):
            if not self.take_truth():
                go_to = self.position + a
        elif number in (SKIP, AGAIN):
            go_to = self.position + a
        elif number == LET:
            self.add_frame(len(self.frames) - 1, 1)
        elif number == OPEN:
            self.add_frame(len(self.frames) - 1, a)
        elif number == FILL:
            self.frames[-1].slots[a] = self.waiting.pop()
        elif number == STORE:
            slots = self.frames[self.hop(a)].slots
            value = self.waiting.pop()
            if value[0] != slots[b][0]:
                raise self.fault(21)
            slots[b] = value
        elif number in (FUN, PROC):
            self.frames[-1].slots[a] = ("at", self.position + 1)
            go_to = self.position + b
        elif number in (CALL, DO):
            home = self.hop(a)
            tag, target = self.frames[home].slots[b]
            if tag != "at":
                raise Disagreement("a call of something that is no routine")
            self.add_frame(home, c)
            if c:
                self.frames[-1].slots[:] = self.waiting[-c:]
                del self.waiting[-c:]
            self.returns.append(go_to)
            go_to = target
        elif number == BACK:
            self.drop_frame()
            go_to = self.returns.pop()
        elif number == SHUT:
            self.drop_frame()
        else:
            raise Disagreement("no such instruction")
        self.position = go_to

    def operate(self, number):
        right_kind, right = self.waiting.pop()
        left_kind, left = self.waiting.pop()
        wanted = 1 if number in (AND, OR) else 0
        if left_kind != wanted or right_kind != wanted:
            raise self.fault(21)
        if number == ADD:
            result = (0, left + right)
        elif number == SUB:
            result = (0, left - right)
        elif number == MUL:
            result = (0, left * right)
        elif number == EQ:
            result = (1, 1 if left == right else 0)
        elif number == LESS:
            result = (1, 1 if left < right else 0)
        elif number == AND:
            result = (1, left * right)
        else:
            result = (1, max(left, right))
        if result[0] == 0 and not LOWEST <= result[1] <= HIGHEST:
            raise self.fault(22)
        self.waiting.append(result)


# ---------------------------------------------------------------------------
# (E) The named meaning
# ---------------------------------------------------------------------------


class Environment:
    """Names of one construct, and the environment around it."""

    __slots__ = ("names", "around")

    def __init__(self, around):
        self.names = {}
        self.around = around

    def __getitem__(self, name):
        here = self
        while name not in here.names:
            here = here.around
        return here.names[name]


# What a name may stand for.  A Location is an index into the store.
Value = namedtuple("Value", "value")
Location = namedtuple("Location", "index")
Closure = namedtuple("Closure", "routine environment")


class Meaning:
    """Walks the tree.  A number is an int, a truth a bool.

    self.waiting is how many values wait at the moment: a construct that has
    finished one operand or arg counts it while it works out the next ones.
    The result of expr itself is not counted; whoever asked for it does that.
    """

    def __init__(self, tree, sheet, limits):
        self.tree = tree
        self.sheet = sheet
        self.limits = limits
        self.steps = 0
        self.frames = 1
        self.slots = len(sheet)
        self.waiting = 0
        self.store = []
        self.outermost = Environment(None)
        for entry in sheet:
            value = bool(entry.value) if entry.kind == 1 else entry.value
            meant = self.new_location(value) if entry.kept else Value(value)
            self.outermost.names[entry.name] = meant

    def run(self):
        try:
            self.command(self.tree, self.outermost)
        except Fault as fault:
            before = [entry.value for entry in self.sheet]
            return Outcome(fault.number, fault.place, self.steps, before)
        if (self.frames, self.slots, self.waiting) != (1, len(self.sheet), 0):
            raise Disagreement("the tree walk ended out of balance")
        after = [self.content(self.outermost.names[entry.name]) for entry in self.sheet]
        return Outcome(None, None, self.steps, [int(value) for value in after])

    def new_location(self, value):
        self.store.append(value)
        return Location(len(self.store) - 1)

    def content(self, meant):
        return self.store[meant.index] if type(meant) is Location else meant.value

    def step(self, node):
        if self.steps >= self.limits.steps:
            raise Fault(26, node.place)
        self.steps += 1

    def grow(self, node, size):
        if self.frames >= self.limits.frames:
            raise Fault(23, node.place)
        if self.slots + size > self.limits.slots:
            raise Fault(24, node.place)
        self.frames += 1
        self.slots += size

    def shrink(self, size):
        self.frames -= 1
        self.slots -= size

    def command(self, node, env):
        kind = type(node)
        if kind is Block:
            self.block(node, env)
        elif kind is Assign:
            value = self.expr(node.expr, env)
            self.step(node)
            index = env[node.name].index
            if type(self.store[index]) is not type(value):
                raise Fault(21, node.place)
            self.store[index] = value
        elif kind is ProcCall:
            closure, inner = self.arguments(node, env)
            self.command(closure.routine.body, inner)
            self.back(closure.routine)
        elif kind is IfCommand:
            if self.decide(node, env):
                self.command(node.yes, env)
                self.step(node)
            else:
                self.command(node.no, env)
        else:
            while self.decide(node, env):
                self.command(node.body, env)
                self.step(node)

    def block(self, node, env):
        size = len(node.data) + len(node.routines)
        self.step(node)
        self.grow(node, size)
        inner = Environment(env)
        for datum in node.data:
            value = self.expr(datum.expr, inner)
            self.step(datum)
            inner.names[datum.name] = self.new_location(value) if datum.is_var else Value(value)
        for routine in node.routines:
            self.step(routine)
            inner.names[routine.name] = Closure(routine, inner)
        for command in node.commands:
            self.command(command, inner)
        self.step(node)
        self.shrink(size)

    def decide(self, node, env):
        value = self.expr(node.test, env)
        self.step(node)
        if type(value) is not bool:
            raise Fault(21, node.place)
        return value

    def arguments(self, node, env):
        """Work out the args and enter the body: its closure and environment."""
        values = []
        for arg in node.args:
            values.append(self.expr(arg, env))
            self.waiting += 1
        self.step(node)
        closure = env[node.name]
        self.grow(node, len(values))
        self.waiting -= len(values)
        inner = Environment(closure.environment)
        for (name, _), value in zip(closure.routine.params, values):
            inner.names[name] = Value(value)
        return closure, inner

    def back(self, routine):
        self.step(routine)
        self.shrink(len(routine.params))

    def expr(self, node, env):
        kind = type(node)
        if kind is Number or kind is Truth or kind is Name:
            self.step(node)
            if self.waiting >= self.limits.waiting:
                raise Fault(25, node.place)
            return self.content(env[node.name]) if kind is Name else node.value
        if kind is Binary:
            left = self.expr(node.left, env)
            self.waiting += 1
            right = self.expr(node.right, env)
            self.waiting -= 1
            self.step(node)
            return self.binary(node, left, right)
        if kind is Unary:
            value = self.expr(node.operand, env)
            self.step(node)
            if node.op == "not":
                if type(value) is not bool:
                    raise Fault(21, node.place)
                return not value
            if type(value) is not int:
                raise Fault(21, node.place)
            return self.in_range(node, -value)
        if kind is FunCall:
            closure, inner = self.arguments(node, env)
            value = self.expr(closure.routine.body, inner)
            self.back(closure.routine)
            return value
        if kind is IfExpr:
            if self.decide(node, env):
                value = self.expr(node.yes, env)
                self.step(node)
                return value
            return self.expr(node.no, env)
        # A let.
        self.step(node)
        self.grow(node, 1)
        value = self.expr(node.value, env)
        self.step(node)
        inner = Environment(env)
        inner.names[node.name] = Value(value)
        value = self.expr(node.body, inner)
        self.step(node)
        self.shrink(1)
        return value

    def in_range(self, node, value):
        if value < LOWEST or value > HIGHEST:
            raise Fault(22, node.place)
        return value

    def binary(self, node, left, right):
        op = node.op
        wanted = bool if op in ("and", "or") else int
        if type(left) is not wanted or type(right) is not wanted:
            raise Fault(21, node.place)
        if op == "and":
            return left and right
        if op == "or":
            return left or right
        if op == "=":
            return left == right
        if op == "<":
            return left < right
        if op == "+":
            return self.in_range(node, left + right)
        if op == "-":
            return self.in_range(node, left - right)
        return self.in_range(node, left * right)


# ---------------------------------------------------------------------------
# All together
# ---------------------------------------------------------------------------

Loaded = namedtuple("Loaded", "tree nodes code places")


def load(text, sheet=SHEET):
    """Read, check and translate a text, or raise Refused."""
    tree, nodes = read_rule(text)
    NameCheck(sheet).check(tree)
    return Loaded(tree, nodes, *translate(tree))


def run(rule, sheet=SHEET, limits=None):
    """Run a loaded rule by the machine and by the tree walk."""
    limits = limits or Limits()
    by_code = Machine(rule.code, rule.places, sheet, limits).run()
    by_tree = Meaning(rule.tree, sheet, limits).run()
    if by_code != by_tree:
        raise Disagreement("machine %r, tree walk %r" % (by_code, by_tree))
    return by_code


def answer(text, sheet=SHEET):
    """What the program prints for a text, as a list of lines."""
    try:
        outcome = run(load(text, sheet), sheet)
    except Refused as refused:
        return ["refused %d %d" % (refused.number, refused.place)]
    if outcome.fault is None:
        lines = ["done %d" % outcome.steps]
    else:
        lines = ["fault %d %d %d" % (outcome.fault, outcome.place, outcome.steps)]
    return lines + ["%d %d" % pair for pair in enumerate(outcome.entries)]


def listing(text, sheet=SHEET):
    """The code of a text, as a list of lines."""
    try:
        rule = load(text, sheet)
    except Refused as refused:
        return ["refused %d %d" % (refused.number, refused.place)]
    return ["%d %d %d %d %d %d" % (position, *instruction, place)
            for position, (instruction, place) in enumerate(zip(rule.code, rule.places))]


# ---------------------------------------------------------------------------
# Self-test: cases worked out by hand
# ---------------------------------------------------------------------------


class Failed(Exception):
    """The self-test found something."""


def expect(got, wanted, about):
    if got != wanted:
        if isinstance(about, bytes) and len(about) > 400:
            about = about[:400] + b"..."
        raise Failed("got %r, wanted %r, for %r" % (got, wanted, about))


def marked(text):
    """The text without its one `@`, and the place where the `@` stood."""
    if text.count("@") != 1:
        raise Failed("a case needs one mark: %r" % text)
    return text.replace("@", "").encode("latin-1"), text.index("@")


class Cases:
    """Collects checks; every one runs the machine and the tree walk."""

    def __init__(self):
        self.count = 0

    def prints(self, text, *lines):
        if isinstance(text, str):
            text = text.encode("latin-1")
        expect(answer(text), list(lines), text)
        self.count += 1

    def done(self, text, steps, fee=0, opened=0):
        self.prints(text, "done %d" % steps, "0 3", "1 %d" % fee, "2 %d" % opened)

    def fault(self, number, text, steps):
        """The mark @ stands at the place of the fault."""
        text, place = marked(text)
        self.prints(text, "fault %d %d %d" % (number, place, steps), "0 3", "1 0", "2 0")

    def refused(self, number, text):
        """The mark @ stands at the place of the refusal."""
        text, place = marked(text)
        self.prints(text, "refused %d %d" % (number, place))

    def limited(self, text, limits, wanted):
        """wanted: fault, place, steps in a smaller space."""
        outcome = run(load(text.encode("latin-1")), SHEET, limits)
        expect((outcome.fault, outcome.place, outcome.steps), wanted, text.encode("latin-1"))
        self.count += 1


def cases_from_use(t):
    """Small rules with their answers, as they are promised to users."""
    t.prints("fee := days + 1;", "done 4", "0 3", "1 4", "2 0")
    t.done("{}", 2)
    text = "{ const days = days + 1; fee := days; }"
    t.done(text, 8, fee=4)
    first_load = [i for i in load(text.encode()).code if i.number == LOAD][0]
    expect((first_load.a, first_load.b), (1, 0), text)
    t.done("{ var a = 1; proc p() a := 9; proc q() { var a = 2; call p(); fee := a; }"
           " call q(); fee := fee * 10 + a; }", 24, fee=29)
    t.fault(21, "{ fee := 5; @fee := true; }", 5)
    t.prints("{ fee := 5; fee := true; }", "fault 21 12 5", "0 3", "1 0", "2 0")
    t.done("fee := 0 - 2147483647 - 1;", 6, fee=-2147483648)
    t.done("fee := let a = 1 in let b = 2 in a;", 10, fee=1)
    one = load(b"fee := let a = 1 in let b = 2 in a;").code
    other = load(b"fee := let b = 1 in let a = 2 in b;").code
    expect(other, one, "exchanged names")
    t.fault(22, "fee := if days = 4 and @2147483647 + 1 < 0 then 1 else 2;", 6)
    t.prints("fee := if days = 4 and 2147483647 + 1 < 0 then 1 else 2;",
             "fault 22 23 6", "0 3", "1 0", "2 0")
    t.done("{" * 15 + "}" * 15, 30)
    t.prints("{" * 16 + "}" * 16, "refused 14 15")


def cases_of_places(t):
    t.fault(22, "fee := (@(1 + 1) * 2147483647);", 5)
    t.fault(22, "fee := @(2147483647) + 1;", 3)
    t.fault(22, "fee := (@(2147483647) + 1);", 3)
    t.fault(22, "fee := ((@(2147483647) + 1) + 1 - 5);", 3)
    t.fault(22, "fee := 1 * (@2147483647 + 1);", 4)
    t.fault(22, "fee := @1 * (2147483647) + 1;", 5)
    t.fault(22, "fee := 1 + 1 * 1 - (@(2) + 2147483647);", 8)
    t.fault(22, "fee := @-(1 - 2147483647 - 2);", 6)
    t.fault(22, "fee := (@- (0 - 2147483647 - 1));", 6)
    t.fault(22, "fee := @0 - 2147483647 - 1 - 1;", 7)
    t.fault(21, "fee := 1 + (@not 1);", 3)
    t.fault(21, "open := @true = true;", 3)
    t.fault(21, "open := not (@(true) < 1);", 3)
    t.fault(21, "@if 1 then {} else {}", 2)
    t.fault(21, "fee := (@if 1 then 2 else 3);", 2)
    t.fault(21, "@while days do {}", 2)
    t.fault(21, "{ var a = true; { @a := 3; } }", 6)
    t.fault(23, "{ proc p() @call p(); call p(); }", 257)
    t.fault(23, "{ fun f() = @f(); fee := f(); }", 257)
    t.fault(23, "{ fun f(x) = x; fun g() = h(1); fun h(x) = f(@g()); fee := g(); }",
            5 + 127 * 2 + 126 + 1)

    # Every instruction of a line has the place of its construct; seen by
    # stopping a run before each of its steps.
    text = ("{ const a = 1; var b = true; fun f(x) = if b then x else -a; "
            "proc p(y, z) while not open do { open := true; } "
            "if a < 2 then fee := f(let q = 4 in (q) * a); else call p(1, 2); }")
    wanted = [
        (18, 4, 0, 0, "{ const"), (1, 0, 1, 0, "1; var"), (19, 0, 0, 0, "const"),
        (1, 1, 1, 0, "true; fun"), (19, 1, 1, 0, "var"),
        (21, 2, 8, 1, "fun"), (2, 1, 1, 0, "b then"), (13, 3, 0, 0, "if b"),
        (2, 0, 0, 0, "x else"), (15, 3, 0, 0, "if b"), (2, 1, 0, 0, "a; proc"),
        (4, 0, 0, 0, "-a"), (25, 0, 0, 0, "fun"),
        (22, 3, 10, 2, "proc"), (2, 2, 2, 0, "open do"), (5, 0, 0, 0, "not open"),
        (16, 6, 0, 0, "while"), (18, 0, 0, 0, "{ open"), (1, 1, 1, 0, "true; } if"),
        (26, 3, 2, 0, "open :="), (20, 0, 0, 0, "{ open"), (17, -7, 0, 0, "while"),
        (25, 0, 0, 0, "proc"),
        (2, 0, 0, 0, "a < 2"), (1, 0, 2, 0, "2 then"), (10, 0, 0, 0, "a < 2"),
        (14, 11, 0, 0, "if a < 2"),
        (27, 0, 0, 0, "let"), (1, 0, 4, 0, "4 in"), (19, 0, 0, 0, "let"),
        (2, 0, 0, 0, "q) * a"), (2, 1, 0, 0, "a); else"), (8, 0, 0, 0, "(q) * a"),
        (20, 0, 0, 0, "let"), (23, 0, 2, 1, "f(let"), (26, 1, 1, 0, "fee :="),
        (15, 4, 0, 0, "if a < 2"),
        (1, 0, 1, 0, "1, 2)"), (1, 0, 2, 0, "2); }"), (24, 0, 3, 2, "call p"),
        (20, 0, 0, 0, "{ const"),
    ]
    for row in wanted:
        if text.count(row[4]) != 1:
            raise Failed("%r does not stand once" % row[4])
    lines = ["%d %d %d %d %d %d" % (i, *row[:4], text.index(row[4]))
             for i, row in enumerate(wanted)]
    expect(listing(text.encode()), lines, text)
    t.count += 1
    # The path of this run: the function is entered once, the procedure never.
    path = [*range(0, 6), 13, *range(23, 35), *range(6, 10), 12, 35, 36, 40]
    for steps, position in enumerate(path):
        t.limited(text, Limits(steps=steps), (26, text.index(wanted[position][4]), steps))
    t.limited(text, Limits(steps=len(path)), (None, None, len(path)))


def cases_of_words(t):
    for byte in [0, 1, 8, 11, 12, 14, 31, 127, 128, 200, 255, *b"_!\"#$%&'./>?[\\]^`|~"]:
        t.refused(4, "@%c" % byte)
        t.refused(4, "fee := 1; @%c" % byte)
        t.refused(4, "fee := 1@%c0;" % byte)
    t.prints(b"@", "refused 4 0")
    t.refused(4, "fee := @_a;")
    t.refused(4, "fee := 1@_0;")
    t.done("{ var a_ = 1; fee := a_; }", 6, fee=1)
    t.refused(4, "fee @: = 1;")
    t.refused(7, "fee :=@= 1;")
    t.refused(4, "fee @::= 1;")
    t.refused(4, "fee @:")
    t.refused(4, "fee @:\n= 1;")
    t.done("fee:=00002147483647;", 2, fee=2147483647)
    t.done("fee:=" + "0" * 32_000 + "7;", 2, fee=7)
    t.done("fee:=" + "0" * 32_000 + ";", 2)
    t.refused(6, "fee := @2147483648;")
    t.refused(6, "fee := -@2147483648;")
    t.refused(6, "fee := @00000000002147483648;")
    t.refused(6, "fee := @99999999999999999999999999999999999999;")
    t.refused(6, "fee := @" + "9" * 32_000 + ";")
    t.done("fee := if 1<2then 3else 4;", 7, fee=3)
    t.refused(7, "fee := 12@abc;")
    t.refused(10, "@If := 1;")
    t.refused(10, "fee := @TRUE;")
    t.refused(10, "@Fee := 1;")
    t.refused(10, "@abcdefghijklmnop := 1;")
    t.refused(5, "@abcdefghijklmnopq := 1;")
    t.refused(5, "fee := @a2345678901234567;")
    t.refused(5, "fee := @a_______________b$;")
    t.refused(5, "fee := @abcdefghijklmnopq + 2147483648;")
    t.refused(6, "fee := @2147483648 + abcdefghijklmnopq $;")
    t.refused(4, "@$ 2147483648 abcdefghijklmnopq")
    t.done("{ var abcdefghijklmnop = 5; fee := abcdefghijklmnop; }", 6, fee=5)
    t.refused(10, "{ var abcdefghijklmnop = 5; fee := @abcdefghijklmnoq; }")
    t.done("\tfee\r:=\n5\t;\r\n", 2, fee=5)
    # A word problem anywhere beats a grammar problem anywhere.
    t.refused(4, ") @$")
    t.refused(4, "fee := 1; ) ) ) @\x80")
    t.refused(4, "{} @:")
    t.refused(6, "{} {} @2147483648")
    t.refused(5, "; @abcdefghijklmnopq")
    # Length comes first.
    t.prints(b"$" * 32_769, "refused 3 0")
    t.prints(b"$" * 32_768, "refused 4 0")
    t.prints(b"{}" + b" " * 32_767, "refused 3 0")
    t.done("{}" + " " * 32_766, 2)
    t.prints(b" " * 32_768, "refused 7 32768")
    t.prints(b" " * 32_769, "refused 3 0")


def cases_of_grammar(t):
    t.refused(7, "@")
    t.refused(7, "  \n@")
    t.refused(7, "{} @{}")
    t.refused(7, "{}@;")
    t.refused(7, "@;")
    t.refused(7, "fee@")
    t.refused(7, "fee := 1@")
    t.refused(7, "fee := 1  @")
    t.refused(7, "fee := @;")
    t.refused(7, "fee @= 1;")
    t.refused(7, "fee@(1);")
    t.refused(7, "fee := 1 + @if 1 < 2 then 1 else 2;")
    t.refused(7, "fee := 1 + @let a = 1 in a;")
    t.refused(7, "fee := -@if open then 1 else 2;")
    t.done("fee := 1 + (if open then 1 else 2) * 2;", 8, fee=5)
    t.done("fee := if open then 1 else 2 + 3 * 4;", 8, fee=14)
    t.done("fee := let a = 1 in a + 1;", 8, fee=2)
    t.refused(7, "open := 1 = 2 @= 3;")
    t.refused(7, "open := 1 < 2 @= 3;")
    t.refused(7, "open := 1 @) 3;")
    t.fault(21, "open := @(1 = 2) = 3;", 5)
    t.done("fee := 10 - 3 - 2;", 6, fee=5)
    t.done("fee := 10 - (3 - 2);", 6, fee=9)
    t.done("fee := 2 + 3 * 4;", 6, fee=14)
    t.done("fee := - - 5;", 4, fee=5)
    t.done("fee := 2 --3;", 5, fee=5)
    t.done("fee := 2 * -3;", 5, fee=-6)
    t.done("open := true or true and false;", 6, opened=1)
    t.done("open := not false and true;", 5, opened=1)
    t.done("open := not true or 1 + 1 < 3 and not false;", 12, opened=1)
    t.fault(21, "open := @not 1 < 2;", 2)
    t.fault(21, "open := not @not 1 < 2;", 2)
    t.refused(7, "if open then {} @")
    t.refused(7, "if open then {}@; else {}")
    t.refused(7, "if open then fee := 1 @else {}")
    t.refused(7, "if open @{}")
    t.done("if open then {} else fee := 2;", 4, fee=2)
    t.done("if not open then if open then {} else fee := 7; else {}", 3 + 4 + 1, fee=7)
    t.refused(7, "while open @then {}")
    t.refused(7, "while open @{}")
    t.refused(7, "call @();")
    t.refused(7, "call p@;")
    t.refused(7, "call p(1,@);")
    t.refused(7, "call p(@,1);")
    t.refused(7, "call p(1 @2);")
    t.refused(7, "fee := f(@;")
    t.refused(7, "fee := f(1@;")
    t.refused(7, "fee := (@);")
    t.refused(7, "fee := (1@;")
    t.refused(7, "{ fun f(a,@) = 1; }")
    t.refused(7, "{ fun f(@1) = 1; }")
    t.refused(7, "{ fun f(a @b) = 1; }")
    t.refused(7, "{ fun f() @1; }")
    t.refused(7, "{ fun f() = 1 @}")
    t.refused(7, "{ proc p() @= 1; }")
    t.refused(7, "{ proc p() @}")
    t.refused(7, "{ fun f() = @{} }")
    t.refused(7, "{ const a = 1; fun f() = 1; @const b = 1; }")
    t.refused(7, "{ fee := 1; @var b = 1; }")
    t.refused(7, "{ fee := 1; @proc b() {} }")
    t.refused(7, "{ const @if = 1; }")
    t.refused(7, "{ const a @:= 1; }")
    t.refused(7, "{ const a = 1 @}")
    t.refused(7, "{ var @1 = 1; }")
    t.refused(7, "{ fun @true() = 1; }")
    t.refused(7, "{ proc p(@let) {} }")
    t.refused(7, "@true := 1;")
    t.refused(7, "fee := let @in = 1 in 2;")
    t.refused(7, "fee := let a @:= 1 in 2;")
    t.refused(7, "fee := let a = 1@;")
    t.refused(7, "@const a = 1;")
    t.refused(7, "@fun f() = 1;")
    t.refused(7, "@}")
    t.refused(7, "{ @")
    t.refused(7, "{ @(")


def cases_of_nest(t):
    # A rule's command is nest 1, its expression 2, the first prefix 3.
    minus = "fee := " + "-" * 61
    t.done(minus + "1;", 1 + 61 + 1, fee=-1)
    t.refused(8, minus + "-@1;")
    t.refused(8, minus + "-@-1;")
    t.refused(7, minus + "-@);")
    t.refused(7, minus + "-@if 1 < 2 then 3 else 4;")
    t.refused(7, minus + "-@")
    t.refused(7, minus + "-   @")
    t.refused(7, minus + "-@; fee")
    t.refused(8, minus + "-@1 ) ) fee")
    t.refused(8, minus + "-@1")
    t.refused(4, minus + "-1; @$")
    t.refused(7, minus + "@) -----1;")
    t.refused(8, "fee := 1 + " + "-" * 61 + "-@x;")
    t.done("fee := 1 + " + "-" * 61 + "1 * " + "-" * 61 + "1;", 128, fee=2)
    # not counts like minus.
    t.done("open := " + "not " * 61 + "true;", 63)
    t.refused(8, "open := " + "not " * 62 + "@true;")
    # A bracket adds two lines, both at one word.
    t.done("fee := " + "(" * 30 + "1" + ")" * 30 + ";", 2, fee=1)
    t.refused(8, "fee := " + "(" * 31 + "@1" + ")" * 31 + ";")
    t.refused(8, "fee := " + "(" * 31 + "@((1" + ")" * 31 + ";")
    t.refused(7, "fee := " + "(" * 31 + "@)")
    t.refused(7, "fee := " + "(" * 31 + "@then")
    t.refused(7, "fee := " + "(" * 31 + "@")
    t.refused(8, "fee := " + "(" * 31 + "if @1 < 2")
    t.refused(7, "fee := " + "(" * 31 + "if @else")
    t.refused(8, "fee := " + "(" * 31 + "let a = @b")
    t.refused(7, "fee := " + "(" * 31 + "let a @b")
    t.done("fee := " + "(" * 30 + "-1" + ")" * 30 + ";", 3, fee=-1)
    t.refused(8, "fee := " + "(" * 30 + "--@1" + ")" * 30 + ";")
    # An arg adds two.
    calls = "{ fun f(a) = a; fee := "
    t.done(calls + "f(" * 29 + "-1" + ")" * 29 + "; }", 4 + 2 + 29 * 3, fee=-1)
    t.refused(8, calls + "f(" * 30 + "-@1" + ")" * 30 + "; }")
    t.done(calls + "f(" * 30 + "1" + ")" * 30 + "; }", 4 + 1 + 30 * 3, fee=1)
    t.refused(8, calls + "f(" * 31 + "@1" + ")" * 31 + "; }")
    # Chains of else add one each; expressions need two more for their words.
    t.done("fee := " + "if open then 1 else " * 61 + "2;", 2 * 61 + 2, fee=2)
    t.refused(8, "fee := " + "if open then 1 else " * 61 + "if @open then 1 else 2;")
    t.refused(8, "fee := " + "if open then 1 else " * 61 + "-@2;")
    t.refused(8, "fee := " + "let a = 1 in " * 61 + "let a = @1 in a;")
    t.done("if open then {} else " * 61 + "{}", 2 * 61 + 2)
    t.done("if open then {} else " * 62 + "{}", 2 * 62 + 2)
    t.refused(8, "if open then {} else " * 62 + "if @open then {} else {}")
    t.refused(8, "if open then {} else " * 61 + "if open then {} else while @open do {}")
    t.refused(8, "if open then {} else " * 62 + "fee := @1;")
    t.refused(8, "if open then {} else " * 61 + "fee := -@1;")
    t.done("while open do " * 62 + "{}", 2)
    t.refused(8, "while open do " * 62 + "while @open do {}")
    # Blocks: nest passes before frames are looked at.
    t.refused(14, "{" * 15 + "@" + "{" * 49 + "}" * 64)
    t.refused(8, "{" * 64 + "@{" + "}" * 65)
    t.refused(7, "{" * 64 + "@)")
    t.refused(8, "{" * 64 + "const a = @1;")
    t.refused(8, "{" * 64 + "fun a() = @b;")
    t.refused(7, "{" * 64 + "fun a() = @;")
    t.refused(8, "{" * 64 + "proc a() @b := 1;")
    t.refused(8, "{" * 64 + "@call")
    t.refused(8, "{" * 63 + "call p(@1);")
    t.refused(14, "{" * 15 + "@" + "{" * 48 + "call p();" + "}" * 63)
    # Left chains do not nest.
    t.done("fee := 1" + " + 1" * 500 + ";", 1002, fee=501)


def cases_of_nodes(t):
    t.done("fee := 1" + "+1" * 2047 + ";", 4096, fee=2048)
    t.prints("fee := -1" + "+1" * 2047 + ";", "refused 9 0")
    t.prints("fee := 1" + "+1" * 2048 + ";", "refused 9 0")
    t.refused(7, "fee := 1" + "+1" * 2048 + "; @;")
    t.refused(7, "fee := 1" + "+1" * 2048 + "@")
    t.refused(8, "fee := 1" + "+1" * 2048 + "+" + "-" * 62 + "@1")
    t.prints("zz := 1" + "+1" * 2048 + ";", "refused 9 0")
    t.refused(10, "@zz := 1" + "+1" * 2047 + ";")
    t.done("fee := 000001" + "+(001)" * 2047 + ";", 4096, fee=2048)
    # Blocks, data, routines, calls: one node each; parameters and names none.
    t.done("{" + "{}" * 4095 + "}", 2 + 4095 * 2)
    t.prints("{" + "{}" * 4096 + "}", "refused 9 0")
    block = "{var a=1;fun f(x,y,z)=1;proc p(x,y){}call p(a,f(1,2,3));"   # 13 nodes
    t.done(block + "{}" * (4096 - 13) + "}", 16 + (4096 - 13) * 2 + 1)
    t.prints(block + "{}" * (4097 - 13) + "}", "refused 9 0")


def cases_of_names(t):
    t.refused(10, "@a := 1;")
    t.refused(10, "fee := @a;")
    t.refused(10, "fee := @a(1);")
    t.refused(10, "call @a(1);")
    t.refused(12, "@days := 1;")
    t.refused(12, "call @days();")
    t.refused(12, "call @fee(1, 2);")
    t.refused(12, "fee := @days();")
    t.refused(12, "fee := @open(1);")
    t.refused(12, "{ const a = 1; @a := 2; }")
    t.refused(12, "{ fun f() = 1; @f := 2; }")
    t.refused(12, "{ proc p() {} @p := 2; }")
    t.refused(12, "{ fun f() = 1; fee := @f; }")
    t.refused(12, "{ proc p() {} fee := @p; }")
    t.refused(12, "{ proc p() {} fee := @p(); }")
    t.refused(12, "{ fun f() = 1; call @f(); }")
    t.refused(12, "{ fun f() = 1; call @f(1); }")
    t.refused(12, "{ proc p(a) @a := 1; }")
    t.refused(12, "{ fun f(a) = @a(); }")
    t.refused(12, "fee := let a = 1 in @a(2);")
    t.refused(13, "{ fun f() = 1; fee := @f(1); }")
    t.refused(13, "{ fun f(a) = 1; fee := @f(); }")
    t.refused(13, "{ proc p(a, b) {} call @p(1); }")
    t.refused(13, "{ proc p(a, b) {} call @p(1, 2, 3); }")
    # The earlier place, wherever the walk meets it.
    t.refused(13, "{ proc p(a) {} call @p(zz, 1); }")
    t.refused(12, "{ @days := zz; }")
    t.refused(10, "{ @zz := days(); days := 1; }")
    t.refused(12, "fee := @days(zz);")
    t.refused(10, "{ fun f() = @zz; fun f() = 1; }")
    t.refused(11, "{ fun f() = 1; fun @f() = zz; }")
    t.refused(10, "{ const a = @zz; const a = 1; }")
    t.refused(11, "{ const a = 1; const @a = zz; }")
    t.refused(11, "{ fun f(a, @a) = zz; }")
    # A doubled name.
    t.refused(11, "{ fun f() = g(); fun g() = 2; fun @g(a) = 3; }")
    t.refused(13, "{ fun f() = @g(1); fun g() = 2; fun g(a) = 3; }")
    t.refused(12, "{ const g = 1; fun f() = @g(); fun g() = 2; }")
    t.refused(11, "{ const g = 1; fun f() = g; fun @g() = 2; }")
    t.refused(11, "{ const a = 1; var @a = 2; var a = 3; a := 1; }")
    t.refused(12, "{ proc p() @f := 1; fun f() = 1; proc f() {} }")
    t.refused(12, "{ proc q() call @f(); fun f() = 1; proc f() {} }")
    t.refused(11, "{ fun f() = 1; proc @f() call f(); }")
    t.refused(11, "{ var a = 1; fun @a() = 1; }")
    t.refused(12, "{ const a = 1; fun f() = a; proc p() @a := 1; fun a() = 2; }")
    # Different frames: no doubling.
    t.done("{ var a = 1; { var a = 2; proc p(a) { var a = 3; fee := a; } call p(9); } }",
           1 + 2 + 1 + 2 + 1 + 2 + (1 + 2 + 2 + 1) + 1 + 1 + 1, fee=3)
    t.done("{ fun f(f) = f; fee := f(8); }", 8, fee=8)
    t.done("fee := let a = 1 in let a = a + 1 in a * 10;", 14, fee=20)
    t.done("{ var fee = 5; fee := 6; }", 6)
    # What a datum sees.
    t.refused(10, "{ const a = @a; }")
    t.refused(10, "{ const a = @b; const b = 1; }")
    t.refused(10, "{ const a = @f(); fun f() = 1; }")
    t.refused(10, "{ const a = @f; fun f() = 1; }")
    t.done("{ const fee2 = fee; fee := fee2 + 1; }", 8, fee=1)
    t.done("{ const b = 1; { const a = b; const b = 2; fee := a; } }", 12, fee=1)
    t.done("{ fun f() = 3; { const x = f(); fun f() = 4; fee := x; } }", 12, fee=3)
    t.refused(12, "{ proc f() {} { const x = @f(); fun f() = 4; } }")
    t.refused(13, "{ fun f(a) = a; { const x = @f(); fun f() = 4; } }")
    t.done("{ const a = 2; const b = a * 3; fee := b; }", 10, fee=6)
    # What a let sees.
    t.done("fee := let days = days + 1 in days;", 8, fee=4)
    t.refused(10, "fee := let a = @a in 1;")
    t.refused(10, "fee := (let a = 1 in a) + @a;")
    t.refused(10, "{ fun f(a) = a; fee := @a; }")
    t.refused(10, "{ { var a = 1; } fee := @a; }")
    t.refused(10, "{ { fun f() = 1; } fee := @f(); }")
    # Routines see one another.
    t.done("{ fun even(n) = if n = 0 then 1 else odd(n - 1);"
           " fun odd(n) = if n = 0 then 0 else even(n - 1); fee := even(8); }",
           5 + 8 * 8 + 7 + 8 + 2, fee=1)
    # The first name too many.
    vars64 = "".join("var v%d=%d;" % (i, i) for i in range(64))
    t.done("{" + vars64 + "fee:=v63;}", 1 + 128 + 2 + 1, fee=63)
    t.refused(15, "{" + vars64 + "var @w=1;}")
    t.refused(15, "{" + vars64 + "var @w=1;var x=2;}")
    t.refused(15, "{" + vars64 + "fun @w()=1;}")
    t.refused(11, "{" + vars64 + "fun @v7()=1;}")
    t.refused(11, "{" + vars64 + "var @v7=zz;}")
    t.refused(15, "{" + vars64 + "var @w=zz;}")
    t.refused(10, "{" + vars64.replace("v9=9", "v9=@zz") + "var w=1;}")
    t.refused(15, "{" + "const a=1;" + "".join("fun v%d()=0;" % i for i in range(63))
              + "proc @p() {} }")
    t.done("{" + "const a=1;" + "".join("fun v%d()=0;" % i for i in range(62))
           + "proc p() {} }", 1 + 2 + 63 + 1)
    many = "".join("fun f%d(a)=%s;" % (i, "f69(%s)" if i == 3 else "a") for i in range(70))
    over = many.replace("fun f64(", "fun @f64(")
    t.refused(15, "{" + over % "1" + "}")
    t.refused(13, "{" + (many % "").replace("=f69", "=@f69") + "}")
    t.refused(12, "{" + (many % "1").replace("=f69", "=@f69").replace("fun f69(a)=a;",
              "proc f69(a){}") + "}")
    t.refused(15, "{ fun f(a,b,c,d,e,f,g,h,@i,j) = j; }")
    t.refused(15, "{ fun f(a,b,c,d,e,f,g,h,@i) = i; fee := f(1,2,3,4,5,6,7,8,9); }")
    t.refused(15, "{ fun f(a,b,c,d,e,f,g,h,@i) = i; fee := f(1,2,3,4,5,6,7,8); }")
    t.refused(13, "{ fun g() = @f(1); fun f(a,b,c,d,e,f,g,h,i) = i; }")
    t.refused(15, "{ fun g() = f(1,2,3,4,5,6,7,8,9); fun f(a,b,c,d,e,f,g,h,@i) = i; }")
    t.refused(11, "{ fun f(a,b,c,d,e,f,g,h,@a) = a; }")
    t.refused(13, "{ fun f(a,b,c,d,e,f,g,h) = h; fee := @f(1,2,3,4,5,6,7,8,9); }")
    t.done("{ fun f(a,b,c,d,e,f,g,h) = h; fee := f(1,2,3,4,5,6,7,8); }", 15, fee=8)
    # Frames nested.
    t.done("{" * 14 + "fun f()=1;" + "}" * 14, 29)
    t.refused(14, "{" * 15 + "@fun f()=1;" + "}" * 15)
    t.refused(14, "{" * 15 + "@proc f(a){}" + "}" * 15)
    t.refused(14, "{" * 14 + "proc f(a)@{}" + "}" * 14)
    t.done("{" * 14 + "proc f(a)fee:=1;" + "}" * 14, 29)
    t.done("{" * 14 + "fee:=let a=1 in a;" + "}" * 14, 28 + 6, fee=1)
    t.refused(14, "{" * 15 + "fee:=(@let a=1 in a);" + "}" * 15)
    t.refused(14, "{" * 14 + "fee:=let a=@let b=1 in b in a;" + "}" * 14)
    t.refused(14, "{" * 14 + "const x=let a=1 in a;const y=let a=@let b=1 in b in a;" + "}" * 14)
    t.refused(14, "{" * 15 + "fee:=days+1;@{}" + "}" * 15)
    t.refused(10, "{" * 15 + "fee:=@zz+1;{}" + "}" * 15)
    t.refused(14, "{" * 15 + "@{fee:=zz;}" + "}" * 15)
    t.done("fee := " + "let a = 1 in " * 15 + "a;", 15 * 4 + 2, fee=1)
    t.refused(14, "fee := " + "let a = 1 in " * 15 + "@let a = 1 in a;")
    t.refused(14, "if true then {} else " + "{" * 15 + "@{}" + "}" * 15)


def cases_of_runs(t):
    # Steps: the one that faults is counted, fault 26 is not.
    t.fault(26, "while @true do {}", 1_000_000)
    loop = "{ var i = 0; while i < 111110 do i := i + 1; "       # 999,997 steps
    t.done(loop + "{} }", 1_000_000)
    t.fault(26, loop + "{} @{} }", 1_000_000)
    t.fault(21, loop + "@fee := not true; }", 1_000_000)
    t.done(loop + "fee := 1; }", 1_000_000, fee=1)
    t.fault(26, "@" + loop + "fee := -1; }", 1_000_000)
    t.fault(26, loop + "@fee := 1 + 1; }", 1_000_000)
    # Kinds before range, no short cut.
    t.fault(21, "open := @false and 1;", 3)
    t.fault(21, "open := @true or 0;", 3)
    t.fault(21, "open := @0 or true;", 3)
    t.fault(22, "open := false and @2147483647 + 1 < 0;", 4)
    t.fault(22, "open := true or @2147483647 + 1 < 0;", 4)
    t.fault(21, "fee := @2147483647 + true;", 3)
    t.fault(21, "fee := @false - 2147483647;", 3)
    t.fault(21, "fee := @true * true;", 3)
    t.fault(21, "open := @true < false;", 3)
    t.fault(21, "open := @1 = true;", 3)
    t.fault(21, "open := @true = 1;", 3)
    t.fault(21, "fee := @-true;", 2)
    t.fault(21, "open := @not 0;", 2)
    t.fault(21, "@open := 1;", 2)
    t.fault(21, "@fee := 1 < 2;", 4)
    t.fault(22, "fee := @65536 * 32768;", 3)
    t.done("fee := -65536 * 32768;", 5, fee=-2147483648)
    t.fault(22, "fee := @65536 * 65536;", 3)
    t.fault(22, "fee := @-2147483647 - 2;", 4)
    t.done("fee := -2147483647 - 1;", 5, fee=-2147483648)
    t.fault(22, "fee := @-1 * (-2147483647 - 1);", 7)
    for op, table in (("and", "0001"), ("or", "0111")):
        for i, result in enumerate(table):
            words = ["true" if i & bit else "false" for bit in (2, 1)]
            t.done("open := %s %s %s;" % (words[0], op, words[1]), 4, opened=int(result))
    for left in (-1, 0, 1):
        for right in (-1, 0, 1):
            text = "open := 0 + %d %%s 0 + %d;" % (left, right)
            steps = 8 + (left < 0) + (right < 0)
            t.done(text % "=", steps, opened=int(left == right))
            t.done(text % "<", steps, opened=int(left < right))
    # A store keeps the kind; constants, parameters and results have none fixed.
    t.fault(21, "{ var a = 1; @a := true; }", 5)
    t.fault(21, "{ var a = 1; a := 2; @a := true; }", 7)
    t.fault(21, "{ var a = true; proc p() @a := 1; call p(); }", 7)
    t.done("{ var a = true; a := false; open := not a; }", 9, opened=1)
    t.done("{ fun id(x) = x; fee := id(7); open := id(true); }", 13, fee=7, opened=1)
    t.done("{ fun f(b) = if b then 7 else true; fee := f(true); open := f(false); }",
           2 + 8 + 7 + 1, fee=7, opened=1)
    # Entries stay as they were after any fault.
    t.prints("{ fee := 9; open := true; fee := days + open; }",
             "fault 21 33 8", "0 3", "1 0", "2 0")
    # A body runs where its routine was declared.
    t.done("{ var a = 1; fun f() = a; proc p(g) { var a = 5; fee := f() * 10 + a; } call p(0); }",
           21, fee=15)
    t.done("{ proc p(n) { fun g() = n; if n = 0 then {} else { call p(n - 1);"
           " fee := fee * 10 + g(); } } call p(3); }", 4 + 3 * 22 + 11 + 1, fee=123)
    # 23: 256 frames, the sheet's among them, one without slots too.
    down = "{ proc p(n) if n < 1 then {} else @call p(n - 1); call p(%d); }"
    t.done((down % 252).replace("@", ""), 4 + 252 * 8 + 7 + 253 + 1)
    t.fault(23, down % 254, 4 + 254 * 8)
    t.fault(23, "{ proc p(n) if n < 1 then @{} else call p(n - 1); call p(253); }",
            4 + 253 * 8 + 4 + 1)
    t.fault(23, "{ fun f(n) = if n < 1 then @let a = 1 in a else f(n - 1); fee := f(253); }",
            4 + 253 * 8 + 4 + 1)
    # A tree that leans far to the left, under 254 calls.
    t.fault(23, "{ fun f(n) = @f(n)" + " + 1" * 2040 + "; fee := f(0); }", 4 + 254 * 2)
    # 24: 2,048 slots, the sheet's among them.
    vars60, vars61, vars63 = (
        "".join("var v%d=0;" % i for i in range(n)) for n in (60, 61, 63))
    fill = "{ proc p(n) { %s if n < 2 then %s else call p(n - 1); } call p(%d); }"
    # 3 + 1 + 31 * 64 = 1,988, and 60 more fill the space to the last slot.
    t.done(fill % (vars63, "{" + vars60 + "}", 31),
           4 + 31 * (1 + 126 + 4) + 30 * 4 + 122 + 1 + 31 * 2 + 1)
    t.fault(24, fill % (vars63, "@{" + vars61 + "}", 31), 4 + 31 * (1 + 126 + 4) + 30 * 4 + 1)
    t.fault(24, "{ proc p(n) @{ %s call p(n); } call p(0); }" % vars63,
            4 + 31 * (1 + 126 + 2) + 1)
    # 4 + 30 * 68 = 2,044, and a body of eight slots no longer fits.
    t.fault(24, "{ proc p(a, b, c, d, e, f, g, h) { %s @call p(1, a, b, c, d, e, f, g); }"
            " call p(1, 2, 3, 4, 5, 6, 7, 8); }" % vars60, 11 + 30 * (1 + 120 + 8 + 1))
    call = "{ fun f(a, b) = a; fee := f(1, 2); }"
    t.limited(call, Limits(slots=5), (24, call.index("f(1"), 5))
    t.limited(call, Limits(slots=6), (None, None, 9))
    # Frames before slots.
    t.limited("{ var a = 1; {} }", Limits(frames=1, slots=3), (23, 0, 1))
    t.limited("{ var a = 1; {} }", Limits(frames=2, slots=3), (24, 0, 1))
    t.limited("{ var a = 1; {} }", Limits(frames=2, slots=4), (23, 13, 4))
    t.limited("{ var a = 1; {} }", Limits(frames=3, slots=4), (None, None, 6))
    t.limited("fee := let a = 1 in a;", Limits(frames=2, slots=3), (24, 7, 1))
    t.limited("fee := let a = 1 in a;", Limits(frames=1, slots=3), (23, 7, 1))
    # 25: 512 values wait.  Three wait for each call inside.
    wait = "{ fun f(n) = if n < 1 then 0 else 1 + (1 + (@1 + f(n - 1))); fee := f(%d); }"
    t.done((wait % 170).replace("@", ""), 4 + 170 * (11 + 4) + 7 + 2, fee=510)
    t.fault(25, wait % 171, 4 + 170 * 11 + 4 + 3)
    # Args wait while later args are worked out, and not inside the body.
    args = "{ fun f(a, b) = a + b; fee := f(1, f(2, 3)); }"
    t.limited(args, Limits(waiting=3), (None, None, 17))
    t.limited(args, Limits(waiting=2), (25, args.index("3)"), 5))
    body = "{ fun f(a, b) = (1 + (2 + 3)); fee := f(1, 2) + f(1, 2); }"
    t.limited(body, Limits(waiting=4), (None, None, 23))
    t.limited(body, Limits(waiting=3), (25, body.index("3))"), 17))
    procs = "{ proc p(a, b) fee := a + b; call p(1, 2); }"
    t.limited(procs, Limits(waiting=2), (None, None, 11))
    t.limited(procs, Limits(waiting=1), (25, procs.index("2);"), 4))


HAND_CASES = (cases_from_use, cases_of_places, cases_of_words, cases_of_grammar,
              cases_of_nest, cases_of_nodes, cases_of_names, cases_of_runs)


# ---------------------------------------------------------------------------
# Self-test: a second reader of words and of the grammar
# ---------------------------------------------------------------------------

WORD_PATTERN = re.compile(
    rb"([A-Za-z][A-Za-z0-9_]*)|([0-9]+)|(:=|[(){};=<+*,-])|([\t\n\r ]+)|(.)", re.DOTALL)


def words_again(text):
    """(class, place) of all words, END included, or (number, place) in Refused."""
    found = []
    for match in WORD_PATTERN.finditer(text):
        name, number, mark, blank, other = match.groups()
        spelling = match.group().decode("latin-1")
        if other:
            raise Refused(4, match.start())
        if name and len(name) > 16:
            raise Refused(5, match.start())
        if number:
            digits = number.lstrip(b"0")
            if len(digits) > 10 or int(digits or b"0") > 2147483647:
                raise Refused(6, match.start())
        if not blank:
            cls = NUMBER if number else spelling if mark or spelling in RESERVED else NAME
            found.append((cls, match.start()))
    return found + [(END, len(text))]


GRAMMAR_TEXT = """
rule: command <end>
command: block | <name> := expr ; | call <name> ( args ) ;
command: if expr then command else command | while expr do command
block: { data routines commands }
data: | data datum
routines: | routines routine
commands: | commands command
datum: const <name> = expr ; | var <name> = expr ;
routine: fun <name> ( names ) = expr ; | proc <name> ( names ) command
names: | names_list
names_list: <name> | names_list , <name>
args: | args_list
args_list: expr | args_list , expr
expr: if expr then expr else expr | let <name> = expr in expr | either
either: both | either or both
both: test | both and test
test: sum | sum = sum | sum < sum
sum: product | sum + product | sum - product
product: prefix | product * prefix
prefix: - prefix | not prefix | atom
atom: <number> | true | false | <name> | <name> ( args ) | ( expr )
"""


def grammar_lines():
    lines = {}
    for line in GRAMMAR_TEXT.strip().splitlines():
        left, right = line.split(":", 1)
        for choice in right.split("|"):
            lines.setdefault(left, []).append(tuple(choice.split()))
    return lines


class Chart:
    """A general recogniser that follows all derivations at once.

    It knows the first word with which no text can continue without any idea of
    how a reader goes about it.  With a nest limit it gives up the derivations
    in which a line is too deep; a word that stops only those is refusal 8.
    """

    lines = grammar_lines()
    deepening = ("command", "expr", "prefix")
    empty = ("data", "routines", "commands", "names", "args")

    @classmethod
    def first_stop(cls, words, limit):
        """The place of the first word that stops all derivations, or None.

        An item: left side, its nest, its choice, how much is done, its origin.
        """
        current = [("rule", 0, 0, 0, 0)]
        columns = []
        for at, (word, place) in enumerate(words):
            seen = set()
            waits = {}                  # nonterminal and nest -> items before it
            columns.append(waits)
            following = []
            work = list(current)
            while work:
                item = work.pop()
                if item in seen:
                    continue
                seen.add(item)
                left, nest, choice, done, origin = item
                symbols = cls.lines[left][choice]
                if done == len(symbols):
                    for other in columns[origin].get((left, nest), ()):
                        work.append(other[:3] + (other[3] + 1, other[4]))
                    continue
                symbol = symbols[done]
                if symbol in cls.lines:
                    inner = nest
                    if limit is not None and symbol in cls.deepening:
                        inner = nest + 1
                        if inner > limit:
                            continue
                    waits.setdefault((symbol, inner), []).append(item)
                    for other in range(len(cls.lines[symbol])):
                        work.append((symbol, inner, other, 0, at))
                    if symbol in cls.empty:
                        work.append((left, nest, choice, done + 1, origin))
                elif symbol == word:
                    following.append((left, nest, choice, done + 1, origin))
            if not following:
                return place
            current = following
        return None

    @classmethod
    def refusal(cls, words, limit):
        """(number, place) or None."""
        deep = cls.first_stop(words, limit)
        plain = cls.first_stop(words, None)
        if deep is None:
            return None
        if deep == plain:
            return (7, plain)
        return (8, deep)


# ---------------------------------------------------------------------------
# Self-test: random rules
# ---------------------------------------------------------------------------


class Thing:
    """Something declared in a random rule; trees refer to it, not to its name."""

    def __init__(self, name, sort, kind, params=()):
        self.name = name
        self.sort = sort                # const, var, fun, proc
        self.kind = kind                # of the value or of the result: 0 or 1
        self.params = list(params)      # kinds


class Maker:
    """Makes random trees.

    spoil: for some of the numbers 10 to 15, how likely a use or a declaration
    violates that rule.  What is violated is noted on the tree (node.broken:
    number, and part) from what the maker itself knows to be visible.
    odd: how likely an expression has the wrong kind.
    """

    def __init__(self, rng, sheet, spoil, odd):
        self.rng = rng
        self.spoil = spoil
        self.odd = odd
        self.things = []                # all that is declared, entries apart
        self.frames = [[]]
        self.budget = rng.choice((15, 40, 90, 160))
        for entry in sheet:
            self.frames[0].append(Thing(entry.name, "var" if entry.kept else "const", entry.kind))

    # names

    def chance(self, likely):
        return self.rng.random() < likely

    def spoils(self, *numbers):
        """The number to violate now, or None."""
        for number in numbers:
            if self.chance(self.spoil.get(number, 0.0)):
                return number
        return None

    def visible(self):
        found = {}
        for frame in self.frames:
            here = {}
            for thing in frame:
                here.setdefault(thing.name, thing)
            found.update(here)
        return found

    def pick(self, wanted):
        things = [one for one in self.visible().values() if wanted(one)]
        return self.rng.choice(things) if things else None

    def unseen(self):
        """A name that nothing visible has, or None."""
        seen = self.visible()
        names = [name for name in POOL if name not in seen]
        return self.rng.choice(names) if names else None

    def new_name(self, taken):
        """A name for a frame; doubles one of the taken ones only by spoiling."""
        if taken and self.spoils(11):
            return self.rng.choice(taken)
        while True:
            name = self.rng.choice(POOL)
            if name not in taken:
                return name
            if len(taken) > len(POOL) // 2:
                return "n%d" % len(taken)

    def thing(self, *parts):
        made = Thing(*parts)
        self.things.append(made)
        return made

    def deep(self):
        """Whether one more frame is too many here, spoiling apart."""
        return len(self.frames) >= NESTED_FRAMES and not self.spoils(14)

    def open_frame(self, node):
        self.frames.append([])
        node.broken = []
        if len(self.frames) > NESTED_FRAMES:
            node.broken.append((14, "construct"))

    # commands

    def command(self, depth):
        self.budget -= 1
        rng = self.rng
        roll = rng.random()
        if depth <= 0 or self.budget <= 0:
            roll = rng.choice((0.0, 0.3, 0.9))
        if roll < 0.30:
            return self.assign(depth)
        if roll < 0.45:
            return self.proc_call(depth)
        if roll < 0.60:
            test = self.expr(1, depth - 1)
            return IfCommand(None, test, self.command(depth - 1), self.command(depth - 1))
        if roll < 0.70:
            return self.loop(depth)
        return self.block(depth)

    def assign(self, depth):
        node = Assign(None, None, None)
        node.broken = []
        target = self.pick(lambda one: one.sort == "var")
        number = self.spoils(10, 12)
        if number:
            target = self.unseen() if number == 10 else self.pick(lambda one: one.sort != "var")
            if target is not None:
                node.broken.append((number, "name"))
        if target is None:
            return self.block(0)
        kind = target.kind if isinstance(target, Thing) else 0
        node.name = target
        node.expr = self.expr(kind, depth - 1)
        return node

    def arguments(self, node, target, depth, sort):
        """Give a call its args; spoil its name or its count."""
        node.broken = []
        kinds = target.params if target is not None else []
        number = self.spoils(10, 12, 13)
        if number:
            if number == 10:
                other = self.unseen()
            elif number == 12:
                other = self.pick(lambda one: one.sort != sort)
            else:
                other = target
                kinds = kinds[:-1] if kinds and self.chance(0.5) else kinds + [0]
            if other is not None:
                target = other
                node.broken.append((number, "name"))
        if target is None:
            return None
        node.name = target
        node.args = [self.expr(kind, depth - 1) for kind in kinds]
        return node

    def proc_call(self, depth):
        target = self.pick(lambda one: one.sort == "proc")
        made = self.arguments(ProcCall(None, None, None, []), target, depth, "proc")
        return made or self.assign(depth)

    def loop(self, depth):
        target = self.pick(lambda one: one.sort == "var" and one.kind == 0)
        if target is None or self.chance(0.3):
            return While(None, self.expr(1, depth - 1), self.command(depth - 1))
        up = Assign(None, target, Binary(None, "+", Name(None, target), Number(None, 1)))
        test = Binary(None, "<", Name(None, target), Number(None, self.rng.randrange(6)))
        body = up
        if self.chance(0.6) and len(self.frames) < NESTED_FRAMES:
            body = Block(None, [], [], [])
            self.open_frame(body)
            body.commands = [up] + [self.command(depth - 1) for _ in range(self.rng.randrange(3))]
            self.frames.pop()
        return While(None, test, body)

    def block(self, depth):
        rng = self.rng
        node = Block(None, [], [], [])
        if self.deep() and self.pick(lambda one: one.sort == "var"):
            return self.assign(depth)
        self.open_frame(node)           # noted, if it is one too many
        frame = self.frames[-1]
        small = depth <= 0 or self.budget <= 0
        data = rng.choice((0, 0, 1)) if small else rng.choice((0, 1, 1, 2, 3))
        routines = 0 if small else rng.choice((0, 0, 1, 1, 2, 3))
        if self.spoils(15):
            data = rng.randrange(60, 72)
        elif self.chance(0.004):
            data = rng.randrange(58, 62)
        taken = []

        def declare(one):
            one.broken = getattr(one, "broken", [])
            if one.name.name in taken:
                one.broken.append((11, "name"))
            if len(taken) == BLOCK_SLOTS:
                one.broken.append((15, "name"))
            taken.append(one.name.name)

        for _ in range(data):
            kind = rng.randrange(2)
            datum = Datum(None, self.chance(0.6), None, None, None)
            datum.expr = self.expr(kind, depth - 1 if data < 10 else 0)
            sort = "var" if datum.is_var else "const"
            datum.name = self.thing(self.new_name(taken), sort, kind)
            declare(datum)
            frame.append(datum.name)
            node.data.append(datum)
        headers = []
        for _ in range(routines):
            count = rng.choice((0, 1, 1, 2, 3))
            if self.spoils(15):
                count = rng.randrange(7, 12)
            elif self.chance(0.01):
                count = rng.randrange(6, 9)
            params = [rng.choice((0, 0, 1)) for _ in range(count)]
            is_fun = self.chance(0.5)
            name = self.thing(self.new_name(taken), "fun" if is_fun else "proc",
                              rng.randrange(2), params)
            routine = Routine(None, is_fun, name, None, [], None)
            declare(routine)
            headers.append(routine)
        frame.extend(one.name for one in headers)
        for routine in headers:
            self.routine(routine, depth)
            node.routines.append(routine)
        if not small:
            node.commands = [self.command(depth - 1) for _ in range(rng.randrange(4))]
        self.frames.pop()
        return node

    def routine(self, node, depth):
        noted = node.broken
        self.open_frame(node)
        node.broken += noted
        taken = []
        params = []
        for kind in node.name.params:
            param = self.thing(self.new_name(taken), "const", kind)
            if param.name in taken:
                node.broken.append((11, len(params)))
            if len(params) == PARAMETERS:
                node.broken.append((15, len(params)))
            taken.append(param.name)
            params.append(param)
        self.frames[-1].extend(params)
        node.params = [(one, None) for one in params]
        counter = params[0] if params and params[0].kind == 0 else None
        again = counter and self.visible().get(node.name.name) is node.name \
            and self.visible().get(counter.name) is counter and self.chance(0.6)
        if again:
            # Something that comes to an end: each call has a smaller counter.
            test = Binary(None, "<", Name(None, counter), Number(None, 1))
            less = Binary(None, "-", Name(None, counter), Number(None, 1))
            args = [less] + [self.expr(one.kind, depth - 2) for one in params[1:]]
            if node.is_fun:
                call = FunCall(None, node.name, args)
                if node.name.kind == 0:
                    call = Binary(None, self.rng.choice("+-*"), self.expr(0, depth - 2), call)
                node.body = IfExpr(None, test, self.expr(node.name.kind, depth - 2), call)
            else:
                call = ProcCall(None, node.name, None, args)
                node.body = IfCommand(None, test, self.command(depth - 2), call)
        elif node.is_fun:
            node.body = self.expr(node.name.kind, depth - 1)
        else:
            node.body = self.command(depth - 1)
        self.frames.pop()

    # expressions

    def expr(self, kind, depth):
        self.budget -= 1
        rng = self.rng
        if self.chance(self.odd):
            kind = 1 - kind
        if depth <= 0 or self.budget <= 0 or self.chance(0.2):
            return self.leaf(kind)
        roll = rng.random()
        if roll < 0.12:
            test = self.expr(1, depth - 1)
            return IfExpr(None, test, self.expr(kind, depth - 1), self.expr(kind, depth - 1))
        if roll < 0.26 and not self.deep():
            inner = rng.randrange(2)
            node = Let(None, None, None, None, None)
            self.open_frame(node)
            node.value = self.expr(inner, depth - 1)
            node.name = self.thing(self.new_name([]), "const", inner)
            self.frames[-1].append(node.name)
            node.body = self.expr(kind, depth - 1)
            self.frames.pop()
            return node
        if roll < 0.42:
            target = self.pick(lambda one: one.sort == "fun" and one.kind == kind)
            made = self.arguments(FunCall(None, None, []), target, depth, "fun")
            if made:
                return made
        if roll < 0.52:
            return Unary(None, "not" if kind else "-", self.expr(kind, depth - 1))
        if kind == 0:
            op, inner = rng.choice("++-*"), 0
        else:
            op = rng.choice(("=", "<", "<", "and", "or"))
            inner = 1 if op in ("and", "or") else 0
        return Binary(None, op, self.expr(inner, depth - 1), self.expr(inner, depth - 1))

    def leaf(self, kind):
        node = Name(None, None)
        node.broken = []
        number = self.spoils(10, 12)
        if number:
            if number == 10:
                node.name = self.unseen()
            else:
                node.name = self.pick(lambda one: one.sort in ("fun", "proc"))
            if node.name is not None:
                node.broken.append((number, "name"))
                return node
        node.name = self.pick(lambda one: one.sort in ("const", "var") and one.kind == kind)
        if node.name is not None and self.chance(0.6):
            return node
        if kind == 1:
            return Truth(None, self.chance(0.5))
        numbers = (0, 1, 2, 3, 7, 10, 46341, 65536, 2147483646, 2147483647)
        return Number(None, self.rng.choice(numbers if self.chance(0.1) else numbers[:5]))


POOL = ["a", "b", "c", "d", "e", "f", "g", "x1", "y_2", "If", "abcdefghijklmnop", "days", "fee"]

LEVELS = {"or": 1, "and": 2, "=": 3, "<": 3, "+": 4, "-": 4, "*": 5}


def level_of(node):
    if isinstance(node, (IfExpr, Let)):
        return 0
    if isinstance(node, Binary):
        return LEVELS[node.op]
    return 6 if isinstance(node, Unary) else 7


class Writer:
    """Writes a tree as a text, noting where every construct and name stands."""

    def __init__(self, rng, loose):
        self.rng = rng
        self.loose = loose              # unneeded blanks, brackets and zeros
        self.text = bytearray()
        self.last = ""                  # the word before
        self.settled = False            # the blanks before the next word stand
        self.nodes = []                 # (class, place) as they end
        self.broken = []                # (place, number)

    def blank(self, needed):
        if self.loose:
            count = self.rng.choice((0, 0, 1, 1, 2)) or int(needed)
            self.text += bytes(self.rng.choice(b" \n\t\r") for _ in range(count))
        elif needed or self.last:
            self.text += b" "

    def here(self):
        """The place of the next word, whatever it is."""
        if not self.settled:
            self.blank(self.last[-1:].isalnum() or self.last.endswith("_"))
            self.settled = True
        return len(self.text)

    def word(self, spelling):
        if not self.settled:
            first = spelling[0]
            if self.last.isdigit():
                needed = first.isdigit()
            else:
                needed = (self.last[-1:].isalnum() or self.last.endswith("_")) \
                    and (first.isalnum() or first == "_")
            self.blank(needed)
        self.settled = False
        place = len(self.text)
        self.text += spelling.encode("ascii")
        self.last = spelling
        return place

    def words(self, *spellings):
        for spelling in spellings:
            self.word(spelling)

    def name(self, thing):
        return self.word(thing.name if isinstance(thing, Thing) else thing)

    def ended(self, node, place, parts):
        """parts: the places of "name" and of parameters by their index."""
        self.nodes.append((type(node), place))
        for number, part in getattr(node, "broken", ()):
            self.broken.append((place if part == "construct" else parts[part], number))

    def separated(self, items, write):
        places = {}
        for index, item in enumerate(items):
            if index:
                self.word(",")
            places[index] = write(item)
        return places

    def command(self, node):
        parts = {}
        place = self.here()
        if isinstance(node, Block):
            self.word("{")
            for datum in node.data:
                self.datum(datum)
            for routine in node.routines:
                self.routine(routine)
            for command in node.commands:
                self.command(command)
            self.word("}")
        elif isinstance(node, Assign):
            parts["name"] = self.name(node.name)
            self.word(":=")
            self.expr(node.expr)
            self.word(";")
        elif isinstance(node, ProcCall):
            self.word("call")
            parts["name"] = self.name(node.name)
            self.word("(")
            self.separated(node.args, self.expr)
            self.words(")", ";")
        elif isinstance(node, IfCommand):
            self.word("if")
            self.expr(node.test)
            self.word("then")
            self.command(node.yes)
            self.word("else")
            self.command(node.no)
        else:
            self.word("while")
            self.expr(node.test)
            self.word("do")
            self.command(node.body)
        self.ended(node, place, parts)

    def datum(self, node):
        place = self.word("var" if node.is_var else "const")
        parts = {"name": self.name(node.name)}
        self.word("=")
        self.expr(node.expr)
        self.word(";")
        self.ended(node, place, parts)

    def routine(self, node):
        place = self.word("fun" if node.is_fun else "proc")
        name = self.name(node.name)
        self.word("(")
        parts = self.separated([name for name, _ in node.params], self.name)
        parts["name"] = name
        self.word(")")
        if node.is_fun:
            self.word("=")
            self.expr(node.body)
            self.word(";")
        else:
            self.command(node.body)
        self.ended(node, place, parts)

    def expr(self, node, level=0):
        own = level_of(node)
        if own < level or self.loose and self.rng.random() < 0.08:
            self.word("(")
            self.expr(node)
            self.word(")")
            return
        place = self.here()
        parts = {"name": place}
        if isinstance(node, Number):
            zeros = self.rng.choice((0, 0, 0, 1, 12)) if self.loose else 0
            self.word("0" * zeros + str(node.value))
        elif isinstance(node, Truth):
            self.word("true" if node.value else "false")
        elif isinstance(node, Name):
            self.name(node.name)
        elif isinstance(node, FunCall):
            self.name(node.name)
            self.word("(")
            self.separated(node.args, self.expr)
            self.word(")")
        elif isinstance(node, Unary):
            self.word(node.op)
            self.expr(node.operand, 6)
        elif isinstance(node, Binary):
            self.expr(node.left, 4 if own == 3 else own)
            self.word(node.op)
            self.expr(node.right, own + 1)
        elif isinstance(node, IfExpr):
            self.word("if")
            self.expr(node.test)
            self.word("then")
            self.expr(node.yes)
            self.word("else")
            self.expr(node.no)
        else:
            self.word("let")
            self.name(node.name)
            self.word("=")
            self.expr(node.value)
            self.word("in")
            self.expr(node.body)
        self.ended(node, place, parts)


def write(tree, rng, loose):
    writer = Writer(rng, loose)
    writer.command(tree)
    return writer


# How many instructions the code of a node has beside those of what it holds.
OWN_LENGTH = {Block: 2, Assign: 1, ProcCall: 1, IfCommand: 2, While: 2, Datum: 1, Routine: 2,
              Number: 1, Truth: 1, Name: 1, FunCall: 1, Unary: 1, Binary: 1, IfExpr: 2, Let: 3}


def random_sheet(rng):
    if rng.random() < 0.6:
        return SHEET
    names = rng.sample(POOL + ["open"] + ["s%d" % i for i in range(32)], rng.randrange(33))
    sheet = []
    for name in names:
        kind = rng.randrange(2)
        value = rng.randrange(2) if kind else rng.choice((0, 1, 3, -5, LOWEST, HIGHEST))
        sheet.append(Entry(name, kind, rng.random() < 0.6, value))
    return tuple(sheet)


def random_limits(rng, sheet):
    """Often so small that every kind of fault comes up."""
    small = rng.random
    return Limits(
        steps=rng.randrange(400) if small() < 0.3 else 3_000,
        frames=rng.randrange(1, 12) if small() < 0.4 else 256,
        slots=len(sheet) + rng.randrange(20) if small() < 0.4 else 2_048,
        waiting=rng.randrange(1, 6) if small() < 0.3 else 512)


def check_nodes(rule):
    """Each node comes after those it holds; the code is as long as they say."""
    length = 0
    for index, node in enumerate(rule.nodes):
        expect(node.number, index, "the number of a node")
        if any(one.number >= index for one in node.held()):
            raise Failed("a node before one that it holds")
        length += OWN_LENGTH[type(node)]
    expect(len(rule.code), length, "the length of the code")


def random_good(rng, tally):
    """A rule that has to pass: places, pairs, both runs, other spellings."""
    sheet = random_sheet(rng)
    maker = Maker(rng, sheet, spoil={}, odd=rng.choice((0.0, 0.0, 0.02)))
    tree = maker.command(rng.randrange(2, 8))
    written = write(tree, rng, loose=True)
    text = bytes(written.text)
    if written.broken:                  # no room was left for a sound command
        tally["given up"] += 1
        return None
    try:
        rule = load(text, sheet)
    except Refused as refused:
        if refused.number in (3, 8, 9):
            tally["too large"] += 1
            return None
        raise Failed("refused %d %d: %r" % (refused.number, refused.place, text))
    expect([(type(node), node.place) for node in rule.nodes], written.nodes, text)
    check_nodes(rule)
    for _ in range(3):
        outcome = run(rule, sheet, random_limits(rng, sheet))
        tally["done" if outcome.fault is None else "fault %d" % outcome.fault] += 1
    if rng.random() < 0.01:
        run(rule, sheet)
    # Plainly written, and with a name of its own for nearly every declaration:
    # a name that nothing else has can only free other names, never catch them.
    for index, thing in enumerate(maker.things):
        if rng.random() < 0.9:
            thing.name = "u%d" % index
    other = load(bytes(write(tree, rng, loose=False).text), sheet)
    expect(other.code, rule.code, text)
    tally["renamed"] += 1
    return text


def random_spoiled(rng, tally):
    """A rule with names spoiled on purpose: the least violation is known."""
    sheet = random_sheet(rng)
    numbers = rng.choice(((10,), (11,), (12,), (13,), (15,), (10, 11, 12, 13, 15), (13, 15)))
    spoil = {number: rng.choice((0.03, 0.1, 0.3)) for number in numbers}
    maker = Maker(rng, sheet, spoil, odd=0.01)
    tree = maker.block(rng.choice((3, 5, 7, 9)))
    # Frames around all of it move it beyond the frames allowed; the other
    # violations noted so far stay what they are.
    for _ in range(rng.choice((0, 0, 0, 0, 0, 10, 11, 12, 13, 14))):
        tree = Block(None, [], [], [tree])
    note_depth(tree, 1)
    written = write(tree, rng, loose=True)
    text = bytes(written.text)
    wanted = min(written.broken) if written.broken else None
    try:
        rule = load(text, sheet)
    except Refused as refused:
        if refused.number in (3, 8, 9):
            tally["too large"] += 1
            return
        expect((refused.place, refused.number), wanted, text)
        tally["refused %d" % refused.number] += 1
        return
    expect(None, wanted, text)
    outcome = run(rule, sheet, random_limits(rng, sheet))
    tally["done" if outcome.fault is None else "fault %d" % outcome.fault] += 1


def note_depth(node, frames):
    """Note violation 14 anew in a tree that so many frames stand around."""
    if isinstance(node, (Block, Let, Routine)):
        frames += 1
        node.broken = [one for one in getattr(node, "broken", ()) if one[0] != 14]
        if frames > NESTED_FRAMES:
            node.broken.append((14, "construct"))
    for one in node.held():
        note_depth(one, frames)


ALL_WORDS = sorted(RESERVED) + list("(){};=<+-*,") + [":=", "a", "fee", "f", "0", "12"]


def random_broken(rng, text, tally):
    """A good text, a little damaged: refusals 4 to 8 by the second readers."""
    if rng.random() < 0.3:
        damaged = bytearray(text)
        for _ in range(rng.choice((1, 1, 2, 3))):
            at = rng.randrange(len(damaged) + 1)
            roll = rng.random()
            if roll < 0.5:
                damaged.insert(at, rng.choice(b":=:_1aZ9-;({ \x00\x0b\x80\xff~") if roll < 0.4
                               else rng.randrange(256))
            elif roll < 0.7:
                damaged[at:at] = rng.choice((b"2147483648", b"2147483647", b"abcdefghijklmnopq",
                                             b"99999999999", b"0000000000000000000", b": ="))
            else:
                del damaged[at:at + rng.randrange(1, 4)]
        damaged = bytes(damaged)
    else:
        words = [match.group() for match in WORD_PATTERN.finditer(text) if not match.group(4)]
        if rng.random() < 0.3:          # a piece, so that ends come up
            words = words[:rng.randrange(len(words) + 1)]
        for _ in range(rng.choice((0, 1, 1, 2))):
            at = rng.randrange(len(words) + 1)
            roll = rng.random()
            if roll < 0.3:
                words.insert(at, rng.choice(ALL_WORDS).encode())
            elif roll < 0.6:
                del words[at:at + 1]
            elif roll < 0.8:
                words[at:at + 1] = [rng.choice(ALL_WORDS).encode()]
            else:
                words[at:at] = words[at:at + rng.randrange(1, 6)]
        damaged = b" ".join(words)
    compare_reading(rng, damaged, tally)


def random_deep(rng, tally):
    """Words that lead on and on, for the nest."""
    words = []
    for _ in range(rng.randrange(1, 40)):
        words.append(rng.choice((
            "(", "-", "not", "(", "f (", "1 + (", "if", "then", "else", "let a =", "in",
            "fee :=", "{", "while a do", "if a then {} else", "{ proc p ( )", "{ fun f ( ) =",
            "1", ";", ")")))
    start = rng.choice(("fee :=", "fee :=", "{", "{ const a =", "if", "while true do", ""))
    compare_reading(rng, " ".join([start] + words).encode(), tally)


def compare_reading(rng, text, tally):
    try:
        words = words_again(text)
        wanted = None
    except Refused as refused:
        wanted = (refused.number, refused.place)
    try:
        own = read_words(text)
        got = None
    except Refused as refused:
        got = (refused.number, refused.place)
    expect(got, wanted, text)
    if wanted is not None:
        tally["refused %d" % wanted[0]] += 1
        try:
            load(text)
        except Refused as refused:
            expect((refused.number, refused.place), wanted, text)
        else:
            raise Failed("not refused: %r" % text)
        return
    expect([(word.cls, word.place) for word in own], words, text)
    if len(words) > 120:
        tally["too large"] += 1
        return
    for limit in (rng.randrange(1, 14), NEST):
        wanted = Chart.refusal(words, limit)
        try:
            Reader(own, limit).rule()
            got = None
        except Refused as refused:
            got = (refused.number, refused.place)
        expect(got, wanted, (limit, text))
        tally["refused %d" % wanted[0] if wanted else "read"] += 1
    if wanted is None:
        try:
            rule = load(text)
        except Refused as refused:
            if refused.number < 10:
                raise Failed("refused %d: %r" % (refused.number, text))
            return
        check_nodes(rule)
        run(rule, SHEET, random_limits(rng, SHEET))


def random_cases(seed, rounds):
    """Every round makes one rule of each sort.  The same seed, the same rules."""
    rng = random.Random(seed)
    tally = Counter()
    for _ in range(rounds):
        text = random_good(rng, tally)
        random_spoiled(rng, tally)
        if text is not None and len(text) < 500:
            random_broken(rng, text, tally)
        random_deep(rng, tally)
    return tally


# ---------------------------------------------------------------------------
# The program
# ---------------------------------------------------------------------------

SEED = 20_240_229
ROUNDS = 6_000
OFTEN_ENOUGH = ["done", "read", "renamed"] \
    + ["refused %d" % number for number in (4, 5, 6, 7, 8, 10, 11, 12, 13, 14, 15)] \
    + ["fault %d" % number for number in (21, 22, 23, 24, 25, 26)]


def self_test():
    cases = Cases()
    for group in HAND_CASES:
        before = cases.count
        group(cases)
        print("%s: %d" % (group.__name__.replace("_", " "), cases.count - before))
    tally = random_cases(SEED, ROUNDS)
    print("random rounds: %d" % ROUNDS)
    for what in sorted(tally):
        print("    %s: %d" % (what, tally[what]))
    for what in OFTEN_ENOUGH:
        if tally[what] < 50:
            raise Failed("the random rules hardly ever give: " + what)
    print("all well")


def main(arguments):
    if arguments == ["--self-test"]:
        self_test()
        return
    if arguments not in ([], ["--code"]):
        sys.stderr.write("usage: rule.py [--code | --self-test]\n")
        raise SystemExit(2)
    text = sys.stdin.buffer.read()
    lines = listing(text) if arguments else answer(text)
    sys.stdout.write("".join(line + "\n" for line in lines))


def in_large_thread(work, *arguments):
    """Trees may be thousands of nodes deep and calls 254 deep on top of that."""
    ended = []

    def guarded():
        try:
            work(*arguments)
            ended.append(None)
        except BaseException as trouble:    # handed on to the main thread
            ended.append(trouble)

    sys.setrecursionlimit(10_000_000)
    threading.stack_size(512 * 1024 * 1024)
    thread = threading.Thread(target=guarded)
    thread.start()
    thread.join()
    if ended[0] is not None:
        raise ended[0]


if __name__ == "__main__":
    in_large_thread(main, sys.argv[1:])
