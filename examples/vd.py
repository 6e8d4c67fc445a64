#!/usr/bin/env python3
"""Builds files of the verification diagram checker, prints them, and says what a report means.

    python3 vd.py FILE                  prints a file as text
    python3 vd.py --report HEX [FILE]   says in words what the 64 digits of a report mean,
                                        with --tests N also the tests that the checker counts

FILE or HEX may be -, for standard input. The exit status is 1 if the file cannot be read to its
end or does not go with the report or the tests, and 2 if there is nothing to work on.

A file is built from expressions in Python:

>>> s = System()
>>> v = s.variable("v", 0, 2)
>>> s.start(v == 0)
>>> step = s.transition("step", v < 2, v.set(v + 1), just=True)
>>> d = Diagram(s, chain(p=true, q=v == 2))
>>> goal, one, two = d.node(v == 2), d.node(v == 1), d.node(v == 0)
>>> d.double(step, two, one)
>>> d.double(step, one, goal)
>>> len(d.to_bytes())
256
>>> d.total()
8

On numbers there are + - * // % == != < <= > >=, on truths & | ~ >> (implies) and == (iff). // and %
are by a constant above 0 and round down, as Python does: -7 // 2 is -4, -7 % 2 is 1. A truth used
as a number is its indicator, 1 if true, else 0. Long chains of &, | and + are written as balanced
trees, so that nesting stays low. Beside v.set(value), a transition may have v.pick(low, high): any
of the values low..high. Nothing here keeps anyone from building a file that the checker refuses.
"""

import argparse
import itertools
import os
import struct
import sys
from collections import namedtuple

__all__ = ["System", "Diagram", "invariance", "wait_for", "chain", "true", "false", "all_of",
           "any_of", "total", "Reading", "Names", "lines", "Report", "accepted", "refused",
           "broken", "tests_of", "explain", "Mismatch"]

# Limits of a file.
BYTES, VARIABLES, TRANSITIONS, NODES, EDGES, LEVELS, STATES = 32768, 12, 32, 32, 512, 16, 1048576
BOUND, COMBINATIONS = 1000000, 4096

# Kinds of records.
RANGE, START, TRANSITION, ASSIGNMENT, PROPERTY, NODE, EDGE, PICK = range(0x01, 0x09)
CONSTANT, VARIABLE, SUM, DIFFERENCE, PRODUCT, INDICATOR = range(0x10, 0x16)
QUOTIENT, REMAINDER = 0x18, 0x19
TRUE, FALSE, NOT, AND, OR, IMPLIES, IFF, EQUAL, LESS, AT_MOST = range(0x20, 0x2A)

# The kinds of property: field a of its record.
INVARIANCE, WAIT_FOR, CHAIN = 1, 2, 3
PROPERTY_NAMES = {INVARIANCE: "invariance", WAIT_FOR: "wait-for", CHAIN: "chain"}


def record(kind, a=0, b=0, c=0, d=0):
    """The eight bytes of a record."""
    try:
        return struct.pack("<BBhhBB", kind, a, b, c, d, 0)
    except struct.error:
        raise ValueError("a record of kind %02x cannot hold a = %s, b = %s, c = %s, d = %s"
                         % (kind, a, b, c, d)) from None


# ---- expressions

class Expression:
    """The kind of its first record, that record's fields a and b, and its operands. A SUM, AND or
    OR may have more than two operands here; they are halved when it is written."""

    def __init__(self, kind, *operands, a=0, b=0):
        self.kind, self.operands, self.a, self.b = kind, operands, a, b

    def written(self):
        """The operands as they are written: at most two."""
        if len(self.operands) <= 2:
            return self.operands
        half = len(self.operands) // 2
        return [part[0] if len(part) == 1 else type(self)(self.kind, *part)
                for part in (self.operands[:half], self.operands[half:])]

    def to_bytes(self):
        return record(self.kind, self.a, self.b) + b"".join(
            operand.to_bytes() for operand in self.written())

    def __bool__(self):
        raise TypeError("an expression has no truth in Python: use & | ~, not and, or, not; "
                        "and (a <= b) & (b <= c), not a <= b <= c")

    __hash__ = object.__hash__

    def __add__(self, other):
        return Number(SUM, *operands_of(SUM, number(self)), *operands_of(SUM, number(other)))

    def __radd__(self, other):
        return number(other) + self

    def __sub__(self, other):
        return Number(DIFFERENCE, number(self), number(other))

    def __rsub__(self, other):
        return number(other) - self

    def __mul__(self, other):
        return Number(PRODUCT, number(self), number(other))

    def __rmul__(self, other):
        return number(other) * self

    def __floordiv__(self, other):
        return Number(QUOTIENT, number(self), number(other))

    def __rfloordiv__(self, other):
        return number(other) // self

    def __mod__(self, other):
        return Number(REMAINDER, number(self), number(other))

    def __rmod__(self, other):
        return number(other) % self

    def __eq__(self, other):
        if isinstance(self, Truth) and isinstance(other, (Truth, bool)):
            return Truth(IFF, self, truth(other))
        return Truth(EQUAL, number(self), number(other))

    def __ne__(self, other):
        return ~(self == other)

    def __lt__(self, other):
        return Truth(LESS, number(self), number(other))

    def __le__(self, other):
        return Truth(AT_MOST, number(self), number(other))

    def __gt__(self, other):
        return Truth(LESS, number(other), number(self))

    def __ge__(self, other):
        return Truth(AT_MOST, number(other), number(self))


class Number(Expression):
    __hash__ = object.__hash__


class Truth(Expression):
    __hash__ = object.__hash__

    def __and__(self, other):
        return Truth(AND, *operands_of(AND, self), *operands_of(AND, truth(other)))

    def __or__(self, other):
        return Truth(OR, *operands_of(OR, self), *operands_of(OR, truth(other)))

    def __invert__(self):
        return Truth(NOT, self)

    def __rshift__(self, other):
        return Truth(IMPLIES, self, truth(other))


class Variable(Number):
    def __init__(self, index, name, low, high):
        super().__init__(VARIABLE, a=index)
        self.index, self.name, self.low, self.high = index, name, low, high

    __hash__ = object.__hash__

    def set(self, value):
        """An assignment of the value to this variable."""
        return Assignment(self.index, number(value))

    def pick(self, low=None, high=None):
        """A pick for this variable: any of these values or, if none are given, of its range."""
        return Pick(self.index, self.low if low is None else low,
                    self.high if high is None else high)

    def among(self, *values):
        return any_of(self == value for value in values)


def operands_of(kind, expression):
    """The expression's operands if it is of this kind, else itself."""
    return expression.operands if expression.kind == kind else (expression,)


def number(x):
    """A number expression of an expression or a Python integer."""
    if isinstance(x, Number):
        return x
    if isinstance(x, Truth):
        return Number(INDICATOR, x)
    if isinstance(x, int):
        return Number(CONSTANT, b=int(x))
    raise TypeError("%r is no number expression" % (x,))


def truth(x):
    """A truth expression of a truth expression or a Python bool."""
    if isinstance(x, Truth):
        return x
    if isinstance(x, bool):
        return true if x else false
    raise TypeError("%r is no truth expression" % (x,))


true, false = Truth(TRUE), Truth(FALSE)


def all_of(*truths):
    """The conjunction. The arguments are truths, or iterables of truths."""
    return _joined(AND, true, truths)


def any_of(*truths):
    """The disjunction, likewise."""
    return _joined(OR, false, truths)


def _joined(kind, unit, truths):
    flat = []
    for t in truths:
        flat += [t] if isinstance(t, Truth) else list(t)
    return unit if not flat else flat[0] if len(flat) == 1 else Truth(kind, *flat)


def total(numbers):
    """The sum of an iterable of numbers."""
    numbers = [number(n) for n in numbers]
    return number(0) if not numbers else numbers[0] if len(numbers) == 1 else Number(SUM, *numbers)


# ---- systems and diagrams

class Assignment(namedtuple("Assignment", "variable value")):
    def to_bytes(self):
        return record(ASSIGNMENT, self.variable) + self.value.to_bytes()


class Pick(namedtuple("Pick", "variable low high")):
    def to_bytes(self):
        return record(PICK, self.variable, self.low, self.high)


class Transition:
    """Its effects are assignments and picks, in the file's order."""

    def __init__(self, index, name, just, guard, effects):
        self.index, self.name, self.just = index, name, just
        self.guard, self.effects = guard, effects

    @property
    def assignments(self):
        return [e for e in self.effects if isinstance(e, Assignment)]

    @property
    def picks(self):
        """By variable."""
        return sorted(e for e in self.effects if isinstance(e, Pick))

    def combinations(self):
        """How many combinations of picks there are."""
        return state_count([(p.low, p.high) for p in self.picks])

    def to_bytes(self):
        return record(TRANSITION, int(self.just)) + self.guard.to_bytes() + b"".join(
            effect.to_bytes() for effect in self.effects)


class System:
    """What stands before the property: variables, start, transitions."""

    def __init__(self):
        self.variables, self.transitions, self.initial = [], [], None

    def variable(self, name, low, high):
        self.variables.append(Variable(len(self.variables), name, low, high))
        return self.variables[-1]

    def start(self, condition):
        self.initial = truth(condition)

    def transition(self, name, guard, *effects, just=False):
        """The effects are made by Variable.set and Variable.pick; all values that are set are
        worked out from the state before."""
        self.transitions.append(
            Transition(len(self.transitions), name, just, truth(guard), effects))
        return self.transitions[-1]

    def __getitem__(self, name):
        """The transition of that name."""
        for transition in self.transitions:
            if transition.name == name:
                return transition
        raise KeyError(name)

    def states(self):
        return state_count([(v.low, v.high) for v in self.variables])

    def names(self):
        return Names([v.name for v in self.variables], [t.name for t in self.transitions])

    def to_bytes(self):
        if self.initial is None:
            raise ValueError("the system has no start")
        return (b"".join(record(RANGE, 0, v.low, v.high) for v in self.variables)
                + record(START) + self.initial.to_bytes()
                + b"".join(t.to_bytes() for t in self.transitions))


class Property:
    def __init__(self, a, claims, b=0):
        self.a, self.b, self.claims = a, b, [truth(claim) for claim in claims]

    def to_bytes(self):
        return record(PROPERTY, self.a, self.b) + b"".join(c.to_bytes() for c in self.claims)


def invariance(q):
    return Property(INVARIANCE, [q])


def wait_for(p, *qs):
    """The qs are q_0, q_1 and so on: the goal first."""
    return Property(WAIT_FOR, [p, *qs], len(qs))


def chain(p, q):
    return Property(CHAIN, [p, q])


class Diagram:
    """A property of a system, with nodes and edges. A node is its number."""

    def __init__(self, system, claim):
        self.system, self.claim = system, claim
        self.nodes, self.edges = [], []

    def node(self, assertion):
        self.nodes.append(truth(assertion))
        return len(self.nodes) - 1

    def edge(self, transition, source, *targets):
        self.edges += [(transition.index, source, target, 0) for target in targets]

    def double(self, transition, source, *targets):
        self.edges += [(transition.index, source, target, 1) for target in targets]

    def to_bytes(self):
        return (self.system.to_bytes() + self.claim.to_bytes()
                + b"".join(record(NODE) + assertion.to_bytes() for assertion in self.nodes)
                + b"".join(record(EDGE, *edge) for edge in self.edges))

    def total(self):
        """How many conditions the diagram has."""
        n, t = len(self.nodes), len(self.system.transitions)
        if self.claim.a == INVARIANCE:
            return 1 + n + 2 * n * t
        if self.claim.a == WAIT_FOR:
            return 1 + n + 2 * (n - 1) * t
        return 2 + 2 * (n - 1) * t + (n - 1)


# ---- reading

# What each kind of expression is, and how many operands of what sort follow.
SHAPES = {CONSTANT: (Number, 0, None), VARIABLE: (Number, 0, None), INDICATOR: (Number, 1, Truth),
          TRUE: (Truth, 0, None), FALSE: (Truth, 0, None), NOT: (Truth, 1, Truth)}
SHAPES.update({kind: (Number, 2, Number)
               for kind in (SUM, DIFFERENCE, PRODUCT, QUOTIENT, REMAINDER)})
SHAPES.update({kind: (Truth, 2, Truth) for kind in (AND, OR, IMPLIES, IFF)})
SHAPES.update({kind: (Truth, 2, Number) for kind in (EQUAL, LESS, AT_MOST)})
KINDS = {sort: [kind for kind, shape in SHAPES.items() if shape[0] is sort]
         for sort in (Number, Truth)}
SORT_NAMES = {Number: "a number expression", Truth: "a truth expression"}

Fields = namedtuple("Fields", "kind a b c d e")
Edge = namedtuple("Edge", "transition source target double")
Stop = namedtuple("Stop", "number record reason")


class Unreadable(Exception):
    def __init__(self, number, at, reason):
        super().__init__(reason)
        self.stop = Stop(number, at, reason)


class Reading:
    """What the bytes of a file say, up to the first record that meets one of the refusals 2 to 6
    and 19. That record is `stop`, None if there is none."""

    def __init__(self, file):
        self.records = [Fields(*r) for r in struct.iter_unpack(
            "<BBhhBB", file[:min(len(file) // 8 * 8, BYTES)])]
        self.excess = ("the file is longer than %d bytes" % BYTES if len(file) > BYTES else
                       "the last record has only %d of its 8 bytes" % (len(file) % 8)
                       if len(file) % 8 else None)
        self.at = 0
        self.variables, self.start, self.transitions = [], None, []
        self.property, self.phases, self.claims = None, 0, []
        self.nodes, self.edges = [], []
        self.expressions = {}   # by the record that each begins at
        self.items = []         # the first record of each item, and what it is
        self.stop = None
        try:
            self._file()
        except Unreadable as unreadable:
            self.stop = unreadable.stop

    def _refuse(self, number, reason):
        raise Unreadable(number, self.at, reason)

    def _here(self, *kinds):
        """Is the next record of one of these kinds?"""
        return self.at < len(self.records) and self.records[self.at].kind in kinds

    def _take(self, kinds, expected, **allowed):
        """The next record, of one of these kinds. A field that is not named must be zero; of one
        that is named, its values are allowed or, if they are None, any."""
        if self.at == len(self.records):
            if self.excess:
                self._refuse(2, self.excess)
            self._refuse(3, "the file ends, where %s must stand" % expected)
        fields = self.records[self.at]
        if fields.kind not in kinds:
            self._refuse(3, "kind %02x stands where %s must" % (fields.kind, expected))
        for name, value in zip("abcde", fields[1:]):
            values = allowed.get(name, (0,))
            if values is not None and value not in values:
                self._refuse(4, "%s, %d, is not allowed here"
                             % ("byte 7" if name == "e" else "field " + name, value))
        return fields

    def _limit(self, count, limit, what):
        if count >= limit:
            self._refuse(5, "one %s more than %d" % (what, limit))

    def _item(self, text):
        self.items.append((self.at, text))
        self.at += 1

    def _file(self):
        while not self.variables or self._here(RANGE):
            fields = self._take((RANGE,), "a variable", b=None, c=None)
            if fields.b > fields.c:
                self._refuse(4, "the range %d..%d is empty" % (fields.b, fields.c))
            self._limit(len(self.variables), VARIABLES, "variable")
            self._item("variable %d" % len(self.variables))
            self.variables.append((fields.b, fields.c))
        self._take((START,), "a variable or the start")
        self._item("the start")
        self.start = self._expression(Truth)
        while not self._here(PROPERTY):
            self._transition()
        self._property()
        fewest, most = (self.phases,) * 2 if self.property == WAIT_FOR else (1, NODES)
        while len(self.nodes) < fewest or self._here(NODE):
            self._take((NODE,), "a node")
            self._limit(len(self.nodes), most, "node")
            self._item("node %d" % len(self.nodes))
            self.nodes.append(self._expression(Truth))
        seen = set()
        while self.at < len(self.records) or self.excess:
            self._edge(seen)

    def _transition(self):
        expected = "an assignment, a pick, a transition or the property" if self.transitions else \
            "a transition or the property"
        fields = self._take((TRANSITION,), expected, a=(0, 1))
        self._limit(len(self.transitions), TRANSITIONS, "transition")
        index = len(self.transitions)
        self._item("transition %d" % index)
        guard = self._expression(Truth)
        self.transitions.append(Transition(index, None, bool(fields.a), guard, []))
        while self._here(ASSIGNMENT, PICK):
            self._effect(self.transitions[-1])

    def _effect(self, transition):
        picks = self._here(PICK)
        named = {"b": None, "c": None} if picks else {}
        fields = self._take((ASSIGNMENT, PICK), "an assignment or a pick", a=None, **named)
        self._named("variable", fields.a, self.variables)
        low, high = self.variables[fields.a]
        if picks and not low <= fields.b <= fields.c <= high:
            self._refuse(4, "the values %d..%d are %s" % (
                fields.b, fields.c, "none" if fields.b > fields.c else
                "not all in the range %d..%d of variable %d" % (low, high, fields.a)))
        if any(effect.variable == fields.a for effect in transition.effects):
            self._refuse(6, "transition %d sets variable %d again" % (transition.index, fields.a))
        self._item("transition %d, its %s variable %d" % (
            transition.index, "pick for" if picks else "assignment to", fields.a))
        transition.effects.append(Pick(fields.a, fields.b, fields.c) if picks else
                                  Assignment(fields.a, self._expression(Number)))

    def _property(self):
        phased = self.records[self.at].a == WAIT_FOR
        fields = self._take((PROPERTY,), "the property", a=PROPERTY_NAMES,
                            b=range(1, NODES + 1) if phased else (0,))
        self._item("the property")
        self.property, self.phases = fields.a, fields.b
        for _ in self.claim_names():
            self.claims.append(self._expression(Truth))

    def claim_names(self):
        if self.property == INVARIANCE:
            return ["q"]
        if self.property == WAIT_FOR:
            return ["p"] + ["q_%d" % i for i in range(self.phases)]
        return ["p", "q"]

    def _edge(self, seen):
        fields = self._take((EDGE,), "an edge" if self.edges else "a node or an edge",
                            a=None, b=None, c=None, d=(0, 1))
        self._named("transition", fields.a, self.transitions)
        self._named("node", fields.b, self.nodes)
        self._named("node", fields.c, self.nodes)
        self._limit(len(self.edges), EDGES, "edge")
        if fields[1:4] in seen:
            self._refuse(6, "there is an edge from node %d to node %d by this transition already"
                         % (fields.b, fields.c))
        seen.add(fields[1:4])
        self._item("edge %d" % len(self.edges))
        self.edges.append(Edge(*fields[1:5]))

    def _named(self, what, index, those):
        if not 0 <= index < len(those):
            self._refuse(4, "%s %d is named, and the file has %s" % (
                what, index, "none" if not those else "only %s 0" % what if len(those) == 1 else
                "%ss 0 to %d" % (what, len(those) - 1)))

    def _expression(self, sort, level=1, divisor=False):
        first = self.at
        named = {"b": None} if self._here(CONSTANT) else {"a": None} if self._here(VARIABLE) else {}
        fields = self._take(KINDS[sort], SORT_NAMES[sort], **named)
        kind = fields.kind
        if kind == VARIABLE:
            self._named("variable", fields.a, self.variables)
        self._limit(level - 1, LEVELS, "level of nesting")
        if divisor and (kind != CONSTANT or fields.b <= 0):
            self._refuse(19, "%s stands where the divisor must, a constant above 0" % (
                "constant %d" % fields.b if kind == CONSTANT else "kind %02x" % kind))
        self.at += 1
        _, count, operand_sort = SHAPES[kind]
        divides = kind in (QUOTIENT, REMAINDER)
        operands = [self._expression(operand_sort, level + 1, divides and i == 1)
                    for i in range(count)]
        self.expressions[first] = sort(kind, *operands, a=fields.a, b=fields.b)
        return self.expressions[first]


# ---- printing

SYMBOLS = {SUM: "+", DIFFERENCE: "-", PRODUCT: "*", QUOTIENT: "//", REMAINDER: "%", AND: "&",
           OR: "|", IMPLIES: "=>", IFF: "<=>", EQUAL: "=", LESS: "<", AT_MOST: "<="}
# How tightly an operator binds; an operand that binds less gets parentheses.
BINDS = {IFF: 1, IMPLIES: 2, OR: 3, AND: 4, NOT: 5, EQUAL: 6, LESS: 6, AT_MOST: 6, SUM: 7,
         DIFFERENCE: 7, PRODUCT: 8, QUOTIENT: 8, REMAINDER: 8}
TIGHTEST = 9


class Names:
    """Names of variables and transitions. A file holds none: where none is given, v0, v1 and on,
    t0, t1 and on."""

    def __init__(self, variables=(), transitions=()):
        self.variables, self.transitions = variables, transitions

    def variable(self, i):
        return self.variables[i] if i < len(self.variables) else "v%d" % i

    def transition(self, i):
        return self.transitions[i] if i < len(self.transitions) else "t%d" % i

    def state(self, values):
        return ", ".join("%s = %d" % (self.variable(i), x) for i, x in enumerate(values))

    def effect(self, effect):
        return "%s := %s" % (self.variable(effect.variable), "any of %d..%d" % effect[1:]
                             if isinstance(effect, Pick) else self.expression(effect.value))

    def edge(self, edge):
        return "edge %d %s> %d by %s" % (edge.source, "=" if edge.double else "-", edge.target,
                                         self.transition(edge.transition))

    def expression(self, e, least=0):
        """The expression as text, in parentheses if it binds less than that.

        >>> v = Variable(0, "v", 0, 9)
        >>> Names().expression((v - 1) // 5 % 2 - 5 * (v % 5))
        '(v0 - 1) // 5 % 2 - 5 * (v0 % 5)'
        """
        text, binds = self._expression(e)
        return text if binds >= least else "(%s)" % text

    def _expression(self, e):
        if e.kind == CONSTANT:
            return str(e.b), TIGHTEST
        if e.kind == VARIABLE:
            return self.variable(e.a), TIGHTEST
        if e.kind in (TRUE, FALSE):
            return ("true" if e.kind == TRUE else "false"), TIGHTEST
        if e.kind == INDICATOR:
            return "[%s]" % self.expression(e.operands[0]), TIGHTEST
        if e.kind == NOT:
            return "~" + self.expression(e.operands[0], TIGHTEST), BINDS[NOT]
        binds = BINDS[e.kind]
        left, right = e.written()
        # &, | and + need no parentheses around their own kind
        return "%s %s %s" % (
            self.expression(left, binds + (e.kind in (IMPLIES, IFF, EQUAL, LESS, AT_MOST))),
            SYMBOLS[e.kind],
            self.expression(right, binds + (e.kind not in (AND, OR, SUM)))), binds


def lines(reading, names=Names()):
    """The text of a file, line by line; the last says where it stops, if it does."""
    for i, (low, high) in enumerate(reading.variables):
        yield "variable %s: %d..%d" % (names.variable(i), low, high)
    if reading.start is not None:
        yield "start %s" % names.expression(reading.start)
    for t in reading.transitions:
        yield "transition %d %s%s: %s" % (t.index, names.transition(t.index),
                                          " just" if t.just else "", names.expression(t.guard))
        for effect in t.effects:
            yield "    " + names.effect(effect)
    if reading.property is not None:
        yield "property %s" % PROPERTY_NAMES[reading.property]
        for name, claim in zip(reading.claim_names(), reading.claims):
            yield "    %s: %s" % (name, names.expression(claim))
    for i, assertion in enumerate(reading.nodes):
        yield "node %d: %s" % (i, names.expression(assertion))
    for edge in reading.edges:
        yield names.edge(edge)
    if reading.stop:
        yield "stops at record %d: %s" % (reading.stop.record, reading.stop.reason)


# ---- states by number

def state_count(ranges):
    count = 1
    for low, high in ranges:
        count *= high - low + 1
    return count


def state_number(state, ranges):
    """The last variable is the fastest, each variable's low end comes first."""
    number = 0
    for x, (low, high) in zip(state, ranges):
        number = number * (high - low + 1) + x - low
    return number


# ---- evaluating

def value(e, state):
    """The value of an expression at a state, an integer or a bool."""
    if e.kind == CONSTANT:
        return e.b
    if e.kind == VARIABLE:
        return state[e.a]
    x, y = ([value(operand, state) for operand in e.written()] + [None, None])[:2]
    return {SUM: lambda: x + y, DIFFERENCE: lambda: x - y, PRODUCT: lambda: x * y,
            QUOTIENT: lambda: x // y, REMAINDER: lambda: x % y,
            INDICATOR: lambda: int(x), TRUE: lambda: True, FALSE: lambda: False,
            NOT: lambda: not x, AND: lambda: x and y, OR: lambda: x or y,
            IMPLIES: lambda: not x or y, IFF: lambda: x == y, EQUAL: lambda: x == y,
            LESS: lambda: x < y, AT_MOST: lambda: x <= y}[e.kind]()


def interval(e, ranges):
    """The interval of a number expression (C3)."""
    if e.kind == CONSTANT:
        return e.b, e.b
    if e.kind == VARIABLE:
        return ranges[e.a]
    if e.kind == INDICATOR:
        return 0, 1
    left, right = (interval(operand, ranges) for operand in e.written())
    if e.kind == QUOTIENT:
        return left[0] // right[0], left[1] // right[0]
    if e.kind == REMAINDER:
        return 0, right[0] - 1
    results = [{SUM: x + y, DIFFERENCE: x - y, PRODUCT: x * y}[e.kind] for x in left for y in right]
    return min(results), max(results)


def assigned(transition, state):
    """The state with the transition's values assigned, all worked out from the state before, and
    none picked."""
    after = list(state)
    for variable, e in transition.assignments:
        after[variable] = value(e, state)
    return after


def successors(transition, state):
    """The successors of a state where the transition is enabled, in the order of their numbers: one
    for each combination of picks.

    >>> v, w = Variable(0, "v", 0, 9), Variable(1, "w", 0, 9)
    >>> list(successors(Transition(0, "t", False, true, [w.pick(0, 1), v.set(v + 1)]), [3, 5]))
    [[4, 0], [4, 1]]
    """
    after, picks = assigned(transition, state), transition.picks
    for values in itertools.product(*(range(p.low, p.high + 1) for p in picks)):
        for pick, x in zip(picks, values):
            after[pick.variable] = x
        yield list(after)


# ---- reports

MEANINGS = {
    0: "accepted",
    1: "the report buffer has fewer than 32 bytes",
    2: "the file is longer than 32,768 bytes, or not a whole number of records",
    3: "a record has a kind that cannot stand there, or the file ends where a record must stand",
    4: "a field has a value that its kind does not allow, or names nothing in the file",
    5: "there is one too many of the variables, transitions, nodes, edges or levels",
    6: "a transition sets a variable twice, or an edge is there twice",
    7: "there are more than 1,048,576 states",
    8: "the interval of a number leaves -1,000,000..1,000,000",
    9: "an edge is not allowed, by itself or with edges before it",
    10: "a node of a chain has no double edge",
    11: "there is no condition of that number",
    12: "there is no state of that number",
    13: "start is broken: a starting state satisfies no node",
    14: "entry is broken: p does not imply some node",
    15: "cover is broken: a node does not imply its q",
    16: "range is broken: a node and a guard hold, and a value leaves its range",
    17: "step is broken: a transition can leave its node, not by an edge",
    18: "enabling is broken: a node does not imply its double transition enabled",
    19: "the divisor of a quotient or remainder is not a constant above 0",
    20: "no state satisfies the start",
    22: "a transition has more than 4,096 combinations of picks",
}
# Those that end a reading.
UNREAD = (2, 3, 4, 5, 6, 19)
STARTS, ENTRY, COVER, IN_RANGE, STEP, ENABLING = range(13, 19)
CONDITION_NAMES = {STARTS: "start", ENTRY: "entry", COVER: "cover", IN_RANGE: "range", STEP: "step",
                   ENABLING: "enabling"}


class Report(namedtuple("Report", "number node transition at values")):
    """A report's fields; `at` is the total, the place or the condition, and 255 is no node or no
    transition."""

    def hex(self):
        values = list(self.values) + [0] * (12 - len(self.values))
        return struct.pack("<BBBBI12h", self.number, self.node, self.transition, 0, self.at,
                           *values).hex()

    @classmethod
    def from_hex(cls, digits):
        try:
            data = bytes.fromhex(digits.strip())
        except ValueError:
            raise ValueError("a report is 64 hexadecimal digits") from None
        if len(data) != 32:
            raise ValueError("a report is 64 hexadecimal digits, not %d" % (2 * len(data)))
        number, node, transition, zero, at, *values = struct.unpack("<BBBBI12h", data)
        if number not in MEANINGS or zero:
            raise ValueError("this is no report of the checker: byte %d is %d"
                             % ((3, zero) if zero else (0, number)))
        return cls(number, node, transition, at, tuple(values))


def accepted(total):
    return Report(0, 255, 255, total, ())


def refused(number, place=0):
    return Report(number, 255, 255, place, ())


def broken(number, condition, *values, node=255, transition=255):
    return Report(number, node, transition, condition, values)


def conditions(reading):
    """The conditions in their order, each as its refusal's number, its node and its transition."""
    nodes, inner = range(len(reading.nodes)), range(1, len(reading.nodes))
    if reading.property == INVARIANCE:
        yield STARTS, 255, 255
        inner = nodes
    else:
        yield ENTRY, 255, 255
    for node in nodes if reading.property != CHAIN else nodes[:1]:
        yield COVER, node, 255
    doubles = {(e.source, e.transition) for e in reading.edges if e.double}
    for node in inner:
        for transition in range(len(reading.transitions)):
            yield IN_RANGE, node, transition
            yield STEP, node, transition
            if (node, transition) in doubles:
                yield ENABLING, node, transition


def overfull(reading):
    """The first transition that has too many combinations of picks; None if there is none."""
    return next((t for t in reading.transitions if t.combinations() > COMBINATIONS), None)


def edge_fault(reading, index):
    """Which edge rule the edge breaks, given those before it; None if it breaks none."""
    edge, kind = reading.edges[index], reading.property
    before = [e for e in reading.edges[:index] if e.source == edge.source]
    if kind == INVARIANCE:
        return "an invariance diagram has single edges only" if edge.double else None
    if edge.source == 0:
        return "no edge may leave node 0, the goal"
    if edge.target > edge.source:
        return "an edge may not go to a higher node"
    if kind == WAIT_FOR:
        return "a wait-for diagram has single edges only" if edge.double else None
    if any(e.transition == edge.transition and e.double != edge.double for e in before):
        return "a transition's edges from one node are all single or all double"
    if not edge.double:
        return None
    if edge.target == edge.source:
        return "a double edge goes to a lower node"
    if not reading.transitions[edge.transition].just:
        return "a double edge stands on a just transition only"
    if any(e.double and e.transition != edge.transition for e in before):
        return "a node has one double transition only"
    return None


def tests_of(report, reading):
    """How many tests lead to the report, of one condition after the other, at one state after the
    other: of all conditions at all states, or up to the state that breaks one."""
    if report.number and report.number not in CONDITION_NAMES:
        return 0
    before = report.at * state_count(reading.variables)
    return before if report.number == 0 else \
        before + state_number(report.values, reading.variables) + 1


class Mismatch(Exception):
    """The report, or the number of tests, does not go with the file."""


def explain(report, reading=None, names=Names(), tests=None):
    """What the report means, as a list of lines; with the file, also why; with the tests, also
    these, where there are any. Raises Mismatch if the report or the tests cannot be this file's."""
    out = _explain(report, reading, names)
    if tests is None:
        return out
    if reading and tests != tests_of(report, reading):
        raise Mismatch("this file and report go with {:,} tests, not {:,}".format(
            tests_of(report, reading), tests))
    return out + ["{:,} test{}".format(tests, "s" * (tests > 1))] * (tests > 0)


def _explain(report, reading, names):
    if report.number == 0:
        if reading and (reading.stop or report.at != len(list(conditions(reading)))):
            raise Mismatch("the report has a total of %d conditions, the file has %s"
                           % (report.at, "none: it cannot be read to its end" if reading.stop else
                              len(list(conditions(reading)))))
        return ["accepted: all %d conditions hold at every state" % report.at]
    out = ["refused, %d: %s" % (report.number, MEANINGS[report.number])]
    if report.number in CONDITION_NAMES:
        return out + _condition(report, reading, names)
    if 3 <= report.number <= 9 or report.number in (19, 22):
        out.append("place: %s %d" % ("variable" if report.number == 7 else "record", report.at))
    elif report.number == 10:
        out.append("place: node %d" % report.at)
    if reading and report.number not in (1, 11, 12):
        out.append(_place(report, reading, names))
    return out


def _place(report, reading, names):
    """What the file has at the place of a refusal without a condition."""
    at, stop = report.at, reading.stop
    if report.number in UNREAD:
        if not stop or report.number > 2 and stop[:2] != (report.number, at):
            raise Mismatch("the report says %d at record %d, but the file %s" % (
                report.number, at, "can be read to its end" if not stop else
                "stops at record %d: %s" % (stop.record, stop.reason)))
        if report.number == 2:
            return reading.excess or "stops at record %d: %s" % (stop.record, stop.reason)
        return ("in or after %s: " % reading.items[-1][1] if reading.items else "") + stop.reason
    if stop:
        raise Mismatch("the report says %d, but the file stops at record %d: %s"
                       % (report.number, stop.record, stop.reason))
    if report.number == 7 and at < len(reading.variables):
        count = state_count(reading.variables[:at + 1])
        if count > STATES:
            return "the ranges up to that of %s make %d states" % (names.variable(at), count)
    over = overfull(reading)
    if report.number == 22 and over and (at, "transition %d" % over.index) in reading.items:
        return "%s picks %s: %d combinations" % (
            names.transition(over.index), " and ".join(
                "%s of %d..%d" % (names.variable(p.variable), p.low, p.high) for p in over.picks),
            over.combinations())
    if report.number == 8 and isinstance(reading.expressions.get(at), Number):
        e = reading.expressions[at]
        low, high = interval(e, reading.variables)
        if low < -BOUND or high > BOUND:
            item = [text for first, text in reading.items if first <= at][-1]
            return "in %s: the interval of %s is %d..%d" % (item, names.expression(e), low, high)
    if report.number == 9:
        index = at - (len(reading.records) - len(reading.edges))
        if 0 <= index < len(reading.edges) and edge_fault(reading, index):
            return "%s: %s" % (names.edge(reading.edges[index]), edge_fault(reading, index))
    if report.number == 10 and 0 < at < len(reading.nodes) and reading.property == CHAIN:
        if not any(e.double and e.source == at for e in reading.edges):
            return "node %d: %s" % (at, names.expression(reading.nodes[at]))
    if report.number == 20 and report.hex() == refused(20).hex():
        # that no state satisfies it is not tried here: there may be a million
        return "start: %s" % names.expression(reading.start)
    raise Mismatch("nothing at this place of the file meets refusal %d" % report.number)


def _condition(report, reading, names):
    """The broken condition and its state; with the file, why that state breaks it."""
    text = "condition %d: %s" % (report.at, CONDITION_NAMES[report.number])
    if report.node != 255:
        text += " of node %d" % report.node
    if report.transition != 255:
        text += " and transition %d" % report.transition
        if names.transition(report.transition) != "t%d" % report.transition:
            text += ", " + names.transition(report.transition)
    if not reading:
        return [text, "state: %s" % names.state(report.values)]
    if reading.stop:
        raise Mismatch("the report names a condition, but the file stops at record %d: %s"
                       % (reading.stop.record, reading.stop.reason))
    if overfull(reading):
        raise Mismatch("the report names a condition, but transition %d has over %d combinations "
                       "of picks" % (overfull(reading).index, COMBINATIONS))
    if list(conditions(reading))[report.at:report.at + 1] != [report[:3]]:
        raise Mismatch("the file has no such %s" % text)
    state = report.values[:len(reading.variables)]
    if any(report.values[len(reading.variables):]) or not all(
            low <= x <= high for x, (low, high) in zip(state, reading.variables)):
        raise Mismatch("the file has no state with the values %s" % (report.values,))
    why = _why(reading, report, state, names)
    if why is None:
        raise Mismatch("the state %s does not break %s" % (names.state(state), text))
    return [text, "state: %s" % names.state(state), "there %s" % why]


def _why(reading, report, state, names):
    """Why the condition is broken at the state; None if it is not."""
    node = report.node
    holds = [value(assertion, state) for assertion in reading.nodes]
    if report.number in (STARTS, ENTRY):
        premise = reading.start if report.number == STARTS else reading.claims[0]
        return None if any(holds) or not value(premise, state) else \
            "the start is true, and no node is" if report.number == STARTS else \
            "p is true, and no node is"
    if not holds[node]:
        return None
    if report.number == COVER:
        q = {INVARIANCE: 0, WAIT_FOR: node + 1, CHAIN: 1}[reading.property]
        return None if value(reading.claims[q], state) else \
            "node %d is true, and %s is not" % (node, reading.claim_names()[q])
    transition = reading.transitions[report.transition]
    name = names.transition(transition.index)
    guard = value(transition.guard, state)
    outside = ["%s = %d, outside %d..%d" % (names.variable(i), x, *reading.variables[i])
               for i, x in enumerate(assigned(transition, state))
               if not reading.variables[i][0] <= x <= reading.variables[i][1]]
    if report.number == IN_RANGE:
        return "node %d and the guard of %s are true, and it would set %s" % (
            node, name, " and ".join(outside)) if guard and outside else None
    if report.number == ENABLING:
        return None if guard and not outside else "node %d is true, and %s is not enabled: %s" % (
            node, name, "its guard is false" if not guard else
            "it would set " + " and ".join(outside))
    return _astray(reading, node, transition, state, names) if guard and not outside else None


def _astray(reading, node, transition, state, names):
    """How the enabled transition leads where it must not from the node, by its lowest successor
    that does; None if none does."""
    edges = [e for e in reading.edges if (e.source, e.transition) == (node, transition.index)]
    own = [] if any(e.double for e in edges) else [node]
    targets = sorted({*own, *(e.target for e in edges)})
    after = next((after for after in successors(transition, state)
                  if not any(value(reading.nodes[t], after) for t in targets)), None)
    if after is None:
        return None
    met = [i for i, assertion in enumerate(reading.nodes) if value(assertion, after)]
    picked = " and ".join("%s = %d" % (names.variable(p.variable), after[p.variable])
                          for p in transition.picks)
    return "node %d is true, and %s %s %s; that %s %s, and must satisfy %s%s" % (
        node, names.transition(transition.index),
        "may pick %s and lead to" % picked if picked else "leads to", names.state(after),
        "successor satisfies" if picked else "satisfies",
        "only %s" % _nodes(met) if met else "no node", "one of the " * (len(targets) > 1),
        _nodes(targets))


def _nodes(numbers):
    return "node%s %s" % ("s" * (len(numbers) > 1), ", ".join(map(str, numbers)))


# ---- the command

def _input(path):
    """The bytes of a file, or of standard input; of a long one, more than are allowed."""
    if path == "-":
        if sys.stdin is None:
            raise ValueError("standard input is closed")
        return sys.stdin.buffer.read(BYTES + 1)
    with open(path, "rb") as f:
        return f.read(BYTES + 1)


def main(arguments):
    parser = argparse.ArgumentParser(
        prog="vd.py", description="Prints a file of the verification diagram checker as text, or "
        "says in words what a report means.",
        usage="vd.py FILE\n       vd.py --report HEX [--tests N] [FILE]")
    parser.add_argument("--report", metavar="HEX", help="the 64 digits that the checker printed")
    parser.add_argument("--tests", metavar="N", type=int, help="the tests that it printed")
    parser.add_argument("file", nargs="?", metavar="FILE", help="- is standard input")
    options = parser.parse_args(arguments)
    if options.report is None and options.file is None:
        parser.error("no file is named")
    if options.tests is not None and (options.report is None or options.tests < 0):
        parser.error("--tests is a number from 0 up that goes with a report")
    if options.report == options.file == "-":
        parser.error("the report and the file cannot both be standard input")
    try:
        reading = Reading(_input(options.file)) if options.file is not None else None
        digits = options.report
        if digits == "-":
            digits = _input("-").decode("ascii", "replace")
        report = Report.from_hex(digits) if digits is not None else None
    except OSError as error:
        print("vd.py: %s: %s" % (options.file, error.strerror), file=sys.stderr)
        return 2
    except ValueError as error:
        print("vd.py: %s" % error, file=sys.stderr)
        return 2
    if report is None:
        print("\n".join(lines(reading)))
        return 1 if reading.stop else 0
    try:
        print("\n".join(explain(report, reading, tests=options.tests)))
    except Mismatch as mismatch:
        print("vd.py: %s" % mismatch, file=sys.stderr)
        return 1
    return 0


if __name__ == "__main__":
    try:
        status = main(sys.argv[1:])
        if sys.stdout is not None:
            sys.stdout.flush()
    except OSError as error:
        # the output cannot be written; what is left of it must not be tried again at exit
        os.dup2(os.open(os.devnull, os.O_WRONLY), sys.stdout.fileno())
        if not isinstance(error, BrokenPipeError):
            print("vd.py: cannot write: %s" % error.strerror, file=sys.stderr)
        status = 2
    except KeyboardInterrupt:
        status = 130
    sys.exit(status)
