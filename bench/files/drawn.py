"""Files of random expressions over four variables: accepted ones, and ones whose last condition
alone is broken, at one state. A size is a number of records."""

from vd import (AND, AT_MOST, CONSTANT, EQUAL, IMPLIES, INDICATOR, NOT, OR, SUM, TRUE, VARIABLE,
                Diagram, Number, System, Truth, chain, invariance, number, true)

MASK = (1 << 64) - 1


class Draft(System):
    """A system that has variables so far, and draws expressions over them."""

    def __init__(self, seed, bits):
        """There are 2 to the bits states, at least 2 to the 14."""
        super().__init__()
        self.random = seed
        for low, high in ((0, 31), (-16, 15), (0, 15), (0, (1 << bits - 14) - 1)):
            self.variable("v%d" % len(self.variables), low, high)

    def below(self, limit):
        """A number below the limit (splitmix64)."""
        self.random = self.random + 0x9e3779b97f4a7c15 & MASK
        mixed = self.random
        mixed = (mixed ^ mixed >> 30) * 0xbf58476d1ce4e5b9 & MASK
        mixed = (mixed ^ mixed >> 27) * 0x94d049bb133111eb & MASK
        return ((mixed ^ mixed >> 31) >> 33) % limit

    def split(self, both):
        """The size of the first of two operands. Those of large ones are about even, so that the
        nesting stays within 16 levels."""
        return 1 + self.below(both - 1) if both < 8 else both // 3 + self.below(both // 3)

    def draw_number(self, size):
        """A number. Only constants and variables are multiplied, so that every interval stays in
        bounds."""
        if size == 1:
            if self.below(2) == 0:
                return Number(CONSTANT, b=self.below(200) - 100)
            return Number(VARIABLE, a=self.below(len(self.variables)))
        if size == 2 or size >= 4 and self.below(5) == 0:
            return Number(INDICATOR, self.draw(size - 1))
        kind = SUM + self.below(3 if size == 3 else 2)
        first = self.split(size - 1)
        return Number(kind, self.draw_number(first), self.draw_number(size - 1 - first))

    def draw(self, size):
        """A truth. Small ones are mostly comparisons, large ones mostly connectives."""
        if size == 1:
            return Truth(TRUE + self.below(2))
        if size == 2 or self.below(10) == 0:
            return Truth(NOT, self.draw(size - 1))
        first = self.split(size - 1)
        if self.below(10) < (3 if size < 7 else 7):
            kind = AND + self.below(4)
            return Truth(kind, self.draw(first), self.draw(size - 1 - first))
        kind = EQUAL + self.below(3)
        return Truth(kind, self.draw_number(first), self.draw_number(size - 1 - first))

    def always(self, size):
        """A truth that is true in every state, though its operands are evaluated: an indicator is
        at least 0."""
        return Truth(AT_MOST, number(0), Number(INDICATOR, self.draw(size - 3)))

    def middle(self, v):
        """The middle of a variable's range; the lower half ends with it."""
        return (v.low + v.high) >> 1

    def half(self, v, size):
        """A truth of at least 5 records that is true in about half of the states: the variable is
        in the lower half of its range exactly if something else is true."""
        return (v <= self.middle(v)) == self.draw(size - 4)

    def lower(self, v, size):
        """A truth of at least 5 records that is true exactly in the lower half of a variable."""
        return (v <= self.middle(v)) == (true if size < 8 else self.always(size - 4))

    def upper(self, v, size):
        """A truth of at least 9 records that is true in about half of the states in the upper half
        of a variable, and nowhere else."""
        return Truth(AND, v > self.middle(v), self.half(self.after(v), size - 4))

    def all_but(self, extreme, size):
        """A truth of about so many records, at least 10, that is false only where variable 3 less
        the sum of the others is such a number: in a single state, if that is the least or the
        greatest."""
        a, b, c, d = self.variables
        but = d - (a + b + c) != extreme
        return but if size < 15 else Truth(AND, but, self.always(size - 11))

    def after(self, v):
        """The variable after another; the first is after the last."""
        return self.variables[(v.index + 1) % len(self.variables)]

    def count(self, v, size):
        """A transition: where a variable is below its end, 1 or 0 is added to it."""
        other = self.after(v)
        guard = Truth(AND, v < v.high, true if size < 9 else self.half(other, size - 4))
        added = self.draw(size - 3) if size < 8 else self.half(other, size - 3)
        self.transition("count", guard, v.set(Number(SUM, v, number(added))))

    def turn(self, size):
        """A transition that is enabled in every state: the ends of variable 3, whose low end is 0,
        and all its values between are exchanged."""
        guard, v = self.always(size), self.variables[3]
        one = number(1) if size < 9 else number(self.always(size - 5))
        self.transition("turn", guard, v.set(v.high - v * one))


def all_edges(diagram):
    """The edges of every transition from every node to every node."""
    for transition in diagram.system.transitions:
        for source in range(len(diagram.nodes)):
            diagram.edge(transition, source, *range(len(diagram.nodes)))
    return diagram.to_bytes()


def accepted(bits, nodes, transitions, size):
    """An invariance of 2 to the bits states with one node or four; the expressions are of about
    that size."""
    s = Draft(1, bits)
    s.start(s.half(s.variables[0], size))
    for i in range(transitions):
        s.count(s.variables[i % len(s.variables)], size)
    d = Diagram(s, invariance(s.always(size)))
    first, second = s.half(s.variables[1], 7), s.half(s.variables[2], 6)
    if nodes == 1:
        d.node(s.always(size))
    else:
        # One node for each of the cases of two truths, so that every state is in one.
        for x in range(nodes):
            d.node(Truth(AND, ~first if x & 1 else first, ~second if x & 2 else second))
    return all_edges(d)


def accepted_chain(bits):
    """A chain with four nodes, eight values of variable 0 each, and a transition that goes to the
    next; the expressions have 15 records."""
    s = Draft(2, bits)
    v = s.variables[0]
    s.start(s.half(s.variables[1], 15))
    guard = Truth(IMPLIES, v < 8, s.draw(11))
    t = s.transition("down", guard, v.set(v - 8 * number(s.always(10))), just=True)
    p = s.half(s.variables[2], 15)
    d = Diagram(s, chain(p, Truth(OR, v < 8, s.draw(11))))
    for x in range(4):
        d.node(Truth(AND, Truth(AND, v < 8 * x + 8, v >= 8 * x), s.always(7)))
    for x in range(1, 4):
        d.double(t, x, x - 1)
    return d.to_bytes()


def broken(bits, nodes, transitions, size, last=False):
    """An invariance with at most four nodes and transitions, whose last condition alone is broken,
    in one state alone: state 0 or, with one node and one transition, the last state. The last node
    has at least 10 records."""
    s = Draft(3, bits)
    # The breaking state has the near ends of all variables. The state with the far end of variable
    # 3 and the other near ends is in no node, and the last transition leads there.
    near = [v.high if last else v.low for v in s.variables]
    far, raised = (s.variables[3].low, 0) if last else (s.variables[3].high, 3)
    # The state in no node has the high end of this variable, so that it is no starting state.
    s.start(s.lower(s.variables[raised], size))
    # These only add, and the state in no node has the low ends of their variables.
    for v in s.variables[:transitions - 1]:
        s.count(v, size)
    s.turn(size)
    d = Diagram(s, invariance(s.always(size)))
    # The breaking state is in none of these: it has the low ends of their variables.
    for v in s.variables[:nodes - 1]:
        d.node(s.upper(v, size))
    d.node(s.all_but(far - sum(near[:3]), size))
    return all_edges(d)
