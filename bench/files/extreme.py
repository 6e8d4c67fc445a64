"""What a file can ask for at most: of time, by conditions at a million states; of the stack, by
nesting."""

from vd import (AND, EQUAL, IFF, IMPLIES, NOT, OR, PRODUCT, SUM, Diagram, Number, System, Truth,
                false, invariance, number, total, true)
from .adversarial import LARGE, diagram, flips, nested, twelve

ZERO, ONE = number(0), number(1)
# The greatest constant, above all that the files here count.
GREATEST = 32767


def most(truth, nodes, transitions):
    """All nodes and guards are a truth of the variables that is true in every state, so that every test
    evaluates all of its condition."""
    s = twelve(LARGE)
    t = truth(s.variables)
    return diagram(s, t, [(t, flips(s, LARGE, i)) for i in range(transitions)], t, [t] * nodes)


def decided(variables):
    """All values are in their ranges: intervals decide it on the whole space."""
    return nested(AND, [v <= v.high for v in variables])


def undecided(variables):
    """A sum is that of the same numbers backward, with as many records: intervals decide it in single
    states only."""
    return total(variables) == total(variables[::-1])


def smallest():
    s = System()
    s.variable("v", 0, 0)
    s.start(true)
    d = Diagram(s, invariance(true))
    d.node(true)
    return d


# Truths around a truth that are as true as it, one level more or, through a number, two.
AROUND = {
    "not": lambda t: Truth(NOT, t),
    "and-left": lambda t: Truth(AND, t, true), "and-right": lambda t: Truth(AND, true, t),
    "or-left": lambda t: Truth(OR, t, false), "or-right": lambda t: Truth(OR, false, t),
    "implies": lambda t: Truth(IMPLIES, true, t),
    "iff-left": lambda t: Truth(IFF, t, true), "iff-right": lambda t: Truth(IFF, true, t),
    "equal-left": lambda t: Truth(EQUAL, number(t), ONE),
    "equal-right": lambda t: Truth(EQUAL, ONE, number(t)),
}
# Numbers around a number that are worth as much, one level more.
WORTH = {
    "sum-left": lambda n: Number(SUM, n, ZERO), "sum-right": lambda n: Number(SUM, ZERO, n),
    "product-left": lambda n: Number(PRODUCT, n, ONE),
    "product-right": lambda n: Number(PRODUCT, ONE, n),
    "quotient": lambda n: n // 1, "remainder": lambda n: n % GREATEST,
}


def repeated(times, around, x):
    for _ in range(times):
        x = around(x)
    return x


def picked(broken):
    """As `deep`, and the step picks a value of each variable: the high end alone, or one of two, so
    that there are 4,096 combinations."""
    d = deep("sum-right", False)
    d.system.transitions[0].effects = [v.pick(v.high - broken, v.high) for v in d.system.variables]
    return d


def deep(shape, broken):
    """Every expression nests 16 levels, in that shape, and is true at the last state alone, where all
    variables have their high ends: found by as many halves as there can be. The step stays there
    or, broken, leaves it."""
    s = twelve(LARGE)
    high = number(sum(v.high for v in s.variables))
    last = total(s.variables)
    if shape in AROUND:
        inner = repeated(7 if "equal" in shape else 14, AROUND[shape], true)
        truth, value = Truth(AND, last == high, inner), number(inner)
    else:
        truth = repeated(10, WORTH[shape], last) == high
        value = repeated(15, WORTH[shape], s.variables[11])
    leaves = [s.variables[10].set(ZERO)] if broken else []
    return diagram(s, truth, [(truth, [s.variables[11].set(value)] + leaves)], truth, [truth])
