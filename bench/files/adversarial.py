"""Files made against a check of whole boxes of states: intervals decide their conditions only at
single states, or evaluating a box costs much more than evaluating a state."""

from vd import AND, IFF, OR, Diagram, System, Truth, all_of, invariance, total, true

# Twelve variables, so many of them in 0..3 and the rest in 0..1.
SMALL, MIDDLE, LARGE = 0, 4, 8


def nested(kind, truths):
    """The truths joined to the right, one level for each."""
    *others, joined = truths
    for t in reversed(others):
        joined = Truth(kind, t, joined)
    return joined


def parity(variables, odd=False):
    """Whether the count of the variables that are not 0 is even. No interval tells before a box is a
    single state."""
    even = nested(IFF, [v == 0 for v in variables])
    return ~even if odd else even


def tree(depth, leaf, at=0):
    """A tree of `or` over `and`, with 2 to the depth leaves."""
    if depth == 0:
        return leaf(at)
    return Truth(OR if depth % 2 else AND, tree(depth - 1, leaf, 2 * at),
                 tree(depth - 1, leaf, 2 * at + 1))


def twelve(wide):
    """A system with twelve variables; there are 2 to the (12 + wide) states."""
    s = System()
    for i in range(12):
        s.variable("v%d" % i, 0, 3 if i < wide else 1)
    return s


def square():
    """Two variables in 0..255."""
    s = System()
    return s, s.variable("x", 0, 255), s.variable("y", 0, 255)


def flip(s, *variables):
    """Assignments that exchange a variable's ends."""
    return [s.variables[i].set(s.variables[i].high - s.variables[i]) for i in variables]


def flips(s, first, t):
    """Assignments that flip two variables in 0..1, so that the parity stays."""
    count = 12 - first
    return flip(s, first + t % count, first + (t + 1) % count)


def diagram(s, start, transitions, q, nodes):
    s.start(start)
    for guard, effects in transitions:
        s.transition("t", guard, *effects)
    d = Diagram(s, invariance(q))
    for node in nodes:
        d.node(node)
    return d


def parities(nodes, transitions, wide=MIDDLE, leave=0, plain=True):
    """Nodes and guards are parities that leave out the first variables, so many; steps keep them. q is
    true, or unless it is to be plain: even or odd, which intervals don't see either."""
    s = twelve(wide)
    counted = s.variables[leave:]
    backward = counted[::-1]
    return diagram(
        s, parity(counted),
        [(parity(backward, t // 2 % 2), flips(s, wide, t)) for t in range(transitions)],
        true if plain else Truth(OR, parity(counted), parity(backward, True)),
        [parity(counted, n % 2) for n in range(nodes)])


# States of even parity, early or late among 2 to the 20, by the values of their variables.
PLACES = {"early": [0] * 10 + [1, 1], "middle": [2] + [0] * 10 + [1], "late": [3] * 8 + [1] * 4}


def parity_broken(values):
    """One parity as start and node; the node leaves out the state of these values, so that the start,
    the first condition, is broken there."""
    s = twelve(LARGE)
    here = nested(AND, [v == x for v, x in zip(s.variables, values)])
    return diagram(s, parity(s.variables), [], true, [Truth(AND, parity(s.variables[::-1]), ~here)])


def parity_broken_step(nodes, transitions):
    """Parities, and the last transition flips a single variable where all others have their high
    ends. Of an even count of nodes the last, an odd one, has no edge for it: the last condition is
    broken, at the last state but one."""
    d = parities(nodes, transitions, LARGE)
    s, last = d.system, d.system.transitions[-1]
    last.guard, last.effects = all_of(v == v.high for v in s.variables[:-1]), flip(s, 11)
    for n in range(nodes - 1):
        d.edge(last, n, n ^ 1)
    return d


def rare():
    """A node holds for one value of the last three variables, and a parity: rarely."""
    s = twelve(MIDDLE)

    def node(n):
        return nested(AND, [parity(s.variables[:8], n % 2)]
                      + [s.variables[11 - i] == (n >> i & 1) for i in range(3)])
    start = nested(AND, [parity(s.variables[:8])] + [v == 0 for v in s.variables[9:]])
    d = diagram(s, start, [(true, flip(s, 11 - t % 3, 4)) for t in range(8)], true,
                [node(n) for n in range(8)])
    for n in range(8):
        for t in s.transitions:
            d.edge(t, n, n ^ 1 << t.index % 3)
    return d


def identity(nodes, transitions):
    """(x + y)(x - y) = x x - y y, everywhere."""
    s, x, y = square()
    same = (x + y) * (x - y) == x * x - y * y
    return diagram(s, same, [(s.variables[t % 2] < 255 - t,
                              [s.variables[t % 2].set(s.variables[t % 2] + 1)])
                             for t in range(transitions)], same, [same] * nodes)


def ring_order():
    """Three readers in a ring of pages, who look only at the one in front: they stay in their order.
    The ways from each to the next are one round together, in which no interval sees that each page
    is added once and taken away once."""
    s, pages = System(), 101
    readers = [s.variable("page%d" % i, 0, pages - 1) for i in range(3)]
    ways = [(readers[(i + 1) % 3] - v) % pages for i, v in enumerate(readers)]
    order = all_of(*(way >= 1 for way in ways), total(ways) == pages)
    return diagram(s, all_of(v == i for i, v in enumerate(readers)),
                   [(way >= 2, [v.set((v + 1) % pages)]) for v, way in zip(readers, ways)],
                   order, [order])


def giant(transitions):
    """A conjunct that is never true, 2 v = 1, and then one of 2,047 records that is undecided where
    the first is. Beside them a value that no step changes, so that there is a start."""
    s = twelve(MIDDLE)
    last, here = s.variables[11], s.variables[0] == 0
    never = 2 * last == 1
    huge = tree(9, lambda at: last == (at + 1) % 2)
    return diagram(s, Truth(OR, Truth(AND, never, parity(s.variables)), here),
                   [(true, flips(s, MIDDLE, t)) for t in range(transitions)], here,
                   [Truth(OR, Truth(AND, never, huge), here)])


def hostile(transitions):
    """A conjunct that is never true, which no interval tells, and then one of 2,047 records that is
    undecided on all boxes at the diagonal. A start as in `giant`."""
    s, x, y = square()
    here = y == 0
    never = (x + y) * (x - y) + 1 == x * x - y * y
    huge = tree(9, lambda at: x == y if at % 2 else x <= y)
    return diagram(s, Truth(OR, never, here), [(true, flip(s, 0))] * transitions, here,
                   [Truth(OR, Truth(AND, never, huge), here)])


def even_and_odd(last=False):
    """A start of even and of odd parity, which no state has and no interval tells; or one that the
    last state satisfies, and no other."""
    s = twelve(LARGE)
    odd = parity(s.variables[::-1], True)
    if last:
        odd = Truth(OR, odd, nested(AND, [v == v.high for v in s.variables]))
    return diagram(s, Truth(AND, parity(s.variables), odd), [], true, [true])


def identity_picked():
    """The identity, and a step that picks any pair of values: 4,096 combinations, in which intervals
    don't see it. The step is enabled in 1,024 states, so that there are 4 million successors to
    test, some tenths of a second; in all states they would be 17 million."""
    s = System()
    x, y = s.variable("x", 0, 63), s.variable("y", 0, 63)
    same = (x + y) * (x - y) == x * x - y * y
    return diagram(s, same, [(x < 16, [x.pick(), y.pick()])], same, [same])


def parity_picked():
    """A node for even and one for odd, and a step that picks twelve bits anew: each of the 4,096
    successors is in one of the nodes, and intervals tell of single ones only. The step is enabled in
    256 states, so that there are a million successors to test, some tenths of a second."""
    s = twelve(SMALL)
    d = diagram(s, parity(s.variables),
                [(all_of(v == 0 for v in s.variables[:4]), [v.pick() for v in s.variables])], true,
                [parity(s.variables), parity(s.variables, True)])
    for n in (0, 1):
        d.edge(s.transitions[0], n, 1 - n)
    return d


def picked_last():
    """A node that is true in all states but the last, by a sum that is that of the same numbers
    backward. The step leads there by one of its 4,096 combinations, from the last of the 256 states
    where it is enabled; intervals don't see of the other million successors that they are right."""
    s = System()
    slow, *others = [s.variable("v0", 0, 255)] + [s.variable("v%d" % i, 0, 7) for i in range(1, 5)]
    forward, backward = total(s.variables), total(s.variables[::-1])
    node = Truth(AND, forward == backward, ~(forward == sum(v.high for v in s.variables)))
    return diagram(s, slow == 0, [(all_of(v == 0 for v in others), [v.pick() for v in others])],
                   true, [node])
