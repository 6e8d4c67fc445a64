"""The smallest files: a counter from 0 to 2, and a swap. They are the specification's examples B,
D, H and J; those of its examples that are among the refused files are made by the same functions.
"""

from vd import Diagram, System, accepted, all_of, chain, invariance, true, wait_for
from .example import Example


def counter(guard=None, just=False):
    """A variable v in 0..2 that starts at 0 and counts up. Gives the system, v and the step."""
    s = System()
    v = s.variable("v", 0, 2)
    s.start(v == 0)
    step = s.transition("step", v < 2 if guard is None else guard, v.set(v + 1), just=just)
    return s, v, step


def bounded(guard=None):
    """v is always at most 2."""
    s, v, _ = counter(guard)
    d = Diagram(s, invariance(v <= 2))
    d.node(v <= 2)
    return d


def reaches(just=True, edges=((2, 1), (1, 0))):
    """From every state, v = 2 comes."""
    s, v, step = counter(just=just)
    d = Diagram(s, chain(p=true, q=v == 2))
    for count in (2, 1, 0):
        d.node(v == count)
    for source, target in edges:
        d.double(step, source, target)
    return d


def phases():
    """v passes 0, 1 and 2 in this order."""
    s, v, step = counter(just=True)
    d = Diagram(s, wait_for(v == 0, *(v == count for count in (2, 1, 0))))
    for count in (2, 1, 0):
        d.node(v == count)
    d.edge(step, 2, 1)
    d.edge(step, 1, 0)
    return d


def swap():
    """a and b are swapped at each step, and always differ."""
    s = System()
    a, b = s.variable("a", 0, 1), s.variable("b", 0, 1)
    s.start(all_of(a == 0, b == 1))
    s.transition("swap", true, a.set(b), b.set(a))
    d = Diagram(s, invariance(a != b))
    d.node(a != b)
    return d


EXAMPLES = [
    Example("b", """
        The specification's example B, a counter: v lies in 0..2, starts at 0, and the step adds 1
        while v is less than 2. The claim is an invariance: v is at most 2 at every position of
        every run from the start. The checker accepts. The one node is `v <= 2`: the start satisfies
        it, it implies the claim, its guard keeps v + 1 in range, and the step keeps it.
        """, bounded(), accepted(4)),
    Example("d", """
        The specification's example D: the counter with a just step, and a chain: wherever a run is,
        `v = 2` comes, if the step is not for ever enabled without being taken. The checker accepts.
        The nodes count the steps that are left, two at v = 0 and one at v = 1; from each the step
        leads to the node below, and in each it is enabled.
        """, reaches(), accepted(8)),
    Example("h", """
        The specification's example H: the counter and a wait-for: from v = 0 on, up to the first
        position with v = 2, v is 0 for a while and then 1 for a while, never 0 again after 1. The
        checker accepts. Each phase has a node, and the step leads from each to the phase below.
        """, phases(), accepted(8)),
    Example("j", """
        The specification's example J: two variables whose values a single step swaps. They start as
        0 and 1, and the claim is an invariance: they always differ. The checker accepts, because
        both values are worked out from the state before the step; assigned one after the other, the
        first would be lost.
        """, swap(), accepted(4)),
]
