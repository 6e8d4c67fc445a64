"""Models of systems: editors who share a page, clocks, readers in a ring of pages, philosophers,
desks on which volumes are laid."""

from models.pages import NAME, WAITS, Pages, names
from vd import Diagram, System, all_of, any_of, invariance

# A philosopher's phases: from LEFT to EATS it has the left fork, from EATS to RIGHT the right one.
THINKS, HUNGRY, LEFT, EATS, RIGHT = range(5)
DOWN = 0
# The pages of a ring, and of a lap.
RING, LAP = 101, 100
# The desks, and the volumes that a desk may get, of twice as many.
DESKS, VOLUMES = 6, 4


def pages_one_node():
    """Six editors and the claim of pages-largest with one node. The last editor takes the page while
    the first, who has it, is about to give it back: the step of transition 26 of 30 is broken, where
    the slowest variable has its high end."""
    s = Pages(6, 3, fair=False)
    s["lock5"].guard = all_of(s.pc[5] == WAITS, any_of(s.lock == 0, s.pc[0] == NAME))
    parts = names(s)
    d = Diagram(s, parts.claim)
    d.node(any_of(*parts.nodes))
    return d


def pages_no_start():
    """The six editors of pages-largest; the page is free at the start, and the first editor's."""
    s = Pages(6, 3, fair=False)
    s.start(all_of(s.initial, s.lock == s.mine(0)))
    return names(s)


def clocks(broken=False):
    """Two clocks that count to 999 and drift at most 10 apart. A broken second one, when the first
    stands at 980, ticks once too often: the last condition is broken, at state 980,990."""
    s = System()
    x, y = s.variable("x", 0, 999), s.variable("y", 0, 999)
    near = all_of(x - y <= 10, y - x <= 10)
    s.start(all_of(x == 0, y == 0))
    s.transition("tick x", all_of(x < 999, x - y < 10), x.set(x + 1))
    drift = y - x < 10
    s.transition("tick y", all_of(y < 999, any_of(drift, x == 980) if broken else drift),
                 y.set(y + 1))
    d = Diagram(s, invariance(near))
    d.node(near)
    return d


def ring(broken=False):
    """Three readers in a ring of pages, who go on where no other one is on the next page: no two are
    on one page. A broken first one doesn't look before it goes round: the step of transition 0 is
    broken, at state 1,020,101."""
    s = System()
    page = [s.variable("page%d" % i, 0, RING - 1) for i in range(3)]

    def further(v, least):
        return all_of((other - v) % RING >= least for other in page if other is not v)
    s.start(all_of(v == i for i, v in enumerate(page)))
    for v in page:
        free = further(v, 2)
        s.transition("read", any_of(free, v == RING - 1) if broken and v is page[0] else free,
                     v.set((v + 1) % RING))
    apart = all_of(further(page[0], 1), page[1] != page[2])
    d = Diagram(s, invariance(apart))
    d.node(apart)
    return d


def laps():
    """Two readers go through the same pages ten times, and neither begins a lap before the other has
    begun the one before it: they are never two laps apart."""
    s = System()
    x, y = s.variable("x", 0, 10 * LAP - 1), s.variable("y", 0, 10 * LAP - 1)
    near = all_of(x // LAP <= y // LAP + 1, y // LAP <= x // LAP + 1)
    s.start(all_of(x == 0, y == 0))
    for v, other in ((x, y), (y, x)):
        s.transition("read", all_of(v < v.high, any_of(v % LAP < LAP - 1,
                                                       v // LAP <= other // LAP)), v.set(v + 1))
    d = Diagram(s, invariance(near))
    d.node(near)
    return d


def philosophers():
    """Four dining philosophers, who take first the left fork, then the right one: no two neighbours
    eat. A fork is down, or 1 more than the philosopher who has it."""
    s, seats = System(), range(4)
    pc = [s.variable("pc%d" % i, THINKS, RIGHT) for i in seats]
    fork = [s.variable("fork%d" % i, DOWN, len(seats)) for i in seats]
    s.start(all_of([v == THINKS for v in pc], [v == DOWN for v in fork]))
    for i in seats:
        left, right, mine = fork[i], fork[i - 1], 1 + i
        s.transition("hunger", pc[i] == THINKS, pc[i].set(HUNGRY))
        s.transition("left", all_of(pc[i] == HUNGRY, left == DOWN), pc[i].set(LEFT), left.set(mine))
        s.transition("right", all_of(pc[i] == LEFT, right == DOWN), pc[i].set(EATS),
                     right.set(mine))
        s.transition("put left", pc[i] == EATS, pc[i].set(RIGHT), left.set(DOWN))
        s.transition("put right", pc[i] == RIGHT, pc[i].set(THINKS), right.set(DOWN))
    d = Diagram(s, invariance(all_of(~all_of(pc[i - 1] == EATS, pc[i] == EATS) for i in seats)))
    d.node(all_of(all_of((pc[i].among(LEFT, EATS)) == (fork[i] == 1 + i),
                         (pc[i].among(EATS, RIGHT)) == (fork[i - 1] == 1 + i)) for i in seats))
    return d


def desks(broken=False):
    """A clerk lays a volume on each of six desks, any of the lower four on an even one, any of the
    upper four on an odd one: neighbours never get the same. Or, broken, it is claimed that not all
    get the last that they may get: the step of transition 1 is broken by one of its 4,096
    combinations, at state 803,076, the first of the node where it is enabled.

    The clerk waits until the last hour is over and the first desk has volume 0. So the step is
    enabled in 1,024 states of the node, and there are 4 million successors, which the loops alone
    test in a second or two; without the second part of the guard they would be 17 million."""
    s = System()
    hour = s.variable("hour", 0, 3)
    desk = [s.variable("desk%d" % i, 0, 2 * VOLUMES - 1) for i in range(DESKS)]
    least = [i % 2 * VOLUMES for i in range(DESKS)]
    s.start(all_of(hour == 0, *(v == low for v, low in zip(desk, least))))
    s.transition("read", hour < 3, hour.set(hour + 1))
    s.transition("lay", all_of(hour == 3, desk[0] == 0), hour.set(0),
                 *(v.pick(low, low + VOLUMES - 1) for v, low in zip(desk, least)))
    own = all_of((v >= low) & (v < low + VOLUMES) for v, low in zip(desk, least))
    some = ~all_of(v == low + VOLUMES - 1 for v, low in zip(desk, least))
    d = Diagram(s, invariance(some if broken else all_of(
        v != other for v, other in zip(desk, desk[1:]))))
    d.node(all_of(own, some) if broken else own)
    return d
