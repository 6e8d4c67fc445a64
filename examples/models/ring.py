"""Five pages of a transcript in a ring: a corrector writes round after round, a reader follows.

The corrector counts the pages that it has done, over two rounds: it is on page `done % 5` of round
`done // 5`. The reader has a page and a round of its own, and carries from one to the other by
remainder and quotient. Rounds are numbered 0 and 1 in turn.
"""

from vd import Diagram, System, accepted, all_of, any_of, chain, invariance, total, true
from .example import Example

PAGES, ROUNDS = 5, 2
COUNTED = PAGES * ROUNDS


def floored(n):
    """Quotient and remainder by the pages, rounded down."""
    return n // PAGES, n % PAGES


def truncated(n):
    """As C has them: the quotient is worked out without the sign, which it then gets back; the
    remainder is what is left, below 0 where n is."""
    quotient = (n >= 0) * (n // PAGES) - (n < 0) * ((0 - n) // PAGES)
    return quotient, n - PAGES * quotient


def mended(n):
    """The quotient as C has it, and its remainder brought back into the ring by a second one."""
    quotient, remainder = truncated(n)
    return quotient, (remainder + PAGES) % PAGES


class Ring(System):
    """The rules. Neither goes to the page where the other is. `divide` works out the step back.
    With `forward` there is none, nothing is left out, and both go on where they can."""

    def __init__(self, divide=floored, forward=False):
        super().__init__()
        self.done = self.variable("done", 0, COUNTED - 1)
        self.page = self.variable("page", 0, PAGES - 1)
        self.round = self.variable("round", 0, ROUNDS - 1)
        self.start(all_of(self.done == 1, self.page == 0, self.round == 0))
        self.transition("correct", self.page != (self.done + 1) % PAGES,
                        self.done.set((self.done + 1) % COUNTED), just=forward)
        self.move("read", self.page + 1, just=forward)
        if not forward:
            self.move("back", self.page - 1, divide)
            self.transition("skip", all_of(self.round != self.done // PAGES, self.done % PAGES > 0),
                            self.page.set(0), self.round.set(self.done // PAGES))

    def move(self, name, page, divide=floored, just=False):
        """The reader goes to a page, which may be behind the last or before the first."""
        carried, rest = divide(page)
        self.transition(name, page % PAGES != self.done % PAGES, self.page.set(rest),
                        self.round.set((self.round + carried) % ROUNDS), just=just)

    def ahead(self):
        """By how many pages the corrector is ahead of the reader."""
        return (self.done - (PAGES * self.round + self.page)) % COUNTED

    def orderly(self):
        """The reader is on an earlier page of the corrector's round, or on a later one of the round
        before."""
        writes, same = self.done % PAGES, self.round == self.done // PAGES
        return any_of(all_of(same, self.page < writes), all_of(~same, self.page > writes))


def apart(divide=floored):
    """The reader is never where the corrector writes. A node for each number of pages ahead."""
    s = Ring(divide)
    d = Diagram(s, invariance(s.orderly()))
    ahead = {n: d.node(s.ahead() == n) for n in range(1, PAGES)}
    for n in ahead:
        for name, targets in (("correct", [n + 1]), ("read", [n - 1]), ("back", [n + 1]),
                              ("skip", range(1, n))):
            d.edge(s[name], ahead[n], *(ahead[m] for m in targets if m in ahead))
    return d


def arrives(page=2):
    """The reader comes to a page. Two nodes for each number of pages that are left: it can go on,
    or the corrector is on the next page and goes on first."""
    s = Ring(forward=True)
    d = Diagram(s, chain(p=s.orderly(), q=s.page == page))
    left, below = (page - s.page) % PAGES, [d.node(s.page == page)]
    for n in range(1, PAGES):
        free = d.node(all_of(left == n, s.ahead() > 1, s.ahead() < PAGES))
        held = d.node(all_of(left == n, s.ahead() == 1))
        d.double(s["read"], free, *below)
        d.double(s["correct"], held, free)
        below = [free, held]
    return d


def sizes(by_size=False):
    """A ring that grows and shrinks between one page and five: the reader stays in it. The reader
    goes on by the remainder for each size or, with `by_size`, by that of the variable."""
    s = System()
    page, size = s.variable("page", 0, PAGES - 1), s.variable("size", 1, PAGES)
    s.start(all_of(page == 0, size == PAGES))
    s.transition("read", true, page.set((page + 1) % size if by_size else total(
        (size == n) * ((page + 1) % n) for n in range(1, PAGES + 1))))
    s.transition("grow", size < PAGES, size.set(size + 1))
    s.transition("shrink", page + 1 < size, size.set(size - 1))
    d = Diagram(s, invariance(page < size))
    d.node(page < size)
    return d


EXAMPLES = [
    Example("ring-apart", """
        Five pages of a transcript lie in a ring; behind page 4 comes page 0 again, for new text. A
        corrector writes one page after the other, round after round, and a reader follows. done is
        how many pages the corrector has done, counted over two rounds: it is writing page
        `done % 5` of round `done // 5`. The reader is on a page of a round, goes on by a page
        (read), goes back by one to see it again (back), or, where it is a round behind, leaves out
        the rest of that (skip). Neither goes to the page where the other is. The claim is an
        invariance: the reader is on a page before the corrector's in the same round, or behind it
        in the round before; so it never reads the page that is being written. The checker accepts.

        The nodes are how far the corrector is ahead, one page in node 0 to four in node 3. correct
        and back lead to the node above, read to the one below, skip to any below; in node 0 read is
        not enabled, in node 3 neither correct nor back, for the next page is the other's.

        The next page is a remainder by 5, and what goes over to the round the quotient. // rounds
        down and % is never below 0. So on from page 4, `(4 + 1) % 5` is page 0 and `(4 + 1) // 5`
        adds 1 to the round; back from page 0, `(0 - 1) % 5` is page 4 and `(0 - 1) // 5` is -1, the
        round before. refused-16-truncated and refused-17-truncated show what comes of another
        rounding.
        """, apart(), accepted(37)),
    Example("ring-arrives", """
        The ring of ring-apart with a reader who only goes on and leaves out nothing, and a chain:
        the reader comes to page 2, where the witness's words stand. It does from wherever the
        corrector is one to four pages ahead, on every just run, that is, if neither of them stands
        still for ever where it could go on. The checker accepts.

        The nodes count the pages that are left, `(2 - page) % 5`: from page 1 one, from page 3
        four, as the way leads over the end of the ring. Each number has two nodes. In the lower one
        the reader can go on, and read leads to the nodes of the number below. In the upper one the
        corrector is on the next page; it goes on first, and correct leads to the lower one.

        p is the claim of ring-apart. The steps here are among those there, so it is true at every
        position of a run from the start.
        """, arrives(), accepted(42)),
    Example("ring-sizes", """
        A ring that grows and shrinks: size is how many pages it has, 1 to 5, and a reader goes on
        from page to page and round to page 0. The claim is an invariance: the reader is on one of
        the pages that there are. The checker accepts: the remainder by n is below n, and shrink
        waits until the reader is not on the last page.

        A divisor is a constant, so the remainder stands there once for each size, times an
        indicator that is 1 for that size alone. refused-19-divisor has the remainder by the
        variable.
        """, sizes(), accepted(8)),
]
