"""For each refusal that a file can meet in the check, a file with a mistake that is easily made."""

from vd import Diagram, System, all_of, any_of, broken, invariance, refused, true
from . import counter, pages, peterson, ring
from .example import Example


def too_few_nodes():
    """Three phases, and only two nodes."""
    d = counter.phases()
    d.nodes.pop()
    return d


def thirteen_pages():
    """A flag for each of thirteen pages; the first and the last are never open together."""
    s = System()
    pages_open = [s.variable("open%d" % i, 0, 1) for i in range(13)]
    s.start(all_of(page == 0 for page in pages_open))
    for i in (0, 12):
        s.transition("open%d" % i, all_of(page == 0 for page in pages_open), pages_open[i].set(1))
        s.transition("close%d" % i, pages_open[i] == 1, pages_open[i].set(0))
    both = all_of(pages_open[0] == 1, pages_open[12] == 1)
    d = Diagram(s, invariance(~both))
    d.node(~both)
    return d


def swap_in_three():
    """The swap of two variables by three assignments, as a program would do it one by one."""
    s = System()
    a, b = s.variable("a", 0, 1), s.variable("b", 0, 1)
    s.start(all_of(a == 0, b == 1))
    s.transition("swap", true, a.set(a + b), b.set(a - b), a.set(a - b))
    d = Diagram(s, invariance(a != b))
    d.node(a != b)
    return d


def line_marks(last=1040):
    """A line's mark is its page times 1000 plus the line; above 32,000 the page is 32 or more."""
    s = System()
    page, line = s.variable("page", 0, last), s.variable("line", 0, 999)
    s.start(all_of(page == 0, line == 0))
    s.transition("down", line < 999, line.set(line + 1))
    s.transition("turn", all_of(line == 999, page < last), page.set(page + 1), line.set(0))
    claim = any_of(page * 1000 + line <= 32000, page >= 32)
    d = Diagram(s, invariance(claim))
    d.node(claim)
    return d


TWO = dict(editors=2, speakers=2, fair=False)


def at_work(join=any_of, held=True):
    """Never do two editors work on the page at once. Start and node are the same three cases,
    joined: the page is free, or one of the editors has it."""
    s = pages.Pages(**TWO, held=held)
    cases = join(all_of(s.free()), *(all_of(s.lock == s.mine(i), pc > pages.WAITS, s.out(i))
                                     for i, pc in enumerate(s.pc)))
    s.start(cases)
    d = Diagram(s, invariance(~all_of(pc > pages.WAITS for pc in s.pc)))
    d.node(cases)
    return d


def found(pages=64, lines=65, at_once=True):
    """A search shows any line of a volume, but not while a page is held. It goes there in one step
    or, not `at_once`, in two."""
    s = System()
    page, line = s.variable("page", 0, pages - 1), s.variable("line", 0, lines - 1)
    held = s.variable("held", -1, pages - 1)
    s.start(all_of(page == 0, line == 0, held == -1))
    if at_once:
        s.transition("find", held == -1, page.pick(), line.pick())
    else:
        s.transition("turn", held == -1, page.pick())
        s.transition("point", held == -1, line.pick())
    s.transition("hold", held == -1, held.set(page))
    s.transition("free", held >= 0, held.set(-1))
    claim = any_of(held == -1, held == page)
    d = Diagram(s, invariance(claim))
    d.node(claim)
    return d


EXAMPLES = [
    Example("refused-02-length", """
        The file b with a line feed after its last record, as a text editor or a transfer in text
        mode may leave it. The checker refuses with 2: the length, 169 bytes, isn't a multiple of 8.
        """, counter.bounded(), refused(2), file=counter.bounded().to_bytes() + b"\n"),
    Example("refused-03-kind", """
        The wait-for h, which claims three phases of the counter, with the last node left out. The
        checker refuses with 3: a wait-for has exactly one node for each phase, so the third node
        must stand where the first edge does.
        """, too_few_nodes(), refused(3, 34)),
    Example("refused-04-field", """
        The chain d, with edges whose nodes are counted from 1 instead of 0. The checker refuses
        with 4: the first edge names node 3, and the file has nodes 0 to 2.
        """, counter.reaches(edges=((3, 2), (2, 1))), refused(4, 30)),
    Example("refused-05-limit", """
        Thirteen pages, with a variable for each that says whether it is open, and the claim that
        the first and the last are never open together. The checker refuses with 5: a file has at
        most 12 variables, and record 12 would be the thirteenth.
        """, thirteen_pages(), refused(5, 12)),
    Example("refused-06-repeat", """
        The swap of j, written as three assignments that a program would make one after the other:
        `a := a + b`, `b := a - b`, `a := a - b`. The checker refuses with 6 at the third: the
        assignments of a transition are worked out together from the state before it, so no variable
        may have two.
        """, swap_in_three(), refused(6, 20)),
    Example("refused-07-states", """
        The six editors of pages-largest with four speakers instead of three. The checker refuses
        with 7: the ranges up to that of name, variable 8, make 1,750,000 states, and 1,048,576 are
        allowed.
        """, pages.names(pages.Pages(6, 4, fair=False)), refused(7, 8)),
    Example("refused-08-interval", """
        Lines of a transcript of 1041 pages with 1000 lines each, numbered through: a line's mark is
        its page times 1000 plus the line. The claim is an invariance: marks above 32,000 are on
        page 32 or later. The checker refuses with 8: the product of page, in 0..1040, and 1000 may
        be 1,040,000, and numbers must stay within 1,000,000. With pages 0..999 the file is
        accepted, with 6 conditions.
        """, line_marks(), refused(8, 36)),
    Example("refused-09-edge-rule", """
        The chain d, but the step isn't marked just; the specification's example F. The checker
        refuses with 9 at the first edge: a double edge stands only on a just transition. If nothing
        makes the step come, v = 2 need not come either.
        """, counter.reaches(just=False), refused(9, 30)),
    Example("refused-10-double", """
        The chain d with the edge from node 2 left out; the specification's example G. The checker
        refuses with 10: each node of a chain but the goal needs a double edge, the way on from
        there.
        """, counter.reaches(edges=((1, 0),)), refused(10, 2)),
    Example("refused-13-start", """
        Two editors with the plain lock and the claim that no line stands under the wrong name, but
        while an editor is between text and name. The start says that all are idle and the page is
        free, and forgets that text and name agree. The checker refuses with 13: a run may start
        with speaker 0's words under speaker 1's name, and no node allows that.

        Two states break the condition; the other has speaker 1's words under speaker 0's name. Of
        all that break it the report names the lowest-numbered, always: where the reports of two
        releases of a file differ, the file does, and not the checker's choice.
        """, pages.names(pages.Pages(**TWO, agreed=False)), broken(13, 0, 0, 0, 0, 0, 1)),
    Example("refused-14-entry", """
        peterson-access, with a p that says only that P1 is at l2 or l3, and not that y1 and y2 are
        true where they should be. The checker refuses with 14: p holds in states that no run from
        the start reaches, such as P1 at l2, P2 at m0 and y2 true, and no node has them. A chain
        speaks of every state, so what a proof needs to know of the reachable ones must stand in p.
        """, peterson.access(local=False), broken(14, 0, 2, 0, 0, 1, 1)),
    Example("refused-15-cover", """
        Two editors with the plain lock, and the claim that no line ever stands under the wrong
        name. The checker refuses with 15: in node 2 editor 0 has written the words of speaker 0,
        and the name of speaker 1 still stands over them. The claim has to leave out that moment, as
        that of pages-names does, or words and name have to be written in one step.
        """, pages.names(pages.Pages(**TWO), strict=True),
            broken(15, 3, 3, 0, 1, 0, 1, node=2)),
    Example("refused-16-range", """
        The counter of b, with its guard forgotten: true instead of v < 2; the specification's
        example C. The checker refuses with 16: at v = 2 the step would set v to 3. A value isn't
        clamped to its range; a step with a value outside is not enabled, and a node in which that
        happens is refused.
        """, counter.bounded(guard=true), broken(16, 2, 2, node=0, transition=0)),
    Example("refused-16-truncated", """
        The ring of ring-apart, with the reader's step back as a programmer in C would write it. C
        rounds a quotient towards 0, so that -1 by 5 gives 0, and leaves -1. A file's // and % round
        down; so C's quotient of n = page - 1 is written out here, as `[0 <= n] * (n // 5)` less
        `[n < 0] * ((0 - n) // 5)`, and the remainder is n less 5 times that. The checker refuses
        with 16: the step back from page 0 would set page to -1, and there is no such page. Where n
        isn't negative both roundings agree, so only this one step shows the mistake.
        """, ring.apart(ring.truncated), broken(16, 9, 1, 0, 0, node=0, transition=2)),
    Example("refused-17-edge", """
        A mistake in a diagram: two editors with the plain lock and no line under the wrong name,
        with the edge forgotten along which editor 1 writes the name. The checker refuses with 17:
        from node 5 the step name1 leads to a state of node 6, and no edge says so. A transition
        without an edge must keep its node.
        """, pages.names(pages.Pages(**TWO), forgotten="name1"),
            broken(17, 125, 0, 3, 2, 1, 0, node=5, transition=8)),
    Example("refused-17-lock", """
        A mistake in the rules: two editors, of whom each takes the page without looking whether it
        is free. The diagram is the same as for the right rules. The checker refuses with 17: in
        node 1 editor 0 has the page, editor 1 takes it as well, and the state after satisfies no
        node. This is how a line comes under the wrong name: both write their words, then both their
        names, in another order.
        """, pages.names(pages.Pages(**TWO, held=False)),
            broken(17, 41, 2, 1, 1, 0, 0, node=1, transition=6)),
    Example("refused-17-truncated", """
        refused-16-truncated with the usual mend: 5 is added to C's remainder, and the remainder
        taken again, so that the step back from page 0 leads to page 4. The round is still counted
        by C's quotient, 0 where it must be -1. The checker refuses with 17: from page 0 the reader
        comes to page 4 of the same round, to which the corrector hasn't come yet, and not to that
        of the round before; no node allows it. What stands there is the text of the round before,
        and the reader would take it for the corrected one.
        """, ring.apart(ring.mended), broken(17, 10, 1, 0, 0, node=0, transition=2)),
    Example("refused-18-enabling", """
        Two editors with the plain lock, and the claim that editor 0 gets the page where it waits,
        with one node for all its waiting and the step lock0 as the way on. The checker refuses with
        18: a double transition must be enabled wherever its node holds, and lock0 is not while
        editor 1 has the page.
        """, pages.waiting_only(pages.Pages(**TWO)),
            broken(18, 6, 1, 2, 2, 0, 0, node=1, transition=1)),
    Example("refused-19-divisor", """
        The ring of ring-sizes, whose size is a variable, with the remainder by that variable. The
        checker refuses with 19: a divisor is a constant above 0. Then every quotient has a value,
        and how large it can be is seen from the file. ring-sizes says the same by a remainder for
        each size.
        """, ring.sizes(by_size=True), refused(19, 17)),
    Example("refused-20-start", """
        Two editors, of whom each takes the page without looking whether it is free, as in
        refused-17-lock, and the claim that they never both work on it. Work may begin where the
        page is free, where editor 0 has it, or where editor 1 has it; but the three cases are
        joined by "and" where "or" was meant, in the start and in the one node, which is the same.
        The checker refuses with 20: the page can't be free and an editor's at once, so no state
        satisfies the start.

        Every condition of the diagram holds, for each asks something of states that satisfy the
        start or the node, and there are none. But an invariance is a claim about runs from a
        starting state, and here it would be one about no run. Of these rules it is plainly false:
        with "or" in both places the checker refuses with 17, as editor 1 has the page, and editor
        0, who waits, takes it as well. With "or", and the lock looked at, it accepts.
        """, at_work(join=all_of, held=False), refused(20)),
    Example("refused-22-picks", """
        A volume of 64 pages with 65 lines each. An editor's search shows any line of it (find),
        unless a page is held: held is the page that is locked for correction, -1 while none is. The
        claim is an invariance: the page that is held is the one that is shown. The checker refuses
        with 22: find picks a page and a line at once, 64 times 65, that is 4,160 combinations, and
        4,096 are allowed, so that a test at one state stays short.

        The same in two steps is accepted: one transition that picks the page, one that picks the
        line, both only while no page is held. There are 64 combinations of the one and 65 of the
        other, and every line can still be shown. But between the two the page is new and the line
        is the old one; a claim about page and line together has to allow for that. Where it can't,
        a variable that says where the search stands keeps other steps from coming between.
        """, found(), refused(22, 15)),
]
