"""A page of a transcript is handed round: from a tray to an editor's desk, who corrects a line and
puts it back. The rules differ in who is handed the page: any editor, or one after the other."""

from vd import Diagram, System, accepted, all_of, broken, chain, true
from .example import Example

EDITORS, LINES = 3, 3
# The page's place, the value of out.
TRAY, DESK = 0, 1


class Handing(System):
    """The rules. desk is the editor who has the page or, while it is in the tray, had it last;
    lines is how many lines are left to correct. With `turns` the page goes to the editors in turn.
    """

    def __init__(self, turns=False):
        super().__init__()
        self.desk = self.variable("desk", 0, EDITORS - 1)
        self.out = self.variable("out", TRAY, DESK)
        self.lines = self.variable("lines", 0, LINES)
        self.start(all_of(self.desk == 0, self.out == TRAY, self.lines == LINES))
        self.hand = self.transition(
            "hand", self.out == TRAY, self.out.set(DESK),
            self.desk.set((self.desk + 1) % EDITORS) if turns else self.desk.pick(), just=True)
        self.correct = [self.transition(
            "correct%d" % i, all_of(self.out == DESK, self.desk == i), self.out.set(TRAY),
            self.lines.set(self.lines - (self.lines > 0)), just=True) for i in range(EDITORS)]

    def at(self, out, desk):
        return all_of(self.out == out, self.desk == desk)


def corrected():
    """All lines come to be corrected. For each number of lines left a node for each desk, and one
    for the tray above them."""
    s = Handing()
    d = Diagram(s, chain(p=true, q=s.lines == 0))
    below = d.node(s.lines == 0)
    for n in range(1, LINES + 1):
        desks = [d.node(all_of(s.at(DESK, i), s.lines == n)) for i in range(EDITORS)]
        for correct, node in zip(s.correct, desks):
            d.double(correct, node, below)
        below = d.node(all_of(s.out == TRAY, s.lines == n))
        d.double(s.hand, below, *desks)
    return d


def comes(turns):
    """The last editor gets the page. The nodes go up against the page's way, as it is in turn."""
    s = Handing(turns)
    last = EDITORS - 1
    d = Diagram(s, chain(p=true, q=s.at(DESK, last)))
    below = d.node(s.at(DESK, last))
    for i in reversed(range(last)):
        tray, desk = d.node(s.at(TRAY, i)), d.node(s.at(DESK, i))
        d.double(s.hand, tray, below)
        d.double(s.correct[i], desk, tray)
        below = desk
    d.double(s.hand, d.node(s.at(TRAY, last)), below)
    return d


EXAMPLES = [
    Example("handing-lines", """
        A page of a transcript with three lines to correct. It lies in a tray until someone hands it
        to one of three editors (hand), no matter to which. The editor corrects one of the lines
        that are left, if there are any, and puts the page back (correct0 to correct2). The claim is
        a chain: wherever the page is, all lines come to be corrected, on every just run, that is,
        if the page isn't left lying for ever. The checker accepts: whoever is handed the page
        corrects a line, so it doesn't matter who is picked.

        desk is the editor who has the page, or had it last; out is 1 while it is on a desk, 0 in
        the tray. `desk := any of 0..2` in hand is the free choice: from a state in the tray there
        are three steps, one to each desk, and each must lead to a node below. The nodes count the
        lines that are left; each number has a node for each desk and, above them, one for the tray.
        Different picks lead to different nodes, so hand has three double edges from the tray.
        """, corrected(), accepted(110)),
    Example("handing-turns", """
        The page of handing-lines, handed to the editors in turn: after editor 0 to editor 1, then
        to editor 2, then to editor 0 again. The claim is a chain: wherever the page is, editor 2
        gets it, on every just run. The checker accepts. Node 0 is the goal; the nodes above go
        against the page's way: in the tray after editor 1, on that one's desk, in the tray after
        editor 0, on that one's desk, in the tray after editor 2. refused-17-pick is the same with a
        free choice.
        """, comes(turns=True), accepted(47)),
    Example("refused-17-pick", """
        The claim and the diagram of handing-turns, that editor 2 gets the page, with the rules of
        handing-lines: the page may be handed to any editor. The checker refuses with 17: in node 1
        the page is in the tray and editor 1 had it last. In turn it would go to editor 2, the goal;
        but hand may pick editor 0, and the run is in node 4, above. One pick that leads astray is
        enough, for a step condition is about all of them. The report has the state before the step;
        the words below, which are also those of ./check, say which pick it is.

        No edge may lead up, so the diagram can't be mended by one. Nor can another diagram help,
        for the claim is false: let editor 0 be picked each time. hand and correct0 are taken again
        and again, so this run is just; and editor 2 never gets the page. That hand is just means
        that the page is handed on, not to whom.
        """, comes(turns=False), broken(17, 3, 1, 0, 0, node=1, transition=0)),
]
