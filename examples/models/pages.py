"""Editors share one line of a court transcript: whose words stand in it, and under whose name.

An editor asks for the page, gets it, writes the words, writes the name, and gives the page back.
There are two sets of rules, which differ in how the page goes to the next editor: with the plain
lock it becomes free, and whoever comes first takes it; with the fair lock it is handed to the next
editor who waits, in cyclic order.
"""

from vd import (Diagram, System, accepted, all_of, any_of, broken, chain, invariance, total,
                wait_for)
from .example import Example

# An editor's phases, the values of its pc; and the value of lock while the page is no one's.
IDLE, WAITS, HOLDS, TEXT, NAME = range(5)
FREE = 0


class Pages(System):
    """The rules. pc0, pc1 and on are the phases of the editors; lock is 0 while the page is free,
    and 1 + i while it is editor i's; text and name are speakers: whose words stand in the line, and
    whose name. Editor i merges the words of speaker i modulo the number of speakers.

    Two mistakes, for refused files: `held` = False leaves the lock out of the guard that takes the
    page, `agreed` = False lets a run start with a line under the wrong name."""

    def __init__(self, editors, speakers, fair, held=True, agreed=True):
        super().__init__()
        self.editors, self.fair = range(editors), fair
        self.pc = [self.variable("pc%d" % i, IDLE, NAME) for i in self.editors]
        self.lock = self.variable("lock", FREE, editors)
        self.text = self.variable("text", 0, speakers - 1)
        self.name = self.variable("name", 0, speakers - 1)
        self.speaker = [i % speakers for i in self.editors]
        self.start(all_of([pc == IDLE for pc in self.pc], self.lock == FREE,
                          [self.text == self.name] if agreed else []))
        for i, pc in enumerate(self.pc):
            mine = self.mine(i)
            may_take = self.lock.among(FREE, mine) if fair else self.lock == FREE
            self.transition("request%d" % i, pc == IDLE, pc.set(WAITS))
            self.transition("lock%d" % i, all_of(pc == WAITS, [may_take] if held else []),
                            pc.set(HOLDS), self.lock.set(mine), just=True)
            self.transition("text%d" % i, pc == HOLDS, pc.set(TEXT),
                            self.text.set(self.speaker[i]), just=True)
            self.transition("name%d" % i, pc == TEXT, pc.set(NAME),
                            self.name.set(self.speaker[i]), just=True)
            self.transition("release%d" % i, pc == NAME, pc.set(IDLE),
                            self.lock.set(self.next_after(i) if fair else FREE), just=True)

    @staticmethod
    def mine(i):
        """The value of lock while the page is editor i's."""
        return 1 + i

    def after(self, i):
        """The other editors, in the cyclic order from editor i."""
        return [(i + n) % len(self.editors) for n in self.editors[1:]]

    def next_after(self, i):
        """The value of lock when editor i gives the page back: the first who waits, or free."""
        order = self.after(i)
        return total(self.mine(j) * all_of([self.pc[k] != WAITS for k in order[:n]],
                                           self.pc[j] == WAITS)
                     for n, j in enumerate(order))

    def out(self, *but):
        """No editor but these is in a phase that needs the page."""
        return [self.pc[j] <= WAITS for j in self.editors if j not in but]

    def free(self, *but):
        return [self.lock == FREE, *self.out(*but)]

    def owned(self, i, phase, *but):
        """The page is editor i's, who is in this phase, and the others are out of it."""
        return [self.lock == self.mine(i), self.pc[i] == phase, *self.out(i, *but)]

    def phases(self):
        """The phases in which an editor may have the page: still waiting only if handed it."""
        return (WAITS, HOLDS, TEXT, NAME) if self.fair else (HOLDS, TEXT, NAME)

    def orderly(self):
        """An editor past waiting has the page, and one that has it is in a phase where it may."""
        return all_of(all_of((pc > WAITS) >> (self.lock == self.mine(i)),
                             (self.lock == self.mine(i)) >> (pc >= self.phases()[0]))
                      for i, pc in enumerate(self.pc))


def names(s, strict=False, forgotten=None):
    """No line stands under the wrong name, but while its editor is between text and name; with the
    fair lock also: the rules are orderly. A node for each phase. With `strict`, a wrong name is
    never allowed. The edges of the `forgotten` transition are left out."""
    agree = s.text == s.name
    q = agree if strict else any_of([pc == TEXT for pc in s.pc], agree)
    d = Diagram(s, invariance(all_of(s.orderly(), q) if s.fair else q))
    free = d.node(all_of(s.free(), agree))
    at = {(i, phase): d.node(all_of(s.owned(i, phase),
                                    s.text == s.speaker[i] if phase == TEXT else agree))
          for i in s.editors for phase in s.phases()}
    edges = []
    for i in s.editors:
        edges.append(("lock%d" % i, free, at[i, HOLDS]))
        if s.fair:
            edges.append(("lock%d" % i, at[i, WAITS], at[i, HOLDS]))
        edges.append(("text%d" % i, at[i, HOLDS], at[i, TEXT]))
        edges.append(("name%d" % i, at[i, TEXT], at[i, NAME]))
        edges.append(("release%d" % i, at[i, NAME], free))
        if s.fair:
            edges += [("release%d" % i, at[i, NAME], at[j, WAITS]) for j in s.after(i)]
    for transition, source, target in edges:
        if transition != forgotten:
            d.edge(s[transition], source, target)
    return d


def phases(s):
    """Editor 0, once it waits, passes its phases in order until it is idle again."""
    pc, order = s.pc[0], (IDLE, NAME, TEXT, HOLDS, WAITS)
    d = Diagram(s, wait_for(pc == WAITS, *(pc == phase for phase in order)))
    idle, name, text, holds, waits = (d.node(pc == phase) for phase in order)
    d.edge(s["lock0"], waits, holds)
    d.edge(s["text0"], holds, text)
    d.edge(s["name0"], text, name)
    d.edge(s["release0"], name, idle)
    return d


def waiting(s, editor):
    """An editor, where it waits, gets the page; with the fair lock. The nodes go up from the goal
    against the page's way: handed to the editor, then the others, last first, then free."""
    waits, take, others = s.pc[editor] == WAITS, s["lock%d" % editor], s.after(editor)
    d = Diagram(s, chain(p=all_of(waits, s.orderly()), q=s.pc[editor] == HOLDS))
    goal, handed = d.node(s.pc[editor] == HOLDS), d.node(all_of(s.owned(editor, WAITS)))
    at = {(i, phase): d.node(all_of(waits, s.owned(i, phase, editor)))
          for i in reversed(others) for phase in reversed(s.phases())}
    free = d.node(all_of(waits, s.free(editor)))
    d.double(take, free, goal)
    for i in others:
        d.edge(s["lock%d" % i], free, at[i, HOLDS])
    for n, i in enumerate(others):
        d.double(s["lock%d" % i], at[i, WAITS], at[i, HOLDS])
        d.double(s["text%d" % i], at[i, HOLDS], at[i, TEXT])
        d.double(s["name%d" % i], at[i, TEXT], at[i, NAME])
        d.double(s["release%d" % i], at[i, NAME],
                 *(at[j, WAITS] for j in others[n + 1:]), handed)
    d.double(take, handed, goal)
    return d


def waiting_plain(s):
    """The same claim with the plain lock, and the diagram that comes first to mind; it fails."""
    waits, others = s.pc[0] == WAITS, s.after(0)
    d = Diagram(s, chain(p=all_of(waits, s.orderly()), q=s.pc[0] == HOLDS))
    goal, free = d.node(s.pc[0] == HOLDS), d.node(all_of(waits, s.free(0)))
    at = {(i, phase): d.node(all_of(waits, s.owned(i, phase, 0)))
          for i in reversed(others) for phase in reversed(s.phases())}
    for i in others:
        d.double(s["text%d" % i], at[i, HOLDS], at[i, TEXT])
        d.double(s["name%d" % i], at[i, TEXT], at[i, NAME])
        d.double(s["release%d" % i], at[i, NAME], free)
    d.double(s["lock0"], free, goal)
    return d


def waiting_only(s):
    """The same claim with a single node for waiting, as if the page were always free then."""
    waits = all_of(s.pc[0] == WAITS, s.orderly())
    d = Diagram(s, chain(p=waits, q=s.pc[0] == HOLDS))
    goal, node = d.node(s.pc[0] == HOLDS), d.node(waits)
    d.double(s["lock0"], node, goal)
    return d


EXAMPLES = [
    Example("pages-names", """
        Three editors share a page of a court transcript. An editor asks for the page (request),
        takes it (lock), writes a speaker's words into a line (text), then the speaker's name over
        it (name), and gives the page back (release). text and name say whose words and whose name
        stand there. The page is handed over fairly: release gives it to the next editor who waits,
        in the cyclic order 0, 1, 2, 0; only if no one waits does it become free, and then the first
        to come takes it. The claim is an invariance of two parts: an editor who works on the page
        has it (so never two at once), and no line stands under the wrong speaker's name, but while
        the editor who has the page is between writing the words and writing the name. The checker
        accepts: every node implies the claim, and every step leads along an edge or keeps its node.

        pc0, pc1 and pc2 are the editors' phases: 0 idle, 1 waits, 2 has the page, 3 has written the
        words, 4 has written the name. lock is 0 if the page is free, else 1 more than the editor
        whose it is; an editor that was handed the page still waits until it takes it. The diagram
        has a node for the free page, and for each editor one for each phase in which the page is
        that editor's.
        """, names(Pages(3, 3, fair=True)), accepted(404)),
    Example("pages-phases", """
        The three editors of pages-names, with the same rules, and a wait-for: from where editor 0
        waits, until it is idle again, it waits for a while, then has the page for a while, then has
        written the words, then the name, in this order and never back. The checker accepts. Each
        phase of the editor has a node; the other editors' steps keep every node. Whether the editor
        ever gets on is another claim, that of pages-waiting.
        """, phases(Pages(3, 3, fair=True)), accepted(126)),
    Example("pages-waiting", """
        The three editors of pages-names, with the same rules, and a chain: a waiting editor gets
        the page. Where editor 0 waits it comes to have the page, on every just run, that is, if no
        editor stands still for ever before a step that it could take all that time; only request,
        the wish for the page, is not just. The checker accepts: whoever has the page, each step
        with it brings it nearer to editor 0.

        The nodes follow the page on its way to editor 0. In node 1 it has been handed to editor 0,
        which has but to take it. Nodes 5 to 2 are editor 2 with the page, from the hand-over to the
        name; whatever the others want, it goes on to editor 0. Nodes 9 to 6 are editor 1 with the
        page; from there it goes to editor 2, if that one waits, or to editor 0. In node 10 the page
        is free: editor 0 can take it, and if another editor is quicker, the run goes on in that
        one's node below. So each of the others has the page at most once before editor 0.

        With a plain lock, which release makes free and anyone may take, the claim would be false;
        see pages-waiting-plain. A chain speaks of runs from every state, so p says, besides that
        editor 0 waits, that the rules are kept: an editor past waiting has the page, and an editor
        that has it at least waits. That is the first part of the claim of pages-names, true at
        every position of a run from the start.
        """, waiting(Pages(3, 3, fair=True), 0), accepted(312)),
    Example("pages-waiting-1", """
        The claim of pages-waiting for editor 1: where it waits it comes to have the page, on every
        just run. The rules are the same, and so is the diagram, but that the page's way leads to
        editor 1: nodes 5 to 2 are editor 0 with the page, nodes 9 to 6 editor 2. The checker
        accepts.
        """, waiting(Pages(3, 3, fair=True), 1), accepted(312)),
    Example("pages-waiting-2", """
        The claim of pages-waiting for editor 2: where it waits it comes to have the page, on every
        just run. The rules are the same, and so is the diagram, but that the page's way leads to
        editor 2: nodes 5 to 2 are editor 1 with the page, nodes 9 to 6 editor 0. The checker
        accepts. With pages-waiting and pages-waiting-1 this is the claim for every editor.
        """, waiting(Pages(3, 3, fair=True), 2), accepted(312)),
    Example("pages-waiting-plain", """
        The three editors with a plain lock: release makes the page free, and whichever waiting
        editor comes first takes it. The claim is that of pages-waiting, editor 0 gets the page
        where it waits, and the diagram is the natural attempt: node 1, the page is free and editor
        0 may take it; above it the other editors' phases, which lead down to the free page. The
        checker refuses with 17: in node 1 editor 1 waits too and takes the page, and the run is in
        node 7, above. No edge may lead up, so the diagram cannot be mended by one.

        Nor can another diagram help, for the claim is false: let editor 1 take the page, merge,
        give it back and ask again before editor 0 has moved, and so on for ever. The step lock0 is
        disabled in every round, while editor 1 has the page, so this run is just; and editor 0
        never gets the page.
        """, waiting_plain(Pages(3, 3, fair=False)),
            broken(17, 16, 1, 1, 0, 0, 0, 0, node=1, transition=6)),
    Example("pages-largest", """
        Six editors with the plain lock and three speakers (editor i writes for speaker i modulo 3):
        984,375 states, near the limit of 1,048,576. The claim is an invariance: no line stands
        under the wrong speaker's name, but while an editor is between writing the words and writing
        the name. The diagram has a node for the free page and three for each editor. The checker
        accepts, after testing 1,160 conditions at every state.
        """, names(Pages(6, 3, fair=False)), accepted(1160)),
]
