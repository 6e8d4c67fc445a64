"""Peterson's algorithm for mutual exclusion: program MUX-PET1 of the STeP manual, section 9.3."""

from vd import Diagram, System, accepted, all_of, any_of, chain, invariance, wait_for
from .example import Example


class Peterson(System):
    """The program. pi0 and pi1 are the control locations, as STeP numbers them: at l0 is pi0 = 0,
    at m0 is pi1 = 0. The booleans y1 and y2 are 0 and 1.

        P1 :: l0: while true do                     P2 :: m0: while true do
              l1: noncritical                             m1: noncritical
              l2: (y1, s) := (true, 1)                    m2: (y2, s) := (true, 2)
              l3: await (!y2 or s = 2)                    m3: await (!y1 or s = 1)
              l4: critical                                m4: critical
              l5: y1 := false                             m5: y2 := false
    """

    def __init__(self):
        super().__init__()
        self.pi0, self.pi1 = self.variable("pi0", 0, 5), self.variable("pi1", 0, 5)
        self.y1, self.y2 = self.variable("y1", 0, 1), self.variable("y2", 0, 1)
        self.s = self.variable("s", 1, 2)
        self.start(all_of(self.pi0 == 0, self.pi1 == 0, self.y1 == 0, self.y2 == 0))
        for letter, at, mine, other, me in (("l", self.pi0, self.y1, self.y2, 1),
                                            ("m", self.pi1, self.y2, self.y1, 2)):
            for location in range(6):
                guard, effects = at == location, []
                if location == 2:
                    effects = [mine.set(1), self.s.set(me)]
                elif location == 3:
                    guard &= (other == 0) | (self.s == 3 - me)
                elif location == 5:
                    effects = [mine.set(0)]
                # the noncritical section need not end
                self.transition("%s%d" % (letter, location), guard,
                                at.set(location + 1 if location < 5 else 0), *effects,
                                just=location != 1)

    def local(self):
        """The local invariants: y1 is true at l3, l4 and l5 only, y2 at m3, m4 and m5 only."""
        return all_of((self.y1 == 1) == (self.pi0 >= 3), (self.y2 == 1) == (self.pi1 >= 3))


def local():
    s = Peterson()
    d = Diagram(s, invariance(s.local()))
    d.node(s.local())
    return d


def exclusion():
    s = Peterson()
    both = all_of(s.pi0 == 4, s.pi1 == 4)
    d = Diagram(s, invariance(~both))
    d.node(all_of(s.local(), ~both,
                  all_of(s.pi1 == 3, (s.y1 == 0) | (s.s == 1)) >> (s.pi0 != 4),
                  all_of(s.pi0 == 3, (s.y2 == 0) | (s.s == 2)) >> (s.pi1 != 4)))
    return d


def access(local=True):
    """With local = False, p lacks the local invariants."""
    s = Peterson()
    trying = s.pi0.among(2, 3)
    d = Diagram(s, chain(p=all_of(trying, s.local()) if local else trying, q=s.pi0 == 4))
    at_l3 = all_of(s.local(), s.pi0 == 3)
    goal = d.node(s.pi0 == 4)
    free = d.node(all_of(at_l3, (s.pi1 <= 2) | (s.s == 2)))
    at_m5, at_m4, at_m3 = (d.node(all_of(at_l3, s.pi1 == m, s.s == 1)) for m in (5, 4, 3))
    at_l2 = d.node(all_of(s.local(), s.pi0 == 2))
    d.double(s["l2"], at_l2, at_m3, at_m4, at_m5, free)
    d.double(s["m3"], at_m3, at_m4)
    d.double(s["m4"], at_m4, at_m5)
    d.double(s["m5"], at_m5, free)
    d.double(s["l3"], free, goal)
    return d


def overtaking():
    s = Peterson()
    in_m4 = s.pi1 == 4
    d = Diagram(s, wait_for(all_of(s.pi0 == 3, s.y1 == 1), s.pi0 == 4, ~in_m4, in_m4, ~in_m4))
    at_l3 = all_of(s.pi0 == 3, s.y1 == 1)
    phi0 = d.node(s.pi0 == 4)
    phi1 = d.node(all_of(at_l3, any_of(s.pi1 <= 2, s.pi1 == 5, all_of(s.pi1 == 3, s.s != 1))))
    phi2 = d.node(all_of(at_l3, in_m4))
    phi3 = d.node(all_of(at_l3, s.pi1 == 3, s.s == 1))
    for phi in (phi3, phi2, phi1):
        d.edge(s["l3"], phi, phi0)
    d.edge(s["m3"], phi3, phi2)
    d.edge(s["m4"], phi2, phi1)
    return d


EXAMPLES = [
    Example("peterson-exclusion", """
        Peterson's algorithm for two processes, program MUX-PET1 of the STeP manual (section 9.3).
        pi0 and pi1 are the locations of the processes, 4 the critical section of either; y1 and y2
        say who wants to enter, s who was the last to say so. The claim is an invariance, mutual
        exclusion: the two are never in their critical sections together. The checker accepts: the
        node holds at the start, implies the claim, and each of the twelve statements keeps it.

        Mutual exclusion alone is not kept by every step, so the node has the assertions that the
        manual's proof uses: STeP's local invariants (y1 is true from l3 to l5, y2 from m3 to m5),
        the claim, and the weakest preconditions of the claim under m3 and l3: where m3 may enter,
        P1 is not at l4, and the other way round.

        Differences from the manual: the booleans are variables in 0..1, the locations variables in
        0..5 that each statement sets; the manual's proof goes by rules and not by a diagram, so the
        diagram is one node with the assertions of that proof; and besides STeP's conditions no
        assigned value may leave its range.
        """, exclusion(), accepted(26)),
    Example("peterson-local", """
        The same program and an invariance, the local invariants, which STeP finds by itself: y1 is
        true exactly at l3, l4 and l5, and y2 exactly at m3, m4 and m5. The checker accepts; the
        node is the claim. The claims of peterson-access and peterson-overtaking are about states
        where this holds, and it holds at every position of a run from the start.
        """, local(), accepted(26)),
    Example("peterson-access", """
        The same program and a chain, accessibility (section 9.3.3 of the manual): where P1 is at l2
        or l3, trying to enter, it comes to l4, its critical section, on every just run. Only the
        ends of the noncritical sections, l1 and m1, are not just. The checker accepts. In node 1 P1
        may pass l3; nodes 4, 3 and 2 are P2 before, in and after its critical section while P1 must
        wait; node 5 is P1 at l2. In each node the transition of its double edges is enabled until
        it is taken, and leads to a node below.

        Differences from the manual: its claim is for l2 alone, this one for l2 and l3. STeP may use
        the local invariants in every condition, as it looks only at states that runs reach; a chain
        here speaks of runs from every state, so p and the nodes say them (peterson-local proves
        them, and refused-14-entry shows what comes of leaving them out of p). The manual shows its
        diagram, Figure 5.1, as a picture and does not list its nodes; those here are made for this
        file.
        """, access(), accepted(127)),
    Example("peterson-overtaking", """
        The same program and a wait-for, 1-bounded overtaking (Figure 2.3 of the manual): while P1
        waits at l3, P2 is outside its critical section for a while, then in it for a while, then
        outside again until P1 is at l4. So P2 enters at most once before P1. The checker accepts.
        The nodes are the manual's phi0 to phi3.

        Difference from the manual: p and the nodes say that y1 is true at l3, which STeP has among
        its local invariants, and which peterson-local proves.
        """, overtaking(), accepted(77)),
]
