"""Bits sent through a wire: the bit transmission protocol of W. Schreiner's lecture "Specifying and
Verifying System Properties" (RISC, Linz), part 3."""

from vd import Diagram, System, accepted, all_of, any_of, broken, chain, invariance
from .example import Example


class Bits(System):
    """The program. sender and receiver are the locations, y is the receiver's last bit; v, r and a
    are the wire with its two signals, ready and acknowledged.

        S :: loop                                   R :: loop
             choose x in 0..1                            1: wait r = 1; (y, a) := (v, 1)
             1: (v, r) := (x, 1)                         2: wait r = 0; a := 0
             2: wait a = 1; r := 0
             3: wait a = 0

    The bit is chosen in the step from 3 to 1 or, with `at_once`, in the one that sends it."""

    def __init__(self, at_once=False):
        super().__init__()
        self.sender, self.receiver = self.variable("sender", 1, 3), self.variable("receiver", 1, 2)
        self.x, self.y, self.v, self.r, self.a = (self.variable(name, 0, 1) for name in "xyvra")
        self.start(all_of(self.sender == 1, self.receiver == 1, self.v == 0, self.r == 0,
                          self.a == 0))
        chosen = [self.x.pick()]
        self.transition("send", self.sender == 1, self.sender.set(2), self.v.set(self.x),
                        self.r.set(1), *chosen if at_once else [], just=True)
        self.transition("seen", all_of(self.sender == 2, self.a == 1), self.sender.set(3),
                        self.r.set(0), just=True)
        self.transition("next", all_of(self.sender == 3, self.a == 0), self.sender.set(1),
                        *[] if at_once else chosen, just=True)
        self.transition("receive", all_of(self.receiver == 1, self.r == 1), self.receiver.set(2),
                        self.y.set(self.v), self.a.set(1), just=True)
        self.transition("ready", all_of(self.receiver == 2, self.r == 0), self.receiver.set(1),
                        self.a.set(0), just=True)
        # the stages that a bit goes through, in turn: chosen, sent, received, seen, over
        self.stages = [self.stage(1, 1), self.stage(2, 1, self.v == self.x),
                       self.stage(2, 2, self.y == self.x), self.stage(3, 2, self.y == self.x),
                       self.stage(3, 1)]

    def stage(self, sender, receiver, *bits):
        """Both at these locations, and the signals as they are there."""
        return all_of(self.sender == sender, self.receiver == receiver, self.r == int(sender == 2),
                      self.a == int(receiver == 2), bits)


def right(at_once=False):
    """What the receiver has is right. A node for each stage."""
    s = Bits(at_once)
    d = Diagram(s, invariance((s.receiver == 2) >> (s.y == s.x)))
    chosen, sent, received, seen, over = map(d.node, s.stages)
    d.edge(s["send"], chosen, sent)
    d.edge(s["receive"], sent, received)
    d.edge(s["seen"], received, seen)
    d.edge(s["ready"], seen, over)
    d.edge(s["next"], over, chosen)
    return d


def arrives():
    """A bit comes to the receiver."""
    s = Bits()
    has = all_of(s.receiver == 2, s.y == s.x)
    d = Diagram(s, chain(p=any_of(*s.stages), q=has))
    received, sent, chosen, over = map(d.node, (has, s.stages[1], s.stages[0], s.stages[4]))
    d.double(s["next"], over, chosen)
    d.double(s["send"], chosen, sent)
    d.double(s["receive"], sent, received)
    return d


EXAMPLES = [
    Example("bits-right", """
        A sender and a receiver at the two ends of a wire: the bit transmission protocol of W.
        Schreiner's lecture on specifying and verifying system properties. The sender chooses a bit
        x, freely, each time anew. It puts the bit on the wire v and raises r (send); the receiver
        takes it from there as y and raises a (receive); the sender sees that and lowers r (seen);
        the receiver lowers a (ready); then the sender chooses its next bit (next). The claim is an
        invariance: where the receiver has a bit, at its location 2, it is the sender's, y = x. The
        checker accepts.

        That next chooses freely is written `x := any of 0..1`, a pick. From a state where next is
        enabled two steps lead on, one with x = 0 and one with x = 1, and the checker looks at both;
        so the claim is about every sequence of bits that anyone may send. The start leaves the
        first bit open. refused-17-wire has the pick in the wrong step.

        There is a node for each stage that a bit goes through: chosen, sent, received, seen, over.
        Each has both locations and both signals; sent says besides that the wire has the sender's
        bit, received and seen that the receiver has it.

        Differences from the source: it argues by one assertion for all stages, here each stage has
        its own; the locations, p and q there, are called sender and receiver; and besides its
        conditions no assigned value may leave its range.
        """, right(), accepted(56)),
    Example("bits-arrive", """
        The protocol of bits-right and a chain: wherever it stands, the receiver comes to have the
        sender's bit, on every just run, that is, if neither of the two stands still for ever where
        it could go on. The checker accepts. In node 3 the last bit is over, and next leads to node
        2 whichever bit it picks; from there the bit is sent, node 1, and received, node 0.

        next is just: it isn't put off for ever. That says nothing about which bit is picked; a run
        on which each bit is 0 may be just.

        A chain speaks of runs from every state, so p says that the protocol is in one of the stages
        of bits-right, which shows that it is at every position of a run from the start.
        """, arrives(), accepted(35)),
    Example("refused-17-wire", """
        The protocol of bits-right, with a sender that chooses a bit and sends it in one step: send
        has `x := any of 0..1` and `v := x`. The checker refuses with 17: all values that a step
        assigns are worked out from the state before it, so the wire gets the bit that x was, and
        not the one that is picked. Where x was 0 and 1 is picked, the wire has the wrong bit, and
        the receiver would take it. What is picked is there for the next step; so bits-right picks
        in the step before.
        """, right(at_once=True), broken(17, 7, 1, 1, 0, 0, 0, 0, 0, node=0, transition=0)),
]
