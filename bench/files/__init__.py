"""The files of the benchmark, by name."""

from collections import namedtuple
from pathlib import Path

from vd import CONDITION_NAMES, state_number
from . import adversarial, drawn, extreme, systems

EXAMPLES = Path(__file__).resolve().parents[2] / "examples"

# `broken` is the condition that is broken and the number of the state, None for an accepted file,
# NO_START for one that is refused with that number, or ANY; `slow` says that testing every condition
# at every state takes over 10 seconds.
File = namedtuple("File", "name bytes broken slow")
ANY, NO_START = object(), 20


def _file(name, content, broken=None, slow=False):
    return File(name, content if isinstance(content, bytes) else content.to_bytes(), broken, slow)


def examples():
    """Those that no refusal meets before the conditions."""
    for path in sorted(EXAMPLES.glob("*.vd")):
        answer = path.with_suffix(".txt").read_text().split("\nanswer: ")[1]
        if int(answer[:2], 16) in (0, *CONDITION_NAMES):
            yield _file(path.stem, path.read_bytes(), ANY, path.stem == "pages-largest")


def models():
    yield _file("pages-one-node", systems.pages_one_node(), (55, 787572), True)
    yield _file("pages-no-start", systems.pages_no_start(), NO_START)
    yield _file("clocks", systems.clocks())
    yield _file("clocks-broken", systems.clocks(broken=True), (5, 980990))
    yield _file("philosophers", systems.philosophers())
    yield _file("ring", systems.ring())
    yield _file("ring-broken", systems.ring(broken=True), (3, 1020101))
    yield _file("laps", systems.laps())
    yield _file("desks", systems.desks())
    yield _file("desks-broken", systems.desks(broken=True), (5, 803076))


def random():
    """Named by nodes, transitions, size of the expressions and bits of the number of states."""
    for size in (5, 15, 100):
        yield _file("random-1-1-%d-20" % size, drawn.accepted(20, 1, 1, size))
    yield _file("random-4-4-15-20", drawn.accepted(20, 4, 4, 15))
    yield _file("random-4-16-15-20", drawn.accepted(20, 4, 16, 15), slow=True)
    yield _file("random-chain-20", drawn.accepted_chain(20))
    for bits in (14, 16, 18):
        yield _file("random-1-1-15-%d" % bits, drawn.accepted(bits, 1, 1, 15))
    for transitions in (1, 2, 4, 8, 16):
        yield _file("random-4-%d-15-16" % transitions, drawn.accepted(16, 4, transitions, 15))
    last = (1 << 20) - 1
    yield _file("random-broken-last", drawn.broken(20, 1, 1, 15, last=True), (3, last))
    yield _file("random-broken-first", drawn.broken(20, 1, 1, 15), (3, 0))
    yield _file("random-broken-first-5", drawn.broken(20, 1, 1, 5), (3, 0))
    yield _file("random-broken-first-4-4", drawn.broken(20, 4, 4, 15), (36, 0))


def adversaries():
    for nodes, transitions in ((1, 1), (2, 2), (4, 4), (8, 8), (8, 24)):
        yield _file("parity-%d-%d" % (nodes, transitions),
                    adversarial.parities(nodes, transitions))
    yield _file("parity-even-or-odd", adversarial.parities(4, 4, plain=False))
    yield _file("parity-binary", adversarial.parities(4, 4, adversarial.SMALL))
    yield _file("parity-but-two", adversarial.parities(4, 4, leave=2))
    for name, values in adversarial.PLACES.items():
        d = adversarial.parity_broken(values)
        state = state_number(values, [(v.low, v.high) for v in d.system.variables])
        yield _file("parity-broken-" + name, d, (0, state))
    yield _file("parity-broken-step", adversarial.parity_broken_step(4, 4), (36, (1 << 20) - 2))
    yield _file("rare", adversarial.rare(), (12, 0))
    for size in (1, 4):
        yield _file("identity-%d" % size, adversarial.identity(size, size))
    yield _file("ring-order", adversarial.ring_order())
    for transitions in (1, 8):
        yield _file("giant-%d" % transitions, adversarial.giant(transitions))
    for transitions in (1, 16):
        yield _file("hostile-%d" % transitions, adversarial.hostile(transitions))
    yield _file("picked-identity", adversarial.identity_picked())
    yield _file("picked-parity", adversarial.parity_picked())
    yield _file("picked-last", adversarial.picked_last(), (3, 255 << 12))
    yield _file("start-even-and-odd", adversarial.even_and_odd(), NO_START)
    yield _file("start-last", adversarial.even_and_odd(last=True))


def most(size):
    """Files with so many nodes and transitions at a million states."""
    for truth in (extreme.decided, extreme.undecided):
        yield _file("most-%s-%d" % (truth.__name__, size), extreme.most(truth, size, size))


def stack():
    last = 3, (1 << 20) - 1
    yield _file("smallest", extreme.smallest())
    for shape in (*extreme.AROUND, *extreme.WORTH):
        for broken in (False, True):
            yield _file("deep-%s%s" % (shape, "-broken" * broken), extreme.deep(shape, broken),
                        last if broken else None)
    for broken in (False, True):
        yield _file("deep-picks%s" % ("-broken" * broken), extreme.picked(broken),
                    last if broken else None)
