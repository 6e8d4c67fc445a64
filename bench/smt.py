"""The start and the conditions of a file for an SMT solver, and what z3 says of them.

>>> v = vd.Variable(0, "v", -2, 2)
>>> term((v * 2 == -1) & ~(v < 0))
'(and (= (* v0 2) (- 1)) (not (< v0 0)))'
>>> term(((v <= 1) >> (v == 0)) + v)
'(+ (ite (=> (<= v0 1) (= v0 0)) 1 0) v0)'

By a constant above 0, div and mod of SMT-LIB are quotient and remainder, for negative numbers too.

>>> term((v - 1) // 5 + (v - 1) % 5)
'(+ (div (- v0 1) 5) (mod (- v0 1) 5))'

A step is to hold for all picks. So it is broken where there are picks, constants beside the state,
by which it leads astray.

>>> s = vd.System()
>>> v, w = s.variable("v", 0, 9), s.variable("w", 0, 9)
>>> s.start(v == 0)
>>> t = s.transition("t", v < 9, w.pick(2, 3))
>>> d = vd.Diagram(s, vd.invariance(vd.true))
>>> node = d.node(v <= w)
>>> lines = script(d.to_bytes(), 4).splitlines()
>>> for line in [*lines[5:7], lines[-3]]:
...     print(line)
(declare-const pick0-1 Int)
(assert (<= 2 pick0-1 3))
(assert (and (node0 v0 v1) (guard0 v0 v1) (and true) (not (or false (node0 v0 pick0-1)))))
"""

import resource
import shutil
import subprocess

import vd

SYMBOLS = {vd.SUM: "+", vd.DIFFERENCE: "-", vd.PRODUCT: "*", vd.QUOTIENT: "div",
           vd.REMAINDER: "mod", vd.NOT: "not", vd.AND: "and", vd.OR: "or", vd.IMPLIES: "=>",
           vd.IFF: "=", vd.EQUAL: "=", vd.LESS: "<", vd.AT_MOST: "<="}
# Seconds after which z3 is stopped.
PATIENCE = 120


def term(e):
    """An expression as a term of SMT-LIB."""
    if e.kind == vd.CONSTANT:
        return str(e.b) if e.b >= 0 else "(- %d)" % -e.b
    if e.kind == vd.VARIABLE:
        return "v%d" % e.a
    if e.kind in (vd.TRUE, vd.FALSE):
        return "true" if e.kind == vd.TRUE else "false"
    if e.kind == vd.INDICATOR:
        return "(ite %s 1 0)" % term(e.operands[0])
    return "(%s %s)" % (SYMBOLS[e.kind], " ".join(map(term, e.operands)))


def script(file, conditions):
    """Declares the file's variables, picks, nodes and guards, then asks whether there is a state that
    satisfies the start, and of each of so many conditions, the first ones, whether there is a state
    that breaks it."""
    reading = vd.Reading(file)
    script = Script(reading)
    script.ask(term(reading.start))
    for number, node, transition in list(vd.conditions(reading))[:conditions]:
        script.ask(script.broken(number, node, transition))
    return "\n".join(script.lines) + "\n"


class Script:
    def __init__(self, reading):
        # Of the logics that fit every file, the one in which z3 is fastest.
        self.reading, self.lines = reading, ["(set-logic QF_NIA)"]
        self.variables = ["v%d" % i for i in range(len(reading.variables))]
        for name, (low, high) in zip(self.variables, reading.variables):
            self.lines += ["(declare-const %s Int)" % name, inside(name, (low, high), "(assert %s)")]
        for t in reading.transitions:
            for pick in t.picks:
                self.lines += ["(declare-const %s Int)" % picked(t, pick),
                               inside(picked(t, pick), (pick.low, pick.high), "(assert %s)")]
        for i, assertion in enumerate(reading.nodes):
            self.define("node%d" % i, assertion)
        for t in reading.transitions:
            self.define("guard%d" % t.index, t.guard)

    def define(self, name, truth):
        """A truth of the state, by name."""
        parameters = " ".join("(%s Int)" % v for v in self.variables)
        self.lines.append("(define-fun %s (%s) Bool %s)" % (name, parameters, term(truth)))

    def at(self, name, state=None):
        return "(%s %s)" % (name, " ".join(state or self.variables))

    def ask(self, truth):
        self.lines += ["(push)", "(assert %s)" % truth, "(check-sat)", "(pop)"]

    def broken(self, number, node, transition):
        """That the condition is broken at the state."""
        if number in (vd.STARTS, vd.ENTRY):
            opening = self.reading.start if number == vd.STARTS else self.reading.claims[0]
            nodes = [self.at("node%d" % i) for i in range(len(self.reading.nodes))]
            return both(term(opening), negated(any_of(nodes)))
        here = self.at("node%d" % node)
        if number == vd.COVER:
            q = {vd.INVARIANCE: 0, vd.WAIT_FOR: node + 1, vd.CHAIN: 1}[self.reading.property]
            return both(here, negated(term(self.reading.claims[q])))
        guard, fits, after = self.step(self.reading.transitions[transition])
        if number == vd.IN_RANGE:
            return both(here, guard, negated(fits))
        if number == vd.ENABLING:
            return both(here, negated(both(guard, fits)))
        targets = [self.at("node%d" % i, after) for i in self.targets(node, transition)]
        return both(here, guard, fits, negated(any_of(targets)))

    def step(self, transition):
        """A transition's guard, that its values are in range, and the state after it, as picked."""
        values = {variable: term(value) for variable, value in transition.assignments}
        fits = [inside(value, self.reading.variables[i]) for i, value in values.items()]
        values.update((pick.variable, picked(transition, pick)) for pick in transition.picks)
        after = [values.get(i, name) for i, name in enumerate(self.variables)]
        return self.at("guard%d" % transition.index), both("true", *fits), after

    def targets(self, node, transition):
        """The nodes that a step may lead to."""
        edges = [e for e in self.reading.edges if (e.source, e.transition) == (node, transition)]
        own = [] if any(e.double for e in edges) else [node]
        return sorted({*own, *(e.target for e in edges)})


def picked(transition, pick):
    """What stands for the value of a pick. Each has one, so that there are always such values."""
    return "pick%d-%d" % (transition.index, pick.variable)


def both(*truths):
    return "(and %s)" % " ".join(truths)


def any_of(truths):
    return "(or false %s)" % " ".join(truths)


def negated(truth):
    return "(not %s)" % truth


def inside(value, ends, form="%s"):
    return form % "(<= {} {} {})".format(term(vd.number(ends[0])), value, term(vd.number(ends[1])))


def installed():
    return shutil.which("z3") is not None


def asked(file, conditions):
    """z3's answers on the start and that many conditions, and the least milliseconds of processor
    time that it takes in three runs; no answers if it takes too long."""
    text, least = script(file, conditions), None
    for _ in range(3):
        answers, milliseconds = _run(text)
        least = milliseconds if least is None else min(least, milliseconds)
        if least > 1000:
            break
    return answers, least


def _run(text):
    before = resource.getrusage(resource.RUSAGE_CHILDREN)
    run = subprocess.run(["z3", "-T:%d" % PATIENCE, "-in"], input=text, stdout=subprocess.PIPE,
                         universal_newlines=True)
    after = resource.getrusage(resource.RUSAGE_CHILDREN)
    milliseconds = 1e3 * (after.ru_utime - before.ru_utime + after.ru_stime - before.ru_stime)
    answers = run.stdout.split()
    if "timeout" in answers:
        return None, milliseconds
    if not set(answers) <= {"sat", "unsat"}:
        raise ValueError("z3 says %s" % run.stdout[:300])
    return answers, milliseconds
