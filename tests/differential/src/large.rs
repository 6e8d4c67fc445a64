//! Files of 1,048,576 states that are checked as a whole, and some of 4,096 successors, with the
//! answer, worked out by hand.

use crate::generate::{
    constant, join, plain, record, Code, Draft, Edge, Pick, Transition, CHAIN, INVARIANCE, WAIT_FOR,
};
use independent::Verdict;

/// The ranges, of 32, 32, 16 and 64 values; the last state has the high ends.
const RANGES: [(i16, i16); 4] = [(0, 31), (-16, 15), (-20, -5), (0, 63)];

pub struct Large {
    pub name: String,
    pub file: Vec<u8>,
    /// The verdict's number, the condition or the total, and the tests.
    pub number: u8,
    pub at: u32,
    pub tests: u64,
}

impl Large {
    /// C12.3, C12.7: whether this is the answer.
    pub fn expects(&self, verdict: &Verdict) -> bool {
        (verdict.number, verdict.at, verdict.tests) == (self.number, self.at, self.tests)
    }
}

fn variable(number: u8) -> Code {
    vec![record(0x11, number, 0, 0, 0)]
}

fn value(value: i16) -> Code {
    vec![constant(value)]
}

fn always() -> Code {
    vec![plain(0x20)]
}

fn equal(left: &Code, right: &Code) -> Code {
    join(0x27, &[left, right])
}

/// That the state is the last one.
fn last_state() -> Code {
    let [a, b, c, d] = [0, 1, 2, 3].map(|number: u8| {
        let (_, high) = RANGES[usize::from(number)];
        equal(&variable(number), &value(high))
    });
    join(0x23, &[&join(0x23, &[&a, &b]), &join(0x23, &[&c, &d])])
}

fn not(truth: &Code) -> Code {
    join(0x22, &[truth])
}

/// That variable 0 is at least 5 and variable 3 is 7. The lowest such state has the low ends
/// otherwise: its number is 5 × 32,768 + 7 = 163,847.
fn from_the_middle() -> Code {
    let at_least = join(0x29, &[&value(5), &variable(0)]);
    join(0x23, &[&at_least, &equal(&variable(3), &value(7))])
}

/// Variable 0 falls to 0: one transition, nodes "it is 0" and "it is not".
fn falling(property: u8, guard: Code) -> Draft {
    let zero = equal(&variable(0), &value(0));
    let nodes = vec![zero.clone(), not(&zero)];
    let truths = match property {
        WAIT_FOR => vec![always(), zero, always()],
        _ => vec![always(), zero],
    };
    Draft {
        ranges: RANGES.to_vec(),
        start: always(),
        transitions: vec![Transition {
            assignments: vec![(0, value(0))],
            ..Transition::new(true, guard)
        }],
        property,
        b: if property == WAIT_FOR { 2 } else { 0 },
        truths,
        nodes,
        edges: vec![Edge {
            transition: 0,
            from: 1,
            to: 0,
            double: property == CHAIN,
        }],
    }
}

/// One transition that keeps the state, one node, and these truths as start, q and node.
fn keeping(start: Code, q: Code, node: Code) -> Draft {
    Draft {
        ranges: RANGES.to_vec(),
        start,
        transitions: vec![Transition {
            assignments: vec![(3, variable(3))],
            ..Transition::new(false, always())
        }],
        property: INVARIANCE,
        b: 0,
        truths: vec![q],
        nodes: vec![node],
        edges: Vec::new(),
    }
}

/// A number by a divisor.
fn divide(kind: u8, number: &Code, divisor: i16) -> Code {
    join(kind, &[number, &value(divisor)])
}

/// Variable 3 counts up and goes round at 63, variable 1 down and round at -16: v - 1 + 16 leaves
/// 31 by 32 there. The node: variable 2, in -20..-5, is by 4 at most -2.
fn going_round() -> Draft {
    let up = join(0x12, &[&variable(3), &value(1)]);
    let down = divide(0x19, &join(0x12, &[&variable(1), &value(15)]), 32);
    let node = join(0x29, &[&divide(0x18, &variable(2), 4), &value(-2)]);
    let mut draft = keeping(always(), always(), node);
    draft.transitions[0].assignments = vec![
        (3, divide(0x19, &up, 64)),
        (1, join(0x13, &[&down, &value(16)])),
    ];
    draft
}

/// That the variables are 2 by 10, are -2 by 5, leave 5 by 6, leave 7 by 9. The lowest such state is
/// 20, -10, -19, 7: its number is 20 × 32,768 + 6 × 1,024 + 1 × 64 + 7 = 661,575.
fn divided() -> Code {
    let [a, b, c, d] = [(0x18, 10, 2), (0x18, 5, -2), (0x19, 6, 5), (0x19, 9, 7)];
    let is = |number: u8, (kind, divisor, result)| {
        equal(&divide(kind, &variable(number), divisor), &value(result))
    };
    let low = join(0x23, &[&is(0, a), &is(1, b)]);
    join(0x23, &[&low, &join(0x23, &[&is(2, c), &is(3, d)])])
}

/// That twice variable 0, in 0..31, is one more than twice variable 3, in 0..63. The intervals are
/// 0..62 and 1..127.
fn odd_and_even() -> Code {
    let twice = |number| join(0x14, &[&value(2), &variable(number)]);
    equal(&twice(0), &join(0x12, &[&twice(3), &value(1)]))
}

fn large(name: &str, draft: Draft, number: u8, at: u32, tests: u64) -> Large {
    Large {
        name: name.to_string(),
        file: draft.records().concat(),
        number,
        at,
        tests,
    }
}

/// C10.20: starts that no state satisfies, as the ranges tell or only the states, and starts that
/// the last state alone does.
fn starts() -> Vec<Large> {
    let mut list = Vec::new();
    // Variable 2 is in -20..-5.
    let out_of_reach = join(0x28, &[&variable(0), &variable(2)]);
    for (property, total) in [(INVARIANCE, 4), (WAIT_FOR, 5), (CHAIN, 5)] {
        for (name, start, number, at) in [
            ("out of reach", &out_of_reach, 20, 0),
            ("odd and even", &odd_and_even(), 20, 0),
            ("at the last state", &last_state(), 0, total),
        ] {
            let mut draft = match property {
                INVARIANCE => keeping(always(), always(), always()),
                _ => falling(property, always()),
            };
            draft.start = start.clone();
            let name = format!("start {name}, property {property}");
            list.push(large(&name, draft, number, at, u64::from(at) * 1_048_576));
        }
    }
    list
}

fn pick(variable: u8, (low, high): (i16, i16)) -> Pick {
    Pick {
        variable,
        low,
        high,
        behind: 0,
    }
}

/// C8.11: while variable 2 is below -5 a transition adds 1 to it and picks one of two values for
/// variable 3 and one of two for variable 0.
fn two_by_two(start: Code, node: Code) -> Draft {
    let mut draft = keeping(start, always(), node);
    let transition = &mut draft.transitions[0];
    transition.guard = join(0x28, &[&variable(2), &value(-5)]);
    transition.assignments = vec![(2, join(0x12, &[&variable(2), &value(1)]))];
    transition.picks = vec![pick(3, (62, 63)), pick(0, (30, 31))];
    draft
}

/// C8.11, C5.7: a wait-for over -32..31 and 0..63. From the last state a transition picks any state,
/// and the goal has all but one of them, or all.
fn from_the_last(v: i16, w: i16) -> Draft {
    let here = |v, w| {
        let both = [
            equal(&variable(0), &value(v)),
            equal(&variable(1), &value(w)),
        ];
        join(0x23, &[&both[0], &both[1]])
    };
    let last = here(31, 63);
    Draft {
        ranges: vec![(-32, 31), (0, 63)],
        start: last.clone(),
        transitions: vec![Transition {
            picks: vec![pick(1, (0, 63)), pick(0, (-32, 31))],
            ..Transition::new(false, always())
        }],
        property: WAIT_FOR,
        b: 2,
        truths: vec![last.clone(), always(), always()],
        nodes: vec![not(&here(v, w)), last],
        edges: vec![Edge {
            transition: 0,
            from: 1,
            to: 0,
            double: false,
        }],
    }
}

/// Steps with several successors. Condition 3 is the step of `two_by_two`, 4 that of
/// `from_the_last`, which has 4,096 states.
fn picks() -> Vec<Large> {
    let at = |number, is| equal(&variable(number), &value(is));
    let both = |left: &Code, right: &Code| join(0x23, &[left, right]);
    // Variable 2 rises to -5 and stops, so that the states with -6 lead to those with -5.
    let end = both(&at(2, -5), &at(0, 31));
    let last = both(&end, &at(3, 63));
    let second = both(&both(&at(2, -5), &at(0, 30)), &at(3, 63));
    // The lowest state with -6: 14 × 64 = 896 before it.
    let tests = 3 * 1_048_576 + 896 + 1;
    let mut list = vec![
        large(
            "two picks, accepted",
            two_by_two(always(), always()),
            0,
            4,
            4_194_304,
        ),
        large(
            "two picks, step broken by the last of four successors",
            two_by_two(not(&last), not(&last)),
            17,
            3,
            tests,
        ),
        large(
            "two picks, step broken by the second of four successors",
            two_by_two(not(&second), not(&second)),
            17,
            3,
            tests,
        ),
    ];
    for (v, w) in [(-32, 0), (-32, 1), (-31, 0), (0, 17), (31, 0), (31, 62)] {
        let name = format!("4,096 successors, step broken by {v}, {w}");
        list.push(large(&name, from_the_last(v, w), 17, 4, 5 * 4_096));
    }
    // The last state is in the node itself.
    let kept = from_the_last(31, 63);
    list.push(large(
        "4,096 successors, one in the node",
        kept,
        0,
        5,
        5 * 4_096,
    ));
    let all = from_the_last(0, 64);
    list.push(large(
        "4,096 successors, all in the goal",
        all,
        0,
        5,
        5 * 4_096,
    ));
    list
}

pub fn cases() -> Vec<Large> {
    let others = || not(&last_state());
    let mut list = starts();
    list.extend(picks());
    list.extend([
        large(
            "an invariance, accepted",
            keeping(others(), always(), others()),
            0,
            4,
            4_194_304,
        ),
        large(
            "an invariance, start broken at the last state",
            keeping(always(), always(), others()),
            13,
            0,
            1_048_576,
        ),
        large(
            "an invariance, cover broken at the last state",
            keeping(always(), others(), always()),
            15,
            1,
            2_097_152,
        ),
        large(
            "an invariance, cover broken from the middle on",
            keeping(always(), not(&from_the_middle()), always()),
            15,
            1,
            1_048_576 + 163_847 + 1,
        ),
        large("going round, accepted", going_round(), 0, 4, 4_194_304),
        large(
            "quotients and remainders, cover broken in the middle",
            keeping(always(), not(&divided()), always()),
            15,
            1,
            1_048_576 + 661_575 + 1,
        ),
        large(
            "a wait-for, accepted",
            falling(WAIT_FOR, others()),
            0,
            5,
            5_242_880,
        ),
        large(
            "a chain, accepted",
            falling(CHAIN, always()),
            0,
            5,
            5_242_880,
        ),
        large(
            "a chain, enabling broken at the last state",
            falling(CHAIN, others()),
            18,
            4,
            5_242_880,
        ),
    ]);
    list
}

/// The file that takes the most tests, more than 31 bits hold: 32 nodes and 32 transitions.
pub fn greatest() -> Large {
    let mut draft = keeping(last_state(), always(), last_state());
    draft.transitions = vec![draft.transitions[0].clone(); 32];
    draft.nodes = vec![draft.nodes[0].clone(); 32];
    large("the most tests", draft, 0, 2_081, 2_182_086_656)
}
