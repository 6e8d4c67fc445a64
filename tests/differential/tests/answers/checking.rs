//! Verdicts with their tests, reports and single tests.

use super::examples::example;
use super::{acceptance, answers, file, refusal, report, tests, Records, CHECKERS};
use differential::generate::record;
use independent::{Tested, Verdict};

fn r(kind: u8, a: u8) -> [u8; 8] {
    record(kind, a, 0, 0, 0)
}

fn constant(value: i16) -> [u8; 8] {
    record(0x10, 0, value, 0, 0)
}

/// Compares variable 0 with a constant.
fn compare(kind: u8, value: i16) -> Records {
    vec![r(kind, 0), r(0x11, 0), constant(value)]
}

fn equal(value: i16) -> Records {
    compare(0x27, value)
}

fn always() -> Records {
    vec![r(0x20, 0)]
}

/// A transition of variable 0: just or not, its guard, and what is added.
fn step(just: u8, guard: &Records, added: i16) -> Records {
    let assigned = [r(0x04, 0), r(0x12, 0), r(0x11, 0), constant(added)];
    [vec![r(0x03, just)], guard.clone(), assigned.to_vec()].concat()
}

/// A broken condition: number, node, transition, condition, the value of variable 0, and the tests.
fn named(number: u8, node: u8, transition: u8, at: u32, value: i16, tests: u64) -> Verdict {
    let mut values = [0; 12];
    values[0] = value;
    Verdict {
        number,
        node,
        transition,
        at,
        values,
        tests,
    }
}

#[track_caller]
fn broken(file: &[u8], number: u8, node: u8, transition: u8, at: u32, value: i16, tests: u64) {
    answers(file, named(number, node, transition, at, value, tests));
}

#[track_caller]
fn accepted(file: &[u8], total: u32, tests: u64) {
    answers(file, acceptance(total, tests));
}

/// Whether the condition holds, state by state.
#[track_caller]
fn holds(file: &[u8], condition: usize, expected: &[bool]) {
    for (state, &holds) in expected.iter().enumerate() {
        let expected = if holds { Tested::Holds } else { Tested::Fails };
        tests(file, condition, state, expected);
    }
}

#[track_caller]
fn single_refused(file: &[u8], condition: usize, state: usize, number: u8, place: u32) {
    tests(file, condition, state, Tested::Refused { number, place });
}

/// C12.2, C12.3, C12.6, C12.7, C14.1, C14.2, C14.3; C5.1: J swaps; C9.3: I; C9.6: F; C9.9: G.
#[test]
fn examples() {
    // A to I have 3 states, J has 4.
    for (name, first_bytes, tests) in [
        ("A", "1100000003000000 0100", 11),
        ("B", "00ffff0004000000", 12),
        ("C", "1000000002000000 0200", 9),
        ("D", "00ffff0008000000", 24),
        ("E", "1102000006000000", 19),
        ("F", "09ffff001e000000", 0),
        ("G", "0affff0002000000", 0),
        ("H", "00ffff0008000000", 24),
        ("I", "09ffff0028000000", 0),
        ("J", "00ffff0004000000", 16),
        ("no bytes", "03ffff0000000000", 0),
        ("7 bytes", "02ffff0000000000", 0),
        ("0..1023 twice", "00ffff0002000000", 2_097_152),
        ("0..1023 and 0..1024", "07ffff0001000000", 0),
        ("1000 × 1000", "00ffff0002000000", 2),
        ("1000 × 1001", "08ffff0003000000", 0),
        ("B, start false", "14ffff0000000000", 0),
    ] {
        let file = example(name);
        let expected = format!("{:0<64}", first_bytes.replace(' ', ""));
        for (checker, check, _) in CHECKERS {
            let mut bytes = [0xa5; 32];
            let verdict = check(&file, &mut bytes);
            let printed: String = bytes.iter().map(|byte| format!("{byte:02x}")).collect();
            assert_eq!(printed, expected, "{name}, {checker}");
            assert_eq!(report(&verdict), bytes, "{name}, {checker}");
            assert_eq!(verdict.tests, tests, "{name}, {checker}");
        }
    }
}

/// The repository's examples, each with the report that its text gives: C14.1, C14.2, C14.3.
#[test]
fn samples() {
    let mut checked = 0;
    for (name, file) in differential::samples() {
        // Takes minutes.
        if name == "pages-largest" {
            continue;
        }
        let folder = concat!(env!("CARGO_MANIFEST_DIR"), "/../../examples");
        let text = std::fs::read_to_string(format!("{folder}/{name}.txt")).unwrap();
        let answer = text.lines().find_map(|line| line.strip_prefix("answer: "));
        for (checker, check, _) in CHECKERS {
            let mut bytes = [0xa5; 32];
            check(&file, &mut bytes);
            let printed: String = bytes.iter().map(|byte| format!("{byte:02x}")).collect();
            assert_eq!(Some(&printed[..]), answer, "{name}, {checker}");
        }
        checked += 1;
    }
    assert!(checked >= 20, "{checked} examples");
}

/// C10.1, C14.4 to C14.6; C12.12: the same answer, whatever the room.
#[test]
fn buffers() {
    for (name, expected) in [
        ("A", named(17, 0, 0, 3, 1, 11)),
        ("B", acceptance(4, 12)),
        ("F", refusal(9, 30)),
        ("7 bytes", refusal(2, 0)),
        ("B, start false", refusal(20, 0)),
    ] {
        let file = example(name);
        for (checker, check, _) in CHECKERS {
            for room in 0..=64 {
                let before: Vec<u8> = (0..80).map(|byte| 3 * byte + 1).collect();
                let mut after = before.clone();
                let verdict = check(&file, &mut after[..room]);
                if room < 32 {
                    // It takes no tests either.
                    assert_eq!(verdict, refusal(1, 0), "{name}, {checker}, {room}");
                    assert_eq!(after, before, "{name}, {checker}, {room}");
                } else {
                    assert_eq!(verdict, expected, "{name}, {checker}, {room}");
                    assert_eq!(after[..32], report(&expected), "{name}, {checker}, {room}");
                    assert_eq!(after[32..], before[32..], "{name}, {checker}, {room}");
                }
            }
        }
    }
}

/// C13.1, C13.2, C13.3, C10.11, C10.12.
#[test]
fn single_tests() {
    // v in 0..2, start v = 0, v less than 2: v + 1, q v at most 2, node v at most 1. Only the step
    // of v = 1 leaves the node.
    let a = example("A");
    for condition in 0..3 {
        holds(&a, condition, &[true; 3]);
    }
    holds(&a, 3, &[true, false, true]);
    // C has guard true and node v at most 2: at v = 2 the value is out of range, and the transition
    // not enabled.
    let c = example("C");
    holds(&c, 2, &[true, true, false]);
    holds(&c, 3, &[true; 3]);
    // E's node 2, v = 0, may lead to v = 2 only.
    let e = example("E");
    for condition in (0..8).filter(|&condition| condition != 6) {
        holds(&e, condition, &[true; 3]);
    }
    holds(&e, 6, &[false, true, true]);

    for (file, conditions) in [(&a, 4), (&c, 4), (&e, 8)] {
        for beyond in [conditions, conditions + 1, 1 << 32, usize::MAX] {
            single_refused(file, beyond, 0, 11, 0);
            single_refused(file, beyond, 3, 11, 0);
        }
        for beyond in [3, 4, 1 << 32, usize::MAX] {
            single_refused(file, 0, beyond, 12, 0);
            single_refused(file, conditions - 1, beyond, 12, 0);
        }
    }
    for (name, number, place) in [
        ("F", 9, 30),
        ("G", 10, 2),
        ("I", 9, 40),
        ("no bytes", 3, 0),
        ("7 bytes", 2, 0),
        ("B, start false", 20, 0),
    ] {
        let file = example(name);
        single_refused(&file, 0, 0, number, place);
        single_refused(&file, usize::MAX, usize::MAX, number, place);
    }
}

/// C8.7, C8.8, C8.9, C10.13, C10.14, C10.15; C12.4, C12.5; C8.6: of a chain only the goal is
/// covered.
#[test]
fn start_entry_cover() {
    // Invariance: start v at most 1, node v = 0.
    let at_most = compare(0x29, 1);
    let property = (1, 0, &[always()][..]);
    let inv = file(&[(0, 2)], at_most.clone(), &[], property, &[equal(0)], &[]);
    broken(&inv, 13, 255, 255, 0, 1, 2);
    holds(&inv, 0, &[true, false, true]);
    // The lowest condition, though a lower state breaks a higher one: node 1 is v = -3, q v = -2.
    let nodes = [equal(-2), equal(-3)];
    let inv = file(&[(-3, 0)], equal(0), &[], (1, 0, &[equal(-2)]), &nodes, &[]);
    broken(&inv, 13, 255, 255, 0, 0, 4);
    holds(&inv, 2, &[false, true, true, true]);
    let inv = file(
        &[(-3, 0)],
        equal(-3),
        &[],
        (1, 0, &[equal(-2)]),
        &nodes,
        &[],
    );
    broken(&inv, 15, 1, 255, 2, -3, 9);

    // Wait-for: p v at most 1, q_0 v = 1, q_1 v = 0; nodes v = 1 and v = 0. The start is no matter.
    let truths = [at_most.clone(), equal(1), equal(0)];
    let nodes = [equal(1), equal(0)];
    let wait_for = |truths: &[Records]| file(&[(0, 2)], always(), &[], (2, 2, truths), &nodes, &[]);
    accepted(&wait_for(&truths), 3, 9);
    broken(
        &wait_for(&[always(), equal(1), equal(0)]),
        14,
        255,
        255,
        0,
        2,
        3,
    );
    // Each node has its own q.
    let swapped = [at_most, equal(0), equal(1)];
    broken(&wait_for(&swapped), 15, 0, 255, 1, 1, 5);
    holds(&wait_for(&swapped), 2, &[false, true, true]);
    // With one phase q_0 holds where p does.
    let one = |q| {
        file(
            &[(0, 2)],
            always(),
            &[],
            (2, 1, &[equal(1), q]),
            &[equal(1)],
            &[],
        )
    };
    accepted(&one(equal(1)), 2, 6);
    broken(&one(equal(0)), 15, 0, 255, 1, 1, 5);

    // Chain: only node 0 must imply q.
    let down = [step(1, &always(), 0)];
    let chain = |p, q, node| {
        let nodes = [node, equal(1)];
        let edges = [(0, 1, 0, 1)];
        file(&[(0, 1)], always(), &down, (3, 0, &[p, q]), &nodes, &edges)
    };
    broken(&chain(always(), always(), equal(1)), 14, 255, 255, 0, 0, 1);
    broken(&chain(equal(1), equal(0), equal(1)), 15, 0, 255, 1, 1, 4);
    // Node 1, v = 1, doesn't imply q; the step keeps v = 1, which node 0 has.
    accepted(&chain(equal(1), always(), equal(1)), 5, 10);
}

/// C10.20, C11.1, C12.7, C13.2: of each property, before each kind of condition and before the
/// numbers of a single test.
#[test]
fn no_start() {
    // v of -1..2 becomes v + 1, without a guard or where it is less than 1.
    let up = [step(1, &always(), 1)];
    let below_1 = [step(1, &compare(0x28, 1), 1)];
    let nodes = [equal(2), equal(1)];
    let double = [(0, 1, 0, 1)];
    let truths = |list: &[i16]| -> Vec<Records> { list.iter().map(|&v| equal(v)).collect() };
    type Case<'a> = (
        u8,
        &'a [Records],
        (u8, i16, Vec<Records>),
        &'a [Records],
        &'a [(u8, i16, i16, u8)],
    );
    // What each is answered with where the start is v = 2.
    let cases: [Case; 11] = [
        (0, &[], (1, 0, truths(&[2])), &nodes[..1], &[]),
        (13, &[], (1, 0, truths(&[1])), &nodes[1..], &[]),
        (15, &[], (1, 0, truths(&[1])), &nodes[..1], &[]),
        (16, &up, (1, 0, truths(&[2])), &nodes[..1], &[]),
        (0, &up, (2, 2, truths(&[2, 2, 1])), &nodes, &[(0, 1, 0, 0)]),
        (14, &up, (2, 2, truths(&[0, 2, 1])), &nodes, &[]),
        (17, &up, (2, 2, truths(&[1, 2, 1])), &nodes, &[]),
        (0, &up, (3, 0, truths(&[1, 2])), &nodes, &double),
        (14, &up, (3, 0, truths(&[0, 2])), &nodes, &double),
        (15, &up, (3, 0, truths(&[1, 1])), &nodes, &double),
        (18, &below_1, (3, 0, truths(&[1, 2])), &nodes, &double),
    ];
    let [below, above] = [
        compare(0x28, 0),
        [vec![r(0x22, 0)], compare(0x29, 0)].concat(),
    ];
    for (number, transitions, (a, b, truths), nodes, edges) in cases {
        let with = |start| {
            file(
                &[(-1, 2)],
                start,
                transitions,
                (a, b, &truths),
                nodes,
                edges,
            )
        };
        for (name, check, _) in CHECKERS {
            let found = check(&with(equal(2)), &mut [0; 32]).number;
            assert_eq!(found, number, "{name}");
        }
        for start in [
            vec![r(0x21, 0)],
            equal(3),
            equal(-2),
            [vec![r(0x23, 0)], below.clone(), above.clone()].concat(),
            // v leaves 2 by 2.
            vec![r(0x27, 0), r(0x19, 0), r(0x11, 0), constant(2), constant(2)],
        ] {
            let file = with(start);
            answers(&file, refusal(20, 0));
            for condition in [0, 1, 100, usize::MAX] {
                for state in [0, 3, 4, usize::MAX] {
                    single_refused(&file, condition, state, 20, 0);
                }
            }
        }
    }
}

/// C8.4, C8.5, C8.10, C8.11, C10.16, C10.17.
#[test]
fn range_and_step() {
    // Two transitions from v = 0 and v = 1 of 0..1; the first has its value out of range where v
    // is 1, the second swaps 0 for 1.
    let swap = [
        vec![r(0x03, 0), r(0x20, 0), r(0x04, 0)],
        vec![r(0x13, 0), constant(1), r(0x11, 0)],
    ];
    let transitions = [step(0, &always(), 1), swap.concat()];
    let nodes = [equal(0), equal(1)];
    let inv = |edges: &[_]| {
        let property = (1, 0, &[always()][..]);
        file(&[(0, 1)], equal(0), &transitions, property, &nodes, edges)
    };
    // 0 start, 1 and 2 cover, 3 to 10 range and step by node, by transition. Without an edge the
    // node must be kept.
    broken(&inv(&[]), 17, 0, 0, 4, 0, 9);
    broken(&inv(&[(0, 0, 1, 0)]), 17, 0, 1, 6, 0, 13);
    let edges = [(0, 0, 1, 0), (1, 0, 1, 0)];
    broken(&inv(&edges), 16, 1, 0, 7, 1, 16);
    holds(&inv(&edges), 8, &[true, true]);
    holds(&inv(&edges), 10, &[true, false]);
    holds(&inv(&[edges[0], edges[1], (1, 1, 0, 0)]), 10, &[true, true]);
    // An edge of another transition, or from another node, doesn't count.
    holds(&inv(&[(1, 0, 1, 0), (0, 1, 1, 0)]), 4, &[false, true]);

    // In a wait-for node 0 has no range and no step; p, q_0 and node 0 are v = 1.
    let truths = [always(), equal(1), equal(0)];
    let nodes = [equal(1), equal(0)];
    let wait_for = |edges: &[_]| {
        let property = (2, 2, &truths[..]);
        file(&[(0, 1)], equal(0), &transitions, property, &nodes, edges)
    };
    broken(&wait_for(&[]), 17, 1, 0, 4, 0, 9);
    accepted(&wait_for(&[(0, 1, 0, 0), (1, 1, 0, 0)]), 7, 14);
}

/// C8.6, C8.12, C8.13, C10.18.
#[test]
fn double_and_enabling() {
    // D, whose node 2 is v = 0 and node 1 v = 1, with other guards and steps.
    let nodes = [equal(2), equal(1), equal(0)];
    let edges = [(0, 2, 1, 1), (0, 1, 0, 1)];
    let chain = |transitions: &[Records], nodes: &[Records]| {
        let property = (3, 0, &[always(), equal(2)][..]);
        file(&[(0, 2)], equal(0), transitions, property, nodes, &edges)
    };
    accepted(&chain(&[step(1, &compare(0x28, 2), 1)], &nodes), 8, 24);
    // Enabling comes behind the step of the double transition: 2 range, 3 step, 4 enabling of node 1.
    let only_first = chain(&[step(1, &equal(0), 1)], &nodes);
    broken(&only_first, 18, 1, 0, 4, 1, 14);
    holds(&only_first, 7, &[true; 3]);
    // The source node isn't enough after a double step.
    let stays = chain(&[step(1, &always(), 0)], &nodes);
    broken(&stays, 17, 1, 0, 3, 1, 11);
    // By a single transition it is: transition 1 adds 0.
    let both = [step(1, &compare(0x28, 2), 1), step(1, &always(), 0)];
    accepted(&chain(&both, &nodes), 12, 36);
    // Where a value is out of range, the transition is not enabled: range and enabling are broken.
    let out = chain(&[step(1, &always(), -1)], &nodes);
    holds(&out, 2, &[true; 3]);
    holds(&out, 5, &[false, true, true]);
    holds(&out, 6, &[true; 3]);
    holds(&out, 7, &[false, true, true]);
}

/// C2.14 in guards, assigned values, properties and nodes; C12.2, C12.3, C12.5.
#[test]
fn going_round() {
    // D without a guard: v becomes v + 1, and behind 2 comes 0.
    let round = |divisor| {
        let next = [r(0x19, 0), r(0x12, 0), r(0x11, 0), constant(1)];
        let step = [r(0x03, 1), r(0x20, 0), r(0x04, 0)];
        [&step[..], &next, &[constant(divisor)]].concat()
    };
    let nodes = [equal(2), equal(1), equal(0)];
    let edges = [(0, 2, 1, 1), (0, 1, 0, 1)];
    let property = (3, 0, &[always(), equal(2)][..]);
    let chain = |step| file(&[(0, 2)], equal(0), &[step], property, &nodes, &edges);
    accepted(&chain(round(3)), 8, 24);
    // By 2, v = 1 is followed by 0: the step of node 1, condition 3.
    broken(&chain(round(2)), 17, 1, 0, 3, 1, 11);
    // In an invariance the step from 2 counts: by 4 it is out of range.
    let property = (1, 0, &[always()][..]);
    let invariance = |step| file(&[(0, 2)], equal(0), &[step], property, &[always()], &[]);
    accepted(&invariance(round(3)), 4, 12);
    broken(&invariance(round(4)), 16, 0, 0, 2, 2, 9);

    // -3..2 in pairs by 2: 2 and 3, 0 and 1, -2 and -1, -4 and -3. From each pair, where v is less
    // than 2, to the first of the next.
    let half = [r(0x18, 0), r(0x11, 0), constant(2)];
    let in_pair = |number| [&[r(0x27, 0)], &half[..], &[constant(number)]].concat();
    let next = [
        vec![r(0x03, 1)],
        compare(0x28, 2),
        vec![r(0x04, 0), r(0x12, 0), r(0x14, 0)],
        half.to_vec(),
        vec![constant(2), constant(2)],
    ];
    let nodes = [in_pair(1), in_pair(0), in_pair(-1), in_pair(-2)];
    let edges = [(0, 3, 2, 1), (0, 2, 1, 1), (0, 1, 0, 1)];
    let property = (3, 0, &[always(), equal(2)][..]);
    let transitions = [next.concat()];
    let chain = file(&[(-3, 2)], always(), &transitions, property, &nodes, &edges);
    accepted(&chain, 11, 66);
    // A cover that is broken at -2 and -1, the pair -1.
    let not_there = [vec![r(0x22, 0)], in_pair(-1)].concat();
    let property = (1, 0, &[not_there][..]);
    let cover = file(&[(-3, 2)], always(), &[], property, &[always()], &[]);
    broken(&cover, 15, 0, 255, 1, -2, 8);
    holds(&cover, 1, &[true, false, false, true, true, true]);
    // A guard: where v leaves 1 by 2, adding 3 leads out of the range from 1 only.
    let odd = vec![r(0x27, 0), r(0x19, 0), r(0x11, 0), constant(2), constant(1)];
    let property = (1, 0, &[always()][..]);
    let odd = file(
        &[(-3, 2)],
        always(),
        &[step(0, &odd, 3)],
        property,
        &[always()],
        &[],
    );
    broken(&odd, 16, 0, 0, 2, 1, 17);
    holds(&odd, 2, &[true, true, true, true, false, true]);
}

/// C8.15, C12.2, C12.7.
#[test]
fn totals() {
    for (nodes, transitions) in [
        (1, 0),
        (1, 1),
        (1, 32),
        (2, 0),
        (2, 1),
        (3, 2),
        (5, 7),
        (32, 0),
        (32, 1),
        (32, 32),
    ] {
        // All truths are true and all steps idle. There is one state: a test for each condition.
        let steps = vec![step(1, &always(), 0); transitions];
        let assertions = vec![always(); nodes];
        let truths = vec![always(); nodes + 1];
        let (n, t) = (nodes as u32, transitions as u32);
        let of = |property: (u8, i16, &[Records]), edges: &[_]| {
            file(&[(0, 0)], always(), &steps, property, &assertions, edges)
        };
        let accepted = |file: &[u8], total: u32| accepted(file, total, total.into());
        accepted(&of((1, 0, &truths[..1]), &[]), 1 + n + 2 * n * t);
        let phases = (2, nodes as i16, &truths[..]);
        accepted(&of(phases, &[]), 1 + n + 2 * (n - 1) * t);
        if nodes == 1 || transitions > 0 {
            let edges: Vec<_> = (1..nodes)
                .map(|node| ((node % transitions) as u8, node as i16, 0, 1))
                .collect();
            let chain = of((3, 0, &[always(), always()]), &edges);
            accepted(&chain, 2 + 2 * (n - 1) * t + (n - 1));
        }
    }
}
