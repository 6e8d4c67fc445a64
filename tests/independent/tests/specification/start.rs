//! Refusal 20: a start that is false in every state.

use crate::agreement::{changed, examples, Random};
use crate::builder::*;
use independent::{check, read, single, states, truth, Refusal, Tested};

/// What a file of each property answers that is accepted, but for its start.
fn answers(ranges: &[Bytes], truth: Bytes) -> [(u8, u32); 3] {
    files(ranges, truth).map(|file| unnamed(&file))
}

const REFUSED: [(u8, u32); 3] = [(20, 0); 3];
/// The totals, with one transition.
const ACCEPTED: [(u8, u32); 3] = [(0, 4), (0, 5), (0, 5)];

fn files(ranges: &[Bytes], truth: Bytes) -> [Bytes; 3] {
    let two = || node(yes()).repeat(2);
    [
        join(&[invariance(yes()), node(yes())]),
        join(&[wait_for(yes(), &[yes(), yes()]), two()]),
        join(&[chain(yes(), yes()), two(), double_edge(0, 1, 0)]),
    ]
    .map(|claim| join(&[join(ranges), start(truth.clone()), idle(1), claim]))
}

/// v in 0..3 and w in -2..2.
fn two_ranges() -> [Bytes; 2] {
    [variable(0, 3), variable(-2, 2)]
}

fn twice(number: Bytes) -> Bytes {
    product(constant(2), number)
}

/// C10.20; C12.6, C12.7: no tests, nothing named.
#[test]
fn a_start_that_is_false_everywhere() {
    let (v, w) = (|| value(0), || value(1));
    for truth in [
        no(),
        not(yes()),
        and(yes(), no()),
        // Out of reach.
        is(4),
        is(-1),
        less(constant(3), v()),
        equal(sum(v(), w()), constant(6)),
        // Contradictions of what is true somewhere.
        and(less(v(), w()), less(w(), v())),
        and(is(0), is(1)),
        and(at_most(v(), w()), less(constant(2), v())),
        iff(is(1), not(is(1))),
        less(v(), v()),
        // Parities, remainders and squares that no number has.
        equal(twice(v()), sum(twice(w()), constant(1))),
        equal(remainder(twice(sum(v(), w())), constant(4)), constant(1)),
        equal(remainder(v(), constant(3)), constant(3)),
        equal(quotient(w(), constant(2)), constant(2)),
        equal(product(w(), w()), constant(2)),
    ] {
        assert_eq!(answers(&two_ranges(), truth.clone()), REFUSED);
        assert_eq!(answers(&two_ranges(), not(truth)), ACCEPTED);
    }
}

/// C10.20, C4.1, C6.3: one starting state is enough, whichever it is.
#[test]
fn a_start_that_is_true_at_one_state() {
    for v in 0..=3 {
        for w in -2..=2 {
            let here = and(is(v), equal(value(1), constant(w)));
            assert_eq!(answers(&two_ranges(), here), ACCEPTED, "{v}, {w}");
        }
    }
    // At the first state, at the last, and past them.
    let both = |number| equal(sum(value(0), value(1)), constant(number));
    assert_eq!(answers(&two_ranges(), both(-2)), ACCEPTED);
    assert_eq!(answers(&two_ranges(), both(5)), ACCEPTED);
    assert_eq!(answers(&two_ranges(), both(-3)), REFUSED);
    assert_eq!(answers(&two_ranges(), both(6)), REFUSED);
    // One state in all.
    let one = [variable(7, 7)];
    assert_eq!(answers(&one, is(7)), ACCEPTED);
    assert_eq!(answers(&one, is(8)), REFUSED);
}

/// C10.20, C4.3: of 1,048,576 states the last alone, and none.
#[test]
fn as_many_states_as_allowed() {
    let ranges = [variable(0, 15), variable(i16::MIN, i16::MAX)];
    let last = |high| and(is(high), equal(value(1), constant(i16::MAX)));
    let file = |truth| files(&ranges, truth)[0].clone();
    assert_eq!(unnamed(&file(last(15))), (0, 4));
    assert_eq!(unnamed(&file(last(16))), (20, 0));
    let odd = equal(twice(value(0)), sum(twice(value(1)), constant(1)));
    assert_eq!(unnamed(&file(odd)), (20, 0));
}

/// C11.1: 20 comes behind 7, 8, 9 and 10.
#[test]
fn behind_states_intervals_and_edges() {
    let answer = |truth, high, factor, edges: &[Bytes]| {
        let big = product(constant(1000), constant(factor));
        unnamed(&join(&[
            variable(0, high),
            variable(0, 1024),
            start(truth),
            idle(1),
            chain(no(), yes()),
            node(yes()),
            node(less(big, constant(0))),
            join(edges),
        ]))
    };
    let (down, up) = ([double_edge(0, 1, 0)], [double_edge(0, 0, 1)]);
    // Records: 2 start, 4 transition, 6 property, 9 and 11 nodes, 13 the product, 17 the edge.
    assert_eq!(answer(no(), 1024, 1001, &up), (7, 1));
    assert_eq!(answer(no(), 1024, 1000, &down), (7, 1));
    assert_eq!(answer(no(), 3, 1001, &up), (8, 13));
    assert_eq!(answer(no(), 3, 1001, &down), (8, 13));
    assert_eq!(answer(no(), 3, 1000, &up), (9, 17));
    assert_eq!(answer(no(), 3, 1000, &[]), (10, 1));
    assert_eq!(answer(no(), 3, 1000, &down), (20, 0));
    assert_eq!(answer(yes(), 3, 1000, &down), (0, 5));
    // An interval of the start itself.
    let million = |more| less(sum(twice(value(0)), integer(more)), constant(0));
    assert_eq!(answer(million(999_994), 3, 1000, &down), (20, 0));
    assert_eq!(answer(million(999_995), 3, 1000, &down), (8, 4));
}

fn integer(value: i32) -> Bytes {
    let [thousands, rest] = [value / 1000, value % 1000].map(|part| part as i16);
    sum(product(constant(thousands), constant(1000)), constant(rest))
}

/// C11.1: and behind 2 to 6 and 19, which are tried record by record.
#[test]
fn behind_what_is_tried_by_records() {
    let [file, ..] = files(&[variable(0, 2)], no());
    records_come_first(&file, (20, 0), 4);
}

/// C11.1, C13.2: 11 and 12 come behind it.
#[test]
fn before_the_numbers_of_a_single_test() {
    let refused = |number| Tested::Refused { number, place: 0 };
    let ranges = [variable(0, 2)];
    for (no_start, started) in files(&ranges, no()).iter().zip(files(&ranges, is(2))) {
        let total = unnamed(&started).1 as usize;
        for condition in [0, total - 1, total, usize::MAX] {
            for state in [0, 2, 3, usize::MAX] {
                assert_eq!(single(no_start, condition, state), refused(20));
                let expected = match (condition < total, state < 3) {
                    (true, true) => Tested::Holds,
                    (true, false) => refused(12),
                    (false, _) => refused(11),
                };
                assert_eq!(single(&started, condition, state), expected);
            }
        }
    }
}

/// C11.1: 14 to 18 come behind it. C8.7: 13 doesn't meet it, as the start condition is true.
#[test]
fn before_the_conditions() {
    let up = || transition(1, yes(), &[assign(0, sum(value(0), constant(1)))]);
    let with = |step: Bytes, claim: Bytes| {
        move |truth: Bytes| join(&[variable(0, 2), start(truth), step.clone(), claim.clone()])
    };
    let goal_and_one = |p, q, goal| {
        let nodes = [node(goal), node(is(1)), double_edge(0, 1, 0)];
        join(&[chain(p, q), join(&nodes)])
    };
    for (number, file) in [
        (14, with(up(), goal_and_one(yes(), yes(), is(2)))),
        (
            14,
            with(up(), join(&[wait_for(yes(), &[yes()]), node(no())])),
        ),
        (15, with(up(), goal_and_one(is(1), no(), is(2)))),
        (15, with(up(), join(&[invariance(is(0)), node(yes())]))),
        (16, with(up(), join(&[invariance(yes()), node(yes())]))),
        (17, with(up(), join(&[invariance(yes()), node(is(0))]))),
        (17, with(up(), goal_and_one(is(1), yes(), is(0)))),
        (
            18,
            with(transition(1, no(), &[]), goal_and_one(is(1), yes(), is(2))),
        ),
    ] {
        assert_eq!(verdict(&file(is(0))).number, number);
        assert_eq!(unnamed(&file(no())), (20, 0), "{number}");
        assert_eq!(unnamed(&file(is(3))), (20, 0), "{number}");
    }
    // No node is true: the start condition is broken at each starting state.
    let file = with(idle(0), join(&[invariance(yes()), node(no())]));
    assert_eq!(named(&file(is(2))), (13, 255, 255, 0));
    assert_eq!(unnamed(&file(is(3))), (20, 0));
}

/// C10.1, C11.1: 1 comes before it. C14.1, C14.2: its report; C11.6: it is reading's answer.
#[test]
fn every_answer_has_it() {
    let (number, place) = (20, 0);
    for file in files(&two_ranges(), no()) {
        assert_eq!(read(&file).unwrap_err(), Refusal { number, place });
        for length in [0, 31] {
            let mut report = vec![0x77; length];
            let verdict = check(&file, &mut report);
            assert_eq!((verdict.number, verdict.tests), (1, 0));
            assert_eq!(report, vec![0x77; length]);
        }
        let mut report = [0x77; 32];
        check(&file, &mut report);
        assert_eq!(report[..8], [0x14, 255, 255, 0, 0, 0, 0, 0]);
        assert_eq!(report[8..], [0; 24]);
    }
}

/// C10.20: with `not` before it the start of a refused file is true in every state.
#[test]
fn refused_files_have_no_starting_state() {
    let mut random = Random(5);
    let (files, mut refused) = (examples(), 0);
    for round in 0..20_000 {
        let file = changed(files[round % files.len()].clone(), &mut random);
        if read(&file).err().map(|refusal| refusal.number) != Some(20) {
            continue;
        }
        let at = file.chunks(8).position(|record| record[0] == 0x02).unwrap() + 1;
        let (before, behind) = file.split_at(8 * at);
        let negated = read(&join(&[before.to_vec(), not(behind.to_vec())])).unwrap();
        assert!(states(&negated.variables).all(|state| truth(&negated.start, &state)));
        refused += 1;
    }
    assert!(refused >= 20, "{refused}");
}
