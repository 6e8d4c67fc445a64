//! Each limit, at it and one past it.

use crate::builder::*;
use crate::corners::edges_up_to;

fn variables(number: usize) -> Bytes {
    join(&[
        variable(-1, 0).repeat(number),
        start(yes()),
        invariance(yes()),
        node(yes()),
    ])
}

/// C1.6, C10.5.
#[test]
fn twelve_variables() {
    assert_eq!(unnamed(&variables(12)), (0, 2));
    assert_eq!(unnamed(&variables(13)), (5, 12));
    assert_eq!(unnamed(&variables(0)), (3, 0));
    // All twelve are there: a node that fails in the last state only.
    let all = (0..12).fold(yes(), |all, at| and(all, equal(value(at), constant(0))));
    let file = join(&[
        variable(-1, 0).repeat(12),
        start(yes()),
        invariance(yes()),
        node(not(all)),
    ]);
    assert_eq!(verdict(&file).values, [0; 12]);
    assert_eq!(named(&file), (13, 255, 255, 0));
}

fn transitions(number: usize) -> Bytes {
    join(&[
        counter(),
        idle(0).repeat(number),
        invariance(yes()),
        node(yes()),
    ])
}

/// C1.8, C10.5.
#[test]
fn thirty_two_transitions() {
    assert_eq!(unnamed(&transitions(32)), (0, 2 + 64));
    assert_eq!(unnamed(&transitions(33)), (5, 5 + 64));
}

fn nodes(property: Bytes, number: usize) -> Bytes {
    join(&[counter(), property, node(yes()).repeat(number)])
}

/// C1.13, C10.5.
#[test]
fn thirty_two_nodes() {
    assert_eq!(unnamed(&nodes(invariance(yes()), 32)), (0, 33));
    assert_eq!(unnamed(&nodes(invariance(yes()), 33)), (5, 7 + 64));
    assert_eq!(unnamed(&nodes(chain(yes(), yes()), 32)), (10, 1));
    assert_eq!(unnamed(&nodes(chain(yes(), yes()), 33)), (5, 8 + 64));
}

/// C1.13, C1.11, C10.5, C11.4.
#[test]
fn as_many_nodes_as_phases() {
    let two = || wait_for(yes(), &[yes(), yes()]);
    assert_eq!(unnamed(&nodes(two(), 1)), (3, 11));
    assert_eq!(unnamed(&nodes(two(), 2)), (0, 3));
    assert_eq!(unnamed(&nodes(two(), 3)), (5, 13));
    let most = || wait_for(yes(), &vec![yes(); 32]);
    assert_eq!(unnamed(&nodes(most(), 32)), (0, 33));
    assert_eq!(unnamed(&nodes(most(), 33)), (5, 39 + 64));
}

/// C1.14, C10.5.
#[test]
fn five_hundred_and_twelve_edges() {
    let (last, one_past) = (edges_up_to(512), edges_up_to(513));
    assert_eq!(unnamed(&last), (0, 1 + 32 + 64));
    assert_eq!(unnamed(&one_past), (5, count(&last)));
}

fn nested(levels: usize) -> Bytes {
    let not_records = record(0x22, 0, 0, 0, 0).repeat(levels - 1);
    join(&[
        counter(),
        invariance(yes()),
        node(join(&[not_records, yes()])),
    ])
}

/// C2.12, C10.5.
#[test]
fn sixteen_levels() {
    // An odd number of nots: no state in the node.
    assert_eq!(named(&nested(16)), (13, 255, 255, 0));
    assert_eq!(unnamed(&nested(15)), (0, 2));
    assert_eq!(unnamed(&nested(17)), (5, 8 + 16));
}

/// C2.12, C10.5.
#[test]
fn sixteen_levels_of_numbers() {
    let deep = |levels: usize| {
        let sums = (1..levels).fold(constant(1), |number, _| sum(value(0), number));
        let next = transition(0, yes(), &[assign(0, sums)]);
        join(&[variable(0, 0), start(yes()), next, invariance(yes())])
    };
    // Each sum is two records before the next: the last constant is at level 16.
    let readable = join(&[deep(16), node(no())]);
    assert_eq!(named(&readable).0, 13);
    let one_past = join(&[deep(17), node(no())]);
    assert_eq!(unnamed(&one_past), (5, 6 + 31));
}

/// C2.12, C10.5: an indicator and its truth are levels too.
#[test]
fn sixteen_levels_of_both_sorts() {
    let deep = |indicators: usize| {
        let below = less(value(0), constant(0));
        let nested = (0..indicators).fold(below, |truth, _| less(indicator(truth), constant(1)));
        let file = join(&[
            variable(0, 0),
            start(nested),
            invariance(yes()),
            node(yes()),
        ]);
        unnamed(&file)
    };
    // Each indicator adds two levels, and negates; the innermost numbers stand one level below.
    assert_eq!(deep(7), (0, 2));
    assert_eq!(deep(8), (5, 2 + 16));
}

fn of_records(number: usize) -> Bytes {
    let file = join(&[counter(), invariance(yes()), node(filler(number - 8))]);
    assert_eq!(file.len(), 8 * number);
    file
}

/// C10.2.
#[test]
fn four_thousand_and_ninety_six_records() {
    assert_eq!(unnamed(&of_records(4096)), (0, 2));
    assert_eq!(unnamed(&of_records(4097)), (2, 0));
    let mut file = of_records(4096);
    file.pop();
    assert_eq!(unnamed(&file), (2, 0));
}

fn states(ranges: &[(i16, i16)]) -> Bytes {
    let variables: Vec<Bytes> = ranges.iter().map(|(b, c)| variable(*b, *c)).collect();
    join(&[
        join(&variables),
        start(yes()),
        invariance(yes()),
        node(yes()),
    ])
}

/// C4.3, C10.7.
#[test]
fn as_many_states_as_allowed() {
    // 16 × 65,536 = 1,048,576 and 17 × 61,681 = 1,048,577.
    assert_eq!(unnamed(&states(&[(0, 15), (i16::MIN, i16::MAX)])), (0, 2));
    assert_eq!(unnamed(&states(&[(0, 16), (-30_840, 30_840)])), (7, 1));
    assert_eq!(
        unnamed(&states(&[(-30_840, 30_840), (0, 16), (0, 0)])),
        (7, 1)
    );
    assert_eq!(unnamed(&states(&[(i16::MIN, i16::MAX); 12])), (7, 1));
}

/// C3.3, C3.4, C10.8.
#[test]
fn a_million_and_one() {
    let with = |number| {
        let file = join(&[
            variable(0, 0),
            start(itself(number)),
            invariance(yes()),
            node(yes()),
        ]);
        unnamed(&file)
    };
    let million = |sign: i16| product(constant(1000 * sign), constant(1000));
    assert_eq!(with(sum(million(1), constant(0))), (0, 2));
    assert_eq!(with(sum(million(1), constant(1))), (8, 3));
    assert_eq!(with(sum(million(-1), constant(0))), (0, 2));
    assert_eq!(with(sum(million(-1), constant(-1))), (8, 3));
    assert_eq!(with(difference(million(-1), constant(1))), (8, 3));
}
