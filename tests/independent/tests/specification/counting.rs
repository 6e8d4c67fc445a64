//! The lowest breaking state, and the tests made, counted by hand.

use crate::builder::*;
use crate::examples;
use independent::{check, read, single, Tested};

fn tests(file: &[u8]) -> u64 {
    verdict(file).tests
}

/// C12.7.
#[test]
fn the_small_files() {
    // Of 3 states each, J of 4. A is broken at condition 3 and state 1, C at 2 and 2, E at 6 and 0.
    assert_eq!(tests(&examples::a()), 3 * 3 + 1 + 1);
    assert_eq!(tests(&examples::b()), 4 * 3);
    assert_eq!(tests(&examples::c()), 2 * 3 + 2 + 1);
    assert_eq!(tests(&examples::d()), 8 * 3);
    assert_eq!(tests(&examples::e()), 6 * 3 + 1);
    assert_eq!(tests(&examples::f()), 0);
    assert_eq!(tests(&examples::g()), 0);
    assert_eq!(tests(&examples::h()), 8 * 3);
    assert_eq!(tests(&examples::i()), 0);
    assert_eq!(tests(&examples::j()), 4 * 4);
}

/// A file of each of the refusals 2 to 10, 19 and 20.
fn refused() -> Vec<(u8, Bytes)> {
    let readable = |range, truth| join(&[range, start(truth), invariance(yes()), node(yes())]);
    let million_and_more = less(product(constant(1000), constant(1001)), constant(0));
    vec![
        (2, vec![1; 7]),
        (3, Vec::new()),
        (4, readable(variable(1, 0), yes())),
        (5, readable(variable(0, 1).repeat(13), yes())),
        (6, join(&[examples::d(), single_edge(0, 1, 0)])),
        (7, readable(variable(0, 1024).repeat(2), yes())),
        (8, readable(variable(0, 1), million_and_more)),
        (9, examples::f()),
        (10, examples::g()),
        (
            19,
            readable(
                variable(0, 1),
                less(quotient(value(0), constant(0)), constant(1)),
            ),
        ),
        (20, readable(variable(0, 1), no())),
    ]
}

/// C12.7: none of the refusals 2 to 10, 19 and 20 takes a test.
#[test]
fn refusals_without_a_condition_take_no_tests() {
    for (number, file) in refused() {
        let verdict = verdict(&file);
        assert_eq!((verdict.number, verdict.tests), (number, 0));
    }
}

/// C12.7, C10.1; C11.1: 1 is tried before all others.
#[test]
fn a_short_buffer_takes_no_tests() {
    // Accepted, broken and refused otherwise.
    let no_start = join(&[variable(0, 2), start(no()), invariance(yes()), node(yes())]);
    for file in [
        examples::b(),
        examples::a(),
        examples::f(),
        examples::g(),
        no_start,
    ] {
        for length in [0, 31] {
            let verdict = check(&file, &mut vec![0; length]);
            assert_eq!((verdict.number, verdict.tests), (1, 0));
        }
    }
}

/// Start and node are true: condition 0, the start, holds, and 1, the cover, is broken where q is
/// false.
fn covered(ranges: &[Bytes], q: Bytes) -> Bytes {
    join(&[join(ranges), start(yes()), invariance(q), node(yes())])
}

/// The value of variable 0 and the tests.
fn named_at(file: &[u8]) -> (i16, u64) {
    let verdict = verdict(file);
    assert!((13..=18).contains(&verdict.number));
    (verdict.values[0], verdict.tests)
}

/// C12.7, C12.10; C4.1: all values of the range are there, and no others.
#[test]
fn broken_at_the_first_and_at_the_last_state() {
    // Ten states, -4 to 5; condition 0 holds at each.
    let file = |q| covered(&[variable(-4, 5)], q);
    assert_eq!(named_at(&file(not(is(-4)))), (-4, 10 + 1));
    assert_eq!(named_at(&file(not(is(-3)))), (-3, 10 + 2));
    assert_eq!(named_at(&file(not(is(4)))), (4, 10 + 9));
    assert_eq!(named_at(&file(not(is(5)))), (5, 10 + 10));
    assert_eq!((unnamed(&file(yes())), tests(&file(yes()))), ((0, 2), 20));
    // Condition 0 itself: the first state and the last.
    let start_at = |truth| {
        let parts = [start(truth), invariance(yes()), node(no())];
        join(&[variable(-4, 5), join(&parts)])
    };
    assert_eq!(named_at(&start_at(is(-4))), (-4, 1));
    assert_eq!(named_at(&start_at(is(5))), (5, 10));
}

/// C12.5, C12.7.
#[test]
fn of_several_breaking_states_the_lowest() {
    let file = |q| covered(&[variable(-4, 5)], q);
    // Broken from 2 up: at states 6 to 9.
    assert_eq!(named_at(&file(less(value(0), constant(2)))), (2, 10 + 7));
    // At -3, 0 and 5: states 1, 4 and 9.
    let three = or(is(-3), or(is(0), is(5)));
    assert_eq!(named_at(&file(not(three))), (-3, 10 + 2));
    // At every state.
    assert_eq!(named_at(&file(no())), (-4, 10 + 1));
    // Where nearest to zero is not lowest: at -2 and 1, states 2 and 5.
    let both = or(is(-2), is(1));
    assert_eq!(named_at(&file(not(both.clone()))), (-2, 10 + 3));
    for state in 0..10 {
        let fails = single(&file(not(both.clone())), 1, state) == Tested::Fails;
        assert_eq!(fails, [2, 5].contains(&state));
    }
}

/// C12.4, C12.10: a higher condition is broken at a lower state.
#[test]
fn the_condition_goes_before_the_state() {
    // The cover of node 0 is broken at state 2 only, that of node 1 at state 0 too.
    let file = join(&[
        variable(0, 2),
        start(is(1)),
        invariance(is(1)),
        node(or(is(1), is(2))),
        node(yes()),
    ]);
    assert_eq!(named(&file), (15, 0, 255, 1));
    assert_eq!(named_at(&file), (2, 3 + 3));
    assert_eq!(single(&file, 2, 0), Tested::Fails);
}

/// C4.4, C12.5, C12.7.
#[test]
fn the_last_of_two_variables_counts_fastest() {
    // -1..1 and 5..8: state 4 (v + 1) + (w - 5) of 12.
    let ranges = [variable(-1, 1), variable(5, 8)];
    let other = |number| equal(value(1), constant(number));
    let at = |truth: Bytes| {
        let verdict = verdict(&covered(&ranges, not(truth)));
        (verdict.values[0], verdict.values[1], verdict.tests)
    };
    assert_eq!(at(and(is(-1), other(8))), (-1, 8, 12 + 3 + 1));
    assert_eq!(at(and(is(0), other(5))), (0, 5, 12 + 4 + 1));
    assert_eq!(at(and(is(1), other(7))), (1, 7, 12 + 10 + 1));
    // The lowest of those with w = 6, and with v = 1.
    assert_eq!(at(other(6)), (-1, 6, 12 + 1 + 1));
    assert_eq!(at(is(1)), (1, 5, 12 + 8 + 1));
    // With the first variable fastest 0, 5 would come before -1, 6.
    let two = or(and(is(0), other(5)), and(is(-1), other(6)));
    assert_eq!(at(two), (-1, 6, 12 + 1 + 1));
}

/// C1.8, C12.7.
#[test]
fn no_transitions() {
    // Start and two covers; entry and one cover: of three states.
    let file = join(&[counter(), invariance(yes()), node(yes()).repeat(2)]);
    assert_eq!(tests(&file), 3 * 3);
    let file = join(&[counter(), chain(yes(), yes()), node(yes())]);
    assert_eq!(tests(&file), 2 * 3);
    let file = join(&[counter(), wait_for(is(1), &[is(2)]), node(is(1))]);
    assert_eq!(named_at(&file), (1, 3 + 2));
}

/// C12.7; C10.16, C10.17, C10.18.
#[test]
fn each_kind_of_condition() {
    // Chains over -1..2 with nodes "v is 0" and "v is 1 or 2". Conditions: 0 entry, 1 cover,
    // 2 range, 3 step, 4 enabling.
    let file = |p, q, guard, next| {
        join(&[
            variable(-1, 2),
            start(yes()),
            transition(1, guard, &[assign(0, next)]),
            chain(p, q),
            node(is(0)),
            node(or(is(1), is(2))),
            double_edge(0, 1, 0),
        ])
    };
    let zero = || constant(0);
    let not_low = || not(is(-1));
    assert_eq!(tests(&file(not_low(), is(0), yes(), zero())), 5 * 4);
    assert_eq!(named_at(&file(yes(), is(0), yes(), zero())), (-1, 1));
    assert_eq!(named_at(&file(not_low(), is(1), yes(), zero())), (0, 4 + 2));
    // 1 becomes -1, in no node; 2 becomes -2, out of range.
    let negation = product(value(0), constant(-1));
    let negated = file(not_low(), is(0), yes(), negation.clone());
    assert_eq!(
        (named(&negated).0, named_at(&negated)),
        (16, (2, 2 * 4 + 4))
    );
    let negated = file(not_low(), is(0), is(1), negation);
    assert_eq!(
        (named(&negated).0, named_at(&negated)),
        (17, (1, 3 * 4 + 3))
    );
    let disabled = file(not_low(), is(0), is(1), zero());
    assert_eq!(
        (named(&disabled).0, named_at(&disabled)),
        (18, (2, 4 * 4 + 4))
    );
}

/// C4.3, C10.7, C12.7.
#[test]
fn as_many_states_as_allowed() {
    // 16 × 65,536 = 1,048,576 states.
    let ranges = [variable(0, 15), variable(i16::MIN, i16::MAX)];
    let accepted = covered(&ranges, yes());
    assert_eq!(read(&accepted).unwrap().states(), 1_048_576);
    assert_eq!(tests(&accepted), 2_097_152);
    // Broken where v is 15 and w is 32,767: at the last state.
    let last = and(is(15), equal(value(1), constant(i16::MAX)));
    assert_eq!(named_at(&covered(&ranges, not(last))), (15, 2_097_152));
    // Where v is at least 3 and w is 0: first at state 3 × 65,536 + 32,768 = 229,376.
    let middle = and(at_most(constant(3), value(0)), equal(value(1), constant(0)));
    let broken = covered(&ranges, not(middle));
    assert_eq!(named_at(&broken), (3, 1_048_576 + 229_376 + 1));
}
