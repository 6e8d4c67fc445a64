//! Refusals 3 to 12: numbers, places, order. 19 is in division.rs, 20 in start.rs, 22 in picks.rs.

use crate::builder::*;
use crate::examples;
use independent::{read, single, Refusal, Tested};

/// Changes one byte of one record.
fn with_byte(mut file: Bytes, record: usize, byte: usize, value: u8) -> Bytes {
    file[8 * record + byte] = value;
    file
}

/// C10.3, C1.5: the place is how many records there are.
#[test]
fn each_end_inside_b_is_early() {
    let file = examples::b();
    let full = count(&file) as usize;
    for records in 0..full {
        let cut = &file[..8 * records];
        assert_eq!(unnamed(cut), (3, records as u32), "{records} records");
    }
}

/// C10.3, C2.11.
#[test]
fn a_kind_that_fits_no_place() {
    for record in 0..21 {
        for kind in [0x00, 0x09, 0x0f, 0x16, 0x17, 0x1a, 0x1f, 0x2a, 0xff] {
            let file = with_byte(examples::b(), record, 0, kind);
            assert_eq!(unnamed(&file), (3, record as u32));
        }
    }
}

/// C2.2, C1.8, C1.9, C10.3.
#[test]
fn the_wrong_sort_is_a_misfit() {
    let number_as_guard = join(&[counter(), transition(0, constant(1), &[])]);
    assert_eq!(unnamed(&number_as_guard), (3, 6));
    let truth_as_value = join(&[counter(), transition(0, yes(), &[assign(0, yes())])]);
    assert_eq!(unnamed(&truth_as_value), (3, 8));
    let truth_compared = join(&[variable(0, 2), start(equal(yes(), yes()))]);
    assert_eq!(unnamed(&truth_compared), (3, 3));
    let number_indicated = join(&[variable(0, 2), start(less(indicator(value(0)), value(0)))]);
    assert_eq!(unnamed(&number_indicated), (3, 4));
}

/// C1.7, C1.12, C1.13, C10.3: start, q and assertion are truths.
#[test]
fn a_number_where_a_truth_must_stand() {
    let as_start = join(&[variable(0, 2), start(constant(1))]);
    assert_eq!(unnamed(&as_start), (3, 2));
    let as_q = join(&[counter(), invariance(constant(1))]);
    assert_eq!(unnamed(&as_q), (3, 6));
    let as_second_q = join(&[counter(), wait_for(yes(), &[yes(), value(0)])]);
    assert_eq!(unnamed(&as_second_q), (3, 8));
    let as_assertion = join(&[counter(), invariance(yes()), node(value(0))]);
    assert_eq!(unnamed(&as_assertion), (3, 8));
}

/// C1.5, C10.3.
#[test]
fn a_second_start_or_property_or_a_late_variable() {
    let file = join(&[counter(), start(yes())]);
    assert_eq!(unnamed(&file), (3, 5));
    let file = join(&[counter(), invariance(yes()), invariance(yes())]);
    assert_eq!(unnamed(&file), (3, 7));
    let file = join(&[counter(), variable(0, 1)]);
    assert_eq!(unnamed(&file), (3, 5));
    let file = join(&[counter(), invariance(yes()), node(yes()), idle(0)]);
    assert_eq!(unnamed(&file), (3, 9));
}

/// C1.5, C10.3.
#[test]
fn nothing_follows_an_edge_but_edges() {
    let file = join(&[examples::h(), node(yes())]);
    assert_eq!(unnamed(&file), (3, count(&examples::h())));
    let file = join(&[examples::h(), yes()]);
    assert_eq!(unnamed(&file), (3, count(&examples::h())));
}

/// C1.6, C10.4.
#[test]
fn a_range_may_not_be_empty() {
    let file = join(&[variable(1, 0), start(yes()), invariance(yes()), node(yes())]);
    assert_eq!(unnamed(&file), (4, 0));
    let file = join(&[
        variable(-3, -3),
        start(yes()),
        invariance(yes()),
        node(yes()),
    ]);
    assert_eq!(unnamed(&file), (0, 2));
}

/// C1.8, C10.4.
#[test]
fn justice_is_0_or_1() {
    let file = join(&[counter(), idle(2), invariance(yes()), node(yes())]);
    assert_eq!(unnamed(&file), (4, 5));
    let file = join(&[counter(), idle(1), invariance(yes()), node(yes())]);
    assert_eq!(unnamed(&file), (0, 4));
}

/// C1.10, C10.4.
#[test]
fn a_property_has_one_of_three_kinds() {
    for a in [0, 4, 255] {
        let file = join(&[counter(), record(0x05, a, 0, 0, 0), yes(), node(yes())]);
        assert_eq!(unnamed(&file), (4, 5));
    }
}

/// C1.15, C10.4; C1.14: d is 0 or 1.
#[test]
fn names_that_the_file_lacks() {
    let unknown_value = join(&[variable(0, 2), start(equal(value(1), value(0)))]);
    assert_eq!(unnamed(&unknown_value), (4, 3));
    let unknown_variable = join(&[counter(), transition(0, yes(), &[assign(1, value(0))])]);
    assert_eq!(unnamed(&unknown_variable), (4, 7));
    let base = join(&[counter(), idle(0), invariance(yes()), node(yes())]);
    let place = count(&base);
    for edge in [
        single_edge(1, 0, 0),
        single_edge(0, 1, 0),
        single_edge(0, 0, 1),
        single_edge(0, -1, 0),
        single_edge(0, 0, -1),
        record(0x07, 0, 0, 0, 2),
    ] {
        assert_eq!(unnamed(&join(&[base.clone(), edge])), (4, place));
    }
    assert_eq!(unnamed(&join(&[base, single_edge(0, 0, 0)])), (0, 4));
}

/// C1.17, C10.6.
#[test]
fn a_variable_assigned_again() {
    let twice = transition(0, yes(), &[assign(0, value(0)), assign(0, value(0))]);
    let file = join(&[counter(), twice, invariance(yes()), node(yes())]);
    assert_eq!(unnamed(&file), (6, 9));
    let later = [
        assign(0, value(0)),
        assign(1, value(0)),
        assign(0, value(0)),
    ];
    let apart = transition(0, yes(), &later);
    let file = join(&[variable(0, 1), variable(0, 1), start(yes()), apart]);
    assert_eq!(unnamed(&file), (6, 10));
    let in_two = transition(0, yes(), &[assign(0, value(0))]);
    let file = join(&[
        counter(),
        in_two.clone(),
        in_two,
        invariance(yes()),
        node(yes()),
    ]);
    assert_eq!(unnamed(&file), (0, 6));
}

/// C11.2.
#[test]
fn the_first_record_at_fault_is_named() {
    // 6 at record 9 before 3 at record 11.
    let twice = transition(0, yes(), &[assign(0, value(0)), assign(0, value(0))]);
    let file = join(&[counter(), twice, yes()]);
    assert_eq!(unnamed(&file), (6, 9));
}

/// C11.2.
#[test]
fn at_one_record_the_kind_is_tried_first() {
    for record in 0..21 {
        let misfit = with_byte(examples::b(), record, 0, 0xff);
        let file = with_byte(misfit, record, 7, 1);
        assert_eq!(unnamed(&file), (3, record as u32));
    }
}

/// C11.2.
#[test]
fn at_one_record_fields_are_tried_before_repeats() {
    let second = record(0x04, 0, 1, 0, 0);
    let file = |second| {
        let base = transition(0, yes(), &[assign(0, value(0)), second]);
        join(&[counter(), base])
    };
    assert_eq!(unnamed(&file(second)), (4, 9));
    // The repeat is the assignment's own, whatever expression follows it.
    assert_eq!(unnamed(&file(assign(0, yes()))), (6, 9));
    assert_eq!(unnamed(&file(record(0x04, 0, 0, 0, 0))), (6, 9));
}

/// What a chain with that truth for node 1 is refused with: 7 if `high` is 1024, 8 if `factor` is
/// 1001, 9 if an edge is double, as no transition is just, and 10 if none is.
pub fn by_stages(truth: Bytes, high: i16, factor: i16, edges: &[Bytes]) -> (u8, u32) {
    let big = product(constant(1000), constant(factor));
    unnamed(&join(&[
        variable(0, high),
        variable(0, 1024),
        start(less(big, constant(0))),
        idle(0),
        chain(no(), yes()),
        node(yes()),
        node(truth),
        join(edges),
    ]))
}

/// C11.1.
#[test]
fn seven_before_eight_before_nine_before_ten() {
    let bad = [double_edge(0, 1, 0)];
    assert_eq!(by_stages(no(), 1024, 1001, &bad), (7, 1));
    assert_eq!(by_stages(no(), 3, 1001, &bad), (8, 4));
    assert_eq!(by_stages(no(), 3, 1000, &bad).0, 9);
    assert_eq!(by_stages(no(), 3, 1000, &[]), (10, 1));
}

/// C10.7.
#[test]
fn too_many_states_are_placed_at_the_first_variable_past_the_limit() {
    let file = join(&[
        variable(0, 1023),
        variable(0, 1023),
        variable(7, 7),
        variable(0, 1),
        variable(0, 1),
        start(yes()),
        invariance(yes()),
        node(yes()),
    ]);
    assert_eq!(unnamed(&file), (7, 3));
}

/// C3.1, C3.2, C3.3, C3.4, C10.8.
#[test]
fn intervals_of_each_operation() {
    // The ends are -1000..2 and -3..1000.
    let over = |number: Bytes| {
        let file = join(&[
            variable(-1000, 2),
            variable(-3, 1000),
            start(itself(number)),
            invariance(yes()),
            node(yes()),
        ]);
        unnamed(&file)
    };
    let million = || product(constant(1000), constant(1000));
    let minus_million = || product(constant(-1000), constant(1000));
    // Products: -1,000,000..3000, and 4..1,000,000.
    assert_eq!(over(product(value(0), value(1))), (0, 2));
    assert_eq!(over(product(value(0), value(0))), (0, 2));
    assert_eq!(
        over(difference(product(value(0), value(1)), constant(1))),
        (8, 4)
    );
    // Differences: 2 - -3 = 5 and -1000 - 1000.
    let wide = || difference(value(0), value(1));
    assert_eq!(
        over(sum(difference(million(), constant(5)), wide())),
        (0, 2)
    );
    assert_eq!(
        over(sum(difference(million(), constant(4)), wide())),
        (8, 4)
    );
    assert_eq!(
        over(sum(sum(minus_million(), constant(2000)), wide())),
        (0, 2)
    );
    assert_eq!(
        over(sum(sum(minus_million(), constant(1999)), wide())),
        (8, 4)
    );
    // Indicators: 0..1, also of false.
    assert_eq!(over(sum(million(), indicator(no()))), (8, 4));
    assert_eq!(over(sum(minus_million(), indicator(no()))), (0, 2));
    assert_eq!(over(difference(minus_million(), indicator(no()))), (8, 4));
    let below_zero = difference(indicator(yes()), constant(1));
    assert_eq!(over(sum(minus_million(), below_zero)), (8, 4));
}

/// C9.1, C10.9.
#[test]
fn edge_rules_of_an_invariance() {
    let base = join(&[
        counter(),
        idle(1),
        invariance(yes()),
        node(yes()),
        node(yes()),
    ]);
    let place = count(&base);
    let and = |edge| unnamed(&join(&[base.clone(), edge]));
    assert_eq!(and(double_edge(0, 1, 0)), (9, place));
    assert_eq!(and(single_edge(0, 0, 1)), (0, 7));
    assert_eq!(and(single_edge(0, 0, 0)), (0, 7));
}

/// C9.2, C9.3, C9.4, C10.9.
#[test]
fn edge_rules_of_a_wait_for() {
    let base = join(&[
        counter(),
        idle(1),
        wait_for(yes(), &[yes(), yes(), yes()]),
        node(yes()),
        node(yes()),
        node(yes()),
    ]);
    let place = count(&base);
    let and = |edge| unnamed(&join(&[base.clone(), edge]));
    assert_eq!(and(double_edge(0, 2, 1)), (9, place));
    assert_eq!(and(single_edge(0, 0, 0)), (9, place));
    assert_eq!(and(single_edge(0, 1, 2)), (9, place));
    assert_eq!(and(single_edge(0, 1, 1)), (0, 8));
    assert_eq!(and(single_edge(0, 2, 0)), (0, 8));
}

/// Nodes 0, 1, 2; transitions 0 and 1 just, 2 not.
fn chain_with(edges: &[Bytes]) -> (u8, u32) {
    let base = join(&[
        counter(),
        idle(1),
        idle(1),
        idle(0),
        chain(yes(), yes()),
        node(yes()),
        node(yes()),
        node(yes()),
    ]);
    let place = count(&base);
    let (number, at) = unnamed(&join(&[base, join(edges)]));
    // Places of 9 counted from the first edge.
    (number, if number == 9 { at - place } else { at })
}

/// C9.2, C9.3, C9.5, C9.6, C9.7, C9.8, C10.9.
#[test]
fn edge_rules_of_a_chain() {
    let both = [double_edge(0, 1, 0), double_edge(1, 2, 1)];
    let also = |edge: Bytes| chain_with(&[both[0].clone(), both[1].clone(), edge]);
    assert_eq!(chain_with(&both), (0, 2 + 2 * 2 * 3 + 2));
    // C9.2, C9.3.
    assert_eq!(also(single_edge(2, 0, 0)), (9, 2));
    assert_eq!(also(single_edge(2, 1, 2)), (9, 2));
    assert_eq!(also(double_edge(0, 1, 2)), (9, 2));
    // C9.5, C9.6.
    assert_eq!(also(double_edge(0, 1, 1)), (9, 2));
    assert_eq!(
        chain_with(&[double_edge(2, 1, 0), double_edge(1, 2, 1)]),
        (9, 0)
    );
    // C9.7.
    assert_eq!(also(double_edge(0, 2, 1)), (9, 2));
    assert_eq!(also(double_edge(1, 2, 0)), (0, 16));
    // C9.8, whichever comes first.
    assert_eq!(also(single_edge(1, 2, 0)), (9, 2));
    let single_first = [single_edge(1, 2, 0), double_edge(1, 2, 1)];
    assert_eq!(chain_with(&single_first), (9, 1));
    assert_eq!(also(single_edge(1, 1, 0)), (0, 16));
}

/// C9.9, C10.10.
#[test]
fn the_lowest_node_without_a_double_edge() {
    assert_eq!(chain_with(&[]), (10, 1));
    assert_eq!(chain_with(&[single_edge(0, 1, 0)]), (10, 1));
    assert_eq!(chain_with(&[double_edge(0, 1, 0)]), (10, 2));
    assert_eq!(chain_with(&[double_edge(0, 2, 0)]), (10, 1));
}

/// C9.9.
#[test]
fn a_goal_alone_needs_no_double_edge() {
    let file = join(&[counter(), chain(yes(), yes()), node(yes())]);
    assert_eq!(unnamed(&file), (0, 2));
}

/// C13.1, C13.2, C10.11, C10.12.
#[test]
fn single_tests_refuse_too() {
    let refused = |number, place| Tested::Refused { number, place };
    assert_eq!(single(&[1; 7], 9, 9), refused(2, 0));
    assert_eq!(single(&[], 9, 9), refused(3, 0));
    assert_eq!(single(&examples::g(), 99, 99), refused(10, 2));
    assert_eq!(single(&examples::b(), 4, 2), refused(11, 0));
    assert_eq!(single(&examples::b(), 3, 3), refused(12, 0));
    assert_eq!(single(&examples::b(), 3, 2), Tested::Holds);
    assert_eq!(
        single(&examples::b(), usize::MAX, usize::MAX),
        refused(11, 0)
    );
    assert_eq!(single(&examples::b(), 0, usize::MAX), refused(12, 0));
}

/// C11.6, C10.10.
#[test]
fn reading_gives_the_refusal() {
    let refusal = read(&examples::g()).unwrap_err();
    assert_eq!(
        refusal,
        Refusal {
            number: 10,
            place: 2
        }
    );
}
