//! Rules that are easily taken otherwise, or that meet.

use crate::builder::*;
use crate::examples;
use independent::{read, single, Condition, Tested};

fn set(mut file: Bytes, record: u32, byte: usize, value: u8) -> Bytes {
    file[8 * record as usize + byte] = value;
    file
}

/// A readable file with every kind in it.
fn every_kind() -> Bytes {
    let divided = quotient(remainder(value(0), constant(3)), constant(2));
    let numbers = sum(difference(divided, value(0)), indicator(yes()));
    let truths = and(or(no(), yes()), implies(not(yes()), iff(yes(), no())));
    join(&[
        variable(0, 2),
        variable(-1, 0),
        start(less(product(value(0), constant(2)), numbers)),
        transition(1, truths, &[pick(1, -1, 0), assign(0, value(0))]),
        invariance(or(
            equal(value(0), value(0)),
            at_most(value(0), constant(1)),
        )),
        node(yes()),
        single_edge(0, 0, 0),
    ])
}

/// The bytes to which a kind gives a meaning (b of an invariance is not one).
fn named_bytes(kind: u8) -> &'static [usize] {
    match kind {
        0x01 => &[2, 3, 4, 5],
        0x08 => &[1, 2, 3, 4, 5],
        0x03 | 0x04 | 0x05 | 0x11 => &[1],
        0x07 => &[1, 2, 3, 4, 5, 6],
        0x10 => &[2, 3],
        _ => &[],
    }
}

/// C1.4, C10.4: every byte without a meaning, in a record of each kind.
#[test]
fn idle_fields_are_zero() {
    let file = every_kind();
    assert_eq!(unnamed(&file), (0, 4));
    for record in 0..count(&file) {
        let kind = file[8 * record as usize];
        for byte in 1..8 {
            if !named_bytes(kind).contains(&byte) {
                let changed = set(file.clone(), record, byte, 0x80);
                assert_eq!(unnamed(&changed), (4, record), "kind {kind:x} byte {byte}");
            }
        }
    }
}

/// C1.4, C1.10.
#[test]
fn b_of_a_property_is_for_wait_for_only() {
    for a in [1, 3] {
        let file = join(&[
            counter(),
            record(0x05, a, 1, 0, 0),
            yes(),
            yes(),
            node(yes()),
        ]);
        assert_eq!(unnamed(&file), (4, 5));
    }
    let file = join(&[
        counter(),
        record(0x05, 2, 1, 0, 0),
        yes(),
        yes(),
        node(yes()),
    ]);
    assert_eq!(unnamed(&file), (0, 2));
}

/// C1.11, C11.5.
#[test]
fn phases_outside_their_range() {
    for b in [0, 33, -1, i16::MIN, i16::MAX] {
        let file = join(&[counter(), record(0x05, 2, b, 0, 0)]);
        assert_eq!(unnamed(&file), (4, 5));
    }
    let file = join(&[counter(), record(0x05, 2, 32, 0, 0)]);
    assert_eq!(unnamed(&file), (3, 6));
}

fn many(part: Bytes, times: usize) -> Bytes {
    part.repeat(times)
}

/// Any number of `not`s over what follows.
fn nots(times: usize, truth: Bytes) -> Bytes {
    join(&[many(record(0x22, 0, 0, 0, 0), times), truth])
}

/// C11.2, C11.3: the record one past a limit has a field or a kind that is refused before.
#[test]
fn fields_before_limits() {
    let thirteenth = |last: Bytes| unnamed(&join(&[many(variable(0, 0), 12), last]));
    assert_eq!(thirteenth(variable(0, 0)), (5, 12));
    assert_eq!(thirteenth(variable(1, 0)), (4, 12));
    assert_eq!(thirteenth(node(yes())), (3, 12));

    let transitions = join(&[counter(), many(idle(0), 32)]);
    let place = count(&transitions);
    assert_eq!(unnamed(&join(&[transitions.clone(), idle(0)])), (5, place));
    assert_eq!(unnamed(&join(&[transitions, idle(2)])), (4, place));

    let nodes = join(&[counter(), invariance(yes()), many(node(yes()), 32)]);
    let place = count(&nodes);
    assert_eq!(unnamed(&join(&[nodes.clone(), node(yes())])), (5, place));
    let unfit = set(join(&[nodes, node(yes())]), place, 7, 1);
    assert_eq!(unnamed(&unfit), (4, place));

    let phases = join(&[counter(), wait_for(yes(), &[yes()]), node(yes())]);
    let place = count(&phases);
    assert_eq!(unnamed(&join(&[phases.clone(), node(yes())])), (5, place));
    let unfit = set(join(&[phases, node(yes())]), place, 1, 1);
    assert_eq!(unnamed(&unfit), (4, place));
}

/// C11.2, C11.3, C10.5.
#[test]
fn edges_one_past() {
    let file = edges_up_to(512);
    let place = count(&file);
    assert_eq!(
        unnamed(&join(&[file.clone(), single_edge(0, 31, 31)])),
        (5, place)
    );
    // A repeat (6) comes after the limit (5), a field (4) before it.
    assert_eq!(
        unnamed(&join(&[file.clone(), single_edge(0, 0, 0)])),
        (5, place)
    );
    assert_eq!(unnamed(&join(&[file, single_edge(0, 0, 32)])), (4, place));
}

/// 32 nodes and that many edges, all different.
pub fn edges_up_to(number: i16) -> Bytes {
    let edges: Vec<Bytes> = (0..number)
        .map(|edge| single_edge(0, edge / 32, edge % 32))
        .collect();
    join(&[
        counter(),
        idle(0),
        invariance(yes()),
        many(node(yes()), 32),
        join(&edges),
    ])
}

/// C2.12, C11.3.
#[test]
fn level_17() {
    let deep = |last: Bytes| unnamed(&join(&[variable(0, 2), start(nots(16, last))]));
    assert_eq!(deep(yes()), (5, 18));
    assert_eq!(deep(record(0x20, 0, 1, 0, 0)), (4, 18));
    assert_eq!(deep(constant(0)), (3, 18));
    assert_eq!(deep(Vec::new()), (3, 18));
    // A number at level 17, its variable lacking: 4.
    let numbers = |last: Bytes| unnamed(&join(&[variable(0, 2), start(nots(15, last))]));
    assert_eq!(numbers(less(value(0), value(0))), (5, 18));
    assert_eq!(numbers(less(value(1), value(0))), (4, 18));
    assert_eq!(numbers(less(yes(), value(0))), (3, 18));
}

/// C11.4, C1.13.
#[test]
fn too_few_nodes() {
    let none = join(&[counter(), invariance(yes())]);
    assert_eq!(unnamed(&none), (3, count(&none)));
    let edge_for_node = join(&[none.clone(), single_edge(0, 0, 0)]);
    assert_eq!(unnamed(&edge_for_node), (3, count(&none)));
    let two_of_three = join(&[
        counter(),
        idle(0),
        wait_for(yes(), &[yes(), yes(), yes()]),
        node(yes()),
        node(yes()),
    ]);
    let place = count(&two_of_three);
    assert_eq!(unnamed(&two_of_three), (3, place));
    let then_edge = join(&[two_of_three.clone(), single_edge(0, 1, 0)]);
    assert_eq!(unnamed(&then_edge), (3, place));
    assert_eq!(unnamed(&join(&[two_of_three, node(yes())])).0, 0);
}

/// C10.6, C1.14.
#[test]
fn an_edge_repeats_whatever_d_is() {
    let file = join(&[examples::d(), single_edge(0, 1, 0)]);
    assert_eq!(unnamed(&file), (6, count(&examples::d())));
    let file = join(&[examples::d(), double_edge(0, 1, 0)]);
    assert_eq!(unnamed(&file), (6, count(&examples::d())));
    // C9.8: with another target the same edge is refused with 9.
    let file = join(&[examples::d(), single_edge(0, 2, 0)]);
    assert_eq!(unnamed(&file), (9, count(&examples::d())));
}

/// C9.2, C9.3, C9.7: several double edges of one transition pass, a single one to its own node too.
#[test]
fn edges_that_a_chain_may_have() {
    let two = |edges: &[Bytes]| {
        let file = join(&[
            counter(),
            idle(1),
            idle(0),
            chain(yes(), yes()),
            many(node(yes()), 3),
            join(edges),
        ]);
        unnamed(&file).0
    };
    let several = [
        double_edge(0, 2, 1),
        double_edge(0, 2, 0),
        double_edge(0, 1, 0),
    ];
    assert_eq!(two(&several), 0);
    let to_itself = [
        double_edge(0, 2, 1),
        double_edge(0, 1, 0),
        single_edge(1, 2, 2),
    ];
    assert_eq!(two(&to_itself), 0);
    let from_goal = [
        double_edge(0, 2, 1),
        double_edge(0, 1, 0),
        single_edge(1, 0, 0),
    ];
    assert_eq!(two(&from_goal), 9);
}

/// C3.5, C10.8.
#[test]
fn operands_judged_first() {
    let out = |left, right| product(constant(left), constant(right));
    let in_start = |truth: Bytes| {
        let file = join(&[variable(0, 2), start(truth), invariance(yes()), node(yes())]);
        unnamed(&file)
    };
    // Records: 0 variable, 1 start, 2 the comparison, 3 its left operand.
    let both = sum(out(1000, 1001), out(1000, 1002));
    assert_eq!(in_start(less(both, constant(0))), (8, 4));
    let right_only = sum(out(1000, 1000), out(1000, 1002));
    assert_eq!(in_start(less(right_only, constant(0))), (8, 7));
    let itself = sum(out(1000, 1000), out(1, 1));
    assert_eq!(in_start(less(itself, constant(0))), (8, 3));
    // Through truths and under indicators.
    let hidden = indicator(not(equal(constant(0), out(1000, 1001))));
    assert_eq!(in_start(implies(no(), less(constant(0), hidden))), (8, 10));
}

/// C3.5, C10.8.
#[test]
fn expressions_in_file_order() {
    let out = || less(product(constant(1000), constant(1001)), constant(0));
    let parts = |bad: usize| {
        let truth = |at| if at == bad { out() } else { yes() };
        let number = if bad == 2 { indicator(out()) } else { value(0) };
        join(&[
            variable(0, 2),
            start(truth(0)),
            transition(0, truth(1), &[assign(0, number)]),
            wait_for(truth(3), &[truth(4), truth(5)]),
            node(truth(6)),
            node(truth(7)),
        ])
    };
    let places: Vec<u32> = (0..8).map(|bad| unnamed(&parts(bad)).1).collect();
    assert_eq!(places, [3, 5, 8, 9, 10, 11, 13, 15]);
    assert!((0..8).all(|bad| unnamed(&parts(bad)).0 == 8));
    let late_and_early = join(&[
        variable(0, 2),
        start(yes()),
        transition(0, out(), &[assign(0, indicator(out()))]),
        invariance(out()),
        node(out()),
    ]);
    assert_eq!(unnamed(&late_and_early), (8, 5));
}

/// C10.2, C10.10, C10.11: the places; C11.1: 11 is tried before 12.
#[test]
fn places() {
    let both_too_large = Tested::Refused {
        number: 11,
        place: 0,
    };
    assert_eq!(single(&examples::b(), 4, 3), both_too_large);
    assert_eq!(unnamed(&[0; 32_776]), (2, 0));
    assert_eq!(unnamed(&examples::g()), (10, 2));
}

/// C12.3, C8.3.
#[test]
fn nodes_and_transitions_of_conditions() {
    let both = |condition: &Condition| (condition.node(), condition.transition());
    let of =
        |file: &[u8]| -> Vec<_> { read(file).unwrap().conditions().iter().map(both).collect() };
    let at = |node, transition| (Some(node), Some(transition));
    assert_eq!(
        of(&examples::b()),
        [(None, None), (Some(0), None), at(0, 0), at(0, 0)]
    );
    let d = of(&examples::d());
    assert_eq!(d[..2], [(None, None), (Some(0), None)]);
    assert_eq!(d[2..5], [at(1, 0); 3]);
    assert_eq!(d[5..], [at(2, 0); 3]);
}

/// C8.13; C12.4: the range condition has a lower number.
#[test]
fn enabling_asks_for_values_in_range() {
    // The guard is true at v = 2, the value 3 out of range; node 1 holds there.
    let up = transition(1, yes(), &[assign(0, sum(value(0), constant(1)))]);
    let file = join(&[
        variable(0, 2),
        start(yes()),
        up,
        chain(no(), yes()),
        node(yes()),
        node(is(2)),
        double_edge(0, 1, 0),
    ]);
    let conditions = read(&file).unwrap().conditions();
    let enabling = Condition::Enabling {
        node: 1,
        transition: 0,
    };
    assert_eq!(conditions[4], enabling);
    assert_eq!(single(&file, 4, 2), Tested::Fails);
    assert_eq!(single(&file, 4, 1), Tested::Holds);
    // The range condition comes first in the check.
    assert_eq!(named(&file), (16, 1, 0, 2));
}

/// C1.8: there may be none; C9.9: then only a chain of one node can be read.
#[test]
fn no_transitions() {
    let many =
        |property: Bytes, nodes: usize| join(&[counter(), property, node(yes()).repeat(nodes)]);
    assert_eq!(unnamed(&many(invariance(yes()), 3)), (0, 4));
    assert_eq!(unnamed(&many(wait_for(yes(), &[yes(), yes()]), 2)), (0, 3));
    assert_eq!(unnamed(&many(chain(yes(), yes()), 1)), (0, 2));
    assert_eq!(unnamed(&many(chain(yes(), yes()), 2)), (10, 1));
}

/// C1.11, C8.8: p must lead to the goal, the only node.
#[test]
fn one_phase() {
    let file = |p| join(&[counter(), count_up(0), wait_for(p, &[is(0)]), node(is(0))]);
    assert_eq!(unnamed(&file(is(0))), (0, 2));
    assert_eq!(named(&file(is(1))), (14, 255, 255, 0));
}
