//! The conditions: order, totals, and each broken in turn.

use crate::builder::*;
use crate::examples;
use independent::{read, single, Claim, Condition, Tested};

fn conditions(file: &[u8]) -> Vec<Condition> {
    read(file).unwrap().conditions()
}

fn numbers(file: &[u8]) -> Vec<u8> {
    conditions(file).iter().map(Condition::number).collect()
}

/// v := number, without a guard.
fn set(just: u8, number: Bytes) -> Bytes {
    transition(just, yes(), &[assign(0, number)])
}

/// C8.3, C8.4, C8.5, C8.6.
#[test]
fn conditions_in_order() {
    assert_eq!(numbers(&examples::b()), [13, 15, 16, 17]);
    assert_eq!(numbers(&examples::d()), [14, 15, 16, 17, 18, 16, 17, 18]);
    assert_eq!(numbers(&examples::h()), [14, 15, 15, 15, 16, 17, 16, 17]);
}

/// C8.3, C8.6: enabling only where the transition has double edges from the node.
#[test]
fn enabling_follows_the_step_of_the_double_transition() {
    let file = join(&[
        counter(),
        idle(0),
        idle(1),
        idle(1),
        chain(yes(), yes()),
        node(yes()).repeat(3),
        double_edge(1, 1, 0),
        double_edge(2, 2, 0),
    ]);
    let expected = [
        14, 15, 16, 17, 16, 17, 18, 16, 17, 16, 17, 16, 17, 16, 17, 18,
    ];
    assert_eq!(numbers(&file), expected);
    let enabling = |node, transition| Condition::Enabling { node, transition };
    assert_eq!(conditions(&file)[6], enabling(1, 1));
    assert_eq!(conditions(&file)[15], enabling(2, 2));
}

/// C8.15; C12.2: at is the total.
#[test]
fn totals() {
    for t in 0..4 {
        for n in 1..5 {
            let system = join(&[counter(), idle(1).repeat(t)]);
            let nodes = node(yes()).repeat(n);
            let file = join(&[system.clone(), invariance(yes()), nodes.clone()]);
            assert_eq!(unnamed(&file), (0, (1 + n + 2 * n * t) as u32));
            let phases = wait_for(yes(), &vec![yes(); n]);
            let file = join(&[system.clone(), phases, nodes.clone()]);
            assert_eq!(unnamed(&file), (0, (1 + n + 2 * (n - 1) * t) as u32));
            let doubles: Vec<Bytes> = (1..n as i16).map(|from| double_edge(0, from, 0)).collect();
            let file = join(&[system, chain(yes(), yes()), nodes, join(&doubles)]);
            if t > 0 {
                assert_eq!(unnamed(&file), (0, (2 + 2 * (n - 1) * t + (n - 1)) as u32));
            }
        }
    }
}

/// C1.10, C1.11.
#[test]
fn the_property_is_told() {
    let claim = |file: Bytes| read(&file).unwrap().claim;
    assert!(matches!(claim(examples::b()), Claim::Invariance { .. }));
    assert!(matches!(claim(examples::d()), Claim::Chain { .. }));
    match claim(examples::h()) {
        Claim::WaitFor { q, .. } => assert_eq!(q.len(), 3),
        other => panic!("{other:?}"),
    }
}

/// C8.7, C10.13; C12.3: start has neither node nor transition; C4.2.
#[test]
fn start_broken() {
    let file = join(&[
        variable(-2, 2),
        start(less(value(0), constant(1))),
        invariance(yes()),
        node(is(-2)),
        node(is(0)),
    ]);
    assert_eq!(named(&file), (13, 255, 255, 0));
    assert_eq!(verdict(&file).values[0], -1);
    assert_eq!(verdict(&file).values[1..], [0; 11]);
}

/// C8.8, C10.14; C12.3: nor has entry.
#[test]
fn entry_broken() {
    let file = join(&[
        counter(),
        wait_for(yes(), &[yes(), yes()]),
        node(is(0)),
        node(is(1)),
    ]);
    assert_eq!(named(&file), (14, 255, 255, 0));
    assert_eq!(verdict(&file).values[0], 2);
}

/// C8.5, C8.6: they have an entry, and no start.
#[test]
fn wait_for_and_chain_do_not_ask_the_start() {
    let file = join(&[counter(), wait_for(is(2), &[yes()]), node(is(2))]);
    assert_eq!(unnamed(&file), (0, 2));
    let file = join(&[counter(), chain(is(2), yes()), node(is(2))]);
    assert_eq!(unnamed(&file), (0, 2));
}

/// C8.9, C10.15; C1.12: the phases' q in their order.
#[test]
fn cover_broken() {
    let file = join(&[counter(), invariance(is(0)), node(is(0)), node(yes())]);
    assert_eq!(named(&file), (15, 1, 255, 2));
    assert_eq!(verdict(&file).values[0], 1);
    // Node i against q_i, not against another.
    let file = join(&[
        counter(),
        wait_for(no(), &[is(0), is(1), is(2)]),
        node(is(0)),
        node(is(1)),
        node(is(1)),
    ]);
    assert_eq!(named(&file), (15, 2, 255, 3));
    let file = join(&[
        counter(),
        wait_for(no(), &[is(0), is(1), is(2)]),
        node(is(0)),
        node(is(1)),
        node(is(2)),
    ]);
    assert_eq!(unnamed(&file), (0, 4));
}

/// C8.2, C8.6, C8.9; C1.12: p before q.
#[test]
fn a_chain_covers_its_goal_only() {
    let file = |q| {
        join(&[
            counter(),
            set(1, constant(0)),
            chain(yes(), q),
            node(is(0)),
            node(yes()),
            double_edge(0, 1, 0),
        ])
    };
    assert_eq!(unnamed(&file(is(0))), (0, 5));
    assert_eq!(named(&file(is(1))), (15, 0, 255, 1));
}

/// C8.10, C10.16; C5.2, C8.11: where a value is out of range, the step holds.
#[test]
fn range_broken_by_any_assigned_value() {
    let both = transition(
        0,
        yes(),
        &[assign(0, value(0)), assign(1, sum(value(1), constant(1)))],
    );
    let file = join(&[
        variable(0, 1),
        variable(-1, 1),
        start(yes()),
        both,
        invariance(yes()),
        node(yes()),
    ]);
    assert_eq!(named(&file), (16, 0, 0, 2));
    assert_eq!(verdict(&file).values[..2], [0, 1]);
    // The step condition is not about such states.
    assert_eq!(single(&file, 3, 2), Tested::Holds);
    assert_eq!(single(&file, 2, 1), Tested::Holds);
    assert_eq!(single(&file, 2, 2), Tested::Fails);
}

/// C8.10, C10.16.
#[test]
fn range_broken_below() {
    let down = set(0, difference(value(0), constant(1)));
    let file = join(&[
        variable(-1, 1),
        start(yes()),
        down,
        invariance(yes()),
        node(yes()),
    ]);
    assert_eq!(named(&file), (16, 0, 0, 2));
    assert_eq!(verdict(&file).values[0], -1);
    assert_eq!(single(&file, 2, 1), Tested::Holds);
}

/// C2.5, C8.10; C5.2: no value is clamped.
#[test]
fn a_value_beyond_sixteen_bits_is_out_of_range() {
    let wide = product(value(0), constant(1000));
    let file = join(&[
        variable(0, 66),
        start(yes()),
        set(0, wide),
        invariance(yes()),
        node(yes()),
    ]);
    assert_eq!(named(&file), (16, 0, 0, 2));
    // 66,000 would be 464 in sixteen bits; 65,536 would be 0.
    let multiples = product(value(0), constant(256));
    let file = join(&[
        variable(0, 256),
        start(yes()),
        transition(0, is(256), &[assign(0, multiples)]),
        invariance(yes()),
        node(yes()),
    ]);
    assert_eq!(named(&file), (16, 0, 0, 2));
    assert_eq!(verdict(&file).values[0], 256);
}

/// C5.3: w is assigned, v is not.
#[test]
fn a_variable_that_is_not_assigned_keeps_its_value() {
    let file = |assertion: Bytes| {
        join(&[
            variable(0, 1),
            variable(0, 1),
            start(assertion.clone()),
            transition(0, yes(), &[assign(1, constant(0))]),
            invariance(yes()),
            node(assertion),
        ])
    };
    assert_eq!(unnamed(&file(is(1))), (0, 4));
    assert_eq!(named(&file(equal(value(1), constant(1)))), (17, 0, 0, 3));
}

/// C8.11, C10.17.
#[test]
fn a_transition_without_an_edge_keeps_the_node() {
    let file = |assertion| {
        join(&[
            counter(),
            set(0, constant(1)),
            invariance(yes()),
            node(assertion),
            node(yes()),
        ])
    };
    assert_eq!(named(&file(is(0))), (17, 0, 0, 4));
    assert_eq!(unnamed(&file(is(1))), (0, 7));
}

/// C8.11, C8.1.
#[test]
fn single_edges_allow_the_node_and_the_targets() {
    let file = |edges: &[Bytes]| {
        let up = sum(value(0), indicator(less(value(0), constant(2))));
        join(&[
            counter(),
            set(0, up),
            invariance(yes()),
            node(at_most(value(0), constant(1))),
            node(is(2)),
            join(edges),
        ])
    };
    // From 0 to 1 the node holds on; from 1 to 2 it needs the edge.
    assert_eq!(named(&file(&[])), (17, 0, 0, 4));
    assert_eq!(verdict(&file(&[])).values[0], 1);
    assert_eq!(unnamed(&file(&[single_edge(0, 0, 1)])), (0, 7));
    // An edge of another node does not help.
    assert_eq!(named(&file(&[single_edge(0, 1, 0)])), (17, 0, 0, 4));
    assert_eq!(named(&file(&[single_edge(0, 1, 1)])), (17, 0, 0, 4));
}

/// C8.11, C1.14.
#[test]
fn an_edge_of_another_transition_does_not_help() {
    let file = |label| {
        join(&[
            counter(),
            idle(0),
            set(0, constant(2)),
            invariance(yes()),
            node(is(0)),
            node(is(2)),
            single_edge(label, 0, 1),
        ])
    };
    assert_eq!(named(&file(0)), (17, 0, 1, 6));
    assert_eq!(unnamed(&file(1)), (0, 1 + 2 + 8));
}

/// C8.12.
#[test]
fn double_edges_leave_the_node() {
    let file = |number: Bytes| {
        join(&[
            counter(),
            set(1, number),
            chain(no(), is(0)),
            node(is(0)),
            node(at_most(constant(1), value(0))),
            double_edge(0, 1, 0),
        ])
    };
    assert_eq!(unnamed(&file(constant(0))), (0, 5));
    let stay = product(value(0), indicator(less(constant(1), value(0))));
    assert_eq!(named(&file(stay)), (17, 1, 0, 3));
    // One target of several is enough.
    let two = join(&[
        counter(),
        transition(
            1,
            less(constant(0), value(0)),
            &[assign(0, difference(value(0), constant(1)))],
        ),
        chain(yes(), is(0)),
        node(is(0)),
        node(is(1)),
        node(not(is(0))),
        double_edge(0, 1, 0),
        double_edge(0, 2, 1),
        double_edge(0, 2, 0),
    ]);
    assert_eq!(unnamed(&two), (0, 2 + 4 + 2));
}

/// C8.13, C10.18.
#[test]
fn enabling_broken() {
    let file = join(&[
        counter(),
        transition(1, is(1), &[assign(0, constant(0))]),
        chain(no(), is(0)),
        node(is(0)),
        node(not(is(0))),
        double_edge(0, 1, 0),
    ]);
    assert_eq!(named(&file), (18, 1, 0, 4));
    assert_eq!(verdict(&file).values[0], 2);
}

/// C8.14.
#[test]
fn unreachable_states_count() {
    // v stays 0 from the start, yet the node holds at 1 too, and from there v leaves it.
    let file = join(&[
        counter(),
        set(0, product(value(0), constant(2))),
        invariance(yes()),
        node(at_most(value(0), constant(1))),
    ]);
    assert_eq!(named(&file), (17, 0, 0, 3));
    assert_eq!(verdict(&file).values[0], 1);
    let file = join(&[
        counter(),
        transition(0, is(1), &[assign(0, constant(2))]),
        invariance(yes()),
        node(at_most(value(0), constant(1))),
    ]);
    assert_eq!(named(&file), (17, 0, 0, 3));
}

/// C8.2, C8.5, C8.6.
#[test]
fn goals_have_no_range_and_step_conditions() {
    let leave = set(1, constant(7));
    let file = join(&[
        counter(),
        leave.clone(),
        wait_for(yes(), &[yes()]),
        node(yes()),
    ]);
    assert_eq!(unnamed(&file), (0, 2));
    let file = join(&[counter(), leave, chain(yes(), yes()), node(yes())]);
    assert_eq!(unnamed(&file), (0, 2));
}

/// C4.4, C4.5; C13.3: a single test takes its state by that number.
#[test]
fn the_last_variable_is_fastest() {
    let file = join(&[
        variable(-1, 1),
        variable(5, 6),
        start(yes()),
        invariance(yes()),
        node(equal(value(0), value(1))),
    ]);
    // No state is in the node: state 0 is named, each state fails the start.
    assert_eq!(verdict(&file).values[..3], [-1, 5, 0]);
    let only = |v: i16, w: i16| {
        join(&[
            variable(-1, 1),
            variable(5, 6),
            start(and(is(v), equal(value(1), constant(w)))),
            invariance(yes()),
            node(no()),
        ])
    };
    let states = [(-1, 5), (-1, 6), (0, 5), (0, 6), (1, 5), (1, 6)];
    for (number, (v, w)) in states.into_iter().enumerate() {
        let file = only(v, w);
        assert_eq!(verdict(&file).values[..2], [v, w]);
        for state in 0..6 {
            let fails = single(&file, 0, state) == Tested::Fails;
            assert_eq!(fails, state == number);
        }
    }
}

/// C4.6.
#[test]
fn counting_begins_again_at_the_low_end() {
    let last = and(is(1), equal(value(1), constant(-1)));
    let file = join(&[
        variable(0, 1),
        variable(-1, 0),
        start(last),
        invariance(yes()),
        node(no()),
    ]);
    assert_eq!(named(&file), (13, 255, 255, 0));
    assert_eq!(verdict(&file).values[..3], [1, -1, 0]);
}

/// C4.2, C12.3.
#[test]
fn twelve_values_are_reported() {
    let values = [1, -1, 300, -300, 32_767, -32_768, 7, -7, 255, -256, 11, -12];
    let variables: Vec<Bytes> = values.iter().map(|v| variable(*v, *v)).collect();
    let file = join(&[
        join(&variables),
        start(yes()),
        invariance(yes()),
        node(no()),
    ]);
    let verdict = verdict(&file);
    assert_eq!(verdict.number, 13);
    assert_eq!(verdict.values, values);
}

/// C2.13: start, q and assertion are one truth at three places.
#[test]
fn a_truth_is_worth_the_same_wherever_it_stands() {
    // True where v is 0 or 1.
    let small = || less(product(value(0), value(0)), sum(value(0), constant(1)));
    let file = |first| {
        join(&[
            variable(-2, 2),
            start(first),
            invariance(small()),
            node(small()),
        ])
    };
    assert_eq!(unnamed(&file(small())), (0, 2));
    assert_eq!(unnamed(&file(not(not(small())))), (0, 2));
    assert_eq!(verdict(&file(yes())).values[0], -2);
}

/// C2.1: left before right; C2.3, C2.4, C2.5, C2.6, C2.7, C2.8, C2.9, C2.10.
#[test]
fn truths_and_numbers() {
    // Whether the truth is true at v = 1, w = -2.
    let holds = |truth: Bytes| {
        let file = join(&[
            variable(1, 1),
            variable(-2, -2),
            start(yes()),
            invariance(yes()),
            node(truth),
        ]);
        verdict(&file).number == 0
    };
    let (t, f) = (yes, no);
    assert!(holds(t()) && !holds(f()) && holds(not(f())) && !holds(not(t())));
    let table = |operation: fn(Bytes, Bytes) -> Bytes| {
        [
            holds(operation(f(), f())),
            holds(operation(f(), t())),
            holds(operation(t(), f())),
            holds(operation(t(), t())),
        ]
    };
    assert_eq!(table(and), [false, false, false, true]);
    assert_eq!(table(or), [false, true, true, true]);
    assert_eq!(table(implies), [true, true, false, true]);
    assert_eq!(table(iff), [true, false, false, true]);
    let against_three = |operation: fn(Bytes, Bytes) -> Bytes| {
        [2, 3, 4].map(|number| holds(operation(constant(number), constant(3))))
    };
    assert_eq!(against_three(equal), [false, true, false]);
    assert_eq!(against_three(less), [true, false, false]);
    assert_eq!(against_three(at_most), [true, true, false]);
    let worth = |number: Bytes, result: i16| holds(equal(number, constant(result)));
    assert!(worth(value(0), 1) && worth(value(1), -2) && worth(constant(-32_768), -32_768));
    assert!(worth(sum(value(0), value(1)), -1));
    assert!(worth(difference(value(0), value(1)), 3));
    assert!(worth(product(value(1), constant(-7)), 14));
    assert!(!worth(product(constant(256), constant(256)), 0));
    assert!(worth(indicator(t()), 1) && worth(indicator(f()), 0));
}
