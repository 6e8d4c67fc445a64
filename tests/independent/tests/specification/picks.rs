//! Picks: records of kind 08, steps with several successors, refusal 22.

use crate::agreement::{changed, Random};
use crate::builder::*;
use crate::examples;
use independent::{check, enabled, read, single, states, successors};
use independent::{Assignment, Number, Pick, Refusal, State, Tested};

// Files with picks that are accepted, by a property each, and one close to refusal 22.

/// A bit is picked while none is under way: an invariance that a bit under way is the one picked.
pub fn bits() -> Bytes {
    let free = || equal(value(1), constant(-1));
    let agree = || or(free(), equal(value(0), value(1)));
    join(&[
        variable(0, 1),
        variable(-1, 1),
        start(free()),
        transition(0, free(), &[pick(0, 0, 1)]),
        transition(0, yes(), &[assign(1, value(0))]),
        transition(1, not(free()), &[assign(1, constant(-1))]),
        invariance(agree()),
        node(agree()),
    ])
}

/// v waits at 2 and at 1 for 0, and may skip 1.
pub fn meeting() -> Bytes {
    let at = |from, sets: &[Bytes]| transition(1, is(from), sets);
    join(&[
        counter(),
        at(2, &[pick(0, 0, 2)]),
        at(1, &[assign(0, constant(0))]),
        wait_for(not(is(0)), &[is(0), is(1), is(2)]),
        node(is(0)),
        node(is(1)),
        node(is(2)),
        single_edge(0, 2, 0),
        single_edge(0, 2, 1),
        single_edge(1, 1, 0),
    ])
}

/// v falls to 0, from 2 to a lower value that is picked.
pub fn falling() -> Bytes {
    join(&[
        variable(0, 2),
        start(is(2)),
        transition(1, is(2), &[pick(0, 0, 1)]),
        transition(1, is(1), &[pick(0, 0, 0)]),
        chain(yes(), is(0)),
        node(is(0)),
        node(is(1)),
        node(is(2)),
        double_edge(0, 2, 1),
        double_edge(0, 2, 0),
        double_edge(1, 1, 0),
    ])
}

/// 63 × 65 combinations.
pub fn wide() -> Bytes {
    join(&[
        variable(0, 63),
        variable(0, 64),
        start(yes()),
        transition(0, no(), &[pick(0, 1, 63), pick(1, 0, 64)]),
        invariance(yes()),
        node(yes()),
    ])
}

/// C8.11, C8.12, C5.3; C12.2.
#[test]
fn files_with_picks_are_accepted() {
    assert_eq!(unnamed(&bits()), (0, 1 + 1 + 2 * 3));
    assert_eq!(unnamed(&meeting()), (0, 1 + 3 + 2 * 2 * 2));
    assert_eq!(unnamed(&falling()), (0, 2 + 2 * 2 * 2 + 2));
    assert_eq!(unnamed(&wide()), (0, 4));
}

/// x in 0..3, y in -2..2, z in 7..9, then these.
fn three(parts: &[Bytes]) -> Bytes {
    let ranges = [variable(0, 3), variable(-2, 2), variable(7, 9)];
    join(&[join(&ranges), start(yes()), join(parts)])
}

/// The successors of a state by the one transition.
fn next(guard: Bytes, sets: &[Bytes], at: [i16; 3]) -> Vec<[i16; 3]> {
    let file = three(&[transition(0, guard, sets), invariance(yes()), node(yes())]);
    let file = read(&file).unwrap();
    let mut state: State = [0; 12];
    state[..3].copy_from_slice(&at);
    let list = successors(&file.transitions[0], &file.variables, &state);
    assert!(list.iter().all(|next| next[3..] == [0; 9]));
    let on = enabled(&file.transitions[0], &file.variables, &state);
    assert_eq!(on, !list.is_empty());
    list.iter()
        .map(|next| [next[0], next[1], next[2]])
        .collect()
}

/// C5.3, C1.16: none, one, several; b = c; the whole range; variables that are not set.
#[test]
fn a_successor_for_each_combination() {
    let at = [1, 0, 8];
    assert_eq!(next(yes(), &[], at), [at]);
    assert_eq!(
        next(yes(), &[pick(1, -1, 1)], at),
        [[1, -1, 8], [1, 0, 8], [1, 1, 8]]
    );
    assert_eq!(next(yes(), &[pick(1, 2, 2)], at), [[1, 2, 8]]);
    assert_eq!(next(yes(), &[pick(1, 0, 0)], at), [at]);
    let whole: Vec<[i16; 3]> = (0..=3).map(|x| [x, 0, 8]).collect();
    assert_eq!(next(yes(), &[pick(0, 0, 3)], at), whole);
    let two = [[2, 0, 7], [2, 0, 8], [3, 0, 7], [3, 0, 8]];
    assert_eq!(next(yes(), &[pick(0, 2, 3), pick(2, 7, 8)], at), two);
    let sets = [pick(0, 0, 3), pick(1, -2, 2), pick(2, 7, 9)];
    assert_eq!(next(yes(), &sets, at).len(), 4 * 5 * 3);
}

/// C5.6: by their numbers, whatever the order of the picks.
#[test]
fn successors_are_ordered_by_their_numbers() {
    let sets = [pick(2, 7, 9), pick(0, 1, 2), pick(1, -2, -1)];
    let mut expected = Vec::new();
    for x in 1..=2 {
        for y in -2..=-1 {
            expected.extend((7..=9).map(|z| [x, y, z]));
        }
    }
    for order in [[0, 1, 2], [1, 2, 0], [2, 1, 0], [0, 2, 1]] {
        let sets = order.map(|at| sets[at].clone());
        assert_eq!(next(yes(), &sets, [3, 2, 7]), expected);
    }
}

/// C5.1, C5.3: beside a pick, values are assigned from the state at hand, not from what is picked.
#[test]
fn assignments_beside_picks() {
    let sum_of_both = || assign(2, sum(sum(value(0), value(1)), constant(7)));
    let expected = [[0, 1, 9], [1, 1, 9]];
    assert_eq!(
        next(yes(), &[sum_of_both(), pick(0, 0, 1)], [1, 1, 7]),
        expected
    );
    assert_eq!(
        next(yes(), &[pick(0, 0, 1), sum_of_both()], [1, 1, 7]),
        expected
    );
}

/// C5.2, C5.3: none under a false guard, and none where an assigned value leaves its range.
#[test]
fn no_successor_where_disabled() {
    let picks = || [pick(0, 0, 3), pick(1, 0, 1)];
    assert_eq!(next(no(), &picks(), [1, 1, 8]).len(), 0);
    assert_eq!(next(is(2), &picks(), [1, 1, 8]).len(), 0);
    assert_eq!(next(is(2), &picks(), [2, 1, 8]).len(), 8);
    for (by, in_range) in [(-2, false), (-1, true), (0, true), (1, true), (2, false)] {
        for behind in [false, true] {
            let mut sets = picks().to_vec();
            let number = sum(value(2), constant(by));
            sets.insert(if behind { 2 } else { 0 }, assign(2, number));
            let expected = if in_range { 8 } else { 0 };
            assert_eq!(next(yes(), &sets, [1, 1, 8]).len(), expected);
        }
    }
}

/// C5.7, C5.4: up to 4,096, each a state, none twice.
#[test]
fn as_many_successors_as_allowed() {
    let file = join(&[
        variable(-9, 99),
        variable(-100, 100),
        start(yes()),
        transition(0, yes(), &[pick(1, -32, 31), pick(0, 0, 63)]),
        invariance(yes()),
        node(yes()),
    ]);
    let file = read(&file).unwrap();
    let first = states(&file.variables).next().unwrap();
    let list = successors(&file.transitions[0], &file.variables, &first);
    assert_eq!(list.len(), 4096);
    assert!(list.windows(2).all(|pair| pair[0] < pair[1]));
    assert_eq!(
        (list[0][..3].to_vec(), list[4095][..3].to_vec()),
        (vec![0, -32, 0], vec![63, 31, 0])
    );
    assert_eq!(file.transitions[0].combinations(), 4096);
    let all: Vec<State> = states(&file.variables).collect();
    assert!(list.iter().all(|next| all.binary_search(next).is_ok()));
}

/// A readable file with one transition that has these assignments and picks, from record 7 on.
fn with(sets: &[Bytes]) -> Bytes {
    three(&[transition(0, yes(), sets), invariance(yes()), node(yes())])
}

const FIRST: u32 = 7;

/// C1.16, C10.4: b at most c, both in the variable's range. C1.15: the variable is the file's.
#[test]
fn values_of_a_pick() {
    for (variable, low, high) in [
        (0, 0, 3),
        (0, 0, 0),
        (0, 3, 3),
        (1, -2, 2),
        (1, -2, -2),
        (2, 8, 9),
    ] {
        assert_eq!(unnamed(&with(&[pick(variable, low, high)])), (0, 4));
    }
    for (variable, low, high) in [
        // One side out of range.
        (0, -1, 3),
        (0, 0, 4),
        (1, -3, 2),
        (1, -2, 3),
        (2, 6, 9),
        (2, 7, 10),
        // Both, on one side or on each.
        (0, -2, -1),
        (0, 4, 5),
        (1, -3, 3),
        (2, 0, 0),
        (0, i16::MIN, i16::MAX),
        // b above c.
        (0, 1, 0),
        (0, 3, 0),
        (1, 2, -2),
        (2, 9, 8),
        // In another variable's range only.
        (0, 7, 9),
        (2, 0, 1),
        // No variable.
        (3, 0, 0),
        (12, 0, 0),
        (255, 0, 0),
    ] {
        let refused = (4, FIRST);
        assert_eq!(
            unnamed(&with(&[pick(variable, low, high)])),
            refused,
            "{variable}, {low}, {high}"
        );
    }
}

/// C1.4, C1.16, C10.4: d and byte 7 are idle.
#[test]
fn idle_fields_of_a_pick() {
    let good = with(&[pick(1, -1, 1)]);
    assert_eq!(unnamed(&good), (0, 4));
    for byte in [6, 7] {
        for value in [1, 0x80, 255] {
            let mut file = good.clone();
            file[8 * FIRST as usize + byte] = value;
            assert_eq!(unnamed(&file), (4, FIRST));
        }
    }
}

/// C1.17, C10.6: a variable set twice, by picks, assignments, or one of each.
#[test]
fn a_variable_set_again() {
    let (one, other) = (|| pick(1, 0, 1), || pick(1, -1, 2));
    let value = || assign(1, constant(0));
    // A pick is one record, an assignment two.
    assert_eq!(unnamed(&with(&[one(), other()])), (6, FIRST + 1));
    assert_eq!(unnamed(&with(&[one(), one()])), (6, FIRST + 1));
    assert_eq!(unnamed(&with(&[one(), value()])), (6, FIRST + 1));
    assert_eq!(unnamed(&with(&[value(), one()])), (6, FIRST + 2));
    assert_eq!(unnamed(&with(&[value(), value()])), (6, FIRST + 2));
    // Others between.
    let between = [pick(0, 0, 1), assign(2, constant(7))];
    for (first, length) in [(one(), 1), (value(), 2)] {
        for second in [other(), value()] {
            let sets = [&[first.clone()], &between[..], &[second]].concat();
            assert_eq!(unnamed(&with(&sets)), (6, FIRST + length + 3));
        }
    }
    // In two transitions.
    let both = [
        transition(0, yes(), &[one()]),
        transition(0, yes(), &[value()]),
    ];
    let both = [&both[..], &[transition(0, yes(), &[one()])]].concat();
    let file = three(&[join(&both), invariance(yes()), node(yes())]);
    assert_eq!(unnamed(&file), (0, 8));
}

/// C11.2: at one record 4 comes before 6; C10.6: 6 is the record's own, before what follows it.
#[test]
fn fields_before_repetition() {
    for second in [pick(1, -3, 0), pick(1, 1, 0), record(0x08, 1, 0, 0, 1)] {
        assert_eq!(
            unnamed(&with(&[pick(1, 0, 0), second.clone()])),
            (4, FIRST + 1)
        );
        assert_eq!(
            unnamed(&with(&[assign(1, value(1)), second])),
            (4, FIRST + 2)
        );
    }
    let unfit = record(0x04, 1, 0, 0, 0);
    assert_eq!(unnamed(&with(&[pick(1, 0, 0), unfit])), (6, FIRST + 1));
    assert_eq!(
        unnamed(&with(&[pick(1, 0, 0), record(0x04, 1, 1, 0, 0)])),
        (4, FIRST + 1)
    );
    assert_eq!(
        unnamed(&with(&[pick(1, 0, 0), pick(1, 0, 0), yes()])),
        (6, FIRST + 1)
    );
}

/// C1.8: picks before, between and behind the assignments, which all are there.
#[test]
fn picks_and_assignments_in_any_order() {
    let parts = [
        pick(1, -1, 0),
        assign(0, constant(1)),
        assign(2, constant(8)),
    ];
    for order in [
        [0, 1, 2],
        [1, 0, 2],
        [1, 2, 0],
        [2, 0, 1],
        [0, 2, 1],
        [2, 1, 0],
    ] {
        let file = read(&with(&order.map(|at| parts[at].clone()))).unwrap();
        let transition = &file.transitions[0];
        let low_high = |pick: &Pick| (pick.variable, pick.low, pick.high);
        let picks: Vec<_> = transition.picks.iter().map(low_high).collect();
        assert_eq!(picks, [(1, -1, 0)]);
        let worth = |one: &Assignment| match one.value {
            Number::Constant(value) => (one.variable, value),
            _ => unreachable!(),
        };
        let mut assigned: Vec<_> = transition.assignments.iter().map(worth).collect();
        assigned.sort();
        assert_eq!(assigned, [(0, 1), (2, 8)]);
    }
    // An assignment behind a pick breaks the range condition like any other.
    let out = assign(2, constant(10));
    for sets in [
        vec![pick(1, 0, 1), out.clone()],
        vec![out.clone(), pick(1, 0, 1)],
    ] {
        assert_eq!(named(&with(&sets)), (16, 0, 0, 2));
    }
    let between = [pick(1, 0, 1), out, pick(0, 0, 1)];
    assert_eq!(named(&with(&between)), (16, 0, 0, 2));
}

/// C1.5, C1.8, C10.3: a pick stands behind a guard, an assignment or a pick, nowhere else.
#[test]
fn no_pick_elsewhere() {
    // Fields that no place allows: only where a pick may stand are they looked at.
    let picks = [pick(0, 0, 0), record(0x08, 9, 5, 1, 1)];
    for file in [
        examples::b(),
        examples::d(),
        examples::h(),
        bits(),
        falling(),
    ] {
        let kinds: Vec<u8> = file.chunks(8).map(|record| record[0]).collect();
        for at in 0..=kinds.len() {
            for pick in &picks {
                let mut with = file.clone();
                with.splice(8 * at..8 * at, pick.iter().copied());
                // Behind a transition's expressions a section's record follows.
                let last = kinds[..at].iter().rev().find(|kind| **kind < 0x10);
                let ended = kinds.get(at).map_or(false, |kind| *kind < 0x10);
                let allowed = ended && matches!(last, Some(0x04 | 0x08));
                let guarded = ended && last == Some(&0x03);
                let (number, place) = unnamed_or_broken(&with);
                if allowed || guarded {
                    assert!(number != 3, "{at}");
                } else {
                    assert_eq!((number, place), (3, at as u32));
                }
            }
        }
    }
    // As the first record of a section, and behind the property.
    let pick = || pick(0, 0, 0);
    assert_eq!(unnamed(&pick()), (3, 0));
    assert_eq!(unnamed(&join(&[variable(0, 2), pick()])), (3, 1));
    assert_eq!(unnamed(&join(&[counter(), pick()])), (3, 5));
    assert_eq!(
        unnamed(&join(&[counter(), invariance(yes()), pick()])),
        (3, 7)
    );
    let behind_node = join(&[counter(), idle(0), invariance(yes()), node(yes()), pick()]);
    assert_eq!(unnamed(&behind_node), (3, 11));
    let behind_edge = join(&[examples::h(), pick()]);
    assert_eq!(unnamed(&behind_edge), (3, count(&examples::h())));
    // Nothing follows a pick as its value.
    assert_eq!(
        unnamed(&join(&[
            counter(),
            transition(0, yes(), &[pick(), value(0)])
        ])),
        (3, 8)
    );
}

/// Number and place of a refusal; 0 where a condition is named or the file is accepted.
fn unnamed_or_broken(file: &[u8]) -> (u8, u32) {
    match read(file) {
        Ok(_) => (0, 0),
        Err(Refusal { number, place }) => (number, place),
    }
}

/// C10.3: each record of B turned into a pick. Record 9 is the assignment, 13 the property.
#[test]
fn kind_8_in_place_of_another() {
    for at in 0..21 {
        let mut file = examples::b();
        file[8 * at] = 0x08;
        let expected = match at {
            // A pick 0..0 of v; the sum behind it can't stand there.
            9 => (3, 10),
            // a is 1, and there is one variable.
            13 => (4, 13),
            _ => (3, at as u32),
        };
        assert_eq!(unnamed(&file), expected);
    }
}

/// Variables of so many values, an idle transition, and one that picks so many of the highest.
fn combinations(ranges: &[i16], picks: &[(u8, i16)]) -> (u8, u32) {
    let variables: Vec<Bytes> = ranges.iter().map(|size| variable(0, size - 1)).collect();
    let picks: Vec<Bytes> = picks
        .iter()
        .map(|(variable, size)| {
            pick(
                *variable,
                ranges[usize::from(*variable)] - size,
                ranges[usize::from(*variable)] - 1,
            )
        })
        .collect();
    let file = join(&[
        join(&variables),
        start(yes()),
        idle(0),
        transition(0, no(), &picks),
        invariance(yes()),
        node(yes()),
    ]);
    unnamed(&file)
}

/// C10.22: 4,096 combinations are allowed, one more is not; C10.22: the place is record 03.
#[test]
fn four_thousand_and_ninety_six_combinations() {
    // Behind the variables, the start of two records, and a transition of two.
    let refused = |variables: u32| (22, variables + 4);
    let accepted = (0, 6);
    assert_eq!(combinations(&[4096], &[(0, 4096)]), accepted);
    assert_eq!(combinations(&[4097], &[(0, 4096)]), accepted);
    assert_eq!(combinations(&[4097], &[(0, 4097)]), refused(1));
    assert_eq!(combinations(&[64, 65], &[(0, 64), (1, 64)]), accepted);
    assert_eq!(combinations(&[64, 65], &[(0, 64), (1, 65)]), refused(2));
    assert_eq!(combinations(&[64, 65], &[(1, 65), (0, 63)]), accepted);
    assert_eq!(combinations(&[17, 241], &[(1, 241), (0, 17)]), refused(2));
    assert_eq!(
        combinations(&[16, 16, 16], &[(0, 16), (1, 16), (2, 16)]),
        accepted
    );
    assert_eq!(
        combinations(&[16, 17, 16], &[(0, 16), (1, 17), (2, 16)]),
        refused(3)
    );
    let twelve: Vec<(u8, i16)> = (0..12).map(|variable| (variable, 2)).collect();
    assert_eq!(combinations(&[2; 12], &twelve), accepted);
    let mut three_of_last = [2; 12];
    three_of_last[11] = 3;
    assert_eq!(combinations(&three_of_last, &twelve), accepted);
    let mut all = twelve;
    all[11].1 = 3;
    assert_eq!(combinations(&three_of_last, &all), refused(12));
    // Picks of one value count for nothing.
    assert_eq!(combinations(&[4096, 2], &[(1, 1), (0, 4096)]), accepted);
    assert_eq!(combinations(&[4096, 2], &[(1, 2), (0, 4096)]), refused(2));
    // As many as there are states.
    assert_eq!(
        combinations(&[32, 32_767], &[(0, 32), (1, 32_767)]),
        refused(2)
    );
    // What isn't picked doesn't count, nor does a sum.
    assert_eq!(combinations(&[1024, 1024], &[(0, 1024), (1, 4)]), accepted);
    assert_eq!(
        combinations(&[1024, 1024], &[(0, 1024), (1, 5)]),
        refused(2)
    );
}

/// C10.22: the count is each transition's own, not the file's.
#[test]
fn combinations_are_of_one_transition() {
    let many = |other: Bytes| {
        let most = transition(0, no(), &[pick(0, 0, 63), pick(1, 0, 63)]);
        let file = join(&[
            variable(0, 63),
            variable(0, 64),
            start(yes()),
            most.clone(),
            most.clone(),
            other,
            most,
            invariance(yes()),
            node(yes()),
        ]);
        unnamed(&file)
    };
    assert_eq!(many(idle(0)), (0, 2 + 2 * 4));
    let wide = || transition(0, no(), &[pick(1, 0, 64), pick(0, 0, 63)]);
    assert_eq!(many(wide()), (22, 4 + 8));
    // The first of several.
    assert_eq!(many(join(&[idle(0), wide(), wide()])), (22, 4 + 8 + 2));
}

/// C11.1: 22 comes behind 7, and before 8, 9, 10 and 20. The transition is record 6.
#[test]
fn behind_seven_and_before_eight() {
    let file = |high, wide: bool, factor, edges: &[Bytes], truth: Bytes| {
        let big = product(constant(1000), constant(factor));
        let low = if wide { 0 } else { 1 };
        unnamed(&join(&[
            variable(0, high),
            variable(0, 1024),
            start(truth),
            transition(
                1,
                less(constant(0), big),
                &[pick(1, low, 1024), pick(0, low, 3)],
            ),
            chain(no(), yes()),
            node(yes()),
            node(yes()),
            join(edges),
        ]))
    };
    // 1,025 × 4 = 4,100 combinations, else 1,024 × 3.
    let (down, up) = (double_edge(0, 1, 0), double_edge(0, 0, 1));
    for truth in [no(), yes()] {
        for factor in [1000, 1001] {
            for edges in [vec![down.clone()], vec![up.clone()], vec![]] {
                assert_eq!(file(1023, true, factor, &edges, truth.clone()), (7, 1));
                assert_eq!(file(1023, false, factor, &edges, truth.clone()), (7, 1));
                assert_eq!(file(3, true, factor, &edges, truth.clone()), (22, 4));
            }
        }
    }
    assert_eq!(file(3, false, 1001, &[up.clone()], no()), (8, 7));
    assert_eq!(file(3, false, 1000, &[up], no()), (9, 19));
    assert_eq!(file(3, false, 1000, &[], no()), (10, 1));
    assert_eq!(file(3, false, 1000, &[down.clone()], no()), (20, 0));
    assert_eq!(file(3, false, 1000, &[down], yes()).0, 0);
}

/// C11.1: and behind 2 to 6 and 19, which are tried record by record.
#[test]
fn behind_what_is_tried_by_records() {
    let file = join(&[
        variable(0, 4096),
        start(yes()),
        transition(0, yes(), &[pick(0, 0, 4096)]),
        invariance(yes()),
        node(yes()),
    ]);
    records_come_first(&file, (22, 3), 6);
}

/// C13.2, C11.1: 22 comes before 11 and 12, and before each condition. C11.6: it is reading's.
#[test]
fn every_answer_has_it() {
    let file = |high| {
        join(&[
            variable(0, 4096),
            start(yes()),
            transition(0, yes(), &[pick(0, 0, high)]),
            invariance(no()),
            node(no()),
        ])
    };
    let (number, place) = (22, 3);
    assert_eq!(read(&file(4096)).unwrap_err(), Refusal { number, place });
    assert_eq!(verdict(&file(4095)).number, 13);
    for (condition, state) in [(0, 0), (4, 0), (0, 4097), (usize::MAX, usize::MAX)] {
        let refused = Tested::Refused { number, place };
        assert_eq!(single(&file(4096), condition, state), refused);
        assert!(single(&file(4095), condition, state) != refused);
    }
    for length in [0, 31] {
        let mut report = vec![0x77; length];
        let verdict = check(&file(4096), &mut report);
        assert_eq!((verdict.number, verdict.tests), (1, 0));
        assert_eq!(report, vec![0x77; length]);
    }
    let mut report = [0x77; 32];
    assert_eq!(check(&file(4096), &mut report).tests, 0);
    assert_eq!(report[..8], [22, 255, 255, 0, 3, 0, 0, 0]);
    assert_eq!(report[8..], [0; 24]);
}

/// v in 0..4; from node 0, v = 0, a pick of low..high; the nodes 1 up are v = 1, 2 and so on.
fn leading(low: i16, high: i16, edges: &[i16]) -> Bytes {
    let edges: Vec<Bytes> = edges.iter().map(|to| single_edge(0, 0, *to)).collect();
    let nodes: Vec<Bytes> = (0..5).map(|at| node(is(at))).collect();
    join(&[
        variable(0, 4),
        start(is(0)),
        transition(0, is(0), &[pick(0, low, high)]),
        invariance(yes()),
        join(&nodes),
        join(&edges),
    ])
}

/// C8.11: each successor satisfies a target, one this and another that.
#[test]
fn each_successor_has_its_target() {
    let accepted = (0, 1 + 5 + 10);
    assert_eq!(unnamed(&leading(1, 3, &[1, 2, 3])), accepted);
    assert_eq!(unnamed(&leading(1, 3, &[3, 1, 2])), accepted);
    assert_eq!(unnamed(&leading(1, 3, &[0, 1, 2, 3, 4])), accepted);
    // The node itself is among them.
    assert_eq!(unnamed(&leading(0, 2, &[1, 2])), accepted);
    assert_eq!(unnamed(&leading(0, 0, &[])), accepted);
    // The step condition of node 0 is number 7. One lacks a target: first, middle, last.
    let broken = (17, 0, 0, 7);
    assert_eq!(named(&leading(1, 3, &[2, 3])), broken);
    assert_eq!(named(&leading(1, 3, &[1, 3])), broken);
    assert_eq!(named(&leading(1, 3, &[1, 2])), broken);
    assert_eq!(named(&leading(0, 1, &[])), broken);
    assert_eq!(named(&leading(0, 4, &[1, 2, 4])), broken);
    assert_eq!(named(&leading(1, 1, &[2, 3, 4])), broken);
    for state in 0..5 {
        let holds = single(&leading(1, 3, &[1, 3]), 7, state) == Tested::Holds;
        assert_eq!(holds, state > 0);
    }
}

/// C8.11: by two picks, with one combination of four in no node.
#[test]
fn each_combination_has_its_target() {
    let file = |v: i16, w: i16| {
        let here = |v, w| and(is(v), equal(value(1), constant(w)));
        join(&[
            variable(0, 1),
            variable(-1, 0),
            start(not(here(v, w))),
            transition(0, yes(), &[pick(1, -1, 0), pick(0, 0, 1)]),
            invariance(yes()),
            node(not(here(v, w))),
        ])
    };
    for v in 0..=1 {
        for w in -1..=0 {
            assert_eq!(named(&file(v, w)), (17, 0, 0, 3));
        }
    }
    // Out of the ranges nothing is left out.
    assert_eq!(unnamed(&file(2, 0)), (0, 4));
}

/// C8.12: by double edges each successor leaves the node.
#[test]
fn double_edges_and_picks() {
    let file = |low, high, edges: &[i16]| {
        let edges: Vec<Bytes> = edges.iter().map(|to| double_edge(0, 2, *to)).collect();
        join(&[
            variable(0, 2),
            start(yes()),
            transition(1, is(2), &[pick(0, low, high)]),
            transition(1, is(1), &[pick(0, 0, 0)]),
            chain(yes(), is(0)),
            node(is(0)),
            node(is(1)),
            node(is(2)),
            double_edge(1, 1, 0),
            join(&edges),
        ])
    };
    let accepted = (0, 2 + 8 + 2);
    assert_eq!(unnamed(&file(0, 1, &[0, 1])), accepted);
    assert_eq!(unnamed(&file(1, 1, &[1])), accepted);
    assert_eq!(unnamed(&file(0, 0, &[0, 1])), accepted);
    // Node 2's step: behind entry, cover and five conditions of node 1.
    let broken = (17, 2, 0, 8);
    assert_eq!(named(&file(0, 1, &[0])), broken);
    assert_eq!(named(&file(0, 1, &[1])), broken);
    assert_eq!(named(&file(0, 2, &[0, 1])), broken);
    assert_eq!(named(&file(1, 2, &[0, 1])), broken);
    assert_eq!(named(&file(2, 2, &[0, 1])), broken);
}

/// C8.11: a disabled transition's step holds, whatever its picks; C8.10: range is of assigned values.
#[test]
fn disabled_beside_picks() {
    let file = |guard: Bytes, by| {
        let sets = [pick(1, 0, 1), assign(0, sum(value(0), constant(by)))];
        join(&[
            variable(0, 1),
            variable(0, 1),
            start(yes()),
            transition(0, guard, &sets),
            invariance(yes()),
            node(equal(value(1), constant(0))),
            node(yes()),
        ])
    };
    // Conditions 3 and 4 are range and step of node 0. The states: 00, 01, 10, 11.
    let holds = |file: &Bytes, condition| {
        [0, 1, 2, 3].map(|state| single(file, condition, state) == Tested::Holds)
    };
    assert_eq!(holds(&file(yes(), 0), 3), [true; 4]);
    assert_eq!(holds(&file(yes(), 0), 4), [false, true, false, true]);
    assert_eq!(holds(&file(no(), 0), 3), [true; 4]);
    assert_eq!(holds(&file(no(), 0), 4), [true; 4]);
    // v + 1 is out of range at v = 1, v - 1 at v = 0.
    assert_eq!(holds(&file(yes(), 1), 3), [true, true, false, true]);
    assert_eq!(holds(&file(yes(), 1), 4), [false, true, true, true]);
    assert_eq!(holds(&file(yes(), -1), 3), [false, true, true, true]);
    assert_eq!(holds(&file(yes(), -1), 4), [true, true, false, true]);
    assert_eq!(holds(&file(is(0), 1), 3), [true; 4]);
    assert_eq!(holds(&file(is(0), 1), 4), [false, true, true, true]);
}

/// C8.13: enabled is the guard and the assigned values; picks don't matter.
#[test]
fn enabling_with_picks() {
    let file = |guard: Bytes, number| {
        let sets = [pick(0, 0, 0), assign(1, number)];
        join(&[
            variable(0, 1),
            variable(0, 1),
            start(yes()),
            transition(1, guard, &sets),
            chain(yes(), is(0)),
            node(is(0)),
            node(is(1)),
            double_edge(0, 1, 0),
        ])
    };
    // Condition 4 is enabling. Node 1 is true at states 2 and 3: w is 0 and 1 there.
    assert_eq!(unnamed(&file(yes(), value(1))), (0, 5));
    let up = sum(value(1), constant(1));
    assert_eq!(named(&file(yes(), up.clone())), (16, 1, 0, 2));
    let fails = |file: &Bytes| [0, 1, 2, 3].map(|state| single(file, 4, state) == Tested::Fails);
    assert_eq!(fails(&file(yes(), up)), [false, false, false, true]);
    let at_zero = equal(value(1), constant(0));
    assert_eq!(
        fails(&file(at_zero.clone(), value(1))),
        [false, false, false, true]
    );
    assert_eq!(named(&file(at_zero, value(1))), (18, 1, 0, 4));
}

/// C5.3: a pick of one value is an assignment of it.
#[test]
fn one_value_as_an_assignment() {
    let mut random = Random(11);
    let mut seen = [0; 2];
    for round in 0..6_000 {
        let files = [bits(), meeting(), falling()];
        let file = changed(files[round % 3].clone(), &mut random);
        let of_one = |record: &[u8]| record[0] == 0x08 && record[2..4] == record[4..6];
        let at = match file.chunks(8).position(of_one) {
            Some(at) if read(&file).is_ok() => at,
            _ => continue,
        };
        let mut other = file.clone();
        let [variable, low, high] = [1, 2, 3].map(|byte| file[8 * at + byte]);
        let value = i16::from_le_bytes([low, high]);
        other.splice(8 * at..8 * at + 8, assign(variable, constant(value)));
        assert_eq!(verdict(&file), verdict(&other));
        seen[usize::from(verdict(&file).number > 0)] += 1;
    }
    assert!(seen.iter().all(|count| *count > 20), "{seen:?}");
}
