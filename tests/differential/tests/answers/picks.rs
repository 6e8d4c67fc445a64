//! Picks: steps with several successors, and refusals of picks.

use super::{acceptance, answers, file, refusal, tests, Records};
use differential::generate::record;
use independent::{Tested, Verdict};

fn r(kind: u8, a: u8) -> [u8; 8] {
    record(kind, a, 0, 0, 0)
}

fn constant(value: i16) -> [u8; 8] {
    record(0x10, 0, value, 0, 0)
}

fn always() -> Records {
    vec![r(0x20, 0)]
}

fn never() -> Records {
    vec![r(0x21, 0)]
}

/// Compares a variable with a constant.
fn compare(kind: u8, variable: u8, value: i16) -> Records {
    vec![r(kind, 0), r(0x11, variable), constant(value)]
}

fn equal(variable: u8, value: i16) -> Records {
    compare(0x27, variable, value)
}

fn not(truth: &Records) -> Records {
    [vec![r(0x22, 0)], truth.clone()].concat()
}

fn both(left: &Records, right: &Records) -> Records {
    [vec![r(0x23, 0)], left.clone(), right.clone()].concat()
}

fn pick(variable: u8, low: i16, high: i16) -> Records {
    vec![record(0x08, variable, low, high, 0)]
}

fn assign(variable: u8, number: &[[u8; 8]]) -> Records {
    [&[r(0x04, variable)], number].concat()
}

/// A variable and something added.
fn plus(variable: u8, added: i16) -> Records {
    vec![r(0x12, 0), r(0x11, variable), constant(added)]
}

/// A transition, just or not: its guard, then its assignments and picks.
fn step(just: u8, guard: Records, sets: &[Records]) -> Records {
    [vec![r(0x03, just)], guard, sets.concat()].concat()
}

/// A step condition is broken: node, transition, condition, the values, and the tests.
#[track_caller]
fn broken(file: &[u8], number: u8, of: (u8, u8), at: u32, values: &[i16], tests: u64) {
    let mut all = [0; 12];
    all[..values.len()].copy_from_slice(values);
    let (node, transition) = of;
    let expected = Verdict {
        number,
        node,
        transition,
        at,
        values: all,
        tests,
    };
    answers(file, expected);
}

/// Whether the condition holds, state by state.
#[track_caller]
fn holds(file: &[u8], condition: usize, expected: &[bool]) {
    for (state, &holds) in expected.iter().enumerate() {
        let expected = if holds { Tested::Holds } else { Tested::Fails };
        tests(file, condition, state, expected);
    }
}

/// An invariance over v in 0..4 with one node, and a transition with these picks.
fn of_node(node: &Records, sets: &[Records]) -> Vec<u8> {
    file(
        &[(0, 4)],
        node.clone(),
        &[step(0, always(), sets)],
        (1, 0, &[always()]),
        &[node.clone()],
        &[],
    )
}

/// C5.3, C8.11, C10.17, C12.7: the one successor that leaves the node may be any.
#[test]
fn every_successor_keeps_the_node() {
    // Conditions: 0 start, 1 cover, 2 range, 3 step; five states.
    let at_most = |value| compare(0x29, 0, value);
    answers(&of_node(&at_most(2), &[pick(0, 0, 2)]), acceptance(4, 20));
    answers(&of_node(&at_most(2), &[pick(0, 2, 2)]), acceptance(4, 20));
    answers(&of_node(&at_most(2), &[]), acceptance(4, 20));
    answers(&of_node(&at_most(4), &[pick(0, 0, 4)]), acceptance(4, 20));
    let file = of_node(&at_most(2), &[pick(0, 0, 3)]);
    broken(&file, 17, (0, 0), 3, &[0], 16);
    let file = of_node(&at_most(2), &[pick(0, 3, 3)]);
    broken(&file, 17, (0, 0), 3, &[0], 16);
    let file = of_node(&at_most(2), &[pick(0, 2, 4)]);
    broken(&file, 17, (0, 0), 3, &[0], 16);
    // All values but one are in the node: 0 is, unless it is that one.
    for out in 0..5 {
        let file = of_node(&not(&equal(0, out)), &[pick(0, 0, 4)]);
        let lowest = i16::from(out == 0);
        broken(&file, 17, (0, 0), 3, &[lowest], 15 + lowest as u64 + 1);
        let fails: Vec<bool> = (0..5).map(|value| value == out).collect();
        holds(&file, 3, &fails);
    }
    // Beside the values that are picked.
    answers(
        &of_node(&not(&equal(0, 0)), &[pick(0, 1, 4)]),
        acceptance(4, 20),
    );
    answers(
        &of_node(&not(&equal(0, 4)), &[pick(0, 0, 3)]),
        acceptance(4, 20),
    );
}

/// C5.3, C5.6, C8.11: two picks, all four combinations.
#[test]
fn every_combination_keeps_the_node() {
    for (v, w) in [(0, -1), (0, 0), (1, -1), (1, 0)] {
        let here = both(&equal(0, v), &equal(1, w));
        for picks in [
            [pick(0, 0, 1), pick(1, -1, 0)],
            [pick(1, -1, 0), pick(0, 0, 1)],
        ] {
            let file = file(
                &[(0, 1), (-1, 0)],
                not(&here),
                &[step(0, always(), &picks)],
                (1, 0, &[always()]),
                &[not(&here)],
                &[],
            );
            // The lowest state in the node is 0, -1, or 0, 0 where that is left out.
            let second = (v, w) == (0, -1);
            let values = if second { [0, 0] } else { [0, -1] };
            broken(&file, 17, (0, 0), 3, &values, 13 + u64::from(second));
        }
    }
}

/// C8.11: from v = 0 a pick of 1..3, and nodes v = 0 to v = 3 with these edges.
#[test]
fn one_successor_this_target_another_that() {
    let with = |targets: &[i16]| {
        let nodes: Vec<Records> = (0..4).map(|value| equal(0, value)).collect();
        let edges: Vec<(u8, i16, i16, u8)> = targets.iter().map(|&to| (0, 0, to, 0)).collect();
        file(
            &[(0, 3)],
            equal(0, 0),
            &[step(0, equal(0, 0), &[pick(0, 1, 3)])],
            (1, 0, &[always()]),
            &nodes,
            &edges,
        )
    };
    // Start, four covers, range and step of each node: the step of node 0 is condition 6.
    answers(&with(&[1, 2, 3]), acceptance(13, 52));
    answers(&with(&[3, 2, 1]), acceptance(13, 52));
    for targets in [&[1, 2][..], &[1, 3], &[2, 3], &[0, 2], &[]] {
        broken(&with(targets), 17, (0, 0), 6, &[0], 25);
        holds(&with(targets), 6, &[false, true, true, true]);
    }
}

/// v in 0..2 waits at 2 and 1 for 0. A wait-for, or a chain by double edges.
fn falling(picked: (i16, i16), guard: Records, edges: &[(u8, i16, i16, u8)]) -> Vec<u8> {
    let nodes = [equal(0, 0), equal(0, 1), equal(0, 2)];
    let (low, high) = picked;
    let chain = edges[0].3 == 1;
    let truths: Vec<Records> = match chain {
        true => vec![always(), equal(0, 0)],
        false => [&[always()][..], &nodes].concat(),
    };
    file(
        &[(0, 2)],
        equal(0, 2),
        &[
            step(1, guard, &[pick(0, low, high)]),
            step(1, equal(0, 1), &[pick(0, 0, 0)]),
        ],
        if chain {
            (3, 0, &truths)
        } else {
            (2, 3, &truths)
        },
        &nodes,
        edges,
    )
}

/// C8.11 in a wait-for.
#[test]
fn a_wait_for_with_picks() {
    // Entry, three covers, then 4 to 7 of node 1, 8 to 11 of node 2.
    let all = [(0, 2, 1, 0), (0, 2, 0, 0), (1, 1, 0, 0)];
    answers(&falling((0, 1), equal(0, 2), &all), acceptance(12, 36));
    answers(&falling((0, 2), equal(0, 2), &all), acceptance(12, 36));
    let file = falling((0, 2), equal(0, 2), &[all[0], all[2]]);
    broken(&file, 17, (2, 0), 9, &[2], 9 * 3 + 3);
    let file = falling((0, 2), equal(0, 2), &[all[1], all[2]]);
    broken(&file, 17, (2, 0), 9, &[2], 9 * 3 + 3);
    // At v = 1 too it may rise to 2: node 1's step is condition 5.
    let file = falling((0, 2), always(), &all);
    broken(&file, 17, (1, 0), 5, &[1], 5 * 3 + 2);
}

/// C8.12, C8.13 in a chain.
#[test]
fn a_chain_with_picks() {
    // Entry, cover; node 1: 2, 3, then 4, 5, 6; node 2: 7, 8, 9, then 10, 11.
    let all = [(0, 2, 1, 1), (0, 2, 0, 1), (1, 1, 0, 1)];
    answers(&falling((0, 1), equal(0, 2), &all), acceptance(12, 36));
    answers(&falling((1, 1), equal(0, 2), &all), acceptance(12, 36));
    for edges in [[all[0], all[2]], [all[1], all[2]]] {
        let file = falling((0, 1), equal(0, 2), &edges);
        broken(&file, 17, (2, 0), 8, &[2], 8 * 3 + 3);
    }
    // To keep the node is not enough, for any of the successors.
    for picked in [(0, 2), (1, 2), (2, 2)] {
        let file = falling(picked, equal(0, 2), &all);
        broken(&file, 17, (2, 0), 8, &[2], 8 * 3 + 3);
    }
    let file = falling((0, 1), never(), &all);
    broken(&file, 18, (2, 0), 9, &[2], 9 * 3 + 3);
    holds(&file, 8, &[true, true, true]);
}

/// C5.2, C8.10, C8.11, C8.13: v in 0..1 picks 0, w in 0..1 becomes w + 1.
#[test]
fn a_value_out_of_range_beside_a_pick() {
    for sets in [
        [pick(0, 0, 1), assign(1, &plus(1, 1))],
        [assign(1, &plus(1, 1)), pick(0, 0, 1)],
    ] {
        let invariance = file(
            &[(0, 1), (0, 1)],
            always(),
            &[step(0, always(), &sets)],
            (1, 0, &[always()]),
            &[equal(0, 1), always()],
            &[],
        );
        // Start, two covers, 3 range and 4 step of node 0, v = 1. The states: 00, 01, 10, 11.
        broken(&invariance, 16, (0, 0), 3, &[1, 1], 3 * 4 + 4);
        holds(&invariance, 3, &[true, true, true, false]);
        holds(&invariance, 4, &[true, true, false, true]);
        let chain = file(
            &[(0, 1), (0, 1)],
            always(),
            &[step(1, always(), &sets)],
            (3, 0, &[always(), always()]),
            &[always(), equal(0, 1)],
            &[(0, 1, 0, 1)],
        );
        // Entry, cover, range, step, 4 enabling.
        broken(&chain, 16, (1, 0), 2, &[1, 1], 2 * 4 + 4);
        holds(&chain, 3, &[true, true, true, true]);
        holds(&chain, 4, &[true, true, true, false]);
    }
}

/// C5.1: what is assigned comes from the state at hand, not from what is picked.
#[test]
fn assigned_from_the_state_at_hand() {
    // v picks 0..1, w becomes v: the node is w = 0.
    for sets in [
        [pick(0, 0, 1), assign(1, &[r(0x11, 0)])],
        [assign(1, &[r(0x11, 0)]), pick(0, 0, 1)],
    ] {
        let with = |guard| {
            file(
                &[(0, 1), (0, 1)],
                equal(1, 0),
                &[step(0, guard, &sets)],
                (1, 0, &[always()]),
                &[equal(1, 0)],
                &[],
            )
        };
        answers(&with(equal(0, 0)), acceptance(4, 16));
        // State 2 is v = 1, w = 0.
        broken(&with(always()), 17, (0, 0), 3, &[1, 0], 12 + 3);
    }
}

/// An invariance over 0..3 and -2..2: 0 and 1 variables, 2 start, 3 true, 4 transition, 5 guard,
/// then what it sets.
fn sets(sets: &[Records]) -> Vec<u8> {
    file(
        &[(0, 3), (-2, 2)],
        always(),
        &[step(0, always(), sets)],
        (1, 0, &[always()]),
        &[always()],
        &[],
    )
}

/// C13.2: both refuse the file, in the check and in a single test.
#[track_caller]
fn refused(number: u8, place: u32, file: &[u8]) {
    answers(file, refusal(number, place));
    tests(file, 0, 0, Tested::Refused { number, place });
    let most = usize::MAX;
    tests(file, most, most, Tested::Refused { number, place });
}

/// C1.4, C1.15, C1.16, C10.4.
#[test]
fn fields() {
    for (variable, low, high) in [(0, 0, 3), (0, 3, 3), (1, -2, 2), (1, -2, -2)] {
        let tests = 4 * 20;
        answers(&sets(&[pick(variable, low, high)]), acceptance(4, tests));
    }
    for (variable, low, high) in [
        (0, -1, 3),
        (0, 0, 4),
        (0, 4, 4),
        (1, -3, 0),
        (1, 0, 3),
        (0, 2, 1),
        (1, 2, -2),
        (2, 0, 0),
    ] {
        refused(4, 6, &sets(&[pick(variable, low, high)]));
    }
    refused(4, 6, &sets(&[vec![record(0x08, 0, 0, 3, 1)]]));
    refused(4, 6, &sets(&[vec![[8, 0, 0, 0, 3, 0, 0, 1]]]));
}

/// C1.8, C1.17, C10.6, C11.2.
#[test]
fn set_twice() {
    let (v, w) = (pick(0, 0, 1), pick(1, 0, 1));
    let (to_v, to_w) = (assign(0, &[constant(0)]), assign(1, &[constant(0)]));
    for each in [[&v, &w], [&w, &v], [&v, &to_w], [&to_w, &v], [&to_v, &w]] {
        answers(&sets(&each.map(Clone::clone)), acceptance(4, 80));
    }
    refused(6, 7, &sets(&[v.clone(), v.clone()]));
    refused(6, 7, &sets(&[v.clone(), pick(0, 3, 3)]));
    refused(6, 7, &sets(&[v.clone(), to_v.clone()]));
    refused(6, 8, &sets(&[to_v.clone(), v.clone()]));
    refused(6, 8, &sets(&[v.clone(), w.clone(), to_v.clone()]));
    refused(6, 9, &sets(&[v.clone(), to_w, v.clone()]));
    refused(6, 9, &sets(&[to_v, w, v.clone()]));
    // 4 comes first at one record, and 6 before the record behind.
    refused(4, 7, &sets(&[v.clone(), pick(0, 0, 4)]));
    refused(6, 7, &sets(&[v.clone(), vec![r(0x04, 0), r(0x20, 0)]]));
}

/// C1.5, C1.8, C10.3.
#[test]
fn elsewhere() {
    let good = sets(&[assign(0, &[constant(0)])]);
    // 6 assignment, 7 its value, 8 property, 9 q, 10 node, 11 its truth.
    for place in 0..=12 {
        let mut file = good.clone();
        file.splice(8 * place..8 * place, pick(1, 0, 0).concat());
        match place {
            6 | 8 => answers(&file, acceptance(4, 80)),
            _ => refused(3, place as u32, &file),
        }
    }
    refused(3, 7, &sets(&[pick(0, 0, 0), vec![constant(0)]]));
}

/// Ranges of these sizes from 0 up, an idle transition, and one that picks so many of the lowest
/// values of the variables. Its record is behind the variables and four others.
fn picking(sizes: &[i16], picks: &[(u8, i16)], nodes: &[Records]) -> Vec<u8> {
    let ranges: Vec<(i16, i16)> = sizes.iter().map(|&size| (0, size - 1)).collect();
    let picks: Vec<Records> = picks
        .iter()
        .map(|&(variable, values)| pick(variable, 0, values - 1))
        .collect();
    let transitions = [step(0, always(), &[]), step(0, never(), &picks)];
    let property = (1, 0, &[always()][..]);
    file(&ranges, always(), &transitions, property, nodes, &[])
}

/// C5.7, C10.22.
#[test]
fn combinations() {
    let accepted = |sizes: &[i16], picks: &[(u8, i16)]| {
        let states: u64 = sizes.iter().map(|&size| size as u64).product();
        let file = picking(sizes, picks, &[always()]);
        answers(&file, acceptance(6, 6 * states));
    };
    let many = |sizes: &[i16], picks: &[(u8, i16)]| {
        let place = sizes.len() as u32 + 4;
        refused(22, place, &picking(sizes, picks, &[always()]));
    };
    accepted(&[4096], &[(0, 4096)]);
    accepted(&[4097], &[(0, 4096)]);
    many(&[4097], &[(0, 4097)]);
    accepted(&[64, 65], &[(0, 64), (1, 64)]);
    many(&[64, 65], &[(0, 64), (1, 65)]);
    many(&[64, 65], &[(1, 65), (0, 64)]);
    accepted(&[64, 65], &[(1, 65), (0, 63)]);
    accepted(&[16, 16, 16], &[(0, 16), (1, 16), (2, 16)]);
    many(&[16, 16, 17], &[(0, 16), (1, 16), (2, 17)]);
    accepted(&[4096, 3], &[(0, 4096), (1, 1)]);
    many(&[4096, 3], &[(0, 4096), (1, 2)]);
    let twelve: Vec<(u8, i16)> = (0..12).map(|variable| (variable, 2)).collect();
    accepted(&[2; 12], &twelve);
    let mut more = twelve.clone();
    more[0].1 = 3;
    many(&[3, 2, 2, 2, 2, 2, 2, 2, 2, 2, 2, 2], &more);
    // Two transitions with 4,096 each, and the first of two with more.
    let most = step(0, never(), &[pick(0, 0, 63), pick(1, 0, 63)]);
    let over = step(0, never(), &[pick(0, 0, 63), pick(1, 0, 64)]);
    let with = |transitions: &[Records]| {
        let property = (1, 0, &[always()][..]);
        let ranges = [(0, 63), (0, 64)];
        file(&ranges, always(), transitions, property, &[always()], &[])
    };
    let all = with(&[most.clone(), most.clone()]);
    answers(&all, acceptance(6, 6 * 64 * 65));
    refused(22, 8, &with(&[most, over.clone(), over]));
}

/// C11.1: 22 behind 7, and before 8, 9, 10, 20 and the conditions.
#[test]
fn order_of_refusals() {
    let with = |size: i16, values: i16, factor: i16, start: Records, edges: &[_]| {
        let big = [r(0x28, 0), constant(0), r(0x14, 0), constant(1000)];
        let guard = [&big[..], &[constant(factor)]].concat();
        let picks = [pick(1, 0, 1024), pick(0, 0, values - 1)];
        file(
            &[(0, size - 1), (0, 1024)],
            start,
            &[step(1, guard, &picks)],
            (3, 0, &[never(), always()]),
            &[always(), always()],
            edges,
        )
    };
    // 1,025 × 4 are too many, 1,025 × 3 are not. The transition is record 4; the guard's product 7;
    // behind five records of the guard and two picks the property is 12, the edge 19.
    let (down, up) = ([(0, 1, 0, 1)], [(0, 0, 1, 1)]);
    for start in [always(), never()] {
        for factor in [1000, 1001] {
            for edges in [&down[..], &up, &[]] {
                refused(7, 1, &with(1024, 4, factor, start.clone(), edges));
                refused(22, 4, &with(4, 4, factor, start.clone(), edges));
            }
        }
    }
    refused(7, 1, &with(1024, 3, 1000, always(), &down));
    refused(8, 7, &with(4, 3, 1001, never(), &up));
    refused(9, 19, &with(4, 3, 1000, never(), &up));
    refused(10, 1, &with(4, 3, 1000, never(), &[]));
    refused(20, 0, &with(4, 3, 1000, never(), &down));
    // Entry, cover, range, step, enabling of 4 × 1,025 states.
    answers(&with(4, 3, 1000, always(), &down), acceptance(5, 20_500));
    // A broken start condition: no node is true.
    refused(22, 5, &picking(&[4097], &[(0, 4097)], &[never()]));
    let file = picking(&[4097], &[(0, 4096)], &[never()]);
    broken(&file, 13, (255, 255), 0, &[0], 1);
}
