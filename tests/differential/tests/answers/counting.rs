//! The lowest breaking state and the tests made, counted by hand.

use super::{acceptance, answers, Records};
use differential::generate::record;
use independent::Verdict;

fn plain(kind: u8) -> [u8; 8] {
    record(kind, 0, 0, 0, 0)
}

/// Compares a variable with a constant.
fn compare(kind: u8, variable: u8, value: i16) -> Records {
    let operands = [
        record(0x11, variable, 0, 0, 0),
        record(0x10, 0, value, 0, 0),
    ];
    [vec![plain(kind)], operands.to_vec()].concat()
}

fn equal(variable: u8, value: i16) -> Records {
    compare(0x27, variable, value)
}

fn join(kind: u8, left: &Records, right: &Records) -> Records {
    [&[plain(kind)], &left[..], &right[..]].concat()
}

/// Start and node are true, and q is false exactly where this is true: condition 0, the start,
/// holds, and 1, the cover, is broken there. There are no transitions.
fn broken_where(ranges: &[(i16, i16)], truth: &Records) -> Vec<u8> {
    let range = |&(low, high): &(i16, i16)| record(0x01, 0, low, high, 0);
    let mut records: Records = ranges.iter().map(range).collect();
    records.extend([plain(0x02), plain(0x20)]);
    records.extend([record(0x05, 1, 0, 0, 0), plain(0x22)]);
    records.extend(truth);
    records.extend([plain(0x06), plain(0x20)]);
    records.concat()
}

/// The cover is broken first at these values, after so many tests.
#[track_caller]
fn breaks(ranges: &[(i16, i16)], truth: &Records, values: &[i16], tests: u64) {
    let mut all = [0; 12];
    all[..values.len()].copy_from_slice(values);
    let expected = Verdict {
        number: 15,
        node: 0,
        transition: 255,
        at: 1,
        values: all,
        tests,
    };
    answers(&broken_where(ranges, truth), expected);
}

/// C12.5, C12.7.
#[test]
fn one_variable() {
    // Ten states, -4 to 5.
    let range = [(-4, 5)];
    for (state, value) in (-4..=5).enumerate() {
        breaks(&range, &equal(0, value), &[value], 10 + state as u64 + 1);
        // Where it is at least the value: the lowest of several.
        let less = compare(0x28, 0, value);
        let at_least = [vec![plain(0x22)], less].concat();
        breaks(&range, &at_least, &[value], 10 + state as u64 + 1);
        // Where it is at most the value: the first state of all.
        breaks(&range, &compare(0x29, 0, value), &[-4], 11);
    }
    let nowhere = broken_where(&range, &vec![plain(0x21)]);
    answers(&nowhere, acceptance(2, 20));
    // At -2 and 1, at -2 and 5: states 2 and 5, 2 and 9.
    for other in [1, 5] {
        let both = join(0x24, &equal(0, other), &equal(0, -2));
        breaks(&range, &both, &[-2], 13);
    }
}

/// C4.4, C12.5, C12.7.
#[test]
fn two_variables() {
    // -1..1 and 5..8: state 4 (v + 1) + (w - 5) of 12.
    let ranges = [(-1, 1), (5, 8)];
    for (v, w, state) in [(-1, 5, 0), (-1, 8, 3), (0, 5, 4), (1, 7, 10), (1, 8, 11)] {
        let here = join(0x23, &equal(0, v), &equal(1, w));
        breaks(&ranges, &here, &[v, w], 12 + state + 1);
    }
    breaks(&ranges, &equal(1, 6), &[-1, 6], 12 + 1 + 1);
    breaks(&ranges, &equal(0, 1), &[1, 5], 12 + 8 + 1);
    // With the first variable fastest 0, 5 would come before -1, 6.
    let first = join(0x23, &equal(0, 0), &equal(1, 5));
    let second = join(0x23, &equal(0, -1), &equal(1, 6));
    breaks(&ranges, &join(0x24, &first, &second), &[-1, 6], 12 + 1 + 1);
}

/// C4.3, C10.7, C12.7.
#[test]
fn as_many_states_as_allowed() {
    // 16 × 65,536 = 1,048,576 states.
    let ranges = [(0, 15), (i16::MIN, i16::MAX)];
    let nowhere = broken_where(&ranges, &vec![plain(0x21)]);
    answers(&nowhere, acceptance(2, 2_097_152));
    let last = join(0x23, &equal(0, 15), &equal(1, i16::MAX));
    breaks(&ranges, &last, &[15, i16::MAX], 2_097_152);
    // Where w is 0: first at state 32,768.
    breaks(&ranges, &equal(1, 0), &[0, 0], 1_048_576 + 32_768 + 1);
}
