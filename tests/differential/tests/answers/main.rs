//! Answers worked out by hand, which both checkers must give. Each test cites the clauses of
//! docs/SPECIFICATION.md that it would see broken.

mod checking;
mod counting;
mod evaluating;
mod examples;
mod picks;
mod refusals;

use differential::compare::{proved_check, proved_single};
use differential::generate::record;
use independent::{Tested, Verdict};

type Records = Vec<[u8; 8]>;
type Check = fn(&[u8], &mut [u8]) -> Verdict;
type Single = fn(&[u8], usize, usize) -> Tested;

const CHECKERS: [(&str, Check, Single); 2] = [
    ("proved", proved_check, proved_single),
    ("independent", independent::check, independent::single),
];

/// A file: the ranges of its variables, the start, transitions, the property with its a, b and
/// truths, the nodes, and edges: transition, from, to, d.
fn file(
    ranges: &[(i16, i16)],
    start: Records,
    transitions: &[Records],
    property: (u8, i16, &[Records]),
    nodes: &[Records],
    edges: &[(u8, i16, i16, u8)],
) -> Vec<u8> {
    let (a, b, truths) = property;
    let range = |&(low, high): &(i16, i16)| record(0x01, 0, low, high, 0);
    let mut records: Records = ranges.iter().map(range).collect();
    records.push(record(0x02, 0, 0, 0, 0));
    records.extend(start);
    records.extend(transitions.concat());
    records.push(record(0x05, a, b, 0, 0));
    records.extend(truths.concat());
    for node in nodes {
        records.push(record(0x06, 0, 0, 0, 0));
        records.extend(node);
    }
    for &(transition, from, to, d) in edges {
        records.push(record(0x07, transition, from, to, d));
    }
    records.concat()
}

/// C12.6: a refusal that names no condition.
fn refusal(number: u8, place: u32) -> Verdict {
    Verdict {
        number,
        node: 255,
        transition: 255,
        at: place,
        values: [0; 12],
        tests: 0,
    }
}

/// C12.2, C12.6.
fn acceptance(total: u32, tests: u64) -> Verdict {
    Verdict {
        tests,
        ..refusal(0, total)
    }
}

/// C14.1, C14.2, C14.3: the report's bytes.
fn report(verdict: &Verdict) -> Vec<u8> {
    let mut bytes = vec![verdict.number, verdict.node, verdict.transition, 0];
    bytes.extend(verdict.at.to_le_bytes());
    for value in verdict.values {
        bytes.extend(value.to_le_bytes());
    }
    bytes
}

/// Both give this verdict, and write its report to the start of the buffer. C14.6: the rest stays.
#[track_caller]
fn answers(file: &[u8], expected: Verdict) {
    for (name, check, _) in CHECKERS {
        let mut buffer = [0xa5; 40];
        assert_eq!(check(file, &mut buffer), expected, "{name}");
        assert_eq!(buffer[..32], report(&expected), "{name}");
        assert_eq!(buffer[32..], [0xa5; 8], "{name}");
    }
}

/// Both answer the single test so.
#[track_caller]
fn tests(file: &[u8], condition: usize, state: usize, expected: Tested) {
    for (name, _, single) in CHECKERS {
        let found = single(file, condition, state);
        assert_eq!(found, expected, "{name}, {condition}, {state}");
    }
}
