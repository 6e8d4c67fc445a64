//! Building files from records, and short ways to ask the checker.

use independent::{check, read, Verdict};

pub type Bytes = Vec<u8>;

pub fn record(kind: u8, a: u8, b: i16, c: i16, d: u8) -> Bytes {
    let ([b0, b1], [c0, c1]) = (b.to_le_bytes(), c.to_le_bytes());
    vec![kind, a, b0, b1, c0, c1, d, 0]
}

pub fn join(parts: &[Bytes]) -> Bytes {
    parts.concat()
}

/// A record followed by its operands.
fn with(kind: u8, operands: &[Bytes]) -> Bytes {
    [record(kind, 0, 0, 0, 0), operands.concat()].concat()
}

// Numbers.

pub fn constant(value: i16) -> Bytes {
    record(0x10, 0, value, 0, 0)
}

pub fn value(variable: u8) -> Bytes {
    record(0x11, variable, 0, 0, 0)
}

pub fn sum(left: Bytes, right: Bytes) -> Bytes {
    with(0x12, &[left, right])
}

pub fn difference(left: Bytes, right: Bytes) -> Bytes {
    with(0x13, &[left, right])
}

pub fn product(left: Bytes, right: Bytes) -> Bytes {
    with(0x14, &[left, right])
}

pub fn indicator(truth: Bytes) -> Bytes {
    with(0x15, &[truth])
}

pub fn quotient(left: Bytes, divisor: Bytes) -> Bytes {
    with(0x18, &[left, divisor])
}

pub fn remainder(left: Bytes, divisor: Bytes) -> Bytes {
    with(0x19, &[left, divisor])
}

// Truths.

pub fn yes() -> Bytes {
    with(0x20, &[])
}

pub fn no() -> Bytes {
    with(0x21, &[])
}

pub fn not(truth: Bytes) -> Bytes {
    with(0x22, &[truth])
}

pub fn and(left: Bytes, right: Bytes) -> Bytes {
    with(0x23, &[left, right])
}

pub fn or(left: Bytes, right: Bytes) -> Bytes {
    with(0x24, &[left, right])
}

pub fn implies(left: Bytes, right: Bytes) -> Bytes {
    with(0x25, &[left, right])
}

pub fn iff(left: Bytes, right: Bytes) -> Bytes {
    with(0x26, &[left, right])
}

pub fn equal(left: Bytes, right: Bytes) -> Bytes {
    with(0x27, &[left, right])
}

pub fn less(left: Bytes, right: Bytes) -> Bytes {
    with(0x28, &[left, right])
}

pub fn at_most(left: Bytes, right: Bytes) -> Bytes {
    with(0x29, &[left, right])
}

/// A number compared with itself: true in every state.
pub fn itself(number: Bytes) -> Bytes {
    equal(number.clone(), number)
}

/// v = value, of variable 0.
pub fn is(number: i16) -> Bytes {
    equal(value(0), constant(number))
}

// The file's parts.

pub fn variable(low: i16, high: i16) -> Bytes {
    record(0x01, 0, low, high, 0)
}

pub fn start(truth: Bytes) -> Bytes {
    with(0x02, &[truth])
}

/// A guard, then assignments and picks.
pub fn transition(just: u8, guard: Bytes, sets: &[Bytes]) -> Bytes {
    [record(0x03, just, 0, 0, 0), guard, sets.concat()].concat()
}

pub fn assign(variable: u8, number: Bytes) -> Bytes {
    [record(0x04, variable, 0, 0, 0), number].concat()
}

pub fn pick(variable: u8, low: i16, high: i16) -> Bytes {
    record(0x08, variable, low, high, 0)
}

pub fn invariance(q: Bytes) -> Bytes {
    [record(0x05, 1, 0, 0, 0), q].concat()
}

pub fn wait_for(p: Bytes, q: &[Bytes]) -> Bytes {
    [record(0x05, 2, q.len() as i16, 0, 0), p, q.concat()].concat()
}

pub fn chain(p: Bytes, q: Bytes) -> Bytes {
    [record(0x05, 3, 0, 0, 0), p, q].concat()
}

pub fn node(assertion: Bytes) -> Bytes {
    with(0x06, &[assertion])
}

pub fn single_edge(transition: u8, from: i16, to: i16) -> Bytes {
    record(0x07, transition, from, to, 0)
}

pub fn double_edge(transition: u8, from: i16, to: i16) -> Bytes {
    record(0x07, transition, from, to, 1)
}

/// One variable 0..2, start v = 0: how the small files begin.
pub fn counter() -> Bytes {
    join(&[variable(0, 2), start(is(0))])
}

/// v < 2: v := v + 1.
pub fn count_up(just: u8) -> Bytes {
    let next = sum(value(0), constant(1));
    transition(just, less(value(0), constant(2)), &[assign(0, next)])
}

/// Any state, no guard's help: a transition that changes nothing.
pub fn idle(just: u8) -> Bytes {
    transition(just, yes(), &[])
}

/// A truth of exactly that many records, true everywhere.
pub fn filler(records: usize) -> Bytes {
    match records {
        0 | 1 => yes(),
        2 => not(no()),
        _ => {
            let left = (records - 1) / 2;
            and(filler(left), filler(records - 1 - left))
        }
    }
}

/// How many records a file has.
pub fn count(file: &[u8]) -> u32 {
    (file.len() / 8) as u32
}

// Asking.

/// C14.5, C14.6: the report is written to the first 32 bytes, and the others stay.
pub fn verdict(file: &[u8]) -> Verdict {
    let mut report = [0xAA; 40];
    let verdict = check(file, &mut report);
    assert_eq!(report[..32], bytes(&verdict));
    assert_eq!(report[32..], [0xAA; 8]);
    verdict
}

/// C14.1, C14.2, C14.3: the report of a verdict.
fn bytes(verdict: &Verdict) -> Vec<u8> {
    let mut report = vec![verdict.number, verdict.node, verdict.transition, 0];
    report.extend(verdict.at.to_le_bytes());
    for value in verdict.values {
        report.extend(value.to_le_bytes());
    }
    report
}

/// Number and place or total of a verdict that names no condition. C12.6: nothing is named. C12.7:
/// every test of an accepted file is made, and none of a refused one.
pub fn unnamed(file: &[u8]) -> (u8, u32) {
    let verdict = verdict(file);
    assert_eq!((verdict.node, verdict.transition), (255, 255));
    assert_eq!(verdict.values, [0; 12]);
    let tests = match verdict.number {
        0 => u64::from(verdict.at) * read(file).unwrap().states() as u64,
        _ => 0,
    };
    assert_eq!(verdict.tests, tests);
    (verdict.number, verdict.at)
}

/// Number, node, transition and condition of a verdict.
pub fn named(file: &[u8]) -> (u8, u8, u8, u32) {
    let verdict = verdict(file);
    (verdict.number, verdict.node, verdict.transition, verdict.at)
}

/// C11.1: 2 to 6 and 19 are tried before the refusal that the file meets by itself. It has one node
/// and no edges, and behind its first `cut` records another one must stand.
pub fn records_come_first(file: &Bytes, refusal: (u8, u32), cut: u32) {
    let and = |more: Bytes| unnamed(&join(&[file.clone(), more]));
    let place = count(file);
    assert_eq!(unnamed(file), refusal);
    assert_eq!(and(vec![0]), (2, 0));
    assert_eq!(and(yes()), (3, place));
    assert_eq!(unnamed(&file[..8 * cut as usize]), (3, cut));
    assert_eq!(and(single_edge(0, 0, 1)), (4, place));
    assert_eq!(and(node(yes()).repeat(32)), (5, place + 62));
    assert_eq!(and(single_edge(0, 0, 0).repeat(2)), (6, place + 1));
    let by_zero = less(quotient(value(0), constant(0)), constant(1));
    assert_eq!(and(node(by_zero)), (19, place + 4));
}
