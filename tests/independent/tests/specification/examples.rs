//! The small files A to J, with their whole reports, and some at a limit.

use crate::builder::*;
use independent::{check, single, Tested};

const A: [&str; 21] = [
    "0100000002000000",
    "0200000000000000",
    "2700000000000000",
    "1100000000000000",
    "1000000000000000",
    "0300000000000000",
    "2800000000000000",
    "1100000000000000",
    "1000020000000000",
    "0400000000000000",
    "1200000000000000",
    "1100000000000000",
    "1000010000000000",
    "0501000000000000",
    "2900000000000000",
    "1100000000000000",
    "1000020000000000",
    "0600000000000000",
    "2900000000000000",
    "1100000000000000",
    "1000010000000000",
];

fn byte(hex: &str, at: usize) -> u8 {
    u8::from_str_radix(&hex[2 * at..2 * at + 2], 16).unwrap()
}

pub fn a() -> Bytes {
    let mut file = Vec::new();
    for record in A {
        file.extend((0..8).map(|at| byte(record, at)));
    }
    file
}

/// A, with another guard and another assertion.
fn like_a(guard: Bytes, assertion: Bytes) -> Bytes {
    let next = sum(value(0), constant(1));
    join(&[
        counter(),
        transition(0, guard, &[assign(0, next)]),
        invariance(at_most(value(0), constant(2))),
        node(assertion),
    ])
}

fn below_two() -> Bytes {
    less(value(0), constant(2))
}

pub fn b() -> Bytes {
    like_a(below_two(), at_most(value(0), constant(2)))
}

pub fn c() -> Bytes {
    like_a(yes(), at_most(value(0), constant(2)))
}

fn chain_file(just: u8, edges: &[Bytes]) -> Bytes {
    join(&[
        counter(),
        count_up(just),
        chain(yes(), is(2)),
        node(is(2)),
        node(is(1)),
        node(is(0)),
        join(edges),
    ])
}

pub fn d() -> Bytes {
    chain_file(1, &[double_edge(0, 2, 1), double_edge(0, 1, 0)])
}

pub fn e() -> Bytes {
    chain_file(1, &[double_edge(0, 2, 0), double_edge(0, 1, 0)])
}

pub fn f() -> Bytes {
    chain_file(0, &[double_edge(0, 2, 1), double_edge(0, 1, 0)])
}

pub fn g() -> Bytes {
    chain_file(1, &[double_edge(0, 1, 0)])
}

fn wait_for_file(edges: &[Bytes]) -> Bytes {
    join(&[
        counter(),
        count_up(1),
        wait_for(is(0), &[is(2), is(1), is(0)]),
        node(is(2)),
        node(is(1)),
        node(is(0)),
        join(edges),
    ])
}

pub fn h() -> Bytes {
    wait_for_file(&[single_edge(0, 2, 1), single_edge(0, 1, 0)])
}

pub fn i() -> Bytes {
    wait_for_file(&[
        single_edge(0, 2, 1),
        single_edge(0, 1, 0),
        single_edge(0, 1, 2),
    ])
}

pub fn j() -> Bytes {
    let differ = || not(equal(value(0), value(1)));
    join(&[
        variable(0, 1),
        variable(0, 1),
        start(and(is(0), equal(value(1), constant(1)))),
        transition(0, yes(), &[assign(0, value(1)), assign(1, value(0))]),
        invariance(differ()),
        node(differ()),
    ])
}

/// The report as the program would print it.
fn printed(file: &[u8]) -> String {
    let mut report = [0x55; 32];
    check(file, &mut report);
    report.iter().map(|byte| format!("{byte:02x}")).collect()
}

/// The first 8 bytes, then the values' bytes as far as they are not zero.
fn expect(file: &[u8], head: &str, values: &str) {
    assert_eq!(printed(file), format!("{head}{values:0<48}"));
}

/// C1.1, C1.2, C1.3: the bytes of a file; C8.11, C10.17, C14.1, C14.2, C14.3.
#[test]
fn a_breaks_its_step() {
    assert_eq!(a(), like_a(below_two(), at_most(value(0), constant(1))));
    expect(&a(), "1100000003000000", "0100");
}

/// C12.2.
#[test]
fn b_is_accepted() {
    expect(&b(), "00ffff0004000000", "");
}

/// C8.10, C10.16.
#[test]
fn c_breaks_its_range() {
    expect(&c(), "1000000002000000", "0200");
}

/// C12.2, C8.6.
#[test]
fn d_is_accepted() {
    expect(&d(), "00ffff0008000000", "");
}

/// C8.12, C10.17.
#[test]
fn e_breaks_the_step_of_node_2() {
    expect(&e(), "1102000006000000", "0000");
}

/// C5.5, C9.6, C10.9.
#[test]
fn f_breaks_an_edge_rule() {
    let place = count(&f()) - 2;
    expect(&f(), &format!("09ffff00{place:02x}000000"), "");
}

/// C9.9, C10.10.
#[test]
fn g_lacks_a_double_edge() {
    expect(&g(), "0affff0002000000", "");
}

/// C12.2, C8.5.
#[test]
fn h_is_accepted() {
    expect(&h(), "00ffff0008000000", "");
}

/// C9.3, C10.9.
#[test]
fn i_breaks_an_edge_rule() {
    let place = count(&i()) - 1;
    expect(&i(), &format!("09ffff00{place:02x}000000"), "");
}

/// C5.1: the two variables are swapped.
#[test]
fn j_is_accepted() {
    expect(&j(), "00ffff0004000000", "");
}

/// C10.3.
#[test]
fn no_bytes() {
    assert_eq!(unnamed(&[]), (3, 0));
}

/// C10.2.
#[test]
fn seven_bytes() {
    assert_eq!(unnamed(&[1; 7]), (2, 0));
}

fn two_ranges(first: i16, second: i16) -> Bytes {
    join(&[
        variable(0, first),
        variable(0, second),
        start(yes()),
        invariance(yes()),
        node(yes()),
    ])
}

/// C10.7, C4.3.
#[test]
fn ranges_0_to_1023_twice_pass() {
    assert_eq!(unnamed(&two_ranges(1023, 1023)), (0, 2));
}

/// C10.7, C4.3.
#[test]
fn ranges_0_to_1023_and_0_to_1024_are_too_many_states() {
    assert_eq!(unnamed(&two_ranges(1023, 1024)), (7, 1));
}

fn multiplying(left: i16, right: i16) -> Bytes {
    let positive = less(constant(0), product(constant(left), constant(right)));
    join(&[
        variable(0, 0),
        start(positive),
        invariance(yes()),
        node(yes()),
    ])
}

/// C3.4.
#[test]
fn a_thousand_times_a_thousand_passes() {
    assert_eq!(unnamed(&multiplying(1000, 1000)), (0, 2));
}

/// C3.4, C10.8.
#[test]
fn a_thousand_times_a_thousand_and_one_is_out() {
    assert_eq!(unnamed(&multiplying(1000, 1001)), (8, 4));
}

/// C13.3, C13.1.
#[test]
fn single_tests_of_a() {
    assert_eq!(single(&a(), 3, 0), Tested::Holds);
    assert_eq!(single(&a(), 3, 1), Tested::Fails);
    assert_eq!(single(&a(), 3, 2), Tested::Holds);
}

/// C14.4, C10.1, C11.1; C12.1, C12.6: the answer has all its parts.
#[test]
fn a_short_buffer_is_left_alone() {
    for length in [0, 1, 8, 31] {
        let mut report = vec![0x77; length];
        let verdict = check(&a(), &mut report);
        assert_eq!(report, vec![0x77; length]);
        assert_eq!((verdict.number, verdict.at), (1, 0));
        assert_eq!((verdict.node, verdict.transition), (255, 255));
        assert_eq!((verdict.values, verdict.tests), ([0; 12], 0));
    }
    // 1 is tried before 2.
    assert_eq!(check(&[1; 7], &mut [0; 31]).number, 1);
}

/// C14.5, C14.6.
#[test]
fn a_longer_buffer_is_kept_beyond_the_report() {
    let mut report = [0x77; 50];
    assert_eq!(check(&a(), &mut report).number, 17);
    assert_eq!(report[..10], [0x11, 0, 0, 0, 3, 0, 0, 0, 1, 0]);
    assert_eq!(report[10..32], [0; 22]);
    assert_eq!(report[32..], [0x77; 18]);
}
