//! Values of expressions, and numbers of states, counted by hand.

use super::CHECKERS;
use differential::generate::record;
use independent::Tested;

/// The expression's records: kind, a, b.
type Expression<'a> = &'a [(u8, u8, i16)];

/// A file with these ranges and this start, whose node is false: a single test of condition 0
/// fails at the starting states.
fn file(ranges: &[(i16, i16)], start: Expression) -> Vec<u8> {
    let mut records: Vec<[u8; 8]> = ranges
        .iter()
        .map(|&(low, high)| record(0x01, 0, low, high, 0))
        .collect();
    records.push(record(0x02, 0, 0, 0, 0));
    records.extend(start.iter().map(|&(kind, a, b)| record(kind, a, b, 0, 0)));
    for (kind, a, truth) in [(0x05, 1, 0x20), (0x06, 0, 0x21)] {
        records.extend([record(kind, a, 0, 0, 0), record(truth, 0, 0, 0, 0)]);
    }
    records.concat()
}

/// C4.3, C10.12: both count so many states; C6.3, C8.7: and so many starting states. C10.20: where
/// there are none, every single test is refused.
#[track_caller]
fn counts(file: &[u8], states: usize, starting: usize) {
    for (name, _, single) in CHECKERS {
        let fails = |state: &usize| single(file, 0, *state) == Tested::Fails;
        assert_eq!((0..states).filter(fails).count(), starting, "{name}");
        let refused = |number| Tested::Refused { number, place: 0 };
        let beyond = if starting == 0 { 20 } else { 12 };
        assert_eq!(single(file, 0, states), refused(beyond), "{name}");
        let last = single(file, 0, states - 1);
        assert_ne!(last, refused(12), "{name}");
        assert_eq!(last == refused(20), starting == 0, "{name}");
    }
}

/// C2.7, C4.3.
#[test]
fn literals() {
    counts(&file(&[(5, 5)], &[(0x20, 0, 0)]), 1, 1);
    counts(&file(&[(0, 9); 2], &[(0x20, 0, 0)]), 100, 100);
    counts(&file(&[(0, 9); 2], &[(0x21, 0, 0)]), 100, 0);
}

/// C1.3, C2.3, C2.4, C2.5, C2.10.
#[test]
fn negative_ranges() {
    // v less than -1, of -3..-1: -3 and -2.
    let less = [(0x28, 0, 0), (0x11, 0, 0), (0x10, 0, -1)];
    counts(&file(&[(-3, -1)], &less), 3, 2);
    // v + w at most -1, of -2..1 and -1..2: 3 + 2 + 1 + 0 of 4 each.
    let at_most = [
        (0x29, 0, 0),
        (0x12, 0, 0),
        (0x11, 0, 0),
        (0x11, 1, 0),
        (0x10, 0, -1),
    ];
    counts(&file(&[(-2, 1), (-1, 2)], &at_most), 16, 6);
    // v equal to -32,768, the lowest of a whole range.
    let equal = [(0x27, 0, 0), (0x11, 0, 0), (0x10, 0, i16::MIN)];
    counts(&file(&[(i16::MIN, i16::MAX)], &equal), 65_536, 1);
}

/// C2.1, C2.5.
#[test]
fn differences() {
    // v - w equal to 1, of 0..3 each: 1 and 0, 2 and 1, 3 and 2.
    let equal = [
        (0x27, 0, 0),
        (0x13, 0, 0),
        (0x11, 0, 0),
        (0x11, 1, 0),
        (0x10, 0, 1),
    ];
    counts(&file(&[(0, 3); 2], &equal), 16, 3);
    // v - (w - 1) equal to 1 is v = w; (v - w) - 1 equal to 1 is v = w + 2.
    let right = [
        (0x27, 0, 0),
        (0x13, 0, 0),
        (0x11, 0, 0),
        (0x13, 0, 0),
        (0x11, 1, 0),
        (0x10, 0, 1),
        (0x10, 0, 1),
    ];
    counts(&file(&[(0, 3); 2], &right), 16, 4);
    let left = [
        (0x27, 0, 0),
        (0x13, 0, 0),
        (0x13, 0, 0),
        (0x11, 0, 0),
        (0x11, 1, 0),
        (0x10, 0, 1),
        (0x10, 0, 1),
    ];
    counts(&file(&[(0, 3); 2], &left), 16, 2);
}

/// C2.5, C2.6.
#[test]
fn indicator_in_product() {
    // v times the indicator of w less than v, less than 2; v in 0..3, w in -1..1. The indicator is 1
    // where v is 0 and w is -1, v is 1 and w is -1 or 0, v is 2 or 3. So the product is 2 or 3
    // where v is: all three with v = 0, all three with v = 1.
    let start = [
        (0x28, 0, 0),
        (0x14, 0, 0),
        (0x11, 0, 0),
        (0x15, 0, 0),
        (0x28, 0, 0),
        (0x11, 1, 0),
        (0x11, 0, 0),
        (0x10, 0, 2),
    ];
    counts(&file(&[(0, 3), (-1, 1)], &start), 12, 6);
    // The same product equal to 0: three with v = 0, and v = 1 with w = 1.
    let mut start = start;
    start[0].0 = 0x27;
    start[7].2 = 0;
    counts(&file(&[(0, 3), (-1, 1)], &start), 12, 4);
}

/// C2.8, C2.9; C2.1: left before right.
#[test]
fn connectives() {
    // v = 0 and w = 0, of 0..1 each, joined: where true, of the states 00, 01, 10, 11.
    for (kind, starting) in [(0x23, 1), (0x24, 3), (0x25, 3), (0x26, 2)] {
        let start = [
            (kind, 0, 0),
            (0x27, 0, 0),
            (0x11, 0, 0),
            (0x10, 0, 0),
            (0x27, 0, 0),
            (0x11, 1, 0),
            (0x10, 0, 0),
        ];
        counts(&file(&[(0, 1); 2], &start), 4, starting);
        let mut negated = vec![(0x22, 0, 0)];
        negated.extend(start);
        counts(&file(&[(0, 1); 2], &negated), 4, 4 - starting);
    }
    // Implies is not symmetric: v at most 0 implies w at most 1, of 0..1 and 0..2: not where v is 0
    // and w is 2. The other way round: not where w is at most 1 and v is 1.
    let at_most = |a, b| [(0x29, 0, 0), (0x11, a, 0), (0x10, 0, b)];
    for ([first, second], starting) in [
        ([at_most(0, 0), at_most(1, 1)], 5),
        ([at_most(1, 1), at_most(0, 0)], 4),
    ] {
        let mut start = vec![(0x25, 0, 0)];
        start.extend(first);
        start.extend(second);
        counts(&file(&[(0, 1), (0, 2)], &start), 6, starting);
    }
}

/// Compares variable 0 by a divisor, its quotient (18) or its remainder (19), with a value.
fn divided(kind: u8, divisor: i16, value: i16) -> [(u8, u8, i16); 5] {
    [
        (0x27, 0, 0),
        (kind, 0, 0),
        (0x11, 0, 0),
        (0x10, 0, divisor),
        (0x10, 0, value),
    ]
}

/// C2.14: rounded down, also below 0.
#[test]
fn quotients() {
    for (divisor, quotient, starting) in [
        // -8 and -7; 0 and 1, not -1; -2 and -1.
        (2, -4, 2),
        (2, 0, 2),
        (2, -1, 2),
        // -9 and 9 have their quotients for themselves.
        (2, -5, 1),
        (2, 4, 2),
        (3, 3, 1),
        (3, -3, 3),
        (5, -1, 5),
        (5, -2, 4),
        (1, -7, 1),
        (32_767, -1, 9),
        (32_767, 0, 10),
        (32_767, 1, 0),
    ] {
        let start = divided(0x18, divisor, quotient);
        counts(&file(&[(-9, 9)], &start), 19, starting);
    }
}

/// C2.14: from 0 up, also below 0.
#[test]
fn remainders() {
    for (divisor, remainder, starting) in [
        // The odd ones, from -9 to 9.
        (2, 1, 10),
        (2, 0, 9),
        (2, -1, 0),
        // -6, -1, 4, 9; -5, 0, 5.
        (5, 4, 4),
        (5, 0, 3),
        (5, 5, 0),
        (5, -1, 0),
        (1, 0, 19),
        // -9 alone.
        (32_767, 32_758, 1),
        (32_767, 0, 1),
        (32_767, 9, 1),
    ] {
        let start = divided(0x19, divisor, remainder);
        counts(&file(&[(-9, 9)], &start), 19, starting);
    }
}

/// C2.14: v = q × d + r in every state.
#[test]
fn quotients_with_remainders() {
    for divisor in [1, 2, 3, 7, 10, 32_767] {
        let by = |kind| [(kind, 0, 0), (0x11, 0, 0), (0x10, 0, divisor)];
        let mut start = vec![(0x27, 0, 0), (0x11, 0, 0), (0x12, 0, 0), (0x14, 0, 0)];
        start.extend(by(0x18));
        start.push((0x10, 0, divisor));
        start.extend(by(0x19));
        counts(&file(&[(-20, 20)], &start), 41, 41);
    }
}

/// C2.14, C2.15, C2.6: in each other, and under an indicator.
#[test]
fn nested_quotients() {
    let start = |outer: (u8, i16), inner: (u8, i16), value| {
        [
            (0x27, 0, 0),
            (outer.0, 0, 0),
            (inner.0, 0, 0),
            (0x11, 0, 0),
            (0x10, 0, inner.1),
            (0x10, 0, outer.1),
            (0x10, 0, value),
        ]
    };
    // v by 2 leaves 2 by 3 where it is -4, -1 or 2: -8, -7, -2, -1, 4, 5.
    let of_quotient = start((0x19, 3), (0x18, 2), 2);
    counts(&file(&[(-9, 9)], &of_quotient), 19, 6);
    // v leaves 2 or 3 by 5: -8, -7, -3, -2, 2, 3, 7, 8.
    let of_remainder = start((0x18, 2), (0x19, 5), 1);
    counts(&file(&[(-9, 9)], &of_remainder), 19, 8);
    // By 2 and by 2 again, -2: -8 to -5. By 6 and by 4, 1: v leaves 1 or 5.
    counts(&file(&[(-9, 9)], &start((0x18, 2), (0x18, 2), -2)), 19, 4);
    counts(&file(&[(-9, 9)], &start((0x19, 4), (0x19, 6), 1)), 19, 6);
    // The indicator of a quotient less than 0, equal to 1: -9 to -1.
    let under = [
        (0x27, 0, 0),
        (0x15, 0, 0),
        (0x28, 0, 0),
        (0x18, 0, 0),
        (0x11, 0, 0),
        (0x10, 0, 3),
        (0x10, 0, 0),
        (0x10, 0, 1),
    ];
    counts(&file(&[(-9, 9)], &under), 19, 9);
}

/// C2.14: of numbers as far as the bounds, 1000 times v in -1000..1000.
#[test]
fn quotients_at_the_bounds() {
    // By 7: 1,000,000 is 142,857 and 1; -1,000,000 is -142,858 and 6. By 32,767: 30 and 16,990, -31
    // and 15,777; no two of the numbers leave the same.
    for (kind, divisor, thousands, rest, starting) in [
        (0x18, 7, 142, 857, 1),
        (0x18, 7, -142, -858, 1),
        (0x18, 7, -142, -857, 0),
        (0x18, 1, 1000, 0, 1),
        (0x18, 1, -1000, 0, 1),
        (0x18, 32_767, 0, -31, 17),
        (0x18, 32_767, 0, 30, 17),
        (0x19, 32_767, 16, 990, 1),
        (0x19, 32_767, 15, 777, 1),
        (0x19, 1000, 0, 0, 2001),
    ] {
        let start = [
            (0x27, 0, 0),
            (kind, 0, 0),
            (0x14, 0, 0),
            (0x11, 0, 0),
            (0x10, 0, 1000),
            (0x10, 0, divisor),
            (0x12, 0, 0),
            (0x14, 0, 0),
            (0x10, 0, thousands),
            (0x10, 0, 1000),
            (0x10, 0, rest),
        ];
        counts(&file(&[(-1000, 1000)], &start), 2001, starting);
    }
}
