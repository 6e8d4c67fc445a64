//! Refusals of files, at each rule and where several meet.

use super::{answers, refusal, tests, Records, CHECKERS};
use differential::generate::record;
use independent::Tested;

/// A readable chain; its records by number:
/// 0 variable, 1 start, 2 true, 3 transition, 4 true, 5 assignment, 6 variable, 7 transition,
/// 8 true, 9 property, 10 p, 11 q, 12 node, 13 true, 14 node, 15 true, 16 node, 17 true,
/// 18 edge 1 to 0 double, 19 edge 2 to 0 double.
fn chain() -> Records {
    vec![
        record(0x01, 0, 0, 2, 0),
        r(0x02),
        r(0x20),
        record(0x03, 1, 0, 0, 0),
        r(0x20),
        r(0x04),
        r(0x11),
        record(0x03, 1, 0, 0, 0),
        r(0x20),
        record(0x05, 3, 0, 0, 0),
        r(0x20),
        r(0x20),
        r(0x06),
        r(0x20),
        r(0x06),
        r(0x20),
        r(0x06),
        r(0x20),
        edge(0, 1, 0, 1),
        edge(0, 2, 0, 1),
    ]
}

/// A readable wait-for with two phases, no transitions: 0 variable, 1 start, 2 true, 3 property,
/// 4 p, 5 q_0, 6 q_1, 7 node, 8 true, 9 node, 10 true.
fn wait_for() -> Records {
    let mut records = vec![record(0x01, 0, -1, 1, 0), r(0x02), r(0x20)];
    records.push(record(0x05, 2, 2, 0, 0));
    records.extend([r(0x20); 3]);
    records.extend([r(0x06), r(0x20), r(0x06), r(0x20)]);
    records
}

fn r(kind: u8) -> [u8; 8] {
    record(kind, 0, 0, 0, 0)
}

fn edge(transition: u8, from: i16, to: i16, d: u8) -> [u8; 8] {
    record(0x07, transition, from, to, d)
}

fn constant(value: i16) -> [u8; 8] {
    record(0x10, 0, value, 0, 0)
}

/// A file with records in place of some of its own.
fn with(mut records: Records, range: std::ops::Range<usize>, new: &[[u8; 8]]) -> Records {
    records.splice(range, new.iter().copied());
    records
}

/// The chain with other edges than its own.
fn with_edges(edges: &[[u8; 8]]) -> Records {
    with(chain(), 18..20, edges)
}

/// C11.6, C13.2: both find the file readable, the next refusal is that there are not so many
/// conditions.
#[track_caller]
fn readable(records: &Records) {
    let (number, place) = (11, 0);
    let expected = Tested::Refused { number, place };
    tests(&records.concat(), usize::MAX, usize::MAX, expected);
}

/// C13.2: both refuse the file, with this number and place, in the check and in a single test.
#[track_caller]
fn refused(number: u8, place: usize, records: &Records) {
    let file = records.concat();
    let place = place as u32;
    answers(&file, refusal(number, place));
    tests(&file, 0, 0, Tested::Refused { number, place });
}

/// C1.5, C2.2, C2.11, C10.3, C11.2, C11.4.
#[test]
fn kinds() {
    // Files that end early. After any of its nodes a chain may end.
    for end in (0..14).chain([15, 17]) {
        refused(3, end, &with(chain(), end..20, &[]));
    }
    readable(&with(chain(), 14..20, &[]));
    refused(10, 1, &with(chain(), 16..20, &[]));
    for end in 0..11 {
        refused(3, end, &with(wait_for(), end..11, &[]));
    }
    // No variable.
    refused(3, 0, &with(chain(), 0..1, &[]));
    // A variable after the start.
    refused(3, 3, &with(chain(), 3..3, &[chain()[0]]));
    // Two starts.
    refused(3, 3, &with(chain(), 3..3, &[r(0x02), r(0x20)]));
    // A number for a guard.
    refused(3, 4, &with(chain(), 4..5, &[constant(1)]));
    // A truth for a number.
    refused(3, 6, &with(chain(), 6..7, &[r(0x20)]));
    // An assignment without a transition.
    refused(3, 3, &with(chain(), 3..5, &[]));
    // No node.
    refused(3, 12, &with(chain(), 12..18, &[]));
    // An edge where a node must stand.
    refused(3, 9, &with(wait_for(), 9..11, &[edge(0, 1, 0, 0)]));
    // A node after an edge.
    refused(3, 20, &with(chain(), 20..20, &[r(0x06)]));
    // Kind 00.
    refused(3, 20, &with(chain(), 20..20, &[[0; 8]]));
    // Kinds before fields.
    refused(3, 2, &with(chain(), 2..3, &[[0xff; 8]]));
}

/// C1.4, C1.6, C1.8, C1.10, C1.11, C1.14, C1.15, C10.4, C11.5.
#[test]
fn fields() {
    // C1.4: byte 7, and each byte of a record whose fields are all idle.
    for place in 0..20 {
        let mut records = chain();
        records[place][7] = 1;
        refused(4, place, &records);
    }
    for byte in 1..8 {
        let mut records = chain();
        records[2][byte] = 0x80;
        refused(4, 2, &records);
    }
    let property = |a, b| with(chain(), 9..10, &[record(0x05, a, b, 0, 0)]);
    for (a, b) in [
        (0, 0),
        (4, 0),
        (1, 1),
        (3, 2),
        (2, 0),
        (2, -1),
        (2, 33),
        (2, 257),
    ] {
        refused(4, 9, &property(a, b));
    }
    let range = |b, c| with(chain(), 0..1, &[record(0x01, 0, b, c, 0)]);
    // Ranges of none, of one, and with a sign.
    refused(4, 0, &range(1, 0));
    readable(&range(-3, -3));
    readable(&range(-1, 0));
    // Neither just nor not.
    refused(4, 3, &with(chain(), 3..4, &[record(0x03, 2, 0, 0, 0)]));
    // There is no variable 1.
    refused(4, 6, &with(chain(), 6..7, &[record(0x11, 1, 0, 0, 0)]));
    refused(4, 5, &with(chain(), 5..6, &[record(0x04, 1, 0, 0, 0)]));
    for bad in [
        edge(2, 1, 0, 1),
        edge(0, 3, 0, 1),
        edge(0, 1, 3, 1),
        edge(0, -1, 0, 1),
    ] {
        refused(4, 19, &with_edges(&[edge(0, 1, 0, 1), bad]));
    }
    // Neither single nor double.
    refused(4, 18, &with_edges(&[edge(0, 1, 0, 2)]));
    // An edge without transitions.
    let no_transition = with(wait_for(), 11..11, &[edge(0, 1, 0, 0)]);
    refused(4, 11, &no_transition);
}

/// C1.13, C10.5, C11.2, C11.3.
#[test]
fn limits() {
    let one = record(0x01, 0, 5, 5, 0);
    let variables = |count: usize| with(chain(), 0..1, &vec![one; count]);
    readable(&variables(12));
    refused(5, 12, &variables(13));
    // Fields before limits.
    let bad = with(variables(13), 12..13, &[record(0x01, 0, 1, 0, 0)]);
    refused(4, 12, &bad);

    let transitions = |count: usize| {
        let more = [record(0x03, 0, 0, 0, 0), r(0x20)].repeat(count - 2);
        with(chain(), 9..9, &more)
    };
    readable(&transitions(32));
    refused(5, 9 + 60, &transitions(33));

    // Invariance, so that the nodes need no double edges.
    let nodes = |count: usize| {
        let parts = [record(0x05, 1, 0, 0, 0), r(0x20)];
        let nodes = [r(0x06), r(0x20)].repeat(count);
        with(chain(), 9..20, &[&parts[..], &nodes].concat())
    };
    readable(&nodes(32));
    refused(5, 11 + 64, &nodes(33));
    // As many nodes as phases.
    refused(5, 11, &with(wait_for(), 11..11, &[r(0x06), r(0x20)]));
    let phases = |count: usize| {
        let mut records = with(wait_for(), 3..11, &[record(0x05, 2, count as i16, 0, 0)]);
        records.extend(vec![r(0x20); count + 1]);
        records.extend([r(0x06), r(0x20)].repeat(count));
        records
    };
    readable(&phases(1));
    readable(&phases(32));
    let more = with(phases(32), 101..101, &[r(0x06), r(0x20)]);
    refused(5, 3 + 1 + 33 + 64, &more);

    let edges = |count: i16| {
        let edges: Records = (0..count)
            .map(|edge| record(0x07, (edge % 2) as u8, edge / 64, edge / 2 % 32, 0))
            .collect();
        [nodes(32), edges].concat()
    };
    readable(&edges(512));
    refused(5, 75 + 512, &edges(513));
    // Limits before repeats.
    let repeated = [edges(512), vec![edge(0, 0, 0, 0)]].concat();
    refused(5, 75 + 512, &repeated);
    // Fields before both.
    let bad = [edges(512), vec![edge(0, 0, 0, 2)]].concat();
    refused(4, 75 + 512, &bad);
}

/// C2.12, C10.5, C11.3.
#[test]
fn levels() {
    // The start is record 1, so level n of these is at record 1 + n.
    let nots = |count: usize, last: &[[u8; 8]]| {
        let start = [&vec![r(0x22); count][..], last].concat();
        with(chain(), 2..3, &start)
    };
    // 16 levels.
    readable(&nots(15, &[r(0x21)]));
    // 17 levels.
    refused(5, 18, &nots(16, &[r(0x20)]));
    // Sorts and fields before levels.
    refused(3, 18, &nots(16, &[constant(0)]));
    refused(4, 18, &nots(16, &[record(0x20, 1, 0, 0, 0)]));
    // Level 17 missing.
    let mut end = nots(16, &[]);
    end.truncate(18);
    refused(3, 18, &end);
    let wide = [r(0x23), r(0x20), r(0x20)];
    // 16 levels, two operands.
    readable(&nots(14, &wide));
    // 17 levels, two operands.
    refused(5, 18, &nots(15, &wide));
    // Very many levels.
    refused(5, 18, &nots(4000, &[r(0x20)]));
    // 17 levels of both sorts.
    let mixed: Records = [r(0x29), r(0x15)].repeat(8);
    let mut open = vec![constant(0); 8];
    open.insert(0, r(0x20));
    refused(5, 18, &nots(0, &[mixed, open].concat()));
}

/// C1.17, C10.6, C11.2.
#[test]
fn repeats() {
    // Assigned again.
    let again = with(chain(), 7..7, &[r(0x04), r(0x11)]);
    refused(6, 7, &again);
    // Assigned by two transitions.
    let two = with(chain(), 9..9, &[r(0x04), r(0x11)]);
    readable(&two);
    // The same edge, whatever d is.
    refused(6, 19, &with_edges(&[edge(0, 1, 0, 1), edge(0, 1, 0, 1)]));
    refused(6, 19, &with_edges(&[edge(0, 1, 0, 1), edge(0, 1, 0, 0)]));
    // Fields before repeats.
    refused(4, 19, &with_edges(&[edge(0, 1, 0, 1), edge(0, 1, 0, 3)]));
    // The first record counts.
    let later = with(again, 22..22, &[edge(9, 0, 0, 0)]);
    refused(6, 7, &later);
}

/// C3.1, C3.3, C3.4, C3.5, C4.3, C10.7, C10.8.
#[test]
fn intervals() {
    let ranges = |ranges: &[(i16, i16)]| {
        let ranges: Records = ranges
            .iter()
            .map(|&(b, c)| record(0x01, 0, b, c, 0))
            .collect();
        with(chain(), 0..1, &ranges)
    };
    let widest = (i16::MIN, i16::MAX);
    // The widest range.
    readable(&ranges(&[widest]));
    // 1,048,576 states.
    readable(&ranges(&[widest, (1, 16)]));
    readable(&ranges(&[(0, 16), (0, 30_000), (0, 0)]));
    // 1,048,577 states.
    refused(7, 1, &ranges(&[(0, 16), (-30_000, 31_680), (0, 0)]));
    refused(7, 3, &ranges(&[(0, 1), widest, (0, 7), (0, 1)]));

    // The start compares this with itself, so that the number's first record is record 3.
    let start = |number: &[[u8; 8]]| {
        let start = [&[r(0x27)], number, number].concat();
        with(chain(), 2..3, &start)
    };
    let million = [r(0x14), constant(-1000), constant(1000)];
    let sum = |value| [&[r(0x12)], &million[..], &[constant(value)]].concat();
    // -1,000,000.
    readable(&start(&sum(0)));
    // -1,000,001.
    refused(8, 3, &start(&sum(-1)));
    // Variable 0, in 0..2, less -1,000,000.
    let two = [&[r(0x13), r(0x11)], &million[..]].concat();
    refused(8, 3, &start(&two));
    // Left before right.
    let both = [
        &[r(0x13), r(0x12)],
        &million[..],
        &[constant(-1), r(0x14), constant(1001), constant(1000)],
    ];
    refused(8, 4, &start(&both.concat()));
    // Under an indicator.
    let under = [
        &[r(0x15), r(0x27), r(0x14)],
        &[constant(1001); 2][..],
        &[r(0x11)],
    ];
    refused(8, 5, &start(&under.concat()));
    // -2..1 times -3..2 is -4..6; six times 166,000 and 167,000.
    let mut signs = ranges(&[(-2, 1), (-3, 2)]);
    let factor = |value| [r(0x14), constant(value), constant(2), r(0x14), r(0x11)];
    let number = |value| {
        let other = record(0x11, 1, 0, 0, 0);
        [
            &[r(0x27), r(0x14), r(0x14)],
            &factor(value)[..],
            &[other, constant(500), constant(0)],
        ]
        .concat()
    };
    signs = with(signs, 3..4, &number(166));
    readable(&signs);
    signs = with(signs, 3..14, &number(167));
    refused(8, 4, &signs);
}

/// The chain with a start that compares a quotient (18) or remainder (19) of variable 0 with 0.
/// 2 is the comparison, 3 the quotient, 4 the variable, 5 the divisor's first record.
fn divided(kind: u8, divisor: &[[u8; 8]]) -> Records {
    let start = [&[r(0x27), r(kind), r(0x11)], divisor, &[constant(0)]].concat();
    with(chain(), 2..3, &start)
}

/// C2.14, C2.15, C10.19.
#[test]
fn divisors() {
    for kind in [0x18, 0x19] {
        for value in [1, 2, 256, 32_767] {
            readable(&divided(kind, &[constant(value)]));
        }
        for value in [0, -1, -256, -32_768] {
            refused(19, 5, &divided(kind, &[constant(value)]));
        }
        refused(19, 5, &divided(kind, &[r(0x11)]));
        refused(19, 5, &divided(kind, &[r(0x15), r(0x20)]));
        for arithmetic in [0x12, 0x13, 0x14, 0x18, 0x19] {
            let divisor = [r(arithmetic), constant(4), constant(2)];
            refused(19, 5, &divided(kind, &divisor));
        }
        // A variable of one value is no constant.
        let one = with(divided(kind, &[r(0x11)]), 0..1, &[record(0x01, 0, 2, 2, 0)]);
        refused(19, 5, &one);
        // The left operand may be all of these.
        let left = |left: &[[u8; 8]]| {
            // Compared with the greatest constant: at most that.
            let right = [constant(1), constant(32_767)];
            let start = [&[r(0x29), r(kind)], left, &right].concat();
            with(chain(), 2..3, &start)
        };
        readable(&left(&[constant(0)]));
        readable(&left(&[constant(-32_768)]));
        readable(&left(&[r(0x15), r(0x20)]));
        readable(&left(&[r(kind), r(0x11), constant(3)]));
        // In an assigned value, in a node.
        let quotient = [r(kind), r(0x11), constant(0)];
        refused(19, 8, &with(chain(), 6..7, &quotient));
        let node = [&[r(0x28)], &quotient[..], &[constant(0)]].concat();
        refused(19, 16, &with(chain(), 13..14, &node));
    }
}

/// C10.3, C10.4, C11.2: what is tried at a divisor before it is refused with 19, what isn't.
#[test]
fn at_a_divisor() {
    for kind in [0x18, 0x19] {
        // Kinds: truths, no numbers, sections; the file's end.
        for other in [
            0x20, 0x22, 0x27, 0x16, 0x17, 0x1a, 0x1f, 0x00, 0x04, 0x06, 0xff,
        ] {
            refused(3, 5, &divided(kind, &[r(other)]));
        }
        let mut end = divided(kind, &[]);
        end.truncate(5);
        refused(3, 5, &end);
        // Fields, of a divisor and of what is none.
        for value in [1, 0, -1] {
            for byte in [1, 4, 5, 6, 7] {
                let mut bad = constant(value);
                bad[byte] = 1;
                refused(4, 5, &divided(kind, &[bad]));
            }
        }
        refused(4, 5, &divided(kind, &[record(0x11, 1, 0, 0, 0)]));
        refused(4, 5, &divided(kind, &[record(0x11, 0, 1, 0, 0)]));
        let sum = [record(0x12, 0, 0, 0, 1), constant(1), constant(1)];
        refused(4, 5, &divided(kind, &sum));
        // Its operands aren't read: the file's end, no kind, a field.
        for other in [0x12, 0x15, 0x18, 0x19] {
            let mut end = divided(kind, &[r(other)]);
            end.truncate(6);
            refused(19, 5, &end);
            refused(19, 5, &divided(kind, &[r(other), r(0xff)]));
            refused(
                19,
                5,
                &divided(kind, &[r(other), [0x10, 0, 0, 0, 0, 0, 0, 9]]),
            );
        }
        // Fields of the quotient's own record.
        for byte in 1..8 {
            let mut records = divided(kind, &[constant(0)]);
            records[3][byte] = 0x80;
            refused(4, 3, &records);
        }
        // The left operand first.
        let over = |left| with(divided(kind, &[constant(0)]), 4..5, &[left]);
        refused(3, 4, &over(r(0x20)));
        refused(4, 4, &over(record(0x11, 1, 0, 0, 0)));
    }
    // Beside the two kinds there is none.
    for kind in [0x16, 0x17, 0x1a, 0x1b, 0x1c, 0x1d, 0x1e, 0x1f] {
        refused(3, 3, &divided(kind, &[constant(1)]));
    }
    // A quotient is no truth.
    for kind in [0x18, 0x19] {
        refused(3, 2, &with(chain(), 2..3, &[r(kind), r(0x11), constant(1)]));
    }
}

/// C11.1, C11.2, C2.12: 19 with 5, 6, 7, 8, 9 and 10.
#[test]
fn divisors_and_others() {
    for kind in [0x18, 0x19] {
        let deep = |nots: usize, value| {
            let nots = vec![r(0x22); nots];
            with(divided(kind, &[constant(value)]), 2..2, &nots)
        };
        // Both operands at level 16, at level 17.
        readable(&deep(13, 2));
        refused(19, 18, &deep(13, 0));
        refused(5, 18, &deep(14, 2));
        refused(5, 18, &deep(14, 0));
        // Level 17 at a later record: the first node's, which is record 17, its truth 18.
        let bad = divided(kind, &[constant(0)]);
        let later = [vec![r(0x22); 16], vec![r(0x20)]].concat();
        refused(19, 5, &with(bad.clone(), 18..19, &later));

        // Assigned again behind it, and before it.
        let quotient = [r(kind), r(0x11), constant(0)];
        let again = [&quotient[..], &[r(0x04), r(0x11)]].concat();
        refused(19, 8, &with(chain(), 6..7, &again));
        let before = [&[r(0x11), r(0x04)], &quotient[..]].concat();
        refused(6, 7, &with(chain(), 6..7, &before));

        // Too many states; an interval out of bounds before it; an edge that breaks a rule, and a
        // node without a double edge.
        let states = [record(0x01, 0, 0, 2000, 0); 2];
        refused(19, 6, &with(bad.clone(), 0..1, &states));
        let mut good = bad.clone();
        good[5] = constant(1);
        refused(7, 1, &with(good.clone(), 0..1, &states));
        let out = [
            r(0x23),
            r(0x28),
            r(0x14),
            constant(1001),
            constant(1000),
            r(0x11),
        ];
        refused(19, 11, &with(bad.clone(), 2..2, &out));
        refused(8, 4, &with(good.clone(), 2..2, &out));
        let edges = bad.len() - 2;
        let up = [edge(0, 1, 2, 1)];
        refused(19, 5, &with(bad.clone(), edges..edges + 1, &up));
        refused(9, edges, &with(good.clone(), edges..edges + 1, &up));
        refused(19, 5, &with(bad, edges..edges + 1, &[]));
        refused(10, 1, &with(good, edges..edges + 1, &[]));
    }
}

/// C3.4, C3.5, C3.7, C10.8.
#[test]
fn intervals_of_quotients_and_remainders() {
    let start = |range: (i16, i16), number: &[[u8; 8]]| {
        let start = [&[r(0x27)], number, number].concat();
        let records = with(chain(), 2..3, &start);
        with(records, 0..1, &[record(0x01, 0, range.0, range.1, 0)])
    };
    let million = |sign: i16| [r(0x14), constant(1000 * sign), constant(1000)];
    for (range, kind, divisor, low, high) in [
        // Towards zero the low end would be -3; rounded up the high end would be 5.
        ((-7, 9), 0x18, 2, -4, 4),
        ((-8, 8), 0x18, 2, -4, 4),
        ((-1, 1), 0x18, 2, -1, 0),
        ((-9, -7), 0x18, 2, -5, -4),
        ((-5, 3), 0x18, 1, -5, 3),
        ((-1, 0), 0x18, 32_767, -1, 0),
        // Whatever the range.
        ((-7, 9), 0x19, 5, 0, 4),
        ((0, 1), 0x19, 5, 0, 4),
        ((-3, -3), 0x19, 5, 0, 4),
        ((-3, 3), 0x19, 1, 0, 0),
        ((0, 0), 0x19, 32_767, 0, 32_766),
    ] {
        let number = [r(kind), r(0x11), constant(divisor)];
        for (end, sign) in [(low, -1), (high, 1)] {
            // The end is moved to 0, then by a million: to the bound. One more is past it.
            let moved = |more: i16| {
                let inner = [&[r(0x12)], &number[..], &[constant(more - end)]].concat();
                start(range, &[&[r(0x12)], &inner[..], &million(sign)].concat())
            };
            readable(&moved(0));
            refused(8, 3, &moved(sign));
        }
    }
    // A thousand times 0..1000, which 0..1001 would exceed; a thousand times -1000..0, of -1999..0
    // and -2000..0 by 2, but not of -2001..0.
    let thousand = |kind, divisor| [r(0x14), r(kind), r(0x11), constant(divisor), constant(1000)];
    readable(&start((0, 9), &thousand(0x19, 1001)));
    refused(8, 3, &start((0, 9), &thousand(0x19, 1002)));
    readable(&start((-1999, 0), &thousand(0x18, 2)));
    readable(&start((-2000, 0), &thousand(0x18, 2)));
    refused(8, 3, &start((-2001, 0), &thousand(0x18, 2)));
    // The left operand is judged, and before what stands behind it.
    for kind in [0x18, 0x19] {
        let out = [r(0x14), constant(1001), constant(1000)];
        let divided = [&[r(kind)], &out[..], &[constant(32_767)]].concat();
        refused(8, 4, &start((0, 1), &divided));
        let both = [&[r(0x12)], &divided[..], &out[..]].concat();
        refused(8, 5, &start((0, 1), &both));
        let quotient = [r(kind), r(0x11), constant(2)];
        let right = [&[r(0x12)], &quotient[..], &out[..]].concat();
        refused(8, 7, &start((0, 1), &right));
        // As far as the bounds.
        for sign in [-1, 1] {
            let at = [&[r(kind)], &million(sign)[..], &[constant(1)]].concat();
            readable(&start((0, 1), &at));
        }
    }
}

/// C9.1, C9.2, C9.3, C9.4, C9.5, C9.6, C9.7, C9.8, C9.9, C10.9, C10.10.
#[test]
fn edge_rules() {
    let own = [edge(0, 1, 0, 1), edge(0, 2, 0, 1)];
    let more = |edge| with_edges(&[own[0], own[1], edge]);
    // Two double edges.
    readable(&more(edge(0, 2, 1, 1)));
    // Single to its own node.
    readable(&more(edge(1, 1, 1, 0)));
    // Single down.
    readable(&more(edge(1, 2, 1, 0)));
    // Single up.
    refused(9, 20, &more(edge(1, 1, 2, 0)));
    // Single from the goal.
    refused(9, 20, &more(edge(1, 0, 0, 0)));
    // Double to its own node.
    refused(9, 20, &more(edge(0, 2, 2, 1)));
    // Double up.
    refused(9, 20, &more(edge(0, 1, 2, 1)));
    // Another double transition.
    refused(9, 20, &more(edge(1, 2, 1, 1)));
    // Also single.
    refused(9, 20, &more(edge(0, 2, 1, 0)));
    // First single.
    refused(9, 20, &with_edges(&[edge(0, 2, 1, 0), own[0], own[1]]));
    // Each node its own double transition.
    let other = with_edges(&[own[0], edge(1, 2, 0, 1)]);
    readable(&other);
    let not_just = |place| with(other.clone(), place..place + 1, &[r(0x03)]);
    // Transition 0 not just.
    refused(9, 18, &not_just(3));
    // Transition 1 not just.
    refused(9, 19, &not_just(7));

    // No double edge.
    refused(10, 2, &with_edges(&own[..1]));
    // No double edges.
    refused(10, 1, &with_edges(&[]));
    // Single only.
    refused(10, 1, &with_edges(&[edge(0, 1, 0, 0), own[1]]));
    // 9 before 10.
    refused(9, 19, &with_edges(&[own[0], edge(0, 2, 2, 1)]));

    let property = |a| with(chain(), 9..11, &[record(0x05, a, 0, 0, 0)]);
    // Double in an invariance.
    refused(9, 17, &property(1));
    // Any single in an invariance.
    let single = [edge(0, 0, 2, 0), edge(1, 1, 1, 0)];
    readable(&with(property(1), 17..19, &single));
    let phased = |edges: &[[u8; 8]]| {
        let mut records = with_edges(edges);
        records.splice(9..10, [record(0x05, 2, 3, 0, 0), r(0x20), r(0x20)]);
        records
    };
    readable(&phased(&[edge(0, 1, 1, 0), edge(0, 2, 0, 0)]));
    // Double in a wait-for.
    refused(9, 20, &phased(&[edge(0, 1, 0, 1)]));
    // Up in a wait-for.
    refused(9, 21, &phased(&[edge(0, 1, 0, 0), edge(0, 1, 2, 0)]));
    // From the goal in a wait-for.
    refused(9, 20, &phased(&[edge(0, 0, 0, 0)]));
}

/// C11.1.
#[test]
fn order() {
    let states = [record(0x01, 0, 0, 2000, 0); 2];
    let product = [r(0x27), r(0x14), r(0x11), r(0x11), constant(0)];
    let mut records = with_edges(&[edge(0, 2, 2, 1)]);
    // 9 before 10.
    refused(9, 18, &records);
    records = with(records, 2..3, &product);
    // An interval of 0..4 changes nothing.
    refused(9, 22, &records);
    records = with(records, 0..1, &states[..1]);
    // 8 before 9.
    refused(8, 3, &records);
    records = with(records, 0..1, &states);
    // 7 before 8.
    refused(7, 1, &records);
    records.push(edge(0, 2, 2, 0));
    // 6 before 7.
    refused(6, 24, &records);
}

/// C10.20: starts over two variables, in 0..3 and -2..2; one state is enough.
#[test]
fn starts() {
    let (v, w) = (r(0x11), record(0x11, 1, 0, 0, 0));
    let with_start = |start: &[[u8; 8]]| {
        let ranges = [record(0x01, 0, 0, 3, 0), record(0x01, 0, -2, 2, 0)];
        with(with(chain(), 2..3, start), 0..1, &ranges)
    };
    let here = |v_is, w_is| {
        let parts = [r(0x23), r(0x27), v, constant(v_is), r(0x27), w];
        with_start(&[&parts[..], &[constant(w_is)]].concat())
    };
    for v_is in -1..=4 {
        for w_is in -3..=3 {
            match ((0..=3).contains(&v_is), (-2..=2).contains(&w_is)) {
                (true, true) => readable(&here(v_is, w_is)),
                _ => refused(20, 0, &here(v_is, w_is)),
            }
        }
    }
    for literal in [0x20, 0x21] {
        let negated = with_start(&[r(0x22), r(literal)]);
        match literal {
            0x21 => readable(&negated),
            _ => refused(20, 0, &negated),
        }
    }
    // v less than w: true somewhere; and w less than v besides: nowhere.
    let (less, greater) = ([r(0x28), v, w], [r(0x28), w, v]);
    readable(&with_start(&less));
    readable(&with_start(&greater));
    let either = |kind| [&[r(kind)], &less[..], &greater].concat();
    readable(&with_start(&either(0x24)));
    refused(20, 0, &with_start(&either(0x23)));
    // 2 × v equal to 2 × w plus 2, and plus 1, which is odd.
    let twice = |number| [r(0x14), constant(2), number];
    let sum = |more| {
        let sum = [&[r(0x12)], &twice(w)[..], &[constant(more)]].concat();
        with_start(&[&[r(0x27)], &twice(v)[..], &sum].concat())
    };
    readable(&sum(2));
    refused(20, 0, &sum(1));
    // w by 2 leaves 0 and 1; it is -1, 0 and 1.
    let by_2 = |kind, value| with_start(&[r(0x27), r(kind), w, constant(2), constant(value)]);
    for (kind, values) in [(0x19, 0..=1), (0x18, -1..=1)] {
        for value in -2..=2 {
            match values.contains(&value) {
                true => readable(&by_2(kind, value)),
                false => refused(20, 0, &by_2(kind, value)),
            }
        }
    }
}

/// C11.1: 20 with 2 to 10 and 19.
#[test]
fn starts_and_others() {
    let bad = with(chain(), 2..3, &[r(0x21)]);
    refused(20, 0, &bad);
    // An unfit record at the end, a field, level 17, an edge again, a divisor.
    refused(3, 20, &with(bad.clone(), 20..20, &[r(0x06)]));
    refused(4, 19, &with(bad.clone(), 19..20, &[edge(0, 2, 0, 2)]));
    let deep = [vec![r(0x22); 16], vec![r(0x20)]].concat();
    refused(5, 33, &with(bad.clone(), 17..18, &deep));
    refused(6, 20, &with(bad.clone(), 20..20, &[edge(0, 2, 0, 1)]));
    let by_0 = [r(0x28), r(0x18), r(0x11), constant(0), constant(1)];
    refused(19, 20, &with(bad.clone(), 17..18, &by_0));
    // Too many states; an interval, in a node; an edge from the goal; no double edge.
    let states = [record(0x01, 0, 0, 2000, 0); 2];
    refused(7, 1, &with(bad.clone(), 0..1, &states));
    let out = [r(0x28), r(0x14), constant(1001), constant(1000), r(0x11)];
    refused(8, 18, &with(bad.clone(), 17..18, &out));
    refused(9, 20, &with(bad.clone(), 20..20, &[edge(1, 0, 0, 0)]));
    refused(10, 2, &with(bad.clone(), 19..20, &[]));
    // One byte more.
    let file = [bad.concat(), vec![0]].concat();
    answers(&file, refusal(2, 0));
    // A wait-for, an invariance.
    refused(20, 0, &with(wait_for(), 2..3, &[r(0x21)]));
    let invariance = with(wait_for(), 3..7, &[record(0x05, 1, 0, 0, 0), r(0x20)]);
    readable(&invariance);
    refused(20, 0, &with(invariance, 2..3, &[r(0x21)]));
}

/// C10.2.
#[test]
fn length() {
    for (name, file, number) in [
        ("4,096 records of kind 00", vec![0; 32_768], 3),
        ("one more", vec![0; 32_776], 2),
        ("one byte more", vec![0; 32_769], 2),
        ("one byte less", chain().concat()[1..].to_vec(), 2),
    ] {
        for (checker, check, _) in CHECKERS {
            let verdict = check(&file, &mut [0; 32]);
            assert_eq!(verdict, refusal(number, 0), "{name}, {checker}");
        }
    }
}
