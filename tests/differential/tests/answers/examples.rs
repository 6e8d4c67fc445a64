//! The small files A to J, and some at a limit.

use super::Records;
use differential::generate::record;

/// The file of that name.
pub fn example(name: &str) -> Vec<u8> {
    match name {
        "A" => a(),
        "B" => b(),
        "C" => c(),
        "D" => chain(1, &[(2, 1, 1), (1, 0, 1)]),
        "E" => chain(1, &[(2, 0, 1), (1, 0, 1)]),
        "F" => chain(0, &[(2, 1, 1), (1, 0, 1)]),
        "G" => chain(1, &[(1, 0, 1)]),
        "H" => wait_for(&[(2, 1, 0), (1, 0, 0)]),
        "I" => wait_for(&[(2, 1, 0), (1, 0, 0), (1, 2, 0)]),
        "J" => j(),
        "no bytes" => Records::new(),
        "7 bytes" => return vec![0; 7],
        "0..1023 twice" => with_ranges(&[1023, 1023]),
        "0..1023 and 0..1024" => with_ranges(&[1023, 1024]),
        "1000 × 1000" => with_product(1000),
        "1000 × 1001" => with_product(1001),
        "B, start false" => no_start(),
        _ => panic!("no example {name}"),
    }
    .concat()
}

/// A kind and its field a.
fn r(kind: u8, a: u8) -> [u8; 8] {
    record(kind, a, 0, 0, 0)
}

/// Compares the variable 0 with a constant.
fn compare(kind: u8, value: i16) -> Records {
    vec![r(kind, 0), r(0x11, 0), record(0x10, 0, value, 0, 0)]
}

fn equal(value: i16) -> Records {
    compare(0x27, value)
}

/// B, its start false.
fn no_start() -> Records {
    let mut records = b();
    records.splice(2..5, [r(0x21, 0)]);
    records
}

/// C1.2, C1.3: the bytes of A.
fn a() -> Records {
    "0100000002000000 0200000000000000 2700000000000000 1100000000000000 1000000000000000 \
     0300000000000000 2800000000000000 1100000000000000 1000020000000000 0400000000000000 \
     1200000000000000 1100000000000000 1000010000000000 0501000000000000 2900000000000000 \
     1100000000000000 1000020000000000 0600000000000000 2900000000000000 1100000000000000 \
     1000010000000000"
        .split_whitespace()
        .map(|digits| {
            let mut record = [0; 8];
            for (byte, at) in record.iter_mut().zip((0..16).step_by(2)) {
                *byte = u8::from_str_radix(&digits[at..at + 2], 16).unwrap();
            }
            record
        })
        .collect()
}

/// A, with 2 as its last constant.
fn b() -> Records {
    let mut records = a();
    records[20] = record(0x10, 0, 2, 0, 0);
    records
}

/// B, its guard true.
fn c() -> Records {
    let mut records = b();
    records.splice(6..9, [r(0x20, 0)]);
    records
}

/// A up to its transition, just or not.
fn system(just: u8) -> Records {
    let mut records = a();
    records.truncate(13);
    records[5] = r(0x03, just);
    records
}

/// Puts three nodes to a file, that v is 2, 1 or 0, and edges: from, to, d.
fn with_nodes(mut records: Records, edges: &[(i16, i16, u8)]) -> Records {
    for value in [2, 1, 0] {
        records.push(r(0x06, 0));
        records.extend(equal(value));
    }
    for &(from, to, d) in edges {
        records.push(record(0x07, 0, from, to, d));
    }
    records
}

/// A chain over A's system: p is true, q is that v is 2.
fn chain(just: u8, edges: &[(i16, i16, u8)]) -> Records {
    let mut records = system(just);
    records.extend([r(0x05, 3), r(0x20, 0)]);
    records.extend(equal(2));
    with_nodes(records, edges)
}

/// A wait-for over A's system, just: p is that v is 0, and each node is also its phase's q.
fn wait_for(edges: &[(i16, i16, u8)]) -> Records {
    let mut records = system(1);
    records.push(record(0x05, 2, 3, 0, 0));
    for value in [0, 2, 1, 0] {
        records.extend(equal(value));
    }
    with_nodes(records, edges)
}

/// Two variables, 0 and 1 at the start, are swapped without a guard, and always differ.
fn j() -> Records {
    let not_equal = [r(0x22, 0), r(0x27, 0), r(0x11, 0), r(0x11, 1)];
    let mut records = vec![record(0x01, 0, 0, 1, 0); 2];
    records.extend([r(0x02, 0), r(0x23, 0)]);
    records.extend(equal(0));
    records.extend([r(0x27, 0), r(0x11, 1), record(0x10, 0, 1, 0, 0)]);
    records.extend([r(0x03, 0), r(0x20, 0)]);
    records.extend([r(0x04, 0), r(0x11, 1), r(0x04, 1), r(0x11, 0)]);
    records.push(r(0x05, 1));
    records.extend(not_equal);
    records.push(r(0x06, 0));
    records.extend(not_equal);
    records
}

/// Variables from 0 up to these, then start, property and node, all true.
fn with_ranges(highs: &[i16]) -> Records {
    let mut records: Records = highs
        .iter()
        .map(|&high| record(0x01, 0, 0, high, 0))
        .collect();
    for (kind, a) in [(0x02, 0), (0x05, 1), (0x06, 0)] {
        records.extend([r(kind, a), r(0x20, 0)]);
    }
    records
}

/// A start that compares 1000 times this value with itself, record 3 being the product.
fn with_product(value: i16) -> Records {
    let mut records = with_ranges(&[0]);
    let constant = |value| record(0x10, 0, value, 0, 0);
    let product = [r(0x14, 0), constant(1000), constant(value)];
    records.splice(2..3, [&[r(0x27, 0)], &product[..], &product].concat());
    records
}
