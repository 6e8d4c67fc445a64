//! Quotients, remainders and their divisors: values, intervals, and refusal 19.

use crate::builder::*;
use crate::refusals::by_stages;
use independent::{number, read, single, successors, truth};
use independent::{File, Refusal, State, Tested, Truth};

/// Quotient and remainder.
const BOTH: [fn(Bytes, Bytes) -> Bytes; 2] = [quotient, remainder];

/// D without a guard: v in 0..2 becomes v + 1, and behind 2 comes 0.
pub fn going_round() -> Bytes {
    let next = remainder(sum(value(0), constant(1)), constant(3));
    join(&[
        counter(),
        transition(1, yes(), &[assign(0, next)]),
        chain(yes(), is(2)),
        node(is(2)),
        node(is(1)),
        node(is(0)),
        double_edge(0, 2, 1),
        double_edge(0, 1, 0),
    ])
}

/// A chain over v in -3..2. Its nodes are the pairs of numbers with one quotient by 2: 2 and 3, 0 and
/// 1, -2 and -1, -4 and -3. Each step leads to the first of the next pair.
pub fn by_pairs() -> Bytes {
    let pair = || quotient(value(0), constant(2));
    let in_pair = |number| node(equal(pair(), constant(number)));
    let next = sum(product(pair(), constant(2)), constant(2));
    join(&[
        variable(-3, 2),
        start(is(-3)),
        transition(1, less(value(0), constant(2)), &[assign(0, next)]),
        chain(yes(), is(2)),
        in_pair(1),
        in_pair(0),
        in_pair(-1),
        in_pair(-2),
        double_edge(0, 3, 2),
        double_edge(0, 2, 1),
        double_edge(0, 1, 0),
    ])
}

/// A file over one variable with this start, and an always true node.
fn with_start(low: i16, high: i16, truth: Bytes) -> Bytes {
    join(&[
        variable(low, high),
        start(truth),
        invariance(yes()),
        node(yes()),
    ])
}

/// What a number is worth at a value of variable 0.
fn worth_at(expression: Bytes, value: i16) -> i32 {
    let bytes = with_start(-1000, 1000, itself(expression));
    let mut state = [0; 12];
    state[0] = value;
    match read(&bytes).unwrap().start {
        Truth::Equal(pair) => number(&pair.0, &state),
        other => panic!("{other:?}"),
    }
}

fn worth(expression: Bytes) -> i32 {
    worth_at(expression, 0)
}

/// Constants and, beyond them, sums of a product of 1000.
fn integer(value: i32) -> Bytes {
    match i16::try_from(value) {
        Ok(value) => constant(value),
        Err(_) => {
            let [thousands, rest] = [value / 1000, value % 1000].map(|part| part as i16);
            sum(product(constant(thousands), constant(1000)), constant(rest))
        }
    }
}

// ------------------------------------------------------------------------------ values

/// C2.14.
#[test]
fn rounded_down_and_exact() {
    for (n, d, q, r) in [
        (-7, 2, -4, 1),
        (7, 2, 3, 1),
        (-1, 5, -1, 4),
        (1, 5, 0, 1),
        (4, 5, 0, 4),
        (-4, 5, -1, 1),
        (-6, 5, -2, 4),
        (0, 5, 0, 0),
        (0, 1, 0, 0),
        // Multiples.
        (6, 3, 2, 0),
        (-6, 3, -2, 0),
        (5, 5, 1, 0),
        (-5, 5, -1, 0),
        // The least divisor, and the greatest.
        (7, 1, 7, 0),
        (-7, 1, -7, 0),
        (32_766, 32_767, 0, 32_766),
        (32_767, 32_767, 1, 0),
        (-1, 32_767, -1, 32_766),
        (-32_767, 32_767, -1, 0),
        (-32_768, 32_767, -2, 32_766),
        // As far as an interval may reach.
        (1_000_000, 1, 1_000_000, 0),
        (-1_000_000, 1, -1_000_000, 0),
        (1_000_000, 1000, 1000, 0),
        (-1_000_000, 1000, -1000, 0),
        (1_000_000, 7, 142_857, 1),
        (-1_000_000, 7, -142_858, 6),
        (1_000_000, 32_767, 30, 16_990),
        (-1_000_000, 32_767, -31, 15_777),
    ] {
        assert_eq!(
            worth(quotient(integer(n), constant(d))),
            q,
            "{n} by {d}, quotient"
        );
        assert_eq!(
            worth(remainder(integer(n), constant(d))),
            r,
            "{n} by {d}, remainder"
        );
        assert_eq!(n, q * i32::from(d) + r);
    }
}

/// C2.14: quotient and remainder make up the number again, in every state.
#[test]
fn a_number_is_what_its_division_makes() {
    for d in [1, 2, 3, 7, 10, 64, 1000] {
        let parts = || BOTH.map(|part| part(value(0), constant(d)));
        let [q, r] = parts();
        let back = equal(value(0), sum(product(q, constant(d)), r));
        let [_, r] = parts();
        let least = at_most(constant(0), r);
        let [_, r] = parts();
        let greatest = less(r, constant(d));
        let file = join(&[
            variable(-1000, 1000),
            start(yes()),
            invariance(and(back, and(least, greatest))),
            node(yes()),
        ]);
        assert_eq!(unnamed(&file), (0, 2), "{d}");
    }
}

/// C2.14, C2.15: the left operand is any number, a quotient or remainder too.
#[test]
fn nested_in_each_other() {
    let by = constant;
    // -7 by 2 is -4, which leaves 2 by 3; -7 leaves 3 by 5, which by 2 is 1.
    assert_eq!(worth(remainder(quotient(by(-7), by(2)), by(3))), 2);
    assert_eq!(worth(quotient(remainder(by(-7), by(5)), by(2))), 1);
    // -100 by 3 is -34, which by 4 is -9; -100 leaves 5 by 7, which leaves 1 by 4.
    assert_eq!(worth(quotient(quotient(by(-100), by(3)), by(4))), -9);
    assert_eq!(worth(remainder(remainder(by(-100), by(7)), by(4))), 1);
    // As the operand of each other number.
    let q = || quotient(value(0), by(3));
    let r = || remainder(value(0), by(3));
    for (v, expected) in [(-4, [0, -4, -4]), (-3, [-1, -1, 0]), (5, [3, -1, 2])] {
        assert_eq!(worth_at(sum(q(), r()), v), expected[0], "sum, {v}");
        let less_r = difference(q(), r());
        assert_eq!(worth_at(less_r, v), expected[1], "difference, {v}");
        assert_eq!(worth_at(product(q(), r()), v), expected[2], "product, {v}");
    }
    // Over sums, products and indicators.
    let less_one = difference(indicator(no()), by(1));
    assert_eq!(worth(quotient(less_one.clone(), by(2))), -1);
    assert_eq!(worth(remainder(less_one, by(2))), 1);
    assert_eq!(worth(remainder(product(by(-3), by(5)), by(4))), 1);
    assert_eq!(worth(quotient(sum(by(-3), by(-4)), by(4))), -2);
    // 14 quotients below a comparison reach level 16; -1 by 2 stays -1.
    let halves = (1..15).fold(constant(-1), |half, _| quotient(half, by(2)));
    assert_eq!(worth(halves), -1);
}

/// C2.6, C2.14.
#[test]
fn under_indicators() {
    let q = || quotient(value(0), constant(2));
    let r = || remainder(value(0), constant(2));
    let below = |v| worth_at(indicator(less(q(), constant(-3))), v);
    assert_eq!([-8, -7, -6, 6].map(below), [1, 1, 0, 0]);
    let odd = |v| worth_at(indicator(equal(r(), constant(1))), v);
    assert_eq!([-3, -2, -1, 0, 1].map(odd), [1, 0, 1, 0, 1]);
    // And an indicator of them under them.
    let either = |v| {
        let odd = indicator(equal(r(), constant(1)));
        worth_at(quotient(difference(odd, constant(1)), constant(2)), v)
    };
    assert_eq!([-1, 0].map(either), [0, -1]);
}

/// The values of variable 0 at which a truth is true.
fn where_true(file: &File, of: &Truth) -> Vec<i16> {
    let states = independent::states(&file.variables);
    let true_there = states.filter(|state| truth(of, state));
    true_there.map(|state| state[0]).collect()
}

/// C2.14 in the start, a guard, p, q and an assertion.
#[test]
fn in_each_truth_of_a_file() {
    let in_pair = |number| equal(quotient(value(0), constant(2)), constant(number));
    let leaves = |number| equal(remainder(value(0), constant(3)), constant(number));
    let file = join(&[
        variable(-5, 4),
        start(in_pair(-1)),
        transition(0, leaves(1), &[]),
        wait_for(in_pair(-3), &[leaves(0)]),
        node(in_pair(-2)),
    ]);
    let file = read(&file).unwrap();
    assert_eq!(where_true(&file, &file.start), [-2, -1]);
    let guard = &file.transitions[0].guard;
    assert_eq!(where_true(&file, guard), [-5, -2, 1, 4]);
    match &file.claim {
        independent::Claim::WaitFor { p, q } => {
            assert_eq!(where_true(&file, p), [-5]);
            assert_eq!(where_true(&file, &q[0]), [-3, 0, 3]);
        }
        other => panic!("{other:?}"),
    }
    assert_eq!(where_true(&file, &file.nodes[0]), [-4, -3]);
}

/// C2.14, C5.3, C5.2: as an assigned value.
#[test]
fn in_assigned_values() {
    let after = |low, high, assigned: Bytes| -> Vec<Option<i16>> {
        let file = join(&[
            variable(low, high),
            start(yes()),
            transition(0, yes(), &[assign(0, assigned)]),
            invariance(yes()),
            node(yes()),
        ]);
        let file = read(&file).unwrap();
        let next = |state: State| successors(&file.transitions[0], &file.variables, &state);
        let states = independent::states(&file.variables);
        states.map(|state| Some(next(state).first()?[0])).collect()
    };
    // -2..2 goes round: v + 3 leaves 1 to 4 and 0 by 5, and that less 2.
    let ahead = remainder(sum(value(0), constant(3)), constant(5));
    let round = difference(ahead, constant(2));
    assert_eq!(after(-2, 2, round), [-1, 0, 1, 2, -2].map(Some));
    let half = quotient(value(0), constant(2));
    assert_eq!(after(-3, 1, half), [-2, -1, -1, 0, 0].map(Some));
    // Out of range: the remainder of -1 by 3 is 2.
    let rest = remainder(value(0), constant(3));
    let expected = [None, Some(0), Some(1)];
    assert_eq!(after(-1, 1, rest), expected);
}

/// C2.14, C8.6, C12.2.
#[test]
fn chains_that_need_them() {
    assert_eq!(unnamed(&going_round()), (0, 8));
    assert_eq!(unnamed(&by_pairs()), (0, 11));
    // Without the remainder the step out of v = 2, which only the goal has, leads nowhere; in an
    // invariance that breaks the range.
    let round = |next: Bytes| {
        let step = transition(0, yes(), &[assign(0, next)]);
        join(&[counter(), step, invariance(yes()), node(yes())])
    };
    let next = || sum(value(0), constant(1));
    assert_eq!(unnamed(&round(remainder(next(), constant(3)))), (0, 4));
    assert_eq!(named(&round(remainder(next(), constant(4)))), (16, 0, 0, 2));
    assert_eq!(named(&round(next())), (16, 0, 0, 2));
}

// ------------------------------------------------------------------------------ divisors

/// The start compares a quotient or remainder of variable 0. Records: 0 variable, 1 start, 2 the
/// comparison, 3 the quotient, 4 its left operand, 5 the divisor.
fn divided_by(part: fn(Bytes, Bytes) -> Bytes, divisor: Bytes) -> Bytes {
    with_start(0, 2, less(part(value(0), divisor), constant(9)))
}

fn set(mut file: Bytes, record: u32, byte: usize, value: u8) -> Bytes {
    file[8 * record as usize + byte] = value;
    file
}

/// C2.15, C10.19.
#[test]
fn a_divisor_is_a_constant_above_0() {
    for part in BOTH {
        for d in [1, 2, 255, 256, 32_767] {
            assert_eq!(unnamed(&divided_by(part, constant(d))), (0, 2), "{d}");
        }
        for d in [0, -1, -2, -256, -32_768] {
            assert_eq!(unnamed(&divided_by(part, constant(d))), (19, 5), "{d}");
        }
        for other in [
            value(0),
            sum(constant(1), constant(1)),
            difference(constant(2), constant(1)),
            product(constant(1), constant(1)),
            indicator(yes()),
            quotient(constant(4), constant(2)),
            remainder(constant(5), constant(3)),
        ] {
            let kind = other[0];
            assert_eq!(unnamed(&divided_by(part, other)), (19, 5), "kind {kind:x}");
        }
    }
}

/// C2.15, C3.1: a variable with one value is no constant.
#[test]
fn a_variable_is_no_divisor() {
    let file = |divisor| with_start(2, 2, less(quotient(constant(4), divisor), constant(9)));
    assert_eq!(unnamed(&file(value(0))), (19, 5));
    assert_eq!(unnamed(&file(constant(2))), (0, 2));
}

/// C2.1, C2.15: the left operand may be what the right one may not.
#[test]
fn the_right_operand_is_the_divisor() {
    for part in BOTH {
        for left in [constant(0), constant(-1), value(0), indicator(no())] {
            let place = 4 + count(&left);
            let of = |right| part(left.clone(), right);
            let file = |right| with_start(0, 2, less(of(right), constant(9)));
            assert_eq!(unnamed(&file(constant(1))), (0, 2));
            assert_eq!(unnamed(&file(constant(0))), (19, place));
        }
    }
}

/// C10.3, C2.2, C11.2: what is no number is refused with 3.
#[test]
fn a_divisor_of_another_kind() {
    for part in BOTH {
        for other in [yes(), no(), not(yes()), and(yes(), yes()), is(1)] {
            assert_eq!(unnamed(&divided_by(part, other)), (3, 5));
        }
        let file = divided_by(part, constant(1));
        for kind in [0x00, 0x01, 0x07, 0x0f, 0x16, 0x17, 0x1a, 0x1f, 0x2a, 0xff] {
            let unfit = set(file.clone(), 5, 0, kind);
            assert_eq!(unnamed(&unfit), (3, 5), "kind {kind:x}");
        }
        assert_eq!(unnamed(&file[..40]), (3, 5));
        assert_eq!(unnamed(&file[..32]), (3, 4));
    }
}

/// C10.4, C11.2: every field of a divisor, whether it is a constant above 0 or not.
#[test]
fn fields_before_divisors() {
    for part in BOTH {
        for value in [1, 0, -1] {
            let file = divided_by(part, constant(value));
            for byte in [1, 4, 5, 6, 7] {
                for bits in [0x01, 0x80] {
                    let changed = set(file.clone(), 5, byte, bits);
                    assert_eq!(unnamed(&changed), (4, 5), "{value}, byte {byte}");
                }
            }
            // The low and the high byte of b make it another constant.
            let low = set(file.clone(), 5, 2, 7);
            assert_eq!(unnamed(&low), if value < 0 { (19, 5) } else { (0, 2) });
            let high = set(file.clone(), 5, 3, 0x80);
            assert_eq!(unnamed(&high), (19, 5));
        }
        // A variable that the file lacks; fields of a variable, a sum and a quotient.
        assert_eq!(unnamed(&divided_by(part, value(1))), (4, 5));
        for other in [
            value(0),
            sum(constant(1), constant(1)),
            quotient(constant(1), constant(1)),
        ] {
            let file = divided_by(part, other);
            for byte in 2..8 {
                assert_eq!(unnamed(&set(file.clone(), 5, byte, 1)), (4, 5));
            }
        }
    }
}

/// C1.4, C10.4: the fields of the quotient's own record are idle.
#[test]
fn idle_fields_of_quotients() {
    for part in BOTH {
        for divisor in [1, 0] {
            let file = divided_by(part, constant(divisor));
            for byte in 1..8 {
                for bits in [0x01, 0x80] {
                    let changed = set(file.clone(), 3, byte, bits);
                    assert_eq!(unnamed(&changed), (4, 3), "byte {byte}");
                }
            }
        }
    }
}

/// Any number of `not`s over what follows.
fn nots(times: usize, truth: Bytes) -> Bytes {
    join(&[record(0x22, 0, 0, 0, 0).repeat(times), truth])
}

/// C2.12, C10.5, C11.2: the left operand is on the divisor's level and stands before it.
#[test]
fn level_17() {
    for part in BOTH {
        let deep = |times: usize, divisor: Bytes| {
            let number = part(value(0), divisor);
            let truth = nots(times, less(number, constant(0)));
            unnamed(&with_start(0, 2, truth))
        };
        // Behind the variable, the start and 13 nots: comparison 15, quotient 16, operands 17, 18.
        assert_eq!(deep(13, constant(1)), (0, 2));
        assert_eq!(deep(13, constant(0)), (19, 18));
        assert_eq!(deep(13, yes()), (3, 18));
        // A divisor with operands, which would be at level 17.
        assert_eq!(deep(13, indicator(yes())), (19, 18));
        assert_eq!(deep(14, constant(1)), (5, 18));
        assert_eq!(deep(14, constant(0)), (5, 18));
        assert_eq!(deep(14, yes()), (5, 18));
        // The quotient itself is at level 17.
        assert_eq!(deep(15, constant(0)), (5, 18));
    }
}

/// C11.2.
#[test]
fn before_the_operands_of_the_divisor() {
    for part in BOTH {
        for kind in [0x12, 0x13, 0x14, 0x15, 0x18, 0x19] {
            let divisor = record(kind, 0, 0, 0, 0);
            // The file's end, a kind that doesn't fit, a field, an operand that is no divisor.
            let file = divided_by(part, divisor.clone());
            assert_eq!(unnamed(&file[..48]), (19, 5), "kind {kind:x}");
            for operands in [
                record(0xff, 0, 0, 0, 0),
                record(0x10, 9, 1, 0, 0),
                join(&[constant(1), value(9)]),
                join(&[constant(1), constant(0)]),
            ] {
                let file = divided_by(part, join(&[divisor.clone(), operands]));
                assert_eq!(unnamed(&file), (19, 5), "kind {kind:x}");
            }
        }
    }
}

/// C11.2: the left operand comes first, whatever the divisor is.
#[test]
fn behind_the_left_operand() {
    for part in BOTH {
        let over = |left: Bytes| {
            let number = part(left, constant(0));
            unnamed(&with_start(0, 2, less(number, constant(0))))
        };
        assert_eq!(over(yes()), (3, 4));
        assert_eq!(over(record(0x16, 0, 0, 0, 0)), (3, 4));
        assert_eq!(over(value(1)), (4, 4));
        assert_eq!(over(record(0x10, 0, 1, 0, 1)), (4, 4));
        assert_eq!(over(sum(value(0), value(1))), (4, 6));
        // One of them below the other: the inner one's divisor stands first.
        assert_eq!(over(quotient(value(0), constant(0))), (19, 6));
        assert_eq!(over(quotient(value(0), constant(1))), (19, 7));
    }
}

/// C11.2: of several the first record is named.
#[test]
fn the_first_of_several() {
    let bad = |divisor| less(remainder(value(0), divisor), constant(0));
    let truth = and(bad(constant(-1)), bad(value(0)));
    assert_eq!(unnamed(&with_start(0, 2, truth)), (19, 6));
    // 3 and 4 at later records.
    let unfit = and(bad(constant(0)), constant(1));
    assert_eq!(unnamed(&with_start(0, 2, unfit)), (19, 6));
    let field = and(bad(constant(0)), record(0x20, 1, 0, 0, 0));
    assert_eq!(unnamed(&with_start(0, 2, field)), (19, 6));
    // 3, 4 and 5 at earlier ones.
    let deep = and(nots(16, yes()), bad(constant(0)));
    assert_eq!(unnamed(&with_start(0, 2, deep)), (5, 18));
    let field = and(record(0x20, 1, 0, 0, 0), bad(constant(0)));
    assert_eq!(unnamed(&with_start(0, 2, field)), (4, 3));
    let unfit = and(constant(1), bad(constant(0)));
    assert_eq!(unnamed(&with_start(0, 2, unfit)), (3, 3));
    // 5 at a later one.
    let deep = and(bad(constant(0)), nots(16, yes()));
    assert_eq!(unnamed(&with_start(0, 2, deep)), (19, 6));
}

/// C11.2, C10.6: a repetition at an earlier record, at a later one.
#[test]
fn repetitions_and_divisors() {
    let bad = || assign(0, quotient(value(0), constant(0)));
    let good = || assign(0, value(0));
    let file = |assignments: &[Bytes]| {
        let step = transition(0, yes(), assignments);
        unnamed(&join(&[counter(), step, invariance(yes()), node(yes())]))
    };
    // Records: 5 transition, 6 guard, 7 assignment.
    assert_eq!(file(&[good(), bad()]), (6, 9));
    assert_eq!(file(&[bad(), good()]), (19, 10));
    // An edge that repeats another, behind an assertion with such a divisor.
    let edges = |divisor| {
        let assertion = less(quotient(value(0), constant(divisor)), constant(9));
        let edge = single_edge(0, 0, 0);
        let parts = [counter(), idle(0), invariance(yes()), node(assertion)];
        unnamed(&join(&[join(&parts), edge.clone(), edge]))
    };
    assert_eq!(edges(1), (6, 16));
    assert_eq!(edges(0), (19, 13));
}

/// C11.1: 7, 8, 9 and 10 are tried for the whole file, behind 19.
#[test]
fn divisors_before_states_intervals_and_edges() {
    let file = |divisor, high, factor, edges: &[Bytes]| {
        let truth = less(remainder(value(0), constant(divisor)), constant(0));
        by_stages(truth, high, factor, edges)
    };
    let bad = [double_edge(0, 1, 0)];
    assert_eq!(file(0, 1024, 1001, &bad), (19, 19));
    assert_eq!(file(1, 1024, 1001, &bad), (7, 1));
    assert_eq!(file(0, 3, 1001, &bad), (19, 19));
    assert_eq!(file(1, 3, 1001, &bad), (8, 4));
    assert_eq!(file(0, 3, 1000, &bad), (19, 19));
    assert_eq!(file(1, 3, 1000, &bad), (9, 21));
    assert_eq!(file(0, 3, 1000, &[]), (19, 19));
    assert_eq!(file(1, 3, 1000, &[]), (10, 1));
}

/// C2.11, C10.3: the kinds beside 18 and 19 begin no expression, and these two begin no truth.
#[test]
fn kinds_beside_them() {
    for kind in [0x16, 0x17, 0x1a, 0x1b, 0x1c, 0x1d, 0x1e, 0x1f] {
        let unfit = || record(kind, 0, 0, 0, 0);
        let as_number = join(&[unfit(), value(0), constant(1)]);
        let file = with_start(0, 2, less(as_number.clone(), constant(0)));
        assert_eq!(unnamed(&file), (3, 3), "kind {kind:x}");
        assert_eq!(unnamed(&with_start(0, 2, as_number)), (3, 2));
        for part in BOTH {
            assert_eq!(unnamed(&divided_by(part, unfit())), (3, 5));
        }
    }
    for part in BOTH {
        let file = with_start(0, 2, part(value(0), constant(1)));
        assert_eq!(unnamed(&file), (3, 2));
        let indicated = indicator(part(value(0), constant(1)));
        let file = with_start(0, 2, less(indicated, constant(0)));
        assert_eq!(unnamed(&file), (3, 4));
    }
}

/// C10.19, C11.6, C13.2: in a single test too. C14.1: the number is 19 in decimal.
#[test]
fn every_answer_has_it() {
    let file = divided_by(remainder, constant(0));
    let (number, place) = (19, 5);
    assert_eq!(read(&file).unwrap_err(), Refusal { number, place });
    let refused = Tested::Refused { number, place };
    assert_eq!(single(&file, 0, 0), refused);
    assert_eq!(single(&file, usize::MAX, usize::MAX), refused);
    let mut report = [0xff; 32];
    independent::check(&file, &mut report);
    assert_eq!(report[..8], [0x13, 255, 255, 0, 5, 0, 0, 0]);
}

// ------------------------------------------------------------------------------ intervals

/// Compares a number over v in that range with itself; its first record is record 3.
fn interval_of(low: i16, high: i16, number: Bytes) -> (u8, u32) {
    unnamed(&with_start(low, high, itself(number)))
}

/// Asserts that a number's interval goes from the one to the other: each end is moved to a bound,
/// and one past it.
#[track_caller]
fn spans(range: (i16, i16), number: Bytes, low: i16, high: i16) {
    let million = |sign: i16| product(constant(1000 * sign), constant(1000));
    for past in [0, 1] {
        let expected = if past == 0 { (0, 2) } else { (8, 3) };
        let moved = sum(number.clone(), constant(past - high));
        let up = interval_of(range.0, range.1, sum(million(1), moved));
        assert_eq!(up, expected, "high end, {past} past the bound");
        let moved = sum(number.clone(), constant(-past - low));
        let down = interval_of(range.0, range.1, sum(million(-1), moved));
        assert_eq!(down, expected, "low end, {past} past the bound");
    }
}

/// C3.7: the ends are rounded down.
#[test]
fn intervals_of_quotients() {
    let by = |divisor| quotient(value(0), constant(divisor));
    spans((-7, 9), by(2), -4, 4);
    spans((-8, 8), by(2), -4, 4);
    spans((-1, 1), by(2), -1, 0);
    spans((-1, 0), by(32_767), -1, 0);
    spans((-9, -7), by(2), -5, -4);
    spans((7, 9), by(2), 3, 4);
    spans((-5, 3), by(1), -5, 3);
    spans((3, 4), by(5), 0, 0);
    spans((-32_768, 32_767), by(32_767), -2, 1);
    // Of a quotient, of a remainder, of a sum.
    let half = quotient(value(0), constant(2));
    spans((-7, 9), quotient(half, constant(3)), -2, 1);
    let rest = remainder(value(0), constant(7));
    spans((0, 1), quotient(rest, constant(2)), 0, 3);
    let more = sum(value(0), constant(-3));
    spans((-7, 9), quotient(more, constant(4)), -3, 1);
}

/// C3.7: 0..d - 1, however little of it the left operand can leave.
#[test]
fn intervals_of_remainders() {
    let by = |divisor| remainder(value(0), constant(divisor));
    for range in [(-7, 9), (0, 1), (1, 1), (-3, -3), (5, 5), (-1000, 1000)] {
        for divisor in [1, 2, 5, 7] {
            spans(range, by(divisor), 0, divisor - 1);
        }
    }
    spans((0, 0), by(32_767), 0, 32_766);
    spans((-1, 0), remainder(by(9), constant(4)), 0, 3);
    spans((-1, 0), remainder(by(4), constant(9)), 0, 8);
    let half = quotient(value(0), constant(2));
    spans((-1, 0), remainder(half, constant(9)), 0, 8);
}

/// C3.3, C3.7: multiplied, so that one more at an end counts for a thousand.
#[test]
fn products_of_quotients_and_remainders() {
    let thousand = |number| product(number, constant(1000));
    let rest = |divisor| remainder(value(0), constant(divisor));
    assert_eq!(interval_of(0, 9, thousand(rest(1001))), (0, 2));
    assert_eq!(interval_of(0, 9, thousand(rest(1002))), (8, 3));
    // -1999 and -2000 by 2 are -1000, -2001 is -1001.
    let half = || quotient(value(0), constant(2));
    assert_eq!(interval_of(-1999, 0, thousand(half())), (0, 2));
    assert_eq!(interval_of(-2000, 0, thousand(half())), (0, 2));
    assert_eq!(interval_of(-2001, 0, thousand(half())), (8, 3));
    assert_eq!(interval_of(0, 2001, thousand(half())), (0, 2));
    assert_eq!(interval_of(0, 2002, thousand(half())), (8, 3));
    // A product is made smaller by a quotient, and larger behind it.
    let million = product(constant(1000), constant(1000));
    let part = quotient(million, constant(1000));
    assert_eq!(interval_of(0, 0, thousand(part.clone())), (0, 2));
    assert_eq!(interval_of(0, 0, product(part, constant(1001))), (8, 3));
}

/// C3.5, C10.8: the left operand is judged, though what is made of it is small.
#[test]
fn left_operands_out_of_bounds() {
    let out = || product(constant(1000), constant(1001));
    for part in BOTH {
        let divided = |left| part(left, constant(32_767));
        assert_eq!(interval_of(0, 2, divided(out())), (8, 4));
        assert_eq!(interval_of(0, 2, divided(divided(out()))), (8, 5));
        // Under an indicator under it.
        let hidden = indicator(equal(constant(0), out()));
        assert_eq!(interval_of(0, 2, divided(hidden)), (8, 7));
        // Left before right, operands before their record.
        let both = product(divided(out()), out());
        assert_eq!(interval_of(0, 2, both), (8, 5));
        let right = product(divided(constant(1)), out());
        assert_eq!(interval_of(0, 2, right), (8, 7));
    }
    // As far as the bounds, by 1.
    for sign in [1, -1] {
        let end = product(constant(1000 * sign), constant(1000));
        assert_eq!(interval_of(0, 2, quotient(end, constant(1))), (0, 2));
    }
}

/// C3.6: a variable with one value has a quotient whose interval holds its value alone; a remainder
/// is in its interval.
#[test]
fn values_in_their_intervals() {
    for divisor in [1, 2, 3, 7, 1000] {
        for v in -50..=50 {
            let q = || quotient(value(0), constant(divisor));
            let worth = worth_at(q(), v) as i16;
            spans((v, v), q(), worth, worth);
            let rest = worth_at(remainder(value(0), constant(divisor)), v);
            assert!((0..i32::from(divisor)).contains(&rest));
        }
    }
}
