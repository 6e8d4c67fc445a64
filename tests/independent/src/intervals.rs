//! Intervals of the number expressions; refusal 8.

use crate::file::{Claim, File, Number, Pair, Truth, Variable};
use crate::refusal::{Refusal, INTERVAL};

const LEAST: i64 = -1_000_000;
const GREATEST: i64 = 1_000_000;

struct Interval {
    low: i64,
    high: i64,
}

/// C3.5: judges all expressions in file order.
pub fn check_expressions(file: &File) -> Result<(), Refusal> {
    let ranges = &file.variables;
    check_truth(&file.start, ranges)?;
    for transition in &file.transitions {
        check_truth(&transition.guard, ranges)?;
        for assignment in &transition.assignments {
            interval(&assignment.value, ranges)?;
        }
    }
    check_claim(&file.claim, ranges)?;
    check_truths(&file.nodes, ranges)
}

fn check_claim(claim: &Claim, ranges: &[Variable]) -> Result<(), Refusal> {
    match claim {
        Claim::Invariance { q } => check_truth(q, ranges),
        Claim::WaitFor { p, q } => {
            check_truth(p, ranges)?;
            check_truths(q, ranges)
        }
        Claim::Chain { p, q } => {
            check_truth(p, ranges)?;
            check_truth(q, ranges)
        }
    }
}

fn check_truths(truths: &[Truth], ranges: &[Variable]) -> Result<(), Refusal> {
    truths
        .iter()
        .try_for_each(|truth| check_truth(truth, ranges))
}

/// C3.5: a truth has no interval of its own; the numbers within it have.
fn check_truth(truth: &Truth, ranges: &[Variable]) -> Result<(), Refusal> {
    match truth {
        Truth::True | Truth::False => Ok(()),
        Truth::Not(operand) => check_truth(operand, ranges),
        Truth::And(pair) | Truth::Or(pair) | Truth::Implies(pair) | Truth::Iff(pair) => {
            check_truth(&pair.0, ranges)?;
            check_truth(&pair.1, ranges)
        }
        Truth::Equal(pair) | Truth::Less(pair) | Truth::AtMost(pair) => {
            interval(&pair.0, ranges)?;
            interval(&pair.1, ranges)?;
            Ok(())
        }
    }
}

/// C3.1, C3.2: a number's interval. C3.5: an operand's is judged before its record's.
fn interval(number: &Number, ranges: &[Variable]) -> Result<Interval, Refusal> {
    match number {
        Number::Constant(value) => Ok(exactly(*value)),
        Number::Variable(variable) => Ok(range(ranges[*variable])),
        Number::Sum(pair) => combined(pair, ranges, |x, y| x + y),
        Number::Difference(pair) => combined(pair, ranges, |x, y| x - y),
        Number::Product(pair) => combined(pair, ranges, |x, y| x * y),
        Number::Indicator(truth) => {
            check_truth(truth, ranges)?;
            Ok(Interval { low: 0, high: 1 })
        }
        Number::Quotient(pair) => {
            let (left, divisor) = divided(pair, ranges)?;
            Ok(Interval {
                low: left.low.div_euclid(divisor),
                high: left.high.div_euclid(divisor),
            })
        }
        Number::Remainder(pair) => {
            let (_, divisor) = divided(pair, ranges)?;
            Ok(Interval {
                low: 0,
                high: divisor - 1,
            })
        }
    }
}

/// C3.7: the left operand's interval and the divisor, from which those of quotients and remainders
/// come. A quotient's keeps the bounds where the left operand's does, a remainder's always.
fn divided(pair: &Pair, ranges: &[Variable]) -> Result<(Interval, i64), Refusal> {
    let dividend = interval(&pair.left, ranges)?;
    let divisor = interval(&pair.right, ranges)?;
    Ok((dividend, divisor.low))
}

fn exactly(value: i32) -> Interval {
    let value = i64::from(value);
    Interval {
        low: value,
        high: value,
    }
}

fn range(variable: Variable) -> Interval {
    Interval {
        low: i64::from(variable.low),
        high: i64::from(variable.high),
    }
}

/// C3.3: the operation at all four pairs of ends. C3.4, C10.8: its interval is in the bounds.
fn combined(
    pair: &Pair,
    ranges: &[Variable],
    operation: impl Fn(i64, i64) -> i64,
) -> Result<Interval, Refusal> {
    let left = interval(&pair.left, ranges)?;
    let right = interval(&pair.right, ranges)?;
    let results = [
        operation(left.low, right.low),
        operation(left.low, right.high),
        operation(left.high, right.low),
        operation(left.high, right.high),
    ];
    let low = results.into_iter().fold(i64::MAX, i64::min);
    let high = results.into_iter().fold(i64::MIN, i64::max);
    let bounded = LEAST <= low && high <= GREATEST;
    if bounded {
        Ok(Interval { low, high })
    } else {
        Err(Refusal::new(INTERVAL, pair.place))
    }
}
