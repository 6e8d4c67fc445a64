//! Evaluating expressions and transitions at a state.
//!
//! C3.6: the intervals keep every number within -1,000,000..1,000,000.

use crate::file::{Number, Pick, Transition, Truth, Variable};
use crate::states::State;

/// C2.3, C2.4, C2.5, C2.6, C2.14: what a number is worth. By a divisor above 0, Euclidean division
/// rounds down and leaves a remainder from 0 up.
pub fn number(expression: &Number, state: &State) -> i32 {
    match expression {
        Number::Constant(value) => *value,
        Number::Variable(variable) => i32::from(state[*variable]),
        Number::Sum(pair) => number(&pair.left, state) + number(&pair.right, state),
        Number::Difference(pair) => number(&pair.left, state) - number(&pair.right, state),
        Number::Product(pair) => number(&pair.left, state) * number(&pair.right, state),
        Number::Indicator(operand) => i32::from(truth(operand, state)),
        Number::Quotient(pair) => number(&pair.left, state).div_euclid(number(&pair.right, state)),
        Number::Remainder(pair) => number(&pair.left, state).rem_euclid(number(&pair.right, state)),
    }
}

/// C2.7, C2.8, C2.9, C2.10: whether a truth is true.
pub fn truth(expression: &Truth, state: &State) -> bool {
    match expression {
        Truth::True => true,
        Truth::False => false,
        Truth::Not(operand) => !truth(operand, state),
        Truth::And(pair) => truth(&pair.0, state) && truth(&pair.1, state),
        Truth::Or(pair) => truth(&pair.0, state) || truth(&pair.1, state),
        Truth::Implies(pair) => !truth(&pair.0, state) || truth(&pair.1, state),
        Truth::Iff(pair) => truth(&pair.0, state) == truth(&pair.1, state),
        Truth::Equal(pair) => number(&pair.0, state) == number(&pair.1, state),
        Truth::Less(pair) => number(&pair.0, state) < number(&pair.1, state),
        Truth::AtMost(pair) => number(&pair.0, state) <= number(&pair.1, state),
    }
}

/// C5.1: the state with the assigned values, all worked out from the same state, if they lie in
/// range; the guard is not asked.
pub fn assigned(transition: &Transition, ranges: &[Variable], state: &State) -> Option<State> {
    let mut next = *state;
    for assignment in &transition.assignments {
        let value = number(&assignment.value, state);
        next[assignment.variable] = in_range(value, ranges[assignment.variable])?;
    }
    Some(next)
}

/// C5.2: the state with the assigned values, if the transition is enabled: guard true and all
/// assigned values in range, whatever the picks.
fn advanced(transition: &Transition, ranges: &[Variable], state: &State) -> Option<State> {
    if truth(&transition.guard, state) {
        assigned(transition, ranges, state)
    } else {
        None
    }
}

/// C5.2.
pub fn enabled(transition: &Transition, ranges: &[Variable], state: &State) -> bool {
    advanced(transition, ranges, state).is_some()
}

/// C5.3: the successors, one for each combination of the picks; none where the transition is
/// disabled. C5.6: arrays of values are ordered as states are, by the first one that differs.
pub fn successors(transition: &Transition, ranges: &[Variable], state: &State) -> Vec<State> {
    let mut list: Vec<State> = advanced(transition, ranges, state).into_iter().collect();
    for pick in &transition.picks {
        list = list.iter().flat_map(|next| picked(next, pick)).collect();
    }
    list.sort();
    list
}

/// C1.16: the state with each of the pick's values.
fn picked(state: &State, pick: &Pick) -> impl Iterator<Item = State> {
    let (mut with, variable) = (*state, pick.variable);
    (pick.low..=pick.high).map(move |value| {
        with[variable] = value;
        with
    })
}

fn in_range(value: i32, range: Variable) -> Option<i16> {
    let value = i16::try_from(value).ok()?;
    (range.low..=range.high).contains(&value).then_some(value)
}
