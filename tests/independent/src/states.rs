//! C4.4: states and their numbers. Counting up begins at the last variable.

use crate::file::Variable;

/// C4.2: a state's values, zeros behind those of the file's variables.
pub type State = [i16; 12];

/// C4.5: all states in order, by counting up.
pub fn all(ranges: &[Variable]) -> impl Iterator<Item = State> + '_ {
    std::iter::successors(Some(first(ranges)), |state| following(ranges, *state))
}

/// State 0: no value could be lower.
pub fn first(ranges: &[Variable]) -> State {
    let mut state = [0; 12];
    for (value, range) in state.iter_mut().zip(ranges) {
        *value = range.low;
    }
    state
}

/// C4.6: the state numbered one higher, if there is one.
fn following(ranges: &[Variable], mut state: State) -> Option<State> {
    for (variable, range) in ranges.iter().enumerate().rev() {
        if state[variable] < range.high {
            state[variable] += 1;
            return Some(state);
        }
        state[variable] = range.low;
    }
    None
}

/// C4.4: the state of that number, which must be below the number of states.
pub fn numbered(ranges: &[Variable], number: usize) -> State {
    let mut state = first(ranges);
    let mut rest = number;
    for (digit, range) in ranges.iter().enumerate().rev() {
        let offset = rest % range.size();
        state[digit] = (i32::from(range.low) + offset as i32) as i16;
        rest /= range.size();
    }
    state
}
