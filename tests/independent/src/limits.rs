//! The number of states and of a transition's combinations; refusals 7 and 22.

use crate::file::File;
use crate::refusal::{Refusal, PICKS, STATES};

const MOST_STATES: usize = 1_048_576;
const MOST_COMBINATIONS: usize = 4_096;

/// C10.7: the sizes multiplied from variable 0 on; the place is the variable that passes the limit.
pub fn check_states(file: &File) -> Result<(), Refusal> {
    let mut product = 1;
    for (number, variable) in file.variables.iter().enumerate() {
        product *= variable.size();
        if product > MOST_STATES {
            return Err(Refusal::new(STATES, number));
        }
    }
    Ok(())
}

/// C10.22: the place is the record of the first transition that passes the limit.
pub fn check_picks(file: &File) -> Result<(), Refusal> {
    for transition in &file.transitions {
        if transition.combinations() > MOST_COMBINATIONS {
            return Err(Refusal::new(PICKS, transition.place));
        }
    }
    Ok(())
}
