//! The starting states; refusal 20.

use crate::evaluate::truth;
use crate::file::File;
use crate::refusal::{Refusal, NO_START};
use crate::states;

/// C6.3, C10.20: in one state at least the start is true, whatever the file claims. C12.7: to look
/// for it takes no tests of a condition.
pub fn check_start(file: &File) -> Result<(), Refusal> {
    let mut states = states::all(&file.variables);
    if states.any(|state| truth(&file.start, &state)) {
        Ok(())
    } else {
        Err(Refusal::new(NO_START, 0))
    }
}
