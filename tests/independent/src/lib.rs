//! The verification diagram checker, written from the specification alone. C1.1 and the like are
//! clauses of docs/SPECIFICATION.md, each cited where it is rendered.
//!
//! Layers, from below: the records and their reading ([`read`]), the evaluating of
//! expressions and transitions, the conditions and their judging ([`check`], [`single`]).

mod conditions;
mod edges;
mod evaluate;
mod file;
mod intervals;
mod limits;
mod parse;
mod records;
mod refusal;
mod report;
mod start;
mod states;

pub use conditions::Condition;
pub use evaluate::{enabled, number, successors, truth};
pub use file::{Assignment, Claim, Edge, File, Number, Pair, Pick, Transition, Truth, Variable};
pub use refusal::Refusal;
pub use report::{Verdict, REPORT_LENGTH};
pub use states::{all as states, State};

use conditions::Obligation;

/// C13.1: a single test's answer.
#[derive(Clone, Copy, Debug, PartialEq, Eq)]
pub enum Tested {
    Holds,
    Fails,
    Refused { number: u8, place: u32 },
}

/// C11.1, C11.6: reads a file. Refusals 2 to 7, 22, 8 to 10 and 20, each tried for the whole file
/// before the next, but 3 to 6 and 19 record by record.
pub fn read(file: &[u8]) -> Result<File, Refusal> {
    records::check_length(file)?;
    let file = parse::parse(file)?;
    limits::check_states(&file)?;
    limits::check_picks(&file)?;
    intervals::check_expressions(&file)?;
    edges::check_rules(&file)?;
    edges::check_doubles(&file)?;
    start::check_start(&file)?;
    Ok(file)
}

/// C12.1: the check. The verdict, and the report in the buffer's first 32 bytes. C10.1, C14.4: with
/// a shorter one nothing is written.
pub fn check(file: &[u8], report: &mut [u8]) -> Verdict {
    if report.len() < REPORT_LENGTH {
        return Verdict::refused(Refusal::new(refusal::BUFFER, 0));
    }
    let verdict = verdict(file);
    report[..REPORT_LENGTH].copy_from_slice(&verdict.bytes());
    verdict
}

/// The check's result where the buffer is long enough.
fn verdict(file: &[u8]) -> Verdict {
    match read(file) {
        Ok(file) => judge(&file),
        Err(refusal) => Verdict::refused(refusal),
    }
}

/// C12.4, C12.5: the lowest broken condition and the lowest state that breaks it. C12.10: the tests
/// are counted as they are made, condition by condition, state by state.
fn judge(file: &File) -> Verdict {
    let conditions = file.conditions();
    let mut tests = 0;
    for (number, condition) in conditions.iter().enumerate() {
        let obligation = Obligation::of(file, *condition);
        for state in states::all(&file.variables) {
            tests += 1;
            if !obligation.holds(&file.variables, &state) {
                return Verdict::broken(*condition, number, state, tests);
            }
        }
    }
    Verdict::accepted(conditions.len(), tests)
}

/// C13.1: the single test of one condition at one state.
pub fn single(file: &[u8], condition: usize, state: usize) -> Tested {
    match test(file, condition, state) {
        Ok(true) => Tested::Holds,
        Ok(false) => Tested::Fails,
        Err(Refusal { number, place }) => Tested::Refused { number, place },
    }
}

/// C13.2, C13.3: refusals 2 to 10, 19, 20 and 22, then C10.11, then C10.12; else whether the
/// condition holds.
fn test(file: &[u8], condition: usize, state: usize) -> Result<bool, Refusal> {
    let file = read(file)?;
    let conditions = file.conditions();
    let condition = conditions
        .get(condition)
        .ok_or(Refusal::new(refusal::CONDITION_NUMBER, 0))?;
    if state >= file.states() {
        return Err(Refusal::new(refusal::STATE_NUMBER, 0));
    }
    let state = states::numbered(&file.variables, state);
    Ok(Obligation::of(&file, *condition).holds(&file.variables, &state))
}
