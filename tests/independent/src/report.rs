//! The verdict and its report of 32 bytes.

use crate::conditions::Condition;
use crate::refusal::Refusal;
use crate::states::State;

pub const REPORT_LENGTH: usize = 32;

const ACCEPTED: u8 = 0;
/// C12.6: node and transition where there is none.
const NONE: u8 = 255;

/// C12.1: the check's answer.
#[derive(Clone, Copy, Debug, PartialEq, Eq)]
pub struct Verdict {
    pub number: u8,
    pub node: u8,
    pub transition: u8,
    pub at: u32,
    pub values: [i16; 12],
    /// C12.7: how many tests of a condition at a state were made; not in the report.
    pub tests: u64,
}

impl Verdict {
    /// C12.6: a verdict that names no condition.
    fn unnamed(number: u8, at: u32, tests: u64) -> Verdict {
        Verdict {
            number,
            node: NONE,
            transition: NONE,
            at,
            values: [0; 12],
            tests,
        }
    }

    /// C12.2.
    pub fn accepted(total: usize, tests: u64) -> Verdict {
        Verdict::unnamed(ACCEPTED, total as u32, tests)
    }

    /// C12.6, C12.7: at is the place, and no test was made.
    pub fn refused(refusal: Refusal) -> Verdict {
        Verdict::unnamed(refusal.number, refusal.place, 0)
    }

    /// C12.3: the condition of that number is broken at the state.
    pub fn broken(condition: Condition, number: usize, state: State, tests: u64) -> Verdict {
        Verdict {
            number: condition.number(),
            node: byte(condition.node()),
            transition: byte(condition.transition()),
            at: number as u32,
            values: state,
            tests,
        }
    }

    /// C14.1, C14.2, C14.3: the report.
    pub fn bytes(&self) -> [u8; REPORT_LENGTH] {
        let mut report = [0; REPORT_LENGTH];
        report[0] = self.number;
        report[1] = self.node;
        report[2] = self.transition;
        report[4..8].copy_from_slice(&self.at.to_le_bytes());
        for (bytes, value) in report[8..].chunks_exact_mut(2).zip(self.values) {
            bytes.copy_from_slice(&value.to_le_bytes());
        }
        report
    }
}

fn byte(number: Option<usize>) -> u8 {
    number.map_or(NONE, |number| number as u8)
}
