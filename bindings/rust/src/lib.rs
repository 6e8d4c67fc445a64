//! The verification diagram checker for Rust: a file of 8-byte records, with a transition system, a claim about it and a diagram, is accepted
//! exactly if a state satisfies its start and every verification condition of the diagram is true at every state; then what the file claims is true
//! of every run, and there is one from a starting state. The code behind these functions is proved in Rattle; this crate only lends it slices. It
//! needs little stack: 45 KiB at most, as measured, so a thread with 64 KiB is enough.
//!
//! C12.1 and the like are clauses of docs/SPECIFICATION.md, which the examples would see broken. A system with one variable in 0..2 that counts up,
//! and the claim that it stays at most 2:
//!
//! ```
//! use vd::Outcome;
//!
//! let mut file = Vec::new();
//! for [kind, a, b, c] in [
//!     [0x01, 0, 0, 2],                                                    // variable 0, range 0..2
//!     [0x02, 0, 0, 0], [0x27, 0, 0, 0], [0x11, 0, 0, 0], [0x10, 0, 0, 0], // start: it is 0
//!     [0x03, 0, 0, 0], [0x28, 0, 0, 0], [0x11, 0, 0, 0], [0x10, 0, 2, 0], // a transition where it is less than 2:
//!     [0x04, 0, 0, 0], [0x12, 0, 0, 0], [0x11, 0, 0, 0], [0x10, 0, 1, 0], // it becomes the sum of it and 1
//!     [0x05, 1, 0, 0], [0x29, 0, 0, 0], [0x11, 0, 0, 0], [0x10, 0, 2, 0], // invariance: it is at most 2
//!     [0x06, 0, 0, 0], [0x29, 0, 0, 0], [0x11, 0, 0, 0], [0x10, 0, 1, 0], // node 0: it is at most 1
//! ] {
//!     file.extend([kind, a, b, 0, c, 0, 0, 0]);
//! }
//!
//! // C12.3, C13.3, C13.4: the step from 1 leads out of node 0.
//! let verdict = vd::check(&file);
//! match verdict.outcome() {
//!     Outcome::Broken { number: 17, condition: 3, node: Some(0), transition: Some(0), state } => assert_eq!(state[0], 1),
//!     _ => panic!("{verdict}"),
//! }
//! assert_eq!(vd::single(&file, 3, 1), Ok(false));
//!
//! // C12.7, the tests up to there: conditions 0 to 2 at all three states, condition 3 at states 0 and 1.
//! assert_eq!(verdict.tests, 11);
//!
//! // C12.2: with the node "at most 2" all four conditions are true.
//! let last = file.len() - 8;
//! file[last + 2] = 2;
//! let verdict = vd::check(&file);
//! assert_eq!(verdict.outcome(), Outcome::Accepted { conditions: 4 });
//! assert_eq!(verdict.to_string(), "accepted: all 4 conditions are true at every state, 12 tests");
//! ```

use std::fmt;

/// The bytes of a report.
pub const REPORT: usize = 32;

/// C12.1, the check's answer: the fields of the report, and the tests.
#[repr(C)]
#[derive(Clone, Copy, Debug, PartialEq, Eq)]
pub struct Verdict {
    /// 0 for an accepted file, else the refusal's number.
    pub number: u8,
    /// The broken condition's node, 255 for none.
    pub node: u8,
    /// The broken condition's transition, 255 for none.
    pub transition: u8,
    /// The broken condition, the refusal's place, or for 0 how many conditions there are.
    pub at: u32,
    /// The lowest-numbered state that breaks the condition, zeros where it has no variable; without a condition all are zero.
    pub values: [i16; 12],
    /// How many tests of a condition at a state the check's definition makes, condition by condition, state by state: conditions times states for
    /// 0; up to the state named, with it, for a broken condition; 0 where no condition is tested.
    pub tests: u64,
}

/// What a verdict says.
#[derive(Clone, Copy, Debug, PartialEq, Eq)]
pub enum Outcome {
    /// Every condition is true at every state, and there is a starting state.
    Accepted { conditions: u32 },
    /// The lowest broken condition, with the lowest-numbered state that breaks it. The number tells its kind: 13 start, 14 entry, 15 cover,
    /// 16 range, 17 step, 18 enabling.
    Broken {
        number: u8,
        condition: u32,
        node: Option<u8>,
        transition: Option<u8>,
        state: [i16; 12],
    },
    /// The file, or the report's buffer, is refused.
    Refused(Refusal),
}

/// A refusal before any condition, 1 to 12, 19, 20 or 22, with its number and its place: a record, a variable or a node, by the number.
#[derive(Clone, Copy, Debug, PartialEq, Eq)]
pub struct Refusal {
    pub number: u8,
    pub place: u32,
}

#[repr(C)]
struct Tested {
    number: usize,
    place: usize,
    holds: bool,
}

extern "C" {
    fn vd_check(file: *const u8, length: usize, report: *mut u8, room: usize) -> Verdict;
    fn vd_single(file: *const u8, length: usize, condition: usize, state: usize) -> Tested;
}

/// Checks a file.
pub fn check(file: &[u8]) -> Verdict {
    check_into(file, &mut [0; REPORT])
}

/// Checks a file, and writes the report to the first 32 bytes of the buffer. A shorter buffer stays as it is, and the number is 1: C10.1, C12.7,
/// C14.1.
///
/// ```
/// let mut report = [0xff; vd::REPORT];
/// let verdict = vd::check_into(&[], &mut report);
/// assert_eq!((verdict.number, verdict.at, verdict.tests), (3, 0, 0));
/// assert_eq!(report[..4], [3, 255, 255, 0]);
/// let verdict = vd::check_into(&[], &mut report[..31]);
/// assert_eq!((verdict.number, verdict.at, verdict.tests), (1, 0, 0));
/// ```
pub fn check_into(file: &[u8], report: &mut [u8]) -> Verdict {
    // SAFETY: pointers and lengths are those of two slices; the library reads the first and writes to the second, which nothing else refers to.
    unsafe { vd_check(file.as_ptr(), file.len(), report.as_mut_ptr(), report.len()) }
}

/// Tests one condition at one state, by their numbers: whether it holds there, or the refusal (C13.4).
///
/// ```
/// assert_eq!(vd::single(&[0; 7], 0, 0), Err(vd::Refusal { number: 2, place: 0 }));
///
/// // C10.19, a number above 12 that names no condition: a variable, and a start with a remainder by 0.
/// let mut file = Vec::new();
/// for kind in [0x01, 0x02, 0x27, 0x19, 0x11, 0x10] {
///     file.extend([kind, 0, 0, 0, 0, 0, 0, 0]);
/// }
/// let refusal = vd::single(&file, 0, 0).unwrap_err();
/// assert_eq!(refusal.to_string(), "refused with 19: the divisor of a quotient or remainder is not a constant above 0 (record 5)");
/// assert_eq!(vd::check(&file).outcome(), vd::Outcome::Refused(refusal));
///
/// // C10.20, C12.7, likewise: a variable, a start that is false, an invariance of true and a node true.
/// let mut file = Vec::new();
/// for [kind, a] in [[0x01, 0], [0x02, 0], [0x21, 0], [0x05, 1], [0x20, 0], [0x06, 0], [0x20, 0]] {
///     file.extend([kind, a, 0, 0, 0, 0, 0, 0]);
/// }
/// let refusal = vd::single(&file, 0, 0).unwrap_err();
/// assert_eq!(refusal.to_string(), "refused with 20: no state satisfies the start");
/// assert_eq!(vd::check(&file).outcome(), vd::Outcome::Refused(refusal));
/// assert_eq!(vd::check(&file).tests, 0);
///
/// // C10.22, likewise: a variable in 0..4096, a start that is true, and a transition that picks any of its values.
/// let mut file = Vec::new();
/// for [kind, a, high] in [
///     [0x01, 0, 16], [0x02, 0, 0], [0x20, 0, 0], [0x03, 0, 0], [0x20, 0, 0], [0x08, 0, 16], [0x05, 1, 0], [0x20, 0, 0], [0x06, 0, 0],
///     [0x20, 0, 0],
/// ] {
///     file.extend([kind, a, 0, 0, 0, high, 0, 0]);
/// }
/// let refusal = vd::single(&file, 0, 0).unwrap_err();
/// assert_eq!(refusal.to_string(), "refused with 22: a transition has more than 4,096 combinations of picks (record 3)");
/// assert_eq!(vd::check(&file).outcome(), vd::Outcome::Refused(refusal));
///
/// // C5.3, C8.11: any of 1..4096 are few enough, and the node, true, allows each.
/// file[5 * 8 + 2] = 1;
/// assert_eq!(vd::check(&file).outcome(), vd::Outcome::Accepted { conditions: 4 });
/// ```
pub fn single(file: &[u8], condition: usize, state: usize) -> Result<bool, Refusal> {
    // SAFETY: pointer and length are those of a slice, which the library only reads.
    let tested = unsafe { vd_single(file.as_ptr(), file.len(), condition, state) };
    match tested.number {
        0 => Ok(tested.holds),
        // The numbers end at 22, and a place is at most a record count: a file of over 32,768 bytes has place 0.
        number => Err(Refusal {
            number: number as u8,
            place: tested.place as u32,
        }),
    }
}

impl Verdict {
    pub fn outcome(&self) -> Outcome {
        let named = |number: u8| (number != 255).then_some(number);
        match self.number {
            0 => Outcome::Accepted {
                conditions: self.at,
            },
            13..=18 => Outcome::Broken {
                number: self.number,
                condition: self.at,
                node: named(self.node),
                transition: named(self.transition),
                state: self.values,
            },
            number => Outcome::Refused(Refusal {
                number,
                place: self.at,
            }),
        }
    }
}

impl fmt::Display for Verdict {
    fn fmt(&self, f: &mut fmt::Formatter) -> fmt::Result {
        self.outcome().fmt(f)?;
        match self.tests {
            0 => Ok(()),
            1 => write!(f, ", 1 test"),
            tests => write!(f, ", {tests} tests"),
        }
    }
}

impl fmt::Display for Outcome {
    fn fmt(&self, f: &mut fmt::Formatter) -> fmt::Result {
        match self {
            Outcome::Accepted { conditions } => write!(
                f,
                "accepted: all {conditions} conditions are true at every state"
            ),
            Outcome::Refused(refusal) => refusal.fmt(f),
            Outcome::Broken {
                number,
                condition,
                node,
                transition,
                state,
            } => {
                write!(f, "condition {condition} is broken: {}", meaning(*number))?;
                if let Some(node) = node {
                    write!(f, ", node {node}")?;
                }
                if let Some(transition) = transition {
                    write!(f, ", transition {transition}")?;
                }
                write!(f, ", at the state {state:?}")
            }
        }
    }
}

impl fmt::Display for Refusal {
    fn fmt(&self, f: &mut fmt::Formatter) -> fmt::Result {
        write!(f, "refused with {}: {}", self.number, meaning(self.number))?;
        match self.number {
            3..=6 | 8 | 9 | 19 | 22 => write!(f, " (record {})", self.place),
            7 => write!(f, " (variable {})", self.place),
            10 => write!(f, " (node {})", self.place),
            _ => Ok(()),
        }
    }
}

impl std::error::Error for Refusal {}

/// What a number of refusal means.
pub fn meaning(number: u8) -> &'static str {
    match number {
        0 => "accepted",
        1 => "the report buffer has fewer than 32 bytes",
        2 => "the file is longer than 32,768 bytes, or not a whole number of records",
        3 => "a record has a kind that cannot stand there, or the file ends where a record must stand",
        4 => "a field has a value that its kind does not allow, or names nothing in the file",
        5 => "there is one too many of the variables, transitions, nodes, edges or levels",
        6 => "a transition sets a variable twice, or an edge is there twice",
        7 => "there are more than 1,048,576 states",
        8 => "the interval of a number leaves -1,000,000..1,000,000",
        9 => "an edge is not allowed, by itself or with edges before it",
        10 => "a node of a chain has no double edge",
        11 => "there is no condition of that number",
        12 => "there is no state of that number",
        13 => "start",
        14 => "entry",
        15 => "cover",
        16 => "range",
        17 => "step",
        18 => "enabling",
        19 => "the divisor of a quotient or remainder is not a constant above 0",
        20 => "no state satisfies the start",
        22 => "a transition has more than 4,096 combinations of picks",
        _ => "no number of refusal",
    }
}
