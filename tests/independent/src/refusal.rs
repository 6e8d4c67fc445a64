//! Refusals: C10.n has the one with number n. 13 to 18 belong to the conditions.

pub const BUFFER: u8 = 1;
pub const LENGTH: u8 = 2;
pub const KIND: u8 = 3;
pub const FIELD: u8 = 4;
pub const LIMIT: u8 = 5;
pub const REPEAT: u8 = 6;
pub const STATES: u8 = 7;
pub const INTERVAL: u8 = 8;
pub const EDGE_RULE: u8 = 9;
pub const NO_DOUBLE: u8 = 10;
pub const CONDITION_NUMBER: u8 = 11;
pub const STATE_NUMBER: u8 = 12;
pub const DIVISOR: u8 = 19;
pub const NO_START: u8 = 20;
pub const PICKS: u8 = 22;

/// A refusal without a condition: its number and its place.
#[derive(Clone, Copy, Debug, PartialEq, Eq)]
pub struct Refusal {
    pub number: u8,
    pub place: u32,
}

impl Refusal {
    pub fn new(number: u8, place: usize) -> Refusal {
        Refusal {
            number,
            place: place as u32,
        }
    }
}
