//! C1.1: a file is records of 8 bytes; refusal 2.

use crate::refusal::{Refusal, LENGTH};

pub const RECORD_LENGTH: usize = 8;
pub const MOST_BYTES: usize = 32_768;

pub const VARIABLE: u8 = 0x01;
pub const START: u8 = 0x02;
pub const TRANSITION: u8 = 0x03;
pub const ASSIGNMENT: u8 = 0x04;
pub const PROPERTY: u8 = 0x05;
pub const NODE: u8 = 0x06;
pub const EDGE: u8 = 0x07;
pub const PICK: u8 = 0x08;

pub const CONSTANT: u8 = 0x10;
pub const VALUE: u8 = 0x11;
pub const SUM: u8 = 0x12;
pub const DIFFERENCE: u8 = 0x13;
pub const PRODUCT: u8 = 0x14;
pub const INDICATOR: u8 = 0x15;
pub const QUOTIENT: u8 = 0x18;
pub const REMAINDER: u8 = 0x19;

pub const TRUE: u8 = 0x20;
pub const FALSE: u8 = 0x21;
pub const NOT: u8 = 0x22;
pub const AND: u8 = 0x23;
pub const OR: u8 = 0x24;
pub const IMPLIES: u8 = 0x25;
pub const IFF: u8 = 0x26;
pub const EQUAL: u8 = 0x27;
pub const LESS: u8 = 0x28;
pub const AT_MOST: u8 = 0x29;

/// The fields that may have a meaning; byte 7 never has one.
#[derive(Clone, Copy, PartialEq, Eq)]
pub enum Field {
    A,
    B,
    C,
    D,
}

/// C1.2: one record, decoded.
#[derive(Clone, Copy)]
pub struct Record {
    pub kind: u8,
    pub a: u8,
    pub b: i16,
    pub c: i16,
    pub d: u8,
    pub last: u8,
}

impl Record {
    /// C1.2, C1.3: the record of that number, if the file has it.
    pub fn at(file: &[u8], number: usize) -> Option<Record> {
        let bytes = file.chunks_exact(RECORD_LENGTH).nth(number)?;
        Some(Record {
            kind: bytes[0],
            a: bytes[1],
            b: i16::from_le_bytes([bytes[2], bytes[3]]),
            c: i16::from_le_bytes([bytes[4], bytes[5]]),
            d: bytes[6],
            last: bytes[7],
        })
    }

    /// C1.4: all other fields are zero, byte 7 always.
    pub fn zero_except(&self, named: &[Field]) -> bool {
        let fields = [
            (Field::A, self.a == 0),
            (Field::B, self.b == 0),
            (Field::C, self.c == 0),
            (Field::D, self.d == 0),
        ];
        let unnamed_zero = |(field, zero): &(Field, bool)| *zero || named.contains(field);
        fields.iter().all(unnamed_zero) && self.last == 0
    }
}

/// C10.2: whole records, and at most 4,096 of them.
pub fn check_length(file: &[u8]) -> Result<(), Refusal> {
    let whole = file.chunks_exact(RECORD_LENGTH).remainder().is_empty();
    let short = file.len() <= MOST_BYTES;
    if whole && short {
        Ok(())
    } else {
        Err(Refusal::new(LENGTH, 0))
    }
}
