//! A file with what is asked about it, and what the two checkers answer.

use crate::generate::{self, plain, Random};
use independent::{Claim, Condition, File, Refusal, Tested, Verdict};

/// The whole check is compared on files with at most this many tests: conditions times states.
const TESTS: usize = 100_000;
/// And with at most this many successors to look at.
const SUCCESSORS: usize = 100_000;

/// How a file is read by the independent implementation.
pub struct Facts {
    pub reading: Result<File, Refusal>,
    /// What a file refused with 20 would be if its start were true.
    pub started: Option<File>,
    /// None in an unreadable file, as are the states; but those of the started one where there is.
    pub conditions: Vec<Condition>,
    pub states: usize,
}

impl Facts {
    pub fn of(file: &[u8]) -> Facts {
        let reading = independent::read(file);
        let started = match &reading {
            Err(Refusal { number: 20, .. }) => {
                let records = generate::with_start(&generate::records(file), &[plain(0x20)]);
                independent::read(&records.concat()).ok()
            }
            _ => None,
        };
        let (conditions, states) = match reading.as_ref().ok().or(started.as_ref()) {
            Some(file) => (file.conditions(), file.states()),
            None => (Vec::new(), 0),
        };
        Facts {
            reading,
            started,
            conditions,
            states,
        }
    }

    /// None in an unreadable file.
    pub fn tests(&self) -> usize {
        match &self.reading {
            Ok(_) => self.conditions.len().saturating_mul(self.states),
            Err(_) => 0,
        }
    }

    /// At most so many successors are looked at in the check: for each step condition and state as
    /// many as its transition has combinations.
    fn successors(&self) -> usize {
        let transitions = match &self.reading {
            Ok(file) => &file.transitions,
            Err(_) => return 0,
        };
        let combinations = |condition: &Condition| match *condition {
            Condition::Step { transition, .. } => transitions[transition].combinations(),
            _ => 0,
        };
        let combinations: usize = self.conditions.iter().map(combinations).sum();
        combinations.saturating_mul(self.states)
    }

    /// Whether the whole check takes little time.
    pub fn short(&self) -> bool {
        self.tests() <= TESTS && self.successors() <= SUCCESSORS
    }

    /// The property's a; 0 in an unreadable file, but for one refused with 20.
    pub fn property(&self) -> usize {
        match self.reading.as_ref().ok().or(self.started.as_ref()) {
            Some(file) => match file.claim {
                Claim::Invariance { .. } => 1,
                Claim::WaitFor { .. } => 2,
                Claim::Chain { .. } => 3,
            },
            None => 0,
        }
    }
}

/// A file and what is asked about it.
#[derive(Clone)]
pub struct Case {
    pub file: Vec<u8>,
    /// The report buffer, and behind it bytes that must stay as they are.
    pub bytes: Vec<u8>,
    pub room: usize,
    /// Whether the check is asked for.
    pub check: bool,
    /// Conditions and states of single tests.
    pub singles: Vec<(usize, usize)>,
}

#[derive(Debug, PartialEq)]
pub struct Answers {
    /// The verdict, and the bytes afterwards.
    pub check: Option<(Verdict, Vec<u8>)>,
    pub singles: Vec<Tested>,
}

impl Case {
    /// Asks for a check with a random buffer, unless it takes too long, and for single tests.
    pub fn random(random: &mut Random, file: Vec<u8>, facts: &Facts) -> Case {
        let (bytes, room) = generate::buffer(random);
        let count = match facts.tests() {
            0 if facts.started.is_none() || facts.states > TESTS => 1,
            _ if facts.short() => 3,
            _ => 8,
        };
        let single = |_| {
            let condition = generate::number(random, facts.conditions.len());
            (condition, generate::number(random, facts.states))
        };
        Case {
            file,
            bytes,
            room,
            check: room < 32 || facts.short(),
            singles: (0..count).map(single).collect(),
        }
    }

    pub fn independent(&self) -> Answers {
        Answers {
            check: self.checked(independent::check),
            singles: self.tested(independent::single),
        }
    }

    pub fn proved(&self) -> Answers {
        Answers {
            check: self.checked(proved_check),
            singles: self.tested(proved_single),
        }
    }

    pub fn checked(&self, check: fn(&[u8], &mut [u8]) -> Verdict) -> Option<(Verdict, Vec<u8>)> {
        self.check.then(|| {
            let mut bytes = self.bytes.clone();
            let verdict = check(&self.file, &mut bytes[..self.room]);
            (verdict, bytes)
        })
    }

    pub fn tested(&self, single: fn(&[u8], usize, usize) -> Tested) -> Vec<Tested> {
        let singles = self.singles.iter();
        let tested = singles.map(|&(condition, state)| single(&self.file, condition, state));
        tested.collect()
    }

    pub fn differs(&self) -> bool {
        self.proved() != self.independent()
    }
}

/// The proved check, its result in the other's type.
pub fn proved_check(file: &[u8], report: &mut [u8]) -> Verdict {
    let verdict = vd::check_into(file, report);
    Verdict {
        number: verdict.number,
        node: verdict.node,
        transition: verdict.transition,
        at: verdict.at,
        values: verdict.values,
        tests: verdict.tests,
    }
}

/// The proved single test, likewise.
pub fn proved_single(file: &[u8], condition: usize, state: usize) -> Tested {
    match vd::single(file, condition, state) {
        Ok(true) => Tested::Holds,
        Ok(false) => Tested::Fails,
        Err(vd::Refusal { number, place }) => Tested::Refused { number, place },
    }
}
