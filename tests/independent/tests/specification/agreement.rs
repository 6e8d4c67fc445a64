//! The check against the single test, over changed examples: the lowest broken condition and its
//! lowest breaking state, or all hold; and the tests that this takes.

use crate::builder::{count, verdict, Bytes};
use crate::division::{by_pairs, going_round};
use crate::examples::*;
use crate::picks::{bits, falling, meeting, wide};
use independent::{check, read, single, Tested, Verdict};

/// x := 1664525 x + 1013904223, low 32 bits; the upper ones are handed out.
pub struct Random(pub u32);

impl Random {
    fn below(&mut self, bound: usize) -> usize {
        self.0 = self.0.wrapping_mul(1_664_525).wrapping_add(1_013_904_223);
        (self.0 >> 8) as usize % bound
    }
}

pub fn examples() -> Vec<Bytes> {
    let small = [a(), b(), c(), d(), e(), f(), g(), h(), i(), j()];
    let divided = [going_round(), by_pairs()];
    let picked = [bits(), meeting(), falling(), wide()];
    [&small[..], &divided, &picked].concat()
}

/// A few small changes: bytes set, records doubled, dropped or taken from elsewhere.
pub fn changed(mut file: Bytes, random: &mut Random) -> Bytes {
    for _ in 0..=random.below(3) {
        let records = count(&file) as usize;
        let at = 8 * random.below(records);
        let from = 8 * random.below(records);
        let source = file[from..from + 8].to_vec();
        match random.below(8) {
            0 => file[at + random.below(8)] = random.below(256) as u8,
            1 => drop(file.drain(at..at + 8)),
            2 => drop(file.splice(at..at, source)),
            3 => file[at..at + 8].copy_from_slice(&source),
            4 => file[at] = [0x20, 0x23, 0x24, 0x25, 0x26, 0x27, 0x28, 0x29][random.below(8)],
            5 => file[at + 2] = random.below(4) as u8,
            6 => file[at + 1] = random.below(4) as u8,
            _ => file[at + 6] ^= 1,
        }
        if file.is_empty() {
            break;
        }
    }
    file
}

/// What the single tests say that the check must give.
fn by_single_tests(bytes: &[u8]) -> Verdict {
    let none = Verdict {
        number: 0,
        node: 255,
        transition: 255,
        at: 0,
        values: [0; 12],
        tests: 0,
    };
    let file = match read(bytes) {
        Ok(file) => file,
        Err(refusal) => {
            return Verdict {
                number: refusal.number,
                at: refusal.place,
                ..none
            }
        }
    };
    let conditions = file.conditions();
    for (at, condition) in conditions.iter().enumerate() {
        for state in 0..file.states() {
            if single(bytes, at, state) == Tested::Fails {
                return Verdict {
                    number: condition.number(),
                    node: condition.node().map_or(255, |node| node as u8),
                    transition: condition.transition().map_or(255, |number| number as u8),
                    at: at as u32,
                    values: values(&file, state),
                    tests: (at * file.states() + state + 1) as u64,
                };
            }
        }
    }
    Verdict {
        at: conditions.len() as u32,
        tests: (conditions.len() * file.states()) as u64,
        ..none
    }
}

fn values(file: &independent::File, mut number: usize) -> [i16; 12] {
    let mut values = [0; 12];
    for at in (0..file.variables.len()).rev() {
        let size = file.variables[at].size();
        values[at] = (i64::from(file.variables[at].low) + (number % size) as i64) as i16;
        number /= size;
    }
    values
}

/// C12.3, C12.4, C12.5, C12.7, C12.9, C12.10, C13.3; C4.6: the check counts up, the single test
/// takes the state by its number.
#[test]
fn the_check_agrees_with_the_single_tests() {
    let mut random = Random(1);
    let (files, mut seen) = (examples(), [0; 23]);
    for round in 0..20_000 {
        let file = changed(files[round % files.len()].clone(), &mut random);
        if read(&file).map_or(false, |file| file.states() > 500) {
            continue;
        }
        let verdict = verdict(&file);
        assert_eq!(verdict, by_single_tests(&file));
        seen[usize::from(verdict.number)] += 1;
    }
    for number in [0, 3, 4, 6, 9, 10, 13, 14, 15, 16, 17, 18, 19, 20, 22] {
        assert!(seen[number] > 0, "{number} not seen: {seen:?}");
    }
}

/// C12.8, C11.7; C10.1, C14.4: a short buffer is refused first, and left alone.
#[test]
fn any_bytes_are_answered() {
    let mut random = Random(7);
    for round in 0..2_000 {
        let length = random.below(if round % 100 == 0 { 100_000 } else { 400 });
        let file: Bytes = (0..length).map(|_| random.below(256) as u8).collect();
        let mut report = vec![0x33; random.below(50)];
        let before = report.clone();
        let verdict = check(&file, &mut report);
        if before.len() < 32 {
            assert_eq!((verdict.number, report), (1, before));
            assert_eq!(verdict.tests, 0);
        } else {
            assert!((2..=4).contains(&verdict.number) && verdict.at <= 4096);
            assert_eq!((report[0], verdict.tests), (verdict.number, 0));
        }
        assert!(matches!(
            single(&file, round, round),
            Tested::Refused { .. }
        ));
    }
}
