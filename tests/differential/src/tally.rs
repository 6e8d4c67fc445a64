//! What came up in the compared files.

use crate::compare::{Answers, Case, Facts};
use crate::generate;
use crate::situations::picks::{self, PICKED, PICKS, SINGLES};
use crate::situations::{self, BREAKING, SITUATIONS, STARTLESS, UNNAMED};
use independent::Tested;
use std::collections::HashSet;

/// Coverage is asserted of runs with at least so many random files.
pub const FILES: u64 = 200_000;
/// Every answer must come up this often in that many files.
const OFTEN: u64 = 100;
/// Every situation must.
const SELDOM: u64 = 10;

/// The verdicts' numbers are 0 to 20 and 22.
const NUMBERS: usize = 23;
const PROPERTIES: [&str; 4] = ["none", "invariance", "wait-for", "chain"];
/// The numbers of broken conditions, with the properties that have such conditions.
const CONDITIONS: [(usize, &str, &[usize]); 6] = [
    (13, "start", &[1]),
    (14, "entry", &[2, 3]),
    (15, "cover", &[1, 2, 3]),
    (16, "range", &[1, 2, 3]),
    (17, "step", &[1, 2, 3]),
    (18, "enabling", &[3]),
];
/// Numbers given to a single test.
const EDGES: [&str; 5] = ["0", "the last", "one past", "the greatest usize", "2^32 up"];

pub struct Tally {
    /// Checks by number and property; 0 for the property of an unreadable file, but for number 20,
    /// and for number 1.
    checks: [[u64; 4]; NUMBERS],
    /// The places of refusals by number.
    places: Vec<HashSet<u32>>,
    /// Checks by the buffer's length.
    rooms: [u64; 65],
    /// Single tests that are refused, by number.
    refused: [u64; NUMBERS],
    /// Single tests that fail and that hold, by number and property of the condition.
    tested: [[[u64; 4]; NUMBERS]; 2],
    /// Conditions and states of single tests of readable files.
    edges: [[u64; 5]; 2],
    situations: [u64; SITUATIONS.len()],
    unnamed: [u64; UNNAMED.len()],
    /// By the number of the broken condition.
    breaking: [[u64; BREAKING.len()]; NUMBERS],
    /// Single tests refused with 20, by property.
    startless: [[u64; STARTLESS.len()]; 4],
    picks: [u64; PICKS.len()],
    /// Verdicts about files with picks, by property.
    picked: [[u64; PICKED.len()]; 4],
    singles: [u64; SINGLES.len()],
    /// Readable files that have too many tests for the whole check.
    singles_only: u64,
}

impl Default for Tally {
    fn default() -> Tally {
        Tally {
            checks: [[0; 4]; NUMBERS],
            places: vec![HashSet::new(); NUMBERS],
            rooms: [0; 65],
            refused: [0; NUMBERS],
            tested: [[[0; 4]; NUMBERS]; 2],
            edges: [[0; 5]; 2],
            situations: [0; SITUATIONS.len()],
            unnamed: [0; UNNAMED.len()],
            breaking: [[0; BREAKING.len()]; NUMBERS],
            startless: [[0; STARTLESS.len()]; 4],
            picks: [0; PICKS.len()],
            picked: [[0; PICKED.len()]; 4],
            singles: [0; SINGLES.len()],
            singles_only: 0,
        }
    }
}

impl Tally {
    pub fn count(&mut self, case: &Case, facts: &Facts, answers: &Answers) {
        let property = facts.property();
        match &answers.check {
            Some((verdict, _)) => {
                let property = if verdict.number == 1 { 0 } else { property };
                let number = usize::from(verdict.number);
                self.checks[number][property] += 1;
                self.places[number].insert(verdict.at);
                self.rooms[case.room] += 1;
                match &facts.reading {
                    Ok(file) if number >= 13 => {
                        let found = situations::breaking(case, file, verdict, &answers.singles);
                        add(&mut self.breaking[number], &BREAKING, found);
                    }
                    _ => {
                        let found = situations::unnamed(case, facts, verdict);
                        add(&mut self.unnamed, &UNNAMED, found);
                    }
                }
            }
            None => self.singles_only += 1,
        }
        for (&(condition, state), tested) in case.singles.iter().zip(&answers.singles) {
            match tested {
                Tested::Refused { number, .. } => self.refused[usize::from(*number)] += 1,
                Tested::Fails | Tested::Holds => {
                    let counts = &mut self.tested[usize::from(*tested == Tested::Holds)];
                    let number = facts.conditions[condition].number();
                    counts[usize::from(number)][property] += 1;
                }
            }
            if facts.reading.is_ok() {
                edge(&mut self.edges[0], condition, facts.conditions.len());
                edge(&mut self.edges[1], state, facts.states);
            }
        }
        let found = situations::startless(case, facts);
        add(&mut self.startless[property], &STARTLESS, found);
        let found = situations::of(&case.file, facts);
        add(&mut self.situations, &SITUATIONS, found);
        self.count_picks(case, facts, answers);
    }

    fn count_picks(&mut self, case: &Case, facts: &Facts, answers: &Answers) {
        let found = picks::of(&generate::records(&case.file), facts);
        add(&mut self.picks, &PICKS, found);
        let file = match &facts.reading {
            Ok(file) => file,
            Err(_) => return,
        };
        if let Some((verdict, _)) = &answers.check {
            let found = picks::checked(file, facts, verdict);
            let names = PICKED.map(|(name, _)| name);
            add(&mut self.picked[facts.property()], &names, found);
        }
        let found = picks::tested(case, file, facts, &answers.singles);
        add(&mut self.singles, &SINGLES, found);
    }

    /// What must have come up so often.
    pub fn tests(&self, files: u64) -> Vec<(String, bool)> {
        let [often, seldom] = [OFTEN, SELDOM].map(|least| least * files / FILES);
        let mut tests = Vec::new();
        let mut least = |name: String, count: u64, least: u64| {
            let name = format!("{name}: {count}, at least {least}");
            tests.push((name, count >= least));
        };
        for number in (0..=10).chain(13..=20).chain([22]) {
            let count = self.checks[number].iter().sum();
            least(format!("checks of number {number}"), count, often);
        }
        for number in (2..=12).chain([19, 20, 22]) {
            let name = format!("single tests of number {number}");
            least(name, self.refused[number], often);
        }
        for (property, name) in PROPERTIES.iter().enumerate().skip(1) {
            let count = self.checks[0][property];
            least(format!("accepted, {name}"), count, often);
            let count = self.checks[20][property];
            least(format!("no start, {name}"), count, often);
            for (&count, what) in self.startless[property].iter().zip(STARTLESS) {
                least(
                    format!("no start, {name}: single tests {what}"),
                    count,
                    often,
                );
            }
        }
        for (number, condition, properties) in CONDITIONS {
            for &property in properties {
                let name = format!("{condition}, {}", PROPERTIES[property]);
                let broken = self.checks[number][property];
                least(format!("{name}: broken"), broken, often);
                for (counts, what) in self.tested.iter().zip(["fails", "holds"]) {
                    let count = counts[number][property];
                    least(format!("{name}: {what} in single tests"), count, often);
                }
            }
        }
        for (room, &count) in self.rooms.iter().enumerate() {
            least(format!("buffers of {room} bytes"), count, often);
        }
        for (counts, of) in self.edges.iter().zip(["condition", "state"]) {
            for (&count, number) in counts.iter().zip(EDGES) {
                let name = format!("single tests of {of} number {number}");
                least(name, count, often);
            }
        }
        for (&count, name) in self.situations.iter().zip(SITUATIONS) {
            least(name.to_string(), count, seldom);
        }
        for (&count, name) in self.unnamed.iter().zip(UNNAMED) {
            least(name.to_string(), count, often);
        }
        for (number, condition, _) in CONDITIONS {
            for (&count, state) in self.breaking[number].iter().zip(BREAKING) {
                least(format!("{condition} broken {state}"), count, seldom);
            }
        }
        for (&count, name) in self.picks.iter().zip(PICKS) {
            least(name.to_string(), count, seldom);
        }
        for (at, (name, properties)) in PICKED.iter().enumerate() {
            for &property in *properties {
                let count = self.picked[property][at];
                least(format!("{name}, {}", PROPERTIES[property]), count, seldom);
            }
        }
        for (&count, name) in self.singles.iter().zip(SINGLES) {
            least(format!("single tests of {name}"), count, seldom);
        }
        least("single tests only".to_string(), self.singles_only, often);
        tests
    }

    pub fn print(&self) {
        println!("number    none  invariance  wait-for   chain   places");
        for (number, counts) in self.checks.iter().enumerate() {
            let [none, invariance, wait_for, chain] = counts;
            let places = self.places[number].len();
            if counts.iter().sum::<u64>() > 0 {
                println!("{number:6} {none:7} {invariance:11} {wait_for:9} {chain:7} {places:8}");
            }
        }
        println!(
            "in {} files more the check is left out, for its many tests",
            self.singles_only
        );
        println!("single tests, refused");
        for (number, &count) in self.refused.iter().enumerate() {
            if count > 0 {
                println!("{number:6} {count:7}");
            }
        }
        for (counts, what) in self.tested.iter().zip(["fail", "hold"]) {
            println!("that {what}         invariance  wait-for   chain");
            for (number, _, _) in CONDITIONS {
                let [_, invariance, wait_for, chain] = counts[number];
                println!("{number:6} {invariance:19} {wait_for:9} {chain:7}");
            }
        }
        for (count, name) in self.unnamed.iter().zip(UNNAMED) {
            println!("{count:6} {name}");
        }
        println!("no start            invariance  wait-for   chain  single tests");
        for (at, what) in STARTLESS.iter().enumerate() {
            let [_, invariance, wait_for, chain] = self.startless.map(|counts| counts[at]);
            println!("{invariance:30} {wait_for:9} {chain:7}  {what}");
        }
        let names = CONDITIONS.map(|(_, name, _)| format!("{name:>9}"));
        println!("{} broken", names.concat());
        for (at, state) in BREAKING.iter().enumerate() {
            let counts = CONDITIONS.map(|(number, _, _)| self.breaking[number][at]);
            println!(
                "{} {state}",
                counts.map(|count| format!("{count:9}")).concat()
            );
        }
        println!("situations");
        for (count, name) in self.situations.iter().zip(SITUATIONS) {
            println!("{count:6} {name}");
        }
        println!("picks");
        for (count, name) in self.picks.iter().zip(PICKS) {
            println!("{count:6} {name}");
        }
        println!("with picks          invariance  wait-for   chain");
        for (at, (name, _)) in PICKED.iter().enumerate() {
            let [_, invariance, wait_for, chain] = self.picked.map(|counts| counts[at]);
            println!("{invariance:30} {wait_for:9} {chain:7}  {name}");
        }
        println!("single tests with picks");
        for (count, name) in self.singles.iter().zip(SINGLES) {
            println!("{count:6} of {name}");
        }
    }
}

/// Counts what was found, by its place in the list.
fn add(counts: &mut [u64], list: &[&str], found: Vec<&str>) {
    for name in found {
        let at = list.iter().position(|one| *one == name);
        counts[at.expect("a situation of the list")] += 1;
    }
}

fn edge(counts: &mut [u64; 5], number: usize, limit: usize) {
    let found = [
        number == 0,
        number.wrapping_add(1) == limit,
        number == limit,
        number == usize::MAX,
        (1 << 32..usize::MAX).contains(&number),
    ];
    for (count, found) in counts.iter_mut().zip(found) {
        *count += u64::from(found);
    }
}
