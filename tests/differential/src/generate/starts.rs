//! Starts that no state satisfies, that one state does, and others.

use super::diagrams::{all, less, remainder, variable};
use super::{constant, join, plain, start, value, Code, Grower, Random, Record, DIVISIONS};

/// To look for a starting state among more states than these takes long.
const MANY: i64 = 10_000;

/// Puts a start that no state satisfies in a file's own one's place.
pub fn spoil(random: &mut Random, records: &mut Vec<Record>) {
    let variables = records.iter().take_while(|record| record[0] == 0x01);
    let ranges: Vec<(i16, i16)> = variables
        .map(|&[_, _, b0, b1, c0, c1, ..]| {
            (i16::from_le_bytes([b0, b1]), i16::from_le_bytes([c0, c1]))
        })
        .collect();
    let place = match start(records) {
        Some(place) if !ranges.is_empty() => place,
        _ => return,
    };
    let mut grower = Grower {
        random,
        ranges: &ranges,
        tame: true,
        limits: 0,
        divisions: DIVISIONS,
    };
    records.splice(place, grower.nowhere());
}

impl Grower<'_> {
    /// A start, of at most that many levels or of seven: mostly one that some states satisfy. Among
    /// many states a starting state is mostly found at once.
    pub fn start(&mut self, levels: usize) -> Code {
        let truth = self.truth(levels, false);
        let many = self.states() > MANY;
        match self.random.below(if many { 100 } else { 20 }) {
            0 | 1 => self.nowhere(),
            2..=4 => self.one_state(),
            _ if many && levels < 16 => join(0x24, &[&self.state(0), &truth]),
            5..=15 if levels < 16 => join(0x24, &[&truth, &self.one_state()]),
            _ if many || truth == [plain(0x21)] => vec![plain(0x20)],
            _ => truth,
        }
    }

    fn states(&self) -> i64 {
        let sizes = self.ranges.iter();
        let sizes = sizes.map(|&(low, high)| i64::from(high) - i64::from(low) + 1);
        sizes.fold(1, i64::saturating_mul)
    }

    /// That the state is the first, the last, or any one.
    pub fn one_state(&mut self) -> Code {
        let which = self.random.below(3);
        self.state(which)
    }

    /// That the state is the first for 0, the last for 1, else any one.
    fn state(&mut self, which: usize) -> Code {
        let mut parts = Vec::new();
        for (number, &(low, high)) in self.ranges.iter().enumerate() {
            let here = match which {
                0 => low,
                1 => high,
                _ => self.random.within(low.into(), high.into()) as i16,
            };
            let operands = [variable(number as u8), vec![constant(here)]];
            parts.push(join(0x27, &[&operands[0], &operands[1]]));
        }
        all(&parts)
    }

    /// What no state satisfies: the literal, a value out of reach, a contradiction, a parity or a
    /// remainder that no number has.
    pub fn nowhere(&mut self) -> Code {
        let [one, other] = [0; 2].map(|_| self.random.below(self.ranges.len()));
        let [low, high] = [self.ranges[one].0, self.ranges[one].1].map(i64::from);
        let [one, other] = [one, other].map(|number| variable(number as u8));
        let twice = |number: &Code| join(0x14, &[&value(2), number]);
        match self.random.below(12) {
            0..=2 => vec![plain(0x21)],
            // What is soon worked out.
            5.. if self.states() > MANY => less(&one, &one),
            3 => join(0x27, &[&one, &value(high + 1)]),
            4 => less(&one, &value(low)),
            5 | 6 => all(&[less(&one, &other), less(&other, &one)]),
            7 => {
                let truth = self.truth(3, false);
                all(&[truth.clone(), join(0x22, &[&truth])])
            }
            8 => {
                let (number, _) = self.number(2, false);
                less(&number, &number)
            }
            9 => {
                let divisor = self.random.within(1, 5);
                join(0x27, &[&remainder(&one, divisor), &value(divisor)])
            }
            10 => join(0x27, &[&remainder(&twice(&one), 2), &value(1)]),
            _ => {
                let odd = join(0x12, &[&twice(&other), &value(1)]);
                join(0x27, &[&twice(&one), &odd])
            }
        }
    }
}
