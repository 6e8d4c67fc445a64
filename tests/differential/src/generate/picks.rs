//! Picks: few or many combinations, in their places among the assignments, whole and damaged.

use super::diagrams::{less, remainder, variable};
use super::{
    constant, field_byte, join, plain, record, value, Draft, Edge, Grower, Pick, Random, Record,
    Transition, CHAIN, INVARIANCE, NO_KINDS, WAIT_FOR,
};

/// As many combinations as a transition may have.
pub const COMBINATIONS: i64 = 4_096;

impl Transition {
    pub fn new(just: bool, guard: Vec<Record>) -> Transition {
        Transition {
            just,
            guard,
            assignments: Vec::new(),
            picks: Vec::new(),
        }
    }

    /// Puts a pick among the assignments that are there, or before those to come.
    pub fn pick(&mut self, random: &mut Random, pick: Pick) {
        let behind = random.below(self.assignments.len() + 2);
        let at = random.below(self.picks.len() + 1);
        self.picks.insert(at, Pick { behind, ..pick });
    }

    /// The records behind the guard.
    pub fn sets(&self) -> Vec<Record> {
        let last = self.assignments.len();
        let picks = |behind: usize| {
            let there = move |pick: &&Pick| pick.behind.min(last) == behind;
            let picks = self.picks.iter().filter(there);
            picks.map(|pick| record(0x08, pick.variable, pick.low, pick.high, 0))
        };
        let mut records: Vec<Record> = picks(0).collect();
        for (number, (variable, value)) in self.assignments.iter().enumerate() {
            records.push(record(0x04, *variable, 0, 0, 0));
            records.extend(value);
            records.extend(picks(number + 1));
        }
        records
    }
}

impl Grower<'_> {
    /// A pick of few values in the variable's range: one, two or three, or all of a small range.
    pub fn few_values(&mut self, variable: u8) -> Pick {
        let (low, high) = self.ranges[usize::from(variable)];
        let [least, greatest] = [low, high].map(i64::from);
        let size = greatest - least + 1;
        let values = match self.random.below(10) {
            0..=2 => 1,
            3..=5 => 2.min(size),
            6 | 7 => 3.min(size),
            // A large one only seldom.
            8 if size > 9 => 1,
            _ => size,
        };
        let low = match self.random.below(4) {
            0 => least,
            1 => greatest - values + 1,
            _ => self.random.within(least, greatest - values + 1),
        };
        pick_of(variable, low, low + values - 1)
    }

    /// A transition, or two, pick all values of most variables, or one value less.
    pub fn pick_many(&mut self, draft: &mut Draft) {
        let count = draft.transitions.len();
        for _ in 0..1 + self.random.below(2) {
            let at = self.random.below(count);
            let transition = &mut draft.transitions[at];
            let mut variables: Vec<u8> = (0..self.ranges.len() as u8).collect();
            self.random.shuffle(&mut variables);
            if variables.len() > 1 && self.random.percent(30) {
                variables.pop();
            }
            let set = |(variable, _): &(u8, Vec<Record>)| variables.contains(variable);
            transition.assignments.retain(|one| !set(one));
            transition.picks.clear();
            let less = match self.random.percent(30) {
                true => Some(self.random.pick(&variables)),
                false => None,
            };
            for &variable in &variables {
                let (low, high) = self.ranges[usize::from(variable)];
                let narrow = i64::from(less == Some(variable) && low < high);
                let pick = pick_of(variable, i64::from(low) + narrow, high.into());
                transition.pick(self.random, pick);
            }
        }
    }
}

fn pick_of(variable: u8, low: i64, high: i64) -> Pick {
    Pick {
        variable,
        low: low as i16,
        high: high as i16,
        behind: 0,
    }
}

/// Ranges whose sizes' product is at the limit of combinations, or a little past it.
pub fn ranges(random: &mut Random) -> Vec<(i16, i16)> {
    let mut widths: Vec<i64> = match random.below(10) {
        0 => vec![COMBINATIONS],
        1 => vec![COMBINATIONS + 1],
        2 => vec![64, 64],
        3 => vec![64, 65],
        // 4,097.
        4 => vec![17, 241],
        5 => vec![16, 16, 16],
        6 => vec![16, 17, 16],
        7 => vec![2; 12],
        // 4,095.
        8 => vec![63, 65],
        _ => {
            // Powers of two.
            let mut left = COMBINATIONS * random.pick(&[1, 1, 2]);
            let mut widths = Vec::new();
            while left > 1 && widths.len() < 12 {
                let width = left.min(1 << random.within(1, 4));
                widths.push(width);
                left /= width;
            }
            widths
        }
    };
    if random.percent(20) {
        let at = random.below(widths.len());
        widths[at] += 1;
    }
    random.shuffle(&mut widths);
    let widths = widths.into_iter();
    widths.map(|width| super::range(random, width)).collect()
}

// ------------------------------------------------------------------------------ forks

/// A diagram with a node for each value of one variable, the highest values sharing the last. At one
/// node a transition picks among values, and an edge leads to the node of each; another transition
/// leads from each node to node 0. Or nearly so.
pub fn fork(random: &mut Random) -> Draft {
    let property = random.pick(&[INVARIANCE, WAIT_FOR, CHAIN]);
    let nodes = 2 + random.below(4);
    let size = (nodes + random.below(2)) as i64;
    let width = random.within(1, 3);
    let mut ranges = vec![super::range(random, size), super::range(random, width)];
    let v = random.below(2);
    ranges.rotate_right(v);
    let [low, high] = [ranges[v].0, ranges[v].1].map(i64::from);
    let number = variable(v as u8);
    let node = |node: usize| {
        let kind = if node + 1 == nodes { 0x29 } else { 0x27 };
        join(kind, &[&value(low + node as i64), &number])
    };

    let from = match property {
        INVARIANCE => random.below(nodes),
        _ => 1 + random.below(nodes - 1),
    };
    // A chain's picks lead below the node, a wait-for's not above it.
    let most = match property {
        INVARIANCE => random.within(low, high),
        WAIT_FOR if from + 1 == nodes => high,
        WAIT_FOR => low + from as i64,
        _ => low + from as i64 - 1,
    };
    let least = random.within(low, most.min(low + 1));
    let mut forking = Transition::new(true, node(from));
    forking.pick(random, pick_of(v as u8, least, most));
    let mut back = Transition::new(true, less(&value(low), &number));
    back.assignments.push((v as u8, value(low)));

    let targets = (least - low) as usize..=((most - low) as usize).min(nodes - 1);
    let forks = targets.map(|to| (0, from, to));
    let returns = (1..nodes).map(|node| (1, node, 0));
    let edge = |(transition, leaves, to)| Edge {
        transition,
        from: leaves,
        to,
        // One transition of each node.
        double: property == CHAIN && (transition == 0 || leaves != from),
    };
    let mut truths = vec![vec![plain(0x20)]; 1 + nodes];
    truths.truncate(match property {
        INVARIANCE => 1,
        WAIT_FOR => 1 + nodes,
        _ => 2,
    });
    if property == CHAIN {
        truths[1] = node(0);
    }
    let mut draft = Draft {
        start: node(random.below(nodes)),
        transitions: vec![forking, back],
        property,
        b: if property == WAIT_FOR {
            nodes as i16
        } else {
            0
        },
        truths,
        nodes: (0..nodes).map(node).collect(),
        edges: forks.chain(returns).map(edge).collect(),
        ranges,
    };
    draft.set_other(random, v);
    if random.percent(60) {
        draft.gap(random, v, from);
    }
    random.shuffle(&mut draft.edges);
    draft
}

impl Draft {
    /// The forking transition sets the other variable than the one that it picks, or doesn't.
    fn set_other(&mut self, random: &mut Random, picked: usize) {
        let (low, high) = self.ranges[1 - picked];
        let number = 1 - picked as u8;
        let (picked, other) = (variable(picked as u8), variable(number));
        let forking = &mut self.transitions[0];
        match random.below(8) {
            0 | 1 => forking.pick(random, pick_of(number, low.into(), high.into())),
            2 => forking.assignments.push((number, other)),
            3 => {
                // In range at some states only.
                let kind = random.pick(&[0x12, 0x13]);
                let next = join(kind, &[&other, &value(1)]);
                forking.assignments.push((number, next));
            }
            4 | 5 => {
                // By the value that the picked variable has.
                let size = i64::from(high) - i64::from(low) + 1;
                let next = join(0x12, &[&value(low.into()), &remainder(&picked, size)]);
                forking.assignments.push((number, next));
            }
            _ => (),
        }
    }

    /// An edge is lacking, a state is left out of a node, or one value more is picked.
    fn gap(&mut self, random: &mut Random, number: usize, from: usize) {
        let other = 1 - number;
        let (low, high) = self.ranges[other];
        match random.below(4) {
            0 | 1 => {
                let at = random.below(self.edges.len());
                self.edges.remove(at);
            }
            2 => {
                let node = random.below(self.nodes.len());
                let value = value(random.within(low.into(), high.into()));
                let here = join(0x27, &[&variable(other as u8), &value]);
                self.truths[0] = self.nodes[from].clone();
                self.nodes[node] = join(0x23, &[&self.nodes[node], &join(0x22, &[&here])]);
            }
            _ => {
                let (low, high) = self.ranges[number];
                let pick = &mut self.transitions[0].picks[0];
                if pick.variable == number as u8 && pick.high < high {
                    pick.high += 1;
                } else if pick.variable == number as u8 && pick.low > low {
                    pick.low -= 1;
                }
            }
        }
    }
}

// ------------------------------------------------------------------------------ damage

/// Spoils a pick, or puts one where a variable is set already or where none may stand.
pub fn damage(random: &mut Random, records: &mut Vec<Record>) {
    let of = |kinds: &[u8]| -> Vec<usize> {
        let all = 0..records.len();
        all.filter(|&at| kinds.contains(&records[at][0])).collect()
    };
    let (picks, sets, sections) = (
        of(&[0x08]),
        of(&[0x04, 0x08]),
        of(&[1, 2, 3, 4, 5, 6, 7, 8]),
    );
    match random.below(10) {
        0..=5 if !picks.is_empty() => {
            let at = random.pick(&picks);
            spoil(random, records, at);
        }
        6 | 7 if !sets.is_empty() => {
            // Behind one that sets the variable, or before it.
            let at = random.pick(&sets);
            let [_, variable, ..] = records[at];
            let range = range_of(records, variable);
            let mut again = vec![record(0x08, variable, range.0, range.1, 0)];
            if random.percent(30) {
                again = vec![record(0x04, variable, 0, 0, 0), constant(range.0)];
            }
            let behind = sections.iter().copied().find(|&section| section > at);
            let place = match random.percent(50) {
                true => at,
                false => behind.unwrap_or(at),
            };
            records.splice(place..place, again);
        }
        8 if !sections.is_empty() => {
            let at = random.pick(&sections);
            let (low, _) = range_of(records, 0);
            records.insert(at, record(0x08, 0, low, low, 0));
        }
        _ => {
            let at = random.below(records.len() + 1);
            let (low, high) = range_of(records, 0);
            records.insert(at, record(0x08, 0, low, high, 0));
        }
    }
}

/// The range of a variable, 0..0 if there is none.
fn range_of(records: &[Record], variable: u8) -> (i16, i16) {
    match records.get(usize::from(variable)) {
        Some(&[0x01, _, b0, b1, c0, c1, ..]) => {
            (i16::from_le_bytes([b0, b1]), i16::from_le_bytes([c0, c1]))
        }
        _ => (0, 0),
    }
}

/// Another value of a field, or another kind.
fn spoil(random: &mut Random, records: &mut [Record], at: usize) {
    let [kind, variable, b0, b1, c0, c1, d, _] = records[at];
    let (low, high) = range_of(records, variable);
    let (b, c) = (i16::from_le_bytes([b0, b1]), i16::from_le_bytes([c0, c1]));
    let variables = records.iter().take_while(|one| one[0] == 0x01).count() as u8;
    records[at] = match random.below(12) {
        0 => record(kind, variable, low.wrapping_sub(1), c, d),
        1 => record(kind, variable, b, high.wrapping_add(1), d),
        2 => record(kind, variable, low.wrapping_sub(1), low.wrapping_sub(1), d),
        3 => record(
            kind,
            variable,
            high.wrapping_add(1),
            high.wrapping_add(1),
            d,
        ),
        4 => record(kind, variable, c, b, d),
        5 => record(kind, variable, high, low, d),
        6 => record(kind, variables, b, c, d),
        7 => record(
            kind,
            random.below(usize::from(variables) + 1) as u8,
            b,
            c,
            d,
        ),
        8 => record(kind, variable, b, c, 1),
        9 => [kind, variable, b0, b1, c0, c1, d, 1],
        10 => record(random.pick(&NO_KINDS), variable, b, c, d),
        _ => {
            let byte = 1 + random.below(7);
            let mut record = records[at];
            record[byte] = field_byte(random, record[byte]);
            record
        }
    };
}
