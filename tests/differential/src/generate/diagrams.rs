//! Diagrams that establish their claims, and such as nearly do. Most have a rank: a number that no
//! transition raises, whose values the nodes share out, and that a chain's double transitions lower.

use super::{
    join, picks, plain, range, record, value, Code, Draft, Edge, Grower, Pick, Random, Record,
    Transition, CHAIN, DIVISIONS, INVARIANCE, WAIT_FOR,
};

/// The chance, in percent, that a part which establishes the claim is left out or is weaker.
const GAP: usize = 3;
/// The chance, in percent, of a diagram without a rank, for its picks.
const FORKS: usize = 12;

/// A diagram's records.
pub fn diagram(random: &mut Random) -> Vec<Record> {
    let draft = match random.percent(FORKS) {
        true => picks::fork(random),
        false => by_rank(random),
    };
    let mut records = draft.records();
    for _ in 0..random.pick(&[0, 0, 0, 0, 1, 1, 1, 2]) {
        slip(random, &mut records, draft.ranges.len());
    }
    records
}

fn by_rank(random: &mut Random) -> Draft {
    let ranges = small_ranges(random);
    let grower = Grower {
        random,
        ranges: &ranges,
        tame: true,
        limits: 1,
        divisions: DIVISIONS,
    };
    Builder::new(grower).draft()
}

/// Few states; at times a few thousand.
fn small_ranges(random: &mut Random) -> Vec<(i16, i16)> {
    let (count, widest) = match random.below(50) {
        0 => (3, 16),
        _ => (1 + random.below(3), 5),
    };
    (0..count)
        .map(|_| {
            let width = random.within(1, widest);
            range(random, width)
        })
        .collect()
}

struct Rank {
    number: Code,
    least: i64,
    /// Assignments that lower it by so much, wherever it is at least so much above the least.
    lowering: Vec<(u8, Code)>,
    by: i64,
    /// A variable whose distance from the low end of its range it is, or from the high end.
    from_end: Option<(u8, End)>,
}

#[derive(Clone, Copy, PartialEq)]
enum End {
    Low,
    High,
}

struct Builder<'a> {
    grower: Grower<'a>,
    property: u8,
    rank: Rank,
    /// Node 0 has the ranks up to the first cut, each other node those up to its own one.
    cuts: Vec<i64>,
}

// ------------------------------------------------------------------------------ expressions

pub fn variable(number: u8) -> Code {
    vec![record(0x11, number, 0, 0, 0)]
}

pub fn less(left: &Code, right: &Code) -> Code {
    join(0x28, &[left, right])
}

fn at_most(left: &Code, right: &Code) -> Code {
    join(0x29, &[left, right])
}

fn difference(left: &Code, right: &Code) -> Code {
    join(0x13, &[left, right])
}

fn quotient(left: &Code, divisor: i64) -> Code {
    join(0x18, &[left, &value(divisor)])
}

pub fn remainder(left: &Code, divisor: i64) -> Code {
    join(0x19, &[left, &value(divisor)])
}

/// All of them, with few levels.
pub fn all(truths: &[Code]) -> Code {
    match truths {
        [] => vec![plain(0x20)],
        [one] => one.clone(),
        _ => {
            let (left, right) = truths.split_at(truths.len() / 2);
            join(0x23, &[&all(left), &all(right)])
        }
    }
}

/// What an expression is worth after the assignments.
fn after(code: &[Record], assignments: &[(u8, Code)]) -> Code {
    let mut new = Vec::new();
    for record in code {
        let assigned = assignments
            .iter()
            .find(|(variable, _)| record[0] == 0x11 && record[1] == *variable);
        match assigned {
            Some((_, number)) => new.extend_from_slice(number),
            None => new.push(*record),
        }
    }
    new
}

/// Whether an expression names a variable.
fn names(code: &[Record], variable: u8) -> bool {
    code.iter().any(|record| record[..2] == [0x11, variable])
}

impl Transition {
    /// The combinations of its picks, as assignments.
    fn combinations(&self) -> Vec<Vec<(u8, Code)>> {
        let mut list = vec![Vec::new()];
        for pick in &self.picks {
            let values = (pick.low..=pick.high).map(|one| (pick.variable, value(one.into())));
            let values: Vec<(u8, Code)> = values.collect();
            let with = |before: &Vec<(u8, Code)>| -> Vec<Vec<(u8, Code)>> {
                let longer = values
                    .iter()
                    .map(|one| [&before[..], &[one.clone()]].concat());
                longer.collect()
            };
            list = list.iter().flat_map(with).collect();
        }
        list
    }
}

// ------------------------------------------------------------------------------ parts

impl<'a> Builder<'a> {
    fn new(mut grower: Grower<'a>) -> Builder<'a> {
        let property = grower.random.pick(&[INVARIANCE, WAIT_FOR, CHAIN]);
        let rank = rank(&mut grower, property);
        let mut cuts = vec![rank.least + rank.by - 1 + grower.random.below(2) as i64];
        for at in 0..grower.random.below(5) {
            // A step that lowers the rank then leaves a chain's node.
            let widest = if property == CHAIN { rank.by } else { 3 };
            cuts.push(cuts[at] + grower.random.within(1, widest));
        }
        Builder {
            grower,
            property,
            rank,
            cuts,
        }
    }

    fn percent(&mut self, chance: usize) -> bool {
        self.grower.random.percent(chance)
    }

    fn draft(mut self) -> Draft {
        let nodes: Vec<Code> = (0..self.cuts.len()).map(|node| self.node(node)).collect();
        // Transitions that lower the rank, among others; a chain needs one.
        let mut lowers = vec![false; self.grower.random.below(3)];
        let most = if self.rank.lowering.is_empty() { 1 } else { 2 };
        let least = usize::from(self.property == CHAIN);
        lowers.extend(vec![true; least + self.grower.random.below(most)]);
        self.grower.random.shuffle(&mut lowers);
        // The first of those that lower the rank does so from each node from 1 up.
        let mut first = true;
        let mut transitions = Vec::new();
        let mut above = Vec::new();
        for lowers in lowers {
            let (transition, node) = match lowers {
                true if first || self.percent(50) => (self.lowering(), Some(0)),
                true => self.picking(),
                false => (self.transition(), None),
            };
            first &= !lowers;
            transitions.push(transition);
            above.push(node);
        }
        let last = self.cuts.len() - 1;
        let truths = match self.property {
            INVARIANCE => {
                let below = self.below(last);
                vec![self.weaker(&below)]
            }
            WAIT_FOR => {
                let mut truths = vec![self.entry(&nodes)];
                truths.extend(nodes.iter().map(|node| self.weaker(node)));
                truths
            }
            _ => vec![self.entry(&nodes), self.weaker(&nodes[0])],
        };
        let start = match self.property {
            INVARIANCE => match self.grower.random.below(12) {
                0 => self.grower.nowhere(),
                1 => self.grower.one_state(),
                _ => self.entry(&nodes),
            },
            _ => self.grower.start(3),
        };
        Draft {
            start,
            transitions,
            property: self.property,
            b: if self.property == WAIT_FOR {
                nodes.len() as i16
            } else {
                0
            },
            truths,
            edges: self.edges(&above),
            nodes,
            ranges: self.grower.ranges.to_vec(),
        }
    }

    /// That the rank is at most the node's cut.
    fn below(&self, node: usize) -> Code {
        at_most(&self.rank.number, &value(self.cuts[node]))
    }

    /// That it is above the cut.
    fn above(&self, node: usize) -> Code {
        less(&value(self.cuts[node]), &self.rank.number)
    }

    /// A node's assertion.
    fn node(&mut self, node: usize) -> Code {
        let nested = self.property != CHAIN && self.percent(20);
        if node == 0 || nested {
            return self.below(node);
        }
        if self.cuts[node] == self.cuts[node - 1] + 1 && self.percent(50) {
            return join(0x27, &[&self.rank.number, &value(self.cuts[node])]);
        }
        let between = [self.above(node - 1), self.below(node)];
        all(&between)
    }

    /// What a truth implies.
    fn weaker(&mut self, truth: &Code) -> Code {
        match self.grower.random.below(8) {
            0 => vec![plain(0x20)],
            1 | 2 => join(0x24, &[truth, &self.grower.truth(3, false)]),
            3 => {
                let other = self.grower.truth(3, false);
                join(0x25, &[&other, truth])
            }
            4 if self.percent(GAP) => self.grower.truth(3, false),
            _ => truth.clone(),
        }
    }

    /// What implies some node.
    fn entry(&mut self, nodes: &[Code]) -> Code {
        let last = self.below(nodes.len() - 1);
        match self.grower.random.below(8) {
            0..=2 => all(&[last, self.grower.truth(3, false)]),
            3 | 4 => nodes[self.grower.random.below(nodes.len())].clone(),
            5 if self.percent(5 * GAP) => self.grower.truth(3, false),
            _ => last,
        }
    }

    /// A transition whose values are in range and that doesn't raise the rank.
    fn transition(&mut self) -> Transition {
        let mut variables: Vec<u8> = (0..self.grower.ranges.len() as u8).collect();
        self.grower.random.shuffle(&mut variables);
        variables.truncate(self.grower.random.below(4));
        let mut transition = Transition::new(self.percent(60), Vec::new());
        for variable in variables {
            if self.percent(40) && transition.combinations().len() <= 4 {
                let pick = self.grower.few_values(variable);
                transition.pick(self.grower.random, pick);
            } else {
                let number = self.grower.assigned(variable);
                transition.assignments.push((variable, number));
            }
        }
        let mut guard = vec![self.grower.truth(3, false)];
        for (variable, number) in &transition.assignments {
            let (low, high) = self.grower.ranges[usize::from(*variable)];
            if !self.percent(GAP) {
                guard.push(at_most(&value(low.into()), number));
            }
            if !self.percent(GAP) {
                guard.push(at_most(number, &value(high.into())));
            }
        }
        // Whatever is picked.
        let ranks = transition.combinations().into_iter().map(|picked| {
            let set = [&transition.assignments[..], &picked].concat();
            at_most(&after(&self.rank.number, &set), &self.rank.number)
        });
        let mut ranks: Vec<Code> = ranks.collect();
        ranks.dedup();
        ranks.retain(|_| !self.grower.random.percent(GAP));
        guard.extend(ranks);
        transition.guard = all(&guard);
        transition
    }

    /// A just transition that is enabled at each node above one and picks a value by which the rank
    /// is at most that one's cut; and that node. Or one that lowers the rank otherwise.
    fn picking(&mut self) -> (Transition, Option<usize>) {
        let (variable, end) = match self.rank.from_end {
            Some(from_end) => from_end,
            None => return (self.lowering(), Some(0)),
        };
        let node = self.grower.random.below(self.cuts.len());
        let (low, high) = self.grower.ranges[usize::from(variable)];
        let far = self.cuts[node] + i64::from(self.percent(5 * GAP));
        let far = far.min(i64::from(high) - i64::from(low)) as i16;
        let (least, greatest) = match end {
            End::Low => (low, low + far),
            End::High => (high - far, high),
        };
        let pick = Pick {
            variable,
            // Not each value that it could take.
            low: least + i16::from(least < greatest && self.percent(30)),
            high: greatest,
            behind: 0,
        };
        let mut transition = Transition::new(true, self.above(node));
        transition.picks.push(pick);
        (transition, Some(node))
    }

    /// A just transition that lowers the rank and is enabled at each node from 1 up.
    fn lowering(&mut self) -> Transition {
        let above = self.above(0);
        let guard = match self.grower.random.below(8) {
            // An invariance has range conditions of node 0 too.
            0..=3 if self.property == INVARIANCE => above,
            0 | 1 => vec![plain(0x20)],
            2 | 3 => join(0x24, &[&above, &self.grower.truth(2, false)]),
            4 if self.percent(5 * GAP) => all(&[above, self.grower.truth(2, false)]),
            _ => above,
        };
        let mut transition = Transition::new(true, guard);
        transition.assignments = self.rank.lowering.clone();
        let other = self.grower.random.below(self.grower.ranges.len()) as u8;
        let mut assigned = transition.assignments.iter();
        let set = assigned.any(|(variable, _)| *variable == other);
        if !set && !names(&self.rank.number, other) && self.percent(60) {
            let pick = self.grower.few_values(other);
            transition.pick(self.grower.random, pick);
        }
        transition
    }

    /// Edges by the rules, most of them or all. Those that lower the rank are, in a chain, double
    /// transitions of some nodes above the one that is given.
    fn edges(&mut self, above: &[Option<usize>]) -> Vec<Edge> {
        let random = &mut *self.grower.random;
        let kept = random.pick(&[100, 100, 90, 50, 10]);
        let nodes = self.cuts.len();
        let mut edges = Vec::new();
        for from in usize::from(self.property != INVARIANCE)..nodes {
            let lowers = |at: &usize| above[*at].map_or(false, |node| node < from);
            let lowering: Vec<usize> = (0..above.len()).filter(lowers).collect();
            let double = (self.property == CHAIN).then(|| random.pick(&lowering));
            for transition in 0..above.len() {
                let double = double == Some(transition);
                let targets = match self.property {
                    INVARIANCE => nodes,
                    _ if double => from,
                    _ => from + 1,
                };
                let sure = random.below(targets);
                for to in 0..targets {
                    if random.percent(kept) || double && to == sure {
                        edges.push(Edge {
                            transition,
                            from,
                            to,
                            double,
                        });
                    }
                }
            }
        }
        random.shuffle(&mut edges);
        edges
    }
}

/// A rank. A chain's is such that it can be lowered.
fn rank(grower: &mut Grower, property: u8) -> Rank {
    let ranges = grower.ranges;
    let number = grower.random.below(ranges.len());
    let (low, high) = ranges[number];
    let (low, high) = (value(low.into()), value(high.into()));
    let first = number as u8;
    let by = 1 + grower.random.below(2) as i64;
    let mut rank = match grower.random.below(6) {
        0 => {
            let number = difference(&variable(first), &low);
            let lower = difference(&variable(first), &value(by));
            Rank {
                number,
                least: 0,
                lowering: vec![(first, lower)],
                by,
                from_end: Some((first, End::Low)),
            }
        }
        1 => {
            let number = difference(&high, &variable(first));
            let higher = join(0x12, &[&variable(first), &value(by)]);
            Rank {
                number,
                least: 0,
                lowering: vec![(first, higher)],
                by,
                from_end: Some((first, End::High)),
            }
        }
        2 if ranges.len() > 1 => {
            // The sum of two: the first falls, or else the second.
            let second = (number + 1) % ranges.len();
            let low_second = value(ranges[second].0.into());
            let second = second as u8;
            let sides = [
                difference(&variable(first), &low),
                difference(&variable(second), &low_second),
            ];
            let falls = join(0x15, &[&less(&low, &variable(first))]);
            let rests = join(0x15, &[&at_most(&variable(first), &low)]);
            Rank {
                number: join(0x12, &[&sides[0], &sides[1]]),
                least: 0,
                lowering: vec![
                    (first, difference(&variable(first), &falls)),
                    (second, difference(&variable(second), &rests)),
                ],
                by: 1,
                from_end: None,
            }
        }
        3 => {
            // Each step leads to the numbers with the next lower quotient. Those of the least one
            // may not all be in range.
            let divisor = grower.random.within(2, 3);
            Rank {
                number: quotient(&variable(first), divisor),
                least: -(-i64::from(ranges[number].0)).div_euclid(divisor),
                lowering: vec![(first, difference(&variable(first), &value(divisor)))],
                by: 1,
                from_end: None,
            }
        }
        4 => {
            // The low end leaves 0, whatever multiple is taken off, and numbers below 0 are divided.
            let divisor = grower.random.within(2, 5);
            let offset = i64::from(ranges[number].0) + divisor * grower.random.within(-1, 1);
            Rank {
                number: remainder(&difference(&variable(first), &value(offset)), divisor),
                least: 0,
                lowering: vec![(first, difference(&variable(first), &value(1)))],
                by: 1,
                from_end: None,
            }
        }
        _ if property != CHAIN => {
            let (number, (least, _)) = grower.number(3, false);
            Rank {
                number,
                least: least + grower.random.below(4) as i64,
                lowering: Vec::new(),
                by: 1,
                from_end: None,
            }
        }
        _ => Rank {
            number: difference(&variable(first), &low),
            least: 0,
            lowering: vec![(first, low.clone())],
            by: 1,
            from_end: Some((first, End::Low)),
        },
    };
    // A variable that the rank may not speak of gets a value too.
    let other = grower.random.below(ranges.len());
    let taken = rank
        .lowering
        .iter()
        .any(|(variable, _)| usize::from(*variable) == other);
    if !taken && !names(&rank.number, other as u8) && grower.random.percent(30) {
        let (low, high) = ranges[other];
        let constant = value(grower.random.within(low.into(), high.into()));
        rank.lowering.push((other as u8, constant));
    }
    rank
}

impl Grower<'_> {
    /// A number for a variable, often one in its range.
    fn assigned(&mut self, number: u8) -> Code {
        let own = variable(number);
        let (low, high) = self.ranges[usize::from(number)];
        match self.random.below(11) {
            0 => value(self.random.within(low.into(), high.into())),
            1 => variable(self.random.below(self.ranges.len()) as u8),
            2 => join(0x12, &[&own, &value(1)]),
            3 => difference(&own, &value(1)),
            4 => difference(&value(i64::from(low) + i64::from(high)), &own),
            5 => {
                let kind = self.random.pick(&[0x12, 0x13]);
                let truth = self.truth(2, false);
                join(kind, &[&own, &join(0x15, &[&truth])])
            }
            6 | 7 => {
                // On by some, and round at the end of the range.
                let [low, high] = [low, high].map(i64::from);
                let on = difference(&own, &value(low + self.random.within(-2, 2)));
                join(0x12, &[&value(low), &remainder(&on, high - low + 1)])
            }
            8 => quotient(&own, self.random.within(1, 3)),
            _ => self.number(3, false).0,
        }
    }
}

// ------------------------------------------------------------------------------ slips

/// Changes one record for another that fits its place; or takes an edge.
fn slip(random: &mut Random, records: &mut Vec<Record>, variables: usize) {
    let at = random.below(records.len());
    let [kind, a, b0, b1, c0, c1, d, _] = records[at];
    let (b, c) = (i16::from_le_bytes([b0, b1]), i16::from_le_bytes([c0, c1]));
    let beside = |random: &mut Random, field: i16| field.wrapping_add(random.pick(&[-1, 1]));
    let other = match kind {
        0x01 => record(kind, a, b, beside(random, c), d),
        0x03 => record(kind, 1 - a, b, c, d),
        0x08 if random.percent(50) => record(kind, a, beside(random, b), c, d),
        0x08 => record(kind, a, b, beside(random, c), d),
        0x07 if random.percent(30) => record(kind, a, b, beside(random, c), d),
        0x07 => {
            records.remove(at);
            return;
        }
        0x10 => record(kind, a, beside(random, b), c, d),
        0x11 => record(kind, random.below(variables) as u8, b, c, d),
        0x12..=0x14 if random.percent(80) => plain(0x12 + random.below(3) as u8),
        0x12..=0x14 | 0x18 | 0x19 => plain(0x18 + random.below(2) as u8),
        0x20 | 0x21 => plain(0x41 - kind),
        0x23..=0x26 => plain(0x23 + random.below(4) as u8),
        0x27..=0x29 => plain(0x27 + random.below(3) as u8),
        _ => return,
    };
    records[at] = other;
}
