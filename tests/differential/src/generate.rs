//! Random files: drafts that keep to the format but for chosen twists, diagrams that establish
//! their claims or nearly do, sample files, and all of them damaged; splices, random records, random
//! bytes. What comes out depends on the seed and the samples alone.

mod diagrams;
mod picks;
mod starts;

use std::ops::Range;

pub type Record = [u8; 8];
/// Records of an expression, in prefix order.
pub type Code = Vec<Record>;

const BOUND: i64 = 1_000_000;
const STATES: i64 = 1_048_576;
/// As many records as a file may have.
pub const RECORDS: usize = 4096;

pub const KINDS: [u8; 26] = [
    0x01, 0x02, 0x03, 0x04, 0x05, 0x06, 0x07, 0x08, 0x10, 0x11, 0x12, 0x13, 0x14, 0x15, 0x18, 0x19,
    0x20, 0x21, 0x22, 0x23, 0x24, 0x25, 0x26, 0x27, 0x28, 0x29,
];
/// Bytes that are no kind, most of them next to one.
const NO_KINDS: [u8; 10] = [0x00, 0x09, 0x0f, 0x16, 0x17, 0x1a, 0x1f, 0x2a, 0x81, 0xff];

pub fn record(kind: u8, a: u8, b: i16, c: i16, d: u8) -> Record {
    let ([b0, b1], [c0, c1]) = (b.to_le_bytes(), c.to_le_bytes());
    [kind, a, b0, b1, c0, c1, d, 0]
}

/// A file's whole records.
pub fn records(file: &[u8]) -> Vec<Record> {
    let records = file.chunks_exact(8);
    records
        .map(|bytes| bytes.try_into().expect("8 bytes"))
        .collect()
}

pub fn plain(kind: u8) -> Record {
    record(kind, 0, 0, 0, 0)
}

pub fn constant(value: i16) -> Record {
    record(0x10, 0, value, 0, 0)
}

// ------------------------------------------------------------------------------ randomness

/// Splitmix64.
pub struct Random(u64);

impl Random {
    /// Each case of a seed has its own sequence, so that a case doesn't depend on those before.
    pub fn new(seed: u64, case: u64) -> Random {
        let mut random = Random(seed);
        let mixed = random.next();
        Random(mixed ^ case.wrapping_mul(0xd134_2543_de82_ef95))
    }

    fn next(&mut self) -> u64 {
        self.0 = self.0.wrapping_add(0x9e37_79b9_7f4a_7c15);
        let mut x = self.0;
        x = (x ^ (x >> 30)).wrapping_mul(0xbf58_476d_1ce4_e5b9);
        x = (x ^ (x >> 27)).wrapping_mul(0x94d0_49bb_1331_11eb);
        x ^ (x >> 31)
    }

    /// One of 0 .. limit - 1; 0 for the limit 0.
    fn below(&mut self, limit: usize) -> usize {
        (self.next() % limit.max(1) as u64) as usize
    }

    /// One of low ..= high.
    fn within(&mut self, low: i64, high: i64) -> i64 {
        low + self.below((high - low + 1) as usize) as i64
    }

    fn percent(&mut self, chance: usize) -> bool {
        self.below(100) < chance
    }

    fn pick<T: Copy>(&mut self, from: &[T]) -> T {
        from[self.below(from.len())]
    }

    fn shuffle<T>(&mut self, list: &mut [T]) {
        for last in (1..list.len()).rev() {
            list.swap(last, self.below(last + 1));
        }
    }

    fn bytes(&mut self, count: usize) -> Vec<u8> {
        (0..count).map(|_| self.next() as u8).collect()
    }
}

// ------------------------------------------------------------------------------ expressions

/// Makes expressions over variables with these ranges. A tame grower keeps intervals in bounds.
struct Grower<'a> {
    random: &'a mut Random,
    ranges: &'a [(i16, i16)],
    tame: bool,
    /// The chance, in percent, of a number whose interval ends close to the bounds.
    limits: usize,
    /// The chance, in percent, that a number over two numbers is a quotient or remainder.
    divisions: usize,
}

/// How often a number over two numbers is a quotient or remainder, in percent.
const DIVISIONS: usize = 25;

/// How many operands a record of that kind has.
pub fn operands(kind: u8) -> usize {
    match kind {
        0x12..=0x14 | 0x18 | 0x19 | 0x23..=0x29 => 2,
        0x15 | 0x22 => 1,
        _ => 0,
    }
}

/// Of each record that is an operand the record that it belongs to, and how many operands of that
/// one stand before it; by the kinds alone.
pub fn owners(records: &[Record]) -> Vec<Option<(usize, usize)>> {
    // The records with operands to come, the outermost first, and how many are there.
    let mut open: Vec<(usize, usize)> = Vec::new();
    let mut owners = Vec::new();
    for (number, record) in records.iter().enumerate() {
        if record[0] < 0x10 {
            open.clear();
            owners.push(None);
            continue;
        }
        owners.push(open.last().copied());
        if let Some((_, there)) = open.last_mut() {
            *there += 1;
        }
        open.push((number, 0));
        let complete = |&(owner, there): &(usize, usize)| there == operands(records[owner][0]);
        while open.last().map_or(false, complete) {
            open.pop();
        }
    }
    owners
}

/// The numbers of the records that stand as divisors.
pub fn divisors(records: &[Record]) -> Vec<usize> {
    let owners = owners(records);
    let divides = |at: &usize| match owners[*at] {
        Some((owner, 1)) => matches!(records[owner][0], 0x18 | 0x19),
        _ => false,
    };
    (0..records.len()).filter(divides).collect()
}

/// Where the start's truth stands, if the file has a start.
pub fn start(records: &[Record]) -> Option<Range<usize>> {
    let first = records.iter().position(|record| record[0] == 0x02)? + 1;
    let behind = records[first..].iter().position(|record| record[0] < 0x10);
    Some(first..behind.map_or(records.len(), |behind| first + behind))
}

/// The records with another truth as the start.
pub fn with_start(records: &[Record], truth: &[Record]) -> Vec<Record> {
    let mut records = records.to_vec();
    if let Some(place) = start(&records) {
        records.splice(place, truth.iter().copied());
    }
    records
}

pub type Interval = (i64, i64);

fn in_bounds((low, high): Interval) -> bool {
    low >= -BOUND && high <= BOUND
}

pub fn combine(kind: u8, left: Interval, right: Interval) -> Interval {
    match kind {
        0x12 => (left.0 + right.0, left.1 + right.1),
        0x13 => (left.0 - right.1, left.1 - right.0),
        0x18 => (left.0.div_euclid(right.0), left.1.div_euclid(right.0)),
        0x19 => (0, right.0 - 1),
        _ => {
            let ends = [
                left.0 * right.0,
                left.0 * right.1,
                left.1 * right.0,
                left.1 * right.1,
            ];
            (*ends.iter().min().unwrap(), *ends.iter().max().unwrap())
        }
    }
}

/// A kind, then its operands.
pub fn join(kind: u8, operands: &[&Code]) -> Code {
    let mut code = vec![plain(kind)];
    for operand in operands {
        code.extend_from_slice(operand);
    }
    code
}

/// A number with one value; needs up to three levels.
pub fn value(value: i64) -> Code {
    match i16::try_from(value) {
        Ok(value) => vec![constant(value)],
        Err(_) => vec![
            plain(0x12),
            plain(0x14),
            constant((value / 1000) as i16),
            constant(1000),
            constant((value % 1000) as i16),
        ],
    }
}

impl Grower<'_> {
    /// A truth of at most that many levels; if full, of exactly that many.
    fn truth(&mut self, levels: usize, full: bool) -> Code {
        if levels == 1 || !full && self.random.percent(30) {
            return vec![plain(self.random.pick(&[0x20, 0x21]))];
        }
        let spine = self.random.below(2);
        match self.random.below(10) {
            0 | 1 => join(0x22, &[&self.truth(levels - 1, full)]),
            2..=4 => {
                let kind = self.random.pick(&[0x23, 0x24, 0x25, 0x26]);
                let [left, right] = [0, 1].map(|side| {
                    let (levels, full) = self.share(levels - 1, full, side == spine);
                    self.truth(levels, full)
                });
                join(kind, &[&left, &right])
            }
            _ => {
                let kind = self.random.pick(&[0x27, 0x28, 0x29]);
                let [left, right] = [0, 1].map(|side| {
                    let (levels, full) = self.share(levels - 1, full, side == spine);
                    self.number(levels, full).0
                });
                join(kind, &[&left, &right])
            }
        }
    }

    /// A number, likewise, and its interval.
    fn number(&mut self, levels: usize, full: bool) -> (Code, Interval) {
        if levels >= 4 && !full && self.random.percent(self.limits) {
            return self.limit_number();
        }
        if levels == 1 || !full && self.random.percent(50) {
            return self.leaf();
        }
        if self.random.percent(15) {
            let truth = self.truth(levels - 1, full);
            return (join(0x15, &[&truth]), (0, 1));
        }
        if self.random.percent(self.divisions) {
            let (left, interval) = self.number(levels - 1, full);
            let divisor = self.divisor();
            let kind = self.random.pick(&[0x18, 0x19]);
            let interval = combine(kind, interval, (divisor.into(), divisor.into()));
            return (join(kind, &[&left, &vec![constant(divisor)]]), interval);
        }
        let spine = self.random.below(2);
        let mut sides = [0, 1].map(|side| {
            let (levels, full) = self.share(levels - 1, full, side == spine);
            self.number(levels, full)
        });
        let first = self.random.below(3) as u8;
        for turn in 0..3 {
            let kind = 0x12 + (first + turn) % 3;
            let interval = combine(kind, sides[0].1, sides[1].1);
            if in_bounds(interval) || !self.tame {
                // Out of bounds the interval decides nothing any more; small, it can't overflow.
                let interval = (interval.0.max(-BOUND), interval.1.min(BOUND));
                return (join(kind, &[&sides[0].0, &sides[1].0]), interval);
            }
        }
        // None of the three stays in bounds: adding 0 does, and keeps the levels.
        sides[1 - spine] = (vec![constant(0)], (0, 0));
        let code = join(0x12, &[&sides[0].0, &sides[1].0]);
        (code, sides[spine].1)
    }

    /// Levels for one of two operands: in a full expression one takes them all, the other few.
    fn share(&mut self, levels: usize, full: bool, spine: bool) -> (usize, bool) {
        if full && !spine {
            (levels.min(1 + self.random.below(3)), false)
        } else {
            (levels, full)
        }
    }

    fn leaf(&mut self) -> (Code, Interval) {
        if !self.ranges.is_empty() && self.random.percent(50) {
            let variable = self.random.below(self.ranges.len());
            let (low, high) = self.ranges[variable];
            let code = vec![record(0x11, variable as u8, 0, 0, 0)];
            return (code, (low.into(), high.into()));
        }
        let value = match self.random.below(20) {
            0 => self.random.pick(&[i16::MIN, i16::MAX, 1000, -1000, 1001]),
            1 | 2 => self.random.next() as i16,
            _ => self.random.within(-3, 5) as i16,
        };
        (vec![constant(value)], (value.into(), value.into()))
    }

    /// Mostly a small one, so that the rounding shows.
    fn divisor(&mut self) -> i16 {
        match self.random.below(12) {
            0 => 1,
            1 => self.random.pick(&[255, 256, 1000, 1001, 32_766, i16::MAX]),
            2 => 1 + self.random.below(i16::MAX as usize) as i16,
            _ => self.random.within(2, 6) as i16,
        }
    }

    /// A number whose interval ends at a bound, one before it, or (not tame) one past it; up to
    /// four levels.
    fn limit_number(&mut self) -> (Code, Interval) {
        let past = self.random.within(-1, if self.tame { 0 } else { 1 });
        let limits = std::mem::replace(&mut self.limits, 0);
        let (operand, (low, high)) = self.number(3, false);
        self.limits = limits;
        let (kind, other, swapped) = match self.random.below(6) {
            0 => (0x12, BOUND + past - high, false),
            1 => (0x12, -BOUND - past - low, true),
            2 => (0x13, high - BOUND - past, false),
            3 => (0x13, low + BOUND + past, false),
            4 => (0x13, BOUND + past + low, true),
            // The greatest factor that stays in bounds, and the next.
            _ => {
                let factor = BOUND / low.abs().max(high.abs()).max(1) + past.max(0);
                (0x14, factor * self.random.pick(&[-1, 1]), past == 0)
            }
        };
        let other_code = value(other);
        let (code, interval) = if swapped {
            (
                join(kind, &[&other_code, &operand]),
                combine(kind, (other, other), (low, high)),
            )
        } else {
            (
                join(kind, &[&operand, &other_code]),
                combine(kind, (low, high), (other, other)),
            )
        };
        if self.tame && !(in_bounds(interval) && in_bounds((other, other))) {
            return self.leaf();
        }
        (code, (interval.0.max(-BOUND), interval.1.min(BOUND)))
    }
}

/// A truth of exactly that many records, as flat as can be, over variable 0 and small constants.
pub fn truth_of_size(random: &mut Random, size: usize) -> Code {
    match size {
        0 | 1 => vec![plain(random.pick(&[0x20, 0x21]))],
        2 => join(0x22, &[&truth_of_size(random, 1)]),
        3..=20 if random.percent(70) => {
            let kind = random.pick(&[0x27, 0x28, 0x29]);
            let left = number_of_size(random, (size - 1) / 2);
            join(kind, &[&left, &number_of_size(random, size / 2)])
        }
        _ => {
            let kind = random.pick(&[0x23, 0x24, 0x25, 0x26]);
            let left = truth_of_size(random, (size - 1) / 2);
            join(kind, &[&left, &truth_of_size(random, size / 2)])
        }
    }
}

fn number_of_size(random: &mut Random, size: usize) -> Code {
    match size {
        0 | 1 if random.percent(50) => vec![record(0x11, 0, 0, 0, 0)],
        0 | 1 => vec![constant(random.within(-3, 3) as i16)],
        2 => join(0x15, &[&truth_of_size(random, 1)]),
        _ if random.percent(DIVISIONS) => {
            let kind = random.pick(&[0x18, 0x19]);
            let divisor = vec![constant(random.within(1, 3) as i16)];
            join(kind, &[&number_of_size(random, size - 2), &divisor])
        }
        _ => {
            let kind = random.pick(&[0x12, 0x13]);
            let left = number_of_size(random, (size - 1) / 2);
            join(kind, &[&left, &number_of_size(random, size / 2)])
        }
    }
}

// ------------------------------------------------------------------------------ drafts

/// A way in which a draft is special.
#[derive(Clone, Copy, PartialEq)]
enum Twist {
    /// The limit of 12 variables, and so on for what the next ones name: hit or passed by one.
    Variables,
    Transitions,
    /// 32; in wait-for also b, and one too few.
    Nodes,
    Edges,
    /// An expression of 16 levels, 17 or more.
    Levels,
    /// A transition assigns or picks all variables, perhaps one of them again.
    Assignments,
    /// A transition's combinations of picks are at the limit or past it.
    Picks,
    /// An edge repeated, perhaps with another d.
    RepeatedEdge,
    /// The ranges' product is at the limit or past it.
    Ranges,
    /// Intervals at the bounds and past them.
    Intervals,
    /// Edges put in without regard to the edge rules.
    EdgeRules,
    /// A chain node loses its double edges.
    NoDouble,
    /// A wait-for with a special b.
    Phases,
    /// Many quotients and remainders, and a divisor that isn't one.
    Divisor,
    /// As many records as a file may have, or one more.
    Records,
}

/// The twists with how often they are wanted; those that make long files, seldom.
const TWISTS: [(Twist, usize); 15] = [
    (Twist::Variables, 8),
    (Twist::Transitions, 4),
    (Twist::Nodes, 10),
    (Twist::Edges, 1),
    (Twist::Levels, 12),
    (Twist::Assignments, 10),
    (Twist::Picks, 16),
    (Twist::RepeatedEdge, 8),
    (Twist::Ranges, 12),
    (Twist::Intervals, 20),
    (Twist::EdgeRules, 20),
    (Twist::NoDouble, 12),
    (Twist::Phases, 4),
    (Twist::Divisor, 16),
    (Twist::Records, 1),
];

struct Twists(Vec<Twist>);

impl Twists {
    fn random(random: &mut Random) -> Twists {
        let total = TWISTS.iter().map(|(_, weight)| weight).sum();
        let count = random.pick(&[0, 0, 0, 1, 1, 1, 1, 2, 2, 3]);
        let one = |_| {
            let mut left = random.below(total);
            for (twist, weight) in TWISTS {
                if left < weight {
                    return twist;
                }
                left -= weight;
            }
            unreachable!("left is below the sum of the weights")
        };
        Twists((0..count).map(one).collect())
    }

    fn has(&self, twist: Twist) -> bool {
        self.0.contains(&twist)
    }
}

pub const INVARIANCE: u8 = 1;
pub const WAIT_FOR: u8 = 2;
pub const CHAIN: u8 = 3;

#[derive(Clone)]
pub struct Transition {
    pub just: bool,
    pub guard: Code,
    pub assignments: Vec<(u8, Code)>,
    pub picks: Vec<Pick>,
}

#[derive(Clone, Copy)]
pub struct Pick {
    pub variable: u8,
    pub low: i16,
    pub high: i16,
    /// Behind how many of the assignments it stands.
    pub behind: usize,
}

#[derive(Clone, Copy, PartialEq)]
pub struct Edge {
    pub transition: usize,
    pub from: usize,
    pub to: usize,
    pub double: bool,
}

/// A file's parts.
pub struct Draft {
    pub ranges: Vec<(i16, i16)>,
    pub start: Code,
    pub transitions: Vec<Transition>,
    pub property: u8,
    pub b: i16,
    pub truths: Vec<Code>,
    pub nodes: Vec<Code>,
    pub edges: Vec<Edge>,
}

/// How many parts a draft is to have, and its property.
struct Plan {
    property: u8,
    b: i16,
    truths: usize,
    nodes: usize,
    transitions: usize,
    edges: usize,
}

impl Plan {
    fn random(random: &mut Random, twists: &Twists) -> Plan {
        let property = if twists.has(Twist::NoDouble) {
            CHAIN
        } else if twists.has(Twist::Phases) {
            WAIT_FOR
        } else {
            random.pick(&[INVARIANCE, WAIT_FOR, CHAIN])
        };

        let most = random.pick(&[5, 5, 5, 5, 5, 5, 5, 5, 5, 32]);
        let mut nodes = 1 + random.below(most);
        if twists.has(Twist::Edges) {
            nodes = 20 + random.below(13);
        }
        let mut b = 0;
        let mut truths = if property == CHAIN { 2 } else { 1 };
        if property == WAIT_FOR {
            b = nodes as i16;
            if twists.has(Twist::Nodes) && random.percent(25) {
                b = 32;
            }
            if twists.has(Twist::Phases) {
                b = random.pick(&[-32768, -32, -1, 0, 1, 1, 32, 32, 33, 257, 288, 32767]);
            }
            nodes = b.clamp(0, 33) as usize;
            truths = 1 + nodes;
        }
        if twists.has(Twist::Nodes) {
            nodes = match property {
                WAIT_FOR => (nodes + random.below(3)).saturating_sub(1),
                _ => random.pick(&[0, 32, 32, 33, 33]),
            };
        }

        let sets = twists.has(Twist::Assignments) || twists.has(Twist::Picks);
        let needed = sets || property == CHAIN && nodes > 1;
        let transitions = if twists.has(Twist::Transitions) {
            32 + random.below(2)
        } else if twists.has(Twist::Edges) {
            5 + random.below(4)
        } else {
            usize::from(needed) + random.below(4)
        };
        let edges = if twists.has(Twist::Edges) {
            512 + random.below(2)
        } else {
            let most = random.pick(&[0, 3, 12]);
            random.below(most + 1)
        };
        Plan {
            property,
            b,
            truths,
            nodes,
            transitions,
            edges,
        }
    }
}

impl Draft {
    fn random(random: &mut Random) -> Draft {
        let twists = Twists::random(random);
        let plan = Plan::random(random, &twists);
        let ranges = if twists.has(Twist::Ranges) {
            limit_ranges(random)
        } else if twists.has(Twist::Picks) {
            picks::ranges(random)
        } else {
            few_states(random, twists.has(Twist::Variables))
        };

        let special = twists.has(Twist::Intervals);
        let mut grower = Grower {
            tame: !special || random.percent(30),
            limits: if special { 30 } else { 2 },
            divisions: if twists.has(Twist::Divisor) {
                60
            } else {
                DIVISIONS
            },
            ranges: &ranges,
            random,
        };
        // Many expressions are short ones, so that the file doesn't grow large.
        let short = plan.transitions + plan.truths + plan.nodes > 20;
        let mut draft = Draft {
            ranges: ranges.clone(),
            start: grower.any_start(short),
            transitions: (0..plan.transitions)
                .map(|_| grower.transition(short))
                .collect(),
            property: plan.property,
            b: plan.b,
            truths: (0..plan.truths).map(|_| grower.any_truth(short)).collect(),
            nodes: (0..plan.nodes).map(|_| grower.any_truth(short)).collect(),
            edges: Vec::new(),
        };
        if twists.has(Twist::Picks) {
            grower.pick_many(&mut draft);
        }
        if twists.has(Twist::Assignments) {
            grower.set_all(&mut draft);
        }
        if twists.has(Twist::Levels) {
            grower.deepen(&mut draft);
        }
        if twists.has(Twist::Divisor) {
            draft.spoil_divisor(random);
        }

        draft.draw(random, plan.edges);
        if draft.edges.len() > 512 && random.percent(30) {
            // The last edge is one too many, and repeats another.
            draft.edges[512] = draft.edges[random.below(512)];
        }
        if twists.has(Twist::EdgeRules) {
            draft.draw_any(random);
        }
        if twists.has(Twist::NoDouble) {
            draft.lose_double(random);
        }
        if twists.has(Twist::RepeatedEdge) {
            draft.repeat_edge(random);
        }
        if twists.has(Twist::Records) {
            let others = draft.records().len() - draft.start.len();
            let wanted = RECORDS + random.below(2);
            draft.start = truth_of_size(random, wanted.saturating_sub(others));
        }
        draft
    }

    pub fn records(&self) -> Vec<Record> {
        let mut records: Vec<Record> = self
            .ranges
            .iter()
            .map(|&(low, high)| record(0x01, 0, low, high, 0))
            .collect();
        records.push(plain(0x02));
        records.extend(&self.start);
        for transition in &self.transitions {
            records.push(record(0x03, transition.just.into(), 0, 0, 0));
            records.extend(&transition.guard);
            records.extend(transition.sets());
        }
        records.push(record(0x05, self.property, self.b, 0, 0));
        records.extend(self.truths.iter().flatten());
        for node in &self.nodes {
            records.push(plain(0x06));
            records.extend(node);
        }
        for edge in &self.edges {
            let (from, to) = (edge.from as i16, edge.to as i16);
            records.push(record(
                0x07,
                edge.transition as u8,
                from,
                to,
                edge.double.into(),
            ));
        }
        records
    }

    /// Draws about that many edges by the rules: a chain's double edges, then any.
    fn draw(&mut self, random: &mut Random, count: usize) {
        let (transitions, nodes) = (self.transitions.len(), self.nodes.len());
        if transitions == 0 || nodes == 0 {
            return;
        }
        let mut doubles = vec![None; nodes];
        if self.property == CHAIN {
            self.transitions[random.below(transitions)].just = true;
            let just: Vec<usize> = (0..transitions)
                .filter(|&transition| self.transitions[transition].just)
                .collect();
            for (node, double) in doubles.iter_mut().enumerate().skip(1) {
                let transition = random.pick(&just);
                *double = Some(transition);
                self.edges.push(Edge {
                    transition,
                    from: node,
                    to: random.below(node),
                    double: true,
                });
            }
        }
        for _ in 0..4 * count {
            if self.edges.len() >= count {
                break;
            }
            let (from, to) = match self.property {
                INVARIANCE => (random.below(nodes), random.below(nodes)),
                _ if nodes == 1 => break,
                _ => {
                    let from = 1 + random.below(nodes - 1);
                    (from, random.below(from + 1))
                }
            };
            let transition = random.below(transitions);
            let double = doubles[from] == Some(transition);
            let edge = Edge {
                transition,
                from,
                to,
                double,
            };
            let stays = double && to == from;
            if !stays && !self.edges.contains(&edge) {
                self.edges.push(edge);
            }
        }
        random.shuffle(&mut self.edges);
    }

    /// Puts in a few edges that may break a rule.
    fn draw_any(&mut self, random: &mut Random) {
        let (transitions, nodes) = (self.transitions.len(), self.nodes.len());
        if transitions == 0 || nodes == 0 {
            return;
        }
        for _ in 0..1 + random.below(3) {
            let edge = Edge {
                transition: random.below(transitions),
                from: random.below(nodes),
                to: random.below(nodes),
                double: random.percent(50),
            };
            let drawn = self.edges.iter().any(|other| {
                let Edge { double, .. } = edge;
                Edge { double, ..*other } == edge
            });
            if !drawn {
                let at = random.below(self.edges.len() + 1);
                self.edges.insert(at, edge);
            }
        }
        if random.percent(30) {
            let transition = random.below(transitions);
            self.transitions[transition].just ^= true;
        }
    }

    fn repeat_edge(&mut self, random: &mut Random) {
        if self.edges.is_empty() {
            return;
        }
        let mut edge = random.pick(&self.edges);
        edge.double ^= random.percent(50);
        let at = random.below(self.edges.len() + 1);
        self.edges.insert(at, edge);
    }

    /// The expressions.
    fn codes(&mut self) -> Vec<&mut Code> {
        let mut codes: Vec<&mut Code> = vec![&mut self.start];
        codes.extend(&mut self.truths);
        codes.extend(&mut self.nodes);
        for transition in &mut self.transitions {
            codes.extend(transition.assignments.iter_mut().map(|(_, number)| number));
            codes.push(&mut transition.guard);
        }
        codes
    }

    /// Spoils one divisor, the deepest or any.
    fn spoil_divisor(&mut self, random: &mut Random) {
        let mut codes = self.codes();
        let mut found: Vec<(usize, usize, usize)> = Vec::new();
        for (number, code) in codes.iter().enumerate() {
            let levels = levels(code);
            found.extend(divisors(code).iter().map(|&at| (levels[at], number, at)));
        }
        if let Some(&deepest) = found.iter().max() {
            let (_, number, at) = match random.percent(40) {
                true => deepest,
                false => random.pick(&found),
            };
            spoil_divisor(random, codes[number], at);
        }
    }

    /// Takes the double edges of one or two nodes, or makes them single.
    fn lose_double(&mut self, random: &mut Random) {
        for _ in 0..1 + random.below(2) {
            let node = random.below(self.nodes.len());
            if random.percent(50) {
                self.edges.retain(|edge| edge.from != node || !edge.double);
            } else {
                for edge in self.edges.iter_mut().filter(|edge| edge.from == node) {
                    edge.double = false;
                }
            }
        }
    }
}

impl Grower<'_> {
    fn any_start(&mut self, short: bool) -> Code {
        let levels = self.any_levels(short);
        self.start(levels)
    }

    fn any_truth(&mut self, short: bool) -> Code {
        let levels = self.any_levels(short);
        self.truth(levels, false)
    }

    fn any_levels(&mut self, short: bool) -> usize {
        match self.random.below(20) {
            0 if !short => 16,
            1..=3 if !short => 7,
            _ => 1 + self.random.below(if short { 3 } else { 6 }),
        }
    }

    fn transition(&mut self, short: bool) -> Transition {
        let mut variables: Vec<u8> = (0..self.ranges.len() as u8).collect();
        self.random.shuffle(&mut variables);
        variables.truncate(self.random.below(if short { 2 } else { 4 }));
        let just = self.random.percent(60);
        let guard = self.any_truth(short);
        let mut transition = Transition::new(just, guard);
        let picks = self.random.pick(&[0, 0, 20, 60, 100]);
        for variable in variables {
            if self.random.percent(picks) {
                let pick = self.few_values(variable);
                transition.pick(self.random, pick);
            } else {
                let levels = self.any_levels(short);
                let number = self.number(levels, false).0;
                transition.assignments.push((variable, number));
            }
        }
        transition
    }

    /// One transition assigns or picks every variable, and perhaps one again.
    fn set_all(&mut self, draft: &mut Draft) {
        let mut variables: Vec<u8> = (0..self.ranges.len() as u8).collect();
        self.random.shuffle(&mut variables);
        if self.random.percent(60) {
            let again = self.random.pick(&variables);
            let at = self.random.below(variables.len() + 1);
            variables.insert(at, again);
        }
        let at = self.random.below(draft.transitions.len());
        let transition = &mut draft.transitions[at];
        (transition.assignments, transition.picks) = (Vec::new(), Vec::new());
        let picks = self.random.pick(&[0, 30, 60]);
        for variable in variables {
            if self.random.percent(picks) {
                let pick = self.few_values(variable);
                transition.pick(self.random, pick);
            } else {
                let number = self.number(3, false).0;
                transition.assignments.push((variable, number));
            }
        }
    }

    /// One truth gets about 16 levels, and so do some assigned numbers.
    fn deepen(&mut self, draft: &mut Draft) {
        let levels = self.random.pick(&[15, 16, 16, 16, 17, 17, 18, 20]);
        let deep = self.truth(levels, true);
        let mut places: Vec<&mut Code> = vec![&mut draft.start];
        places.extend(&mut draft.truths);
        places.extend(&mut draft.nodes);
        for transition in &mut draft.transitions {
            for (_, number) in &mut transition.assignments {
                if self.random.percent(20) {
                    *number = self.number(levels, true).0;
                }
            }
            places.push(&mut transition.guard);
        }
        let place = self.random.below(places.len());
        *places[place] = deep;
    }
}

/// The level of each record in its expression, 0 for those outside of expressions.
pub fn levels(records: &[Record]) -> Vec<usize> {
    let mut levels: Vec<usize> = Vec::new();
    for (record, owner) in records.iter().zip(owners(records)) {
        levels.push(match owner {
            Some((owner, _)) => levels[owner] + 1,
            None => usize::from(record[0] >= 0x10),
        });
    }
    levels
}

/// Puts something else for a divisor, mostly what can't be one; or changes a field of it.
fn spoil_divisor(random: &mut Random, records: &mut Vec<Record>, at: usize) {
    let mut small = || vec![constant(random.within(-2, 3) as i16)];
    let (left, right) = (small(), small());
    let truth = vec![plain(random.pick(&[0x20, 0x21]))];
    let new: Code = match random.below(16) {
        0 | 1 => vec![constant(0)],
        2 => vec![constant(-1)],
        3 => vec![constant(random.next() as i16 | i16::MIN)],
        // Perhaps one that the file lacks.
        4 | 5 => vec![record(0x11, random.below(4) as u8 / 2, 0, 0, 0)],
        6 => join(random.pick(&[0x12, 0x13, 0x14]), &[&left, &right]),
        7 => join(random.pick(&[0x18, 0x19]), &[&left, &right]),
        8 => join(0x15, &[&truth]),
        // What follows is taken for its operands, or there is nothing.
        9 => vec![plain(random.pick(&[0x12, 0x13, 0x14, 0x15, 0x18, 0x19]))],
        10 => truth,
        11 => join(random.pick(&[0x27, 0x28, 0x29]), &[&left, &right]),
        12 => vec![plain(random.pick(&NO_KINDS))],
        13 => Vec::new(),
        _ => vec![records[at]],
    };
    let fields = new == [records[at]] || random.percent(20);
    records.splice(at..at + 1, new);
    if fields && at < records.len() {
        let byte = 1 + random.below(7);
        records[at][byte] = field_byte(random, records[at][byte]);
    }
}

/// Spoils a divisor of a file if it has one, and may cut the file there or behind it.
fn damage_divisor(random: &mut Random, records: &mut Vec<Record>) {
    let divisors = divisors(records);
    if divisors.is_empty() {
        return;
    }
    let at = random.pick(&divisors);
    spoil_divisor(random, records, at);
    match random.below(10) {
        0 => records.truncate(at),
        1 | 2 => records.truncate(at + 1),
        _ => (),
    }
}

/// A range of that many values, often about 0.
fn range(random: &mut Random, width: i64) -> (i16, i16) {
    let (least, greatest) = (i64::from(i16::MIN), i64::from(i16::MAX) - width + 1);
    let low = match random.below(8) {
        0 => random.within(least, greatest),
        1 => least,
        2 => greatest,
        3..=5 => greatest.min(0),
        _ => greatest.min(random.within(-9, 9)),
    };
    (low as i16, (low + width - 1) as i16)
}

/// Ranges whose product is well below the limit; if many, 12 or 13 of them.
fn few_states(random: &mut Random, many: bool) -> Vec<(i16, i16)> {
    let (count, widest) = if many {
        (12 + random.below(2), 2)
    } else {
        (1 + random.below(4), 9)
    };
    (0..count)
        .map(|_| {
            let width = random.within(1, widest);
            range(random, width)
        })
        .collect()
}

/// Ranges whose product is the limit, one off it, or one value in one range off it; then perhaps
/// more variables.
fn limit_ranges(random: &mut Random) -> Vec<(i16, i16)> {
    let mut widths: Vec<i64> = match random.below(10) {
        0 => vec![17, 61_681], // the limit and 1
        1 => vec![1023, 1025], // the limit less 1
        2 => vec![65_536, 16], // the widest range
        3 => vec![65_536, 65_536, 65_536],
        _ => {
            // Powers of two with the limit as their product.
            let mut left = STATES;
            let mut widths = Vec::new();
            let greatest = random.pick(&[3, 5, 12]);
            while left > 1 && widths.len() < 12 {
                let width = left.min(1 << random.within(1, greatest));
                widths.push(width);
                left /= width;
            }
            widths
        }
    };
    if random.percent(40) {
        let at = random.below(widths.len());
        widths[at] = (widths[at] + random.pick(&[-1, 1])).min(65_536);
    }
    random.shuffle(&mut widths);
    let more = random.below(3).min(12 - widths.len());
    widths.extend((0..more).map(|_| random.within(1, 3)));
    widths
        .into_iter()
        .map(|width| range(random, width))
        .collect()
}

// ------------------------------------------------------------------------------ files

/// Files that random ones are made from.
pub struct Samples {
    pub examples: Vec<Vec<u8>>,
    /// At limits and one past them.
    pub limits: Vec<Vec<u8>>,
}

/// A random file.
pub fn file(random: &mut Random, samples: &Samples) -> Vec<u8> {
    match random.below(100) {
        0 => {
            let count = random.below(100);
            random.bytes(count)
        }
        1 | 2 => random_records(random).concat(),
        3..=5 => {
            let (head, tail) = (whole(random, samples), whole(random, samples));
            splice(random, &head, &tail).concat()
        }
        6..=39 => {
            let mut file = Draft::random(random).records().concat();
            if file.len() == 8 * RECORDS && random.percent(30) {
                // Part of a record too many.
                let count = 1 + random.below(7);
                file.extend(random.bytes(count));
            }
            file
        }
        40..=69 => diagrams::diagram(random).concat(),
        70..=91 => {
            let mut records = whole(random, samples);
            let mut times = random.pick(&[1, 1, 1, 2, 3]);
            if random.percent(10) {
                starts::spoil(random, &mut records);
            }
            if random.percent(20) {
                damage_divisor(random, &mut records);
                times -= 1;
            } else if random.percent(20) {
                picks::damage(random, &mut records);
                times -= 1;
            }
            let mut file = records.concat();
            for _ in 0..times {
                let at = any_record(random, &file);
                damage(random, &mut file, at);
            }
            file
        }
        _ => {
            // Damage at a refusal's place shows which of two refusals at one record comes first.
            let mut file = match random.below(5) {
                0 => samples.limits[random.below(samples.limits.len())].clone(),
                _ => Draft::random(random).records().concat(),
            };
            if let Err(refusal) = independent::read(&file) {
                damage(random, &mut file, refusal.place as usize);
            }
            file
        }
    }
}

/// A number below the limit, beside it or far above it.
pub fn number(random: &mut Random, limit: usize) -> usize {
    match random.below(12) {
        0 => 0,
        1 => limit.saturating_sub(1),
        2 => limit,
        3 => match random.below(3) {
            0 => usize::MAX,
            1 => 1 << (8 << random.below(3)),
            // Its low 32 bits are below the limit.
            _ => (1 << 32) + random.below(limit),
        },
        _ => random.below(limit),
    }
}

/// The bytes of a report buffer and others behind them, and the buffer's length, at most 64.
pub fn buffer(random: &mut Random) -> (Vec<u8>, usize) {
    let length = match random.below(16) {
        0 => random.below(32),
        1 => 31,
        2 => 32,
        _ => 32 + random.below(33),
    };
    let behind = 1 + random.below(32);
    (random.bytes(length + behind), length)
}

/// The records of a draft, a diagram or a sample.
fn whole(random: &mut Random, samples: &Samples) -> Vec<Record> {
    let sample = match random.below(20) {
        0 | 1 => &samples.examples,
        2 => &samples.limits,
        3..=8 => return diagrams::diagram(random),
        _ => return Draft::random(random).records(),
    };
    records(&sample[random.below(sample.len())])
}

/// The head of one file and the tail of another: cut anywhere, or before records of one kind.
fn splice(random: &mut Random, head: &[Record], tail: &[Record]) -> Vec<Record> {
    let mut cut = random.below(head.len() + 1);
    let mut go_on = random.below(tail.len() + 1);
    if random.percent(60) {
        let kind = random.pick(&[0x02, 0x03, 0x05, 0x06, 0x07]);
        let at = |records: &[Record]| records.iter().position(|record| record[0] == kind);
        if let (Some(first), Some(second)) = (at(head), at(tail)) {
            (cut, go_on) = (first, second);
        }
    }
    let mut records = [&head[..cut], &tail[go_on..]].concat();
    records.truncate(RECORDS + 1);
    records
}

/// Variables and a start, then records of any kinds with likely fields.
fn random_records(random: &mut Random) -> Vec<Record> {
    let mut records = Vec::new();
    if random.percent(90) {
        for _ in 0..1 + random.below(3) {
            let width = random.within(1, 5);
            let (low, high) = range(random, width);
            records.push(record(0x01, 0, low, high, 0));
        }
        records.push(plain(0x02));
    }
    for _ in 0..random.below(30) {
        records.push(likely_record(random));
    }
    records
}

/// A record that could stand in some file.
fn likely_record(random: &mut Random) -> Record {
    let kind = random.pick(&KINDS);
    let mut small = || random.below(4);
    match kind {
        0x01 => record(kind, 0, -(small() as i16), small() as i16, 0),
        0x03 | 0x04 | 0x11 => record(kind, small() as u8 / 2, 0, 0, 0),
        0x08 => record(
            kind,
            small() as u8 / 2,
            small() as i16 / 2,
            small() as i16,
            0,
        ),
        0x05 => match small() {
            2 => record(kind, 2, 1 + small() as i16, 0, 0),
            a => record(kind, a as u8, 0, 0, 0),
        },
        0x07 => record(
            kind,
            small() as u8 / 2,
            small() as i16,
            small() as i16,
            small() as u8 / 2,
        ),
        0x10 => constant(random.next() as i16 >> random.below(16)),
        _ => plain(kind),
    }
}

/// The number of a record: any, or, as most belong to expressions, one of kind 01 to 08.
fn any_record(random: &mut Random, file: &[u8]) -> usize {
    let kind = random.pick(&KINDS[..8]);
    let numbers: Vec<usize> = (0..file.len() / 8)
        .filter(|number| file[8 * number] == kind)
        .collect();
    if numbers.is_empty() || random.percent(50) {
        random.below(file.len() / 8)
    } else {
        random.pick(&numbers)
    }
}

/// How many records to take: a few, or the first with the expressions that follow it.
fn any_run(random: &mut Random, file: &[u8]) -> usize {
    let records = file.len() / 8;
    if random.percent(50) {
        return (1 + random.below(3)).min(records);
    }
    (1..records)
        .find(|number| file[8 * number] < 0x10)
        .unwrap_or(records)
}

/// Damages a file, at that record if there is such a one.
fn damage(random: &mut Random, file: &mut Vec<u8>, record: usize) {
    let records = file.len() / 8;
    if record >= records {
        return;
    }
    let at = 8 * record;
    let run = 8 * any_run(random, &file[at..]);
    match random.below(12) {
        0 => {
            let byte = at + random.below(8);
            file[byte] ^= 1 << random.below(8);
        }
        1..=3 => {
            let byte = at + 1 + random.below(7);
            file[byte] = field_byte(random, file[byte]);
        }
        4 | 5 => {
            file[at] = match random.below(8) {
                0 => random.pick(&NO_KINDS),
                1 => file[at].wrapping_add(1),
                2 => file[at].wrapping_sub(1),
                _ => random.pick(&KINDS),
            };
        }
        6 => {
            file.drain(at..at + run);
        }
        7 => {
            let copy = file[at..at + run].to_vec();
            let to = 8 * any_record(random, file);
            file.splice(to..to, copy);
        }
        8 => {
            let other = 8 * random.below(records);
            for byte in 0..8 {
                file.swap(at + byte, other + byte);
            }
        }
        9 => {
            let new = likely_record(random);
            file.splice(at..at, new);
        }
        10 => {
            let more = random.below(8);
            file.truncate(if random.percent(30) { at + more } else { at });
        }
        _ => {
            if random.percent(70) {
                file.extend(likely_record(random));
            } else {
                let count = 1 + random.below(16);
                file.extend(random.bytes(count));
            }
        }
    }
}

/// A byte for a field: beside the old one, at some limit, or any.
fn field_byte(random: &mut Random, old: u8) -> u8 {
    match random.below(4) {
        0 => old.wrapping_add(1),
        1 => old.wrapping_sub(1),
        2 => random.pick(&[0, 1, 2, 3, 4, 5, 11, 12, 13, 31, 32, 33, 127, 128, 255]),
        _ => random.next() as u8,
    }
}
